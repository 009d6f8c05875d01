# What the scripts share that time calls beside ICU: they source this file.
. "$(dirname -- "$0")/../diff/build.sh"

# beside_icu NAME HEAD DEP..: builds NAME/main.rt.txt, over the libraries of decimals and locales and these, and
# NAME/icu.cpp, and prints a table of what they print, and of NAME/node.js if there is node: columns, whose heads are in
# HEAD with bars between them, and the nanoseconds of a call.
beside_icu() {
    local name=$1 head=$2
    shift 2
    build "${name}_times" src/main.rt "$here/$name/" std anyhow decimal_digits decimal_unsigned fixed_decimal \
        decimal_format plural_rules locale_data "$@"
    c++ -O2 -std=c++17 -o "$work/icu" "$here/$name/icu.cpp" $(pkg-config --cflags --libs icu-i18n icu-uc)
    "$work/${name}_times/${name}_times" > "$work/ours.tsv"
    "$work/icu" 9 > "$work/icu.tsv" 2> "$work/icu.txt"
    : > "$work/node.tsv"
    if [ -f "$here/$name/node.js" ] && command -v node > "$work/node.txt"; then
        node "$here/$name/node.js" 9 > "$work/node.tsv"
    fi
    python3 - "$head" "$work/ours.tsv" "$work/icu.tsv" "$work/node.tsv" <<'PYTHON'
import sys
ours, icu, node = ({tuple(row[:-1]): int(row[-1]) for row in (line.rstrip("\n").split("\t") for line in open(path))}
                   for path in sys.argv[2:])
others = {name: times for name, times in (("ICU", icu), ("node", node)) if times}
head = [*sys.argv[1].split(" | "), "here", *(column for name in others for column in (name, "ratio"))]
print(f"| {' | '.join(head)} |\n|{'---|' * len(head)}")
for row, time in ours.items():
    beside = [f"{other[row]} | {time / other[row]:.2f}" if row in other else " | " for other in others.values()]
    print(f"| {' | '.join([*row, str(time), *beside])} |")
PYTHON
}
