# Builds crates of diff/ and bench/ over the libraries of the project.
#
# WORK, a folder outside the project, takes all that is made, and is used again by the next run. JOBS: how many jobs rt
# takes, by default one a processor.

die() { echo "$*" >&2; exit 2; }

unset CDPATH
here=$(cd -- "$(dirname -- "$0")" && pwd)
project=$(dirname "$here")
work=${WORK:-${TMPDIR:-/tmp}/fixed_decimal-beside}
mkdir -p "$work"
work=$(cd "$work" && pwd)
kit=$(dirname "$(rt doc)")
jobs=${JOBS:-$(nproc)}

# build NAME ROOT FILES DEP..: a crate in $work/NAME, a program (ROOT is src/main.rt) or else a static library, of the
# files FILES*.rt or FILES*.rt.txt, over libraries of the kit and of the project. Of the latter those are proved first
# that the gate, or an earlier run, has not built of the same sources.
build() {
    local name=$1 root=$2 files=$3 words=() folder dep libraries=()
    shift 3
    rm -rf "${work:?}/$name"
    mkdir -p "$work/$name/src" "$work/$name/specs"
    touch "$work/$name/specs/Lib.antt"
    for file in "$files"*.rt*; do
        cp "$file" "$work/$name/src/$(basename "$file" .txt)"
    done
    for dep in "$@"; do
        folder=$project/crates/$dep
        if [ ! -d "$folder" ]; then
            words+=(--extern "$dep=$kit/rlibs/$dep.rlib")
            continue
        fi
        libraries+=("$dep")
        words+=(--extern "$dep=$folder/out/rlib/$dep.rlib")
    done
    JOBS=$jobs python3 "$project/tools/built.py" libraries "${libraries[@]}" || die "$name was not built"
    echo "proves and builds $name" >&2
    for folder in "$kit/rlibs" "$project"/crates/*/out/rlib; do
        words+=(-L "dependency=$folder")
    done
    words+=(--antt-project "$kit/rattle/logic/antt-project.json" --logic-built "$kit/logic_built")
    words+=(--toolchain "$kit/toolchain" --jobs "$jobs")
    (cd "$work/$name" && link "$name" "$root" "${words[@]}") >"$work/$name.txt" 2>&1 ||
        { tail -n 30 "$work/$name.txt" >&2; die "$name was not built"; }
}

# link NAME ROOT WORD..: checks and compiles the crate of the current folder.
link() {
    local name=$1 root=$2
    shift 2
    if [ "$root" != src/main.rt ]; then
        "$kit/bin/rattle" build --crate-name "$name" "$root" --crate-type staticlib "$@" -o "lib$name.a"
        return
    fi
    "$kit/bin/rattle" build --crate-name "$name" "$root" "$@" -o "$name.o" &&
        "$kit/bin/rattle-link" --target x86_64-unknown-linux-gnu --toolchain "$kit/toolchain" -o "$name" "$name.o" \
            "$kit/c/libos_c.a" "$kit/c/liblibc_c.a"
}
