#!/usr/bin/env bash
# Tries the manual pages and the completions that tools/install.sh installs: that `man` and `lexgrog` read the pages
# without a warning, that these have all words of `--help` and of the header, and what each shell makes of a line with a
# tab. Without man-db, zsh or fish there is a line `not run: ..`, and a failure under ALL=1. The last line is
# `N passed, M failed`; the status is 0 if M is 0.
set -u
unset CDPATH
cd -- "$(dirname -- "$0")/.." || exit 1
. tests/programs.sh
copy_programs fixdec fixdec_lines plural
export LC_ALL=C.UTF-8

# ---- Manual pages
python3 tools/make_manuals.py "$room/man" > "$room/log" 2>&1
judge $? "make_manuals.py: $(tail -n 1 "$room/log")"

# words PROGRAM: the words of its `--help` that begin a line of a table, and the values of their parameters.
words() {
  "$room/$1" --help | sed -n -e 's/^\([a-z][a-z-]*\)\(:[A-Z:]*\)\?\(, .*\)\?  .*/\1/p' \
    -e 's/^[A-Z]*: \([a-z-]*\(, [a-z0-9-]*\)*\)$/\1/p' | tr -s ', ' '\n'
}

# has PAGE WORD..: the text of a page has each word.
has() {
  local word lacking=()
  for word in "${@:2}"; do
    grep -qF -- "$word" "$room/$1.text" || lacking+=("$word")
  done
  [ ${#lacking[@]} = 0 ] && [ $# -gt 10 ]
  judge $? "$1: $# words, lacks ${lacking[*]:-}"
}

if command -v man > /dev/null && command -v lexgrog > /dev/null; then
  for page in man1/fixdec.1 man1/fixdec_lines.1 man1/plural.1 man3/fixed_decimal.3; do
    name=$(basename "${page%.?}")
    MANWIDTH=80 man --warnings -E UTF-8 -l "$room/man/$page" > "$room/$name.text" 2> "$room/log" && [ ! -s "$room/log" ]
    judge $? "man --warnings $page: $(head -n 1 "$room/log")"
    lexgrog "$room/man/$page" > "$room/log" && grep -q ": \"$name - [a-z].*\"$" "$room/log"
    judge $? "lexgrog $page: $(head -n 1 "$room/log")"
    # A page is the same whatever width it has, so that only the words of lines count.
    MANWIDTH=1000 man -E UTF-8 -l "$room/man/$page" > "$room/$name.text" 2> "$room/log"
    grep -q '^EXAMPLES' "$room/$name.text" && grep -q '^SEE ALSO' "$room/$name.text"
    judge $? "$page has its sections"
  done
  for program in fixdec fixdec_lines plural; do
    has $program $(words $program) 'Status 0' 'Status 1' 'Status 2' 'Status 3' "\$ $program "
  done
  has fixed_decimal $(grep -o '\bfd_[a-z0-9_]*(' c/fixed_decimal.h) \
    $(grep -o '^    FD_[A-Z_]* = ' c/fixed_decimal.h | tr -d ' =')
  for name in $(sed -n 's/^[a-z_0-9]* \(fd_[a-z0-9_]*\)(.*/\1/p' c/fixed_decimal.h); do
    man -M "$room/man" 3 $name 2> "$room/log" | grep -q "^ *$name$\|^ *$name, \|, $name$"
    judge $? "man 3 $name: $(head -n 1 "$room/log")"
  done
else
  missing 'man-db'
fi

# ---- Completions
python3 tools/make_completions.py "$room" "$room/share" > "$room/log" 2>&1
judge $? "make_completions.py: $(tail -n 1 "$room/log")"
. "$room/share/bash-completion/completions/fixdec"
PATH=$room:$PATH

# offers LINE WORD..: bash offers these words for the end of a line.
offers() {
  COMPREPLY=()
  COMP_LINE=$1 COMP_POINT=${#1}
  _fixed_decimal "${1%% *}"
  [ "$(printf '%s\n' "${COMPREPLY[@]}" | sort)" = "$(printf '%s\n' "${@:2}" | sort)" ]
  judge $? "bash offers for '$1': ${COMPREPLY[*]}"
}

mapfile -t calls < <(sed -n '/^| Call |/,/^$/s/^| `\([a-z-]*:\?\).*` | .* |$/\1/p' docs/PROGRAMS.md)
mapfile -t options < <(sed -n '/^| OPTION/,/^$/s/^| `\([a-z-]*:\?\).*` | .* |$/\1/p' docs/PROGRAMS.md | uniq)
mapfile -t modes < <(sed -n '/^| MODE |/,/^$/s/^| `\([a-z-]*\)` | .* |$/\1:/p' docs/PROGRAMS.md)
mapfile -t locales < <("$room/fixdec_lines" --locales)
[ ${#calls[@]} -ge 11 ] && [ ${#options[@]} -ge 8 ] && [ ${#modes[@]} -ge 9 ] && [ ${#locales[@]} -gt 300 ]
judge $? "docs/PROGRAMS.md has calls, options and modes: ${#calls[@]}, ${#options[@]}, ${#modes[@]}, ${#locales[@]}"
offers 'fixdec ' --help
offers 'fixdec 5 ' "${calls[@]}" to: read: format:
offers 'fixdec 5 to:6 ' "${calls[@]}" read: format:
offers 'fixdec 5 to:'
offers 'fixdec_lines csv ' "${options[@]}" "${calls[@]}" read: format:
offers 'fixdec_lines --' --help --version --locales
offers 'fixdec 5 trim-end ro' round:
offers './fixdec 5 round:-2:' "${modes[@]}"
offers 'fixdec 5 round:-2:half-even:' 1 2 5 25
offers 'fixdec 5 sign:' none minus plus
offers 'fixdec 5 display:n' never negative
offers 'fixdec 5 shift:'
offers 'fixdec 5 read:' "${locales[@]}"
offers 'fixdec 5 format:de-C' de-ch
offers 'fixdec 5 format:de:mi' min2
offers 'fixdec 5 format:de:pr' precision-integer precision-unlimited \
  precision-currency-standard precision-currency-cash precision-increment/
offers "fixdec 5 'format:de:currency/EUR sign-a" 'format:de:currency/EUR sign-'{auto,always,accounting} \
  'format:de:currency/EUR sign-accounting-'{always,except-zero,negative}
offers 'fixdec 5 "read:de:lenient:perc' 'read:de:lenient:percent'
offers "fixdec 5 'format:de:(" 'format:de:()'{,!,\?,-}
offers 'fixdec 5 format:de:('
offers 'plural ' "${locales[@]}" --help --version
offers 'plural en:' cardinal ordinal
offers 'plural en 1'
# A word that is offered is one that the program takes.
for stem in notation-simple compact-short K engineering percent %x100 permille precision-integer rounding-mode-half-up \
  group-min2 latin unit-width-iso-code sign-accounting-except-zero \
  currency/ scale/ numbering-system/ unit/ per-measure-unit/; do
  COMP_LINE="fixdec 5 'format:de:$stem" COMP_POINT=${#COMP_LINE}
  _fixed_decimal fixdec
  [[ " ${COMPREPLY[*]} " == *" format:de:$stem "* ]]
  judge $? "bash offers the stem $stem: ${COMPREPLY[*]}"
done

# completes SHELL SETUP: what the shell makes of some lines when a tab is typed.
completes() {
  local line shell=$1 setup=$2
  shift 2
  while IFS='|' read -r line wanted; do
    found=$(python3 tests/complete.py "$setup" "$line" "$@" 2>&1)
    [ "$found" = "$wanted" ]
    judge $? "$shell completes '$line': $found"
  done << 'END'
fixdec 5 rou|<fixdec><5><round:>
fixdec 5 round:-2:half-ev|<fixdec><5><round:-2:half-even:>
fixdec_lines hea|<fixdec_lines><header>
fixdec_lines field:1 read:de-C|<fixdec_lines><field:1><read:de-ch>
fixdec 5 'format:de:currency/EUR precision-integ|<fixdec><5><format:de:currency/EUR precision-integer>
plural en:ord|<plural><en:ordinal>
END
}

completes bash ". '$room/share/bash-completion/completions/fixdec'" bash --norc --noprofile -i
if command -v zsh > /dev/null; then
  completes zsh "fpath=('$room/share/zsh/site-functions' \$fpath); autoload -Uz compinit; compinit -D -u; bindkey -e; \
    PS1='ready> '" zsh -f -i
else
  missing zsh
fi
if command -v fish > /dev/null; then
  found=$(fish --no-config -c "source '$room/share/fish/vendor_completions.d/fixdec.fish'
    for line in 'fixdec 5 rou' 'fixdec 5 round:-2:half-ev' 'fixdec_lines hea' 'fixdec_lines field:1 read:de-C' \\
      'fixdec 5 \\'format:de:currency/EUR precision-integ' 'plural en:ord'
      complete -C \$line
    end" 2> "$room/log" | tr '\n' '|')
  [ "$found" = 'round:|round:-2:half-even:|header|read:de-ch|format:de:currency/EUR precision-integer|en:ordinal|' ]
  judge $? "fish completes: $found $(tail -n 1 "$room/log")"
else
  missing fish
fi
finish
