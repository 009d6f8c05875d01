#!/usr/bin/env python3
"""Writes the completions for bash, zsh and fish: `python3 tools/make_completions.py BIN SHARE`.

The words are those of `--help` of the built programs in the folder BIN, and the stems of skeletons are the words in
crates/number_skeleton/src/words.rt that `fixdec` accepts. Locales are those of `fixdec_lines --locales`, which the
completions run. The files go where each shell looks for them below SHARE.
"""
import os
import re
import subprocess
import sys

ROOT = os.path.dirname(os.path.dirname(os.path.abspath(__file__)))
# An option of each stem that needs one, and what precedes a stem that is none by itself.
SAMPLES = ["EUR", "0.05", "100", "*00", "latn", "meter", "length-meter"]
BEFORE = ["", "percent "]
AFTER_SPACE = "the stems, after the last space"
# What completes a word, by patterns of PROGRAM/WORDS BEFORE IT/WORD, of which the first counts: names of lists, and
# words. They follow the last colon of the word.
PARTS = [("plural/1/*:*", ["cardinal", "ordinal"]), ("plural/1/*", ["LOCALE", "--help", "--version"]), ("plural/*", []),
         ("fixdec/1/*", ["--help"]), ("*/*/*:* *", [AFTER_SPACE]),
         ("*/*/round:*:*:*", ["INC"]), ("*/*/round:*:*", ["MODE"]), ("*/*/sign:*", ["SIGN"]),
         ("*/*/display:*", ["DISPLAY"]), ("*/*/read:*:lenient:*", ["STEM"]), ("*/*/read:*:*", ["lenient:", "STEM"]),
         ("*/*/read:*", ["LOCALE"]), ("*/*/format:*:*", ["GROUPING", "STEM"]), ("*/*/format:*", ["LOCALE"]),
         ("*/*/*:*", []), ("fixdec/2/*", ["to:", "CALL"]), ("fixdec/*", ["CALL"]),
         ("fixdec_lines/1/*", ["OPTION", "CALL", "--help", "--version", "--locales"]),
         ("fixdec_lines/*", ["OPTION", "CALL"])]


def output(*words):
    return subprocess.run(words, capture_output=True, text=True, check=True).stdout


def choices(text):
    """The words of a list such as `none, minus or plus`."""
    return re.split(r", | or ", text)


def stems(fixdec):
    """The stems that the program accepts: with a slash at the end, if they need an option."""
    def accepts(stem):
        return subprocess.run([fixdec, "5", f"format:en:{stem}"], capture_output=True).returncode == 0

    with open(f"{ROOT}/crates/number_skeleton/src/words.rt", encoding="utf-8") as file:
        words = re.findall(r'^    b"(\S+) *" Choice|^    b"(\S+) *"$', file.read(), re.M)
    found = []
    for word in (one or other for one, other in words):
        if accepts(word):
            found.append(word)
        elif any(accepts(f"{before}{word}/{sample}") for before in BEFORE for sample in SAMPLES):
            found.append(f"{word}/")
    return found


def names(text):
    """The words that a text of `--help` has in its table, each with its colon if it takes something."""
    table = text.partition("P is a position")[0]
    rows = re.findall(r"^([a-z][a-z-]*)(:\S+?)?(?:, \S+)?  +\S", table, re.M)
    return [name + ":" * bool(parameter) for name, parameter in rows]


def lists_of(folder):
    """The words of each kind, by its name in `--help`."""
    calls, lines = output(f"{folder}/fixdec", "--help"), output(f"{folder}/fixdec_lines", "--help")
    found = {name: choices(re.search(rf"^{name}: (.*)", calls, re.M)[1]) for name in ["MODE", "INC", "GROUPING"]}
    found |= {name: choices(re.search(rf"^\w+:{name} .*: (.*)", calls, re.M)[1]) for name in ["SIGN", "DISPLAY"]}
    found["MODE"] = [f"{mode}:" for mode in found["MODE"]]
    found["CALL"] = [*names(calls), "read:", "format:"]
    found["OPTION"] = [name for name in names(lines) if name not in found["CALL"]]
    found["STEM"] = stems(f"{folder}/fixdec")
    return found


BASH = r"""# Completions of fixdec, fixdec_lines and plural for bash. tools/make_completions.py writes them.

# The word at the cursor without its quote, in $word; the quote, in $quote; and the number of words before it.
_fixed_decimal_word() {
  local text=${COMP_LINE:0:COMP_POINT} at char
  word='' quote='' before=0
  for ((at = 0; at < ${#text}; at++)); do
    char=${text:at:1}
    if [[ $quote ]]; then
      [[ $char == "$quote" ]] && quote='' || word+=$char
      continue
    fi
    case $char in
      [\'\"]) quote=$char ;;
      \\) at=$((at + 1)) word+=${text:at:1} ;;
      [[:blank:]]) [[ ! $word ]] || before=$((before + 1)) word='' ;;
      *) word+=$char ;;
    esac
  done
}

_fixed_decimal() {
@LISTS@
  local LOCALE list=() word quote before head kept item
  _fixed_decimal_word
  head=${word%"${word##*:}"}
  mapfile -t LOCALE < <(fixdec_lines --locales 2> /dev/null)
  case ${1##*/}/$before/$word in
@PARTS@
  esac
  # Outside of quotes bash replaces what follows the last colon, and words that a shell reads otherwise are left out.
  kept=$head
  [[ $quote || $COMP_WORDBREAKS != *:* ]] || kept=''
  COMPREPLY=()
  for item in "${list[@]}"; do
    [[ ${head,,}${item,,} == "${word,,}"* ]] && [[ $quote || $item != *[!A-Za-z0-9%/.,:_-]* ]] && COMPREPLY+=("$kept$item")
  done
  [[ ${#COMPREPLY[@]} != 1 || ${COMPREPLY[0]} != *[:/] ]] || compopt -o nospace 2> /dev/null
}
complete -F _fixed_decimal fixdec fixdec_lines plural
"""

ZSH = r"""#compdef fixdec fixdec_lines plural
# Completions of fixdec, fixdec_lines and plural for zsh. tools/make_completions.py writes them.

_fixed_decimal() {
@LISTS@
  local word=${(Q)PREFIX} item
  local head=${word%"${word##*:}"}
  local -a list whole open LOCALE=(${(f)"$(fixdec_lines --locales 2> /dev/null)"})
  case $service/$((CURRENT - 1))/$word in
@PARTS@
  esac
  for item in $list; do
    [[ $item == *[:/] ]] && open+=("$head$item") || whole+=("$head$item")
  done
  compadd -M 'm:{a-zA-Z}={A-Za-z}' -S '' -a open
  compadd -M 'm:{a-zA-Z}={A-Za-z}' -a whole
}
_fixed_decimal "$@"
"""

FISH = r"""# Completions of fixdec, fixdec_lines and plural for fish. tools/make_completions.py writes them.

function __fixed_decimal --argument-names program
@LISTS@
    set -l LOCALE (fixdec_lines --locales 2> /dev/null)
    set -l word (commandline -ct | string replace -r '^[\'"]' '')
    set -l head (string replace -r '[^:]*$' '' -- $word)
    set -l list
    switch $program/(count (commandline -opc))/$word
@PARTS@
    end
    for item in $list
        echo -- $head$item
    end
end
for program in fixdec fixdec_lines plural
    complete -c $program -f -a "(__fixed_decimal $program)"
end
"""

# For each shell its file, its template, how it defines a list, and how it takes some lists for a pattern: of words that
# are names of lists, and of others; and how it takes the stems after the last space of a word in quotes.
SHELLS = {
    "bash-completion/completions/fixdec": (
        BASH, "  local {0}=({1})", "    {0}) list=({1}) ;;", '"${{{0}[@]}}"',
        "head=${word%\"${word##* }\"} list=(\"${STEM[@]}\")"),
    "zsh/site-functions/_fixdec": (
        ZSH, "  local -a {0}=({1})", "    {0}) list=({1}) ;;", "${0}", "head=${word%\"${word##* }\"} list=($STEM)"),
    "fish/vendor_completions.d/fixdec.fish": (
        FISH, "    set -l {0} {1}", "        case '{0}'\n            set list {1}", "${0}",
        "set head (string replace -r '[^ ]*$' '' -- $word)\n            set list $STEM"),
}


def completions(lists, template, definition, part, reference, after_space):
    """The text of the completions of a shell."""
    defined = [definition.format(name, " ".join(f"'{word}'" for word in words)) for name, words in lists.items()]
    made = []
    for pattern, kinds in PARTS:
        words = [reference.format(kind) if kind in lists or kind == "LOCALE" else f"'{kind}'" for kind in kinds]
        line = part.format(pattern if "'{0}'" in part else pattern.replace(" ", "\\ "), " ".join(words))
        if kinds == [AFTER_SPACE]:
            line = re.sub(r"list=\(.*?\)|set list .*", lambda _: after_space, line)
        made.append(line)
    return template.replace("@LISTS@", "\n".join(defined)).replace("@PARTS@", "\n".join(made))


def main(folder, share):
    lists = lists_of(folder)
    for path, shell in SHELLS.items():
        os.makedirs(os.path.dirname(f"{share}/{path}"), exist_ok=True)
        with open(f"{share}/{path}", "w", encoding="utf-8") as file:
            file.write(completions(lists, *shell))
    # bash looks for the completions of a command in the file of its name.
    for name in ["fixdec_lines", "plural"]:
        os.symlink("fixdec", f"{share}/bash-completion/completions/{name}")


if __name__ == "__main__":
    if len(sys.argv) != 3:
        sys.exit(__doc__)
    main(*sys.argv[1:])
