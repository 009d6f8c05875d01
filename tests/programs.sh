# What the scripts share that run built programs: they source this file at the top of the repository.
#
# `copy_programs NAME..` copies programs to the folder $room; tools/built.py proves and builds them first, but where the
# gate just did. `judge $? NAME` counts the status of the last command, `try NAME COMMAND..` that of a command, and
# `fails LINE COMMAND..` that it fails. `block PAGE NAME` prints a block of a page, and `writes PAGE NAME COMMAND..`
# counts whether a command writes one. `missing NAME` says what is not run, and fails under ALL=1, and `finish` prints
# the last line.
room=$(mktemp -d) || exit 1
# `timeout` repeats a signal that ends a script, and would end `rm` too.
trap 'trap "" TERM; rm -rf "$room"' EXIT
passed=0
failed=0

copy_programs() {
  if ! python3 tools/built.py programs "$@"; then
    echo "0 passed, 1 failed"
    exit 1
  fi
  for name in "$@"; do
    cp "crates/$name/out/$name" "$room/" && chmod +x "$room/$name" || exit 1
  done
}

# copy_repository FOLDER [rlib]: makes a copy of the files as they are, with what is built of them. The libraries are
# copied too if that is wanted, as second names: `rt` does not write into them.
copy_repository() {
  local out part
  mkdir "$1"
  git ls-files -z | tar cf - --null --ignore-failed-read -T - 2> "$room/log" | tar xf - -C "$1"
  for out in crates/*/out; do
    # Without any, as in a new clone, it is the pattern.
    [ -d "$out" ] || continue
    mkdir -p "$1/$out"
    [ "${2:-}" = '' ] || [ ! -d "$out/rlib" ] ||
      cp -rl "$out/rlib" "$1/$out/" 2> "$room/log" || cp -r "$out/rlib" "$1/$out/"
    for part in built.json libfixed_decimal_ffi.a "$(basename "$(dirname "$out")")"; do
      [ ! -e "$out/$part" ] || cp "$out/$part" "$1/$out/"
    done
  done
}

judge() {
  if [ "$1" = 0 ]; then
    passed=$((passed + 1))
  else
    failed=$((failed + 1))
    echo "failed: $2"
  fi
}

# listed WORD..: the words with commas between them, in $list.
listed() {
  printf -v list ', %s' "$@"
  list=${list:2}
}

# try NAME COMMAND..: the command succeeds; its output is in $room/out.
try() {
  "${@:2}" > "$room/out" 2> "$room/log"
  judge $? "$1: $(tail -n 1 "$room/log")"
}

# fails LINE COMMAND..: the command fails, and the last line on its standard error is this one.
fails() {
  "${@:2}" > "$room/out" 2> "$room/log"
  [ $? != 0 ] && [[ $(tail -n 1 "$room/log") == $1 ]]
  judge $? "${*:2}: $(tail -n 1 "$room/log")"
}

# block PAGE NAME: the block of a page after the line that has this name as code and ends in a colon.
block() {
  awk -v name="\`$2\`" 'shown && /^```/ { exit } shown { print; next } here && /^```/ { shown = 1 }
    { here = (here && $0 == "") || (index($0, name) && /:$/) }' "$1"
}

# writes PAGE NAME COMMAND..: the command succeeds, and writes the block of the page with this name.
writes() {
  local status
  block "$1" "$2" > "$room/wanted"
  "${@:3}" > "$room/found" 2>&1
  status=$?
  [ $status = 0 ] && [ -s "$room/wanted" ] && cmp -s "$room/found" "$room/wanted"
  judge $? "$1, $2: status $status, $(tr '\n' ' ' < "$room/found")"
}

# missing NAME: what is not there is not run.
missing() {
  echo "not run: $1"
  [ -z "${ALL:-}" ]
  judge $? "$1"
}

finish() {
  echo "$passed passed, $failed failed"
  [ "$failed" -eq 0 ]
}
