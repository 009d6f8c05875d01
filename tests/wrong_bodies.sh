#!/usr/bin/env bash
# Tries each wrong body of the named crates, or of all, in a copy of the repository: those of wrong_bodies/CRATE, which
# the gate does not read, and those of crates/CRATE/must-fail. The prover has to reject each at the clause that its
# comment `# rejected:` names.
#
# Run it before a contract of a crate changes, and after. Needs bash and python3. A wrong body takes ten processor
# seconds, and each crate its own proof first, where `rt check` has not kept it. Libraries that the gate has built of
# the same sources are taken, and the others proved first. The last line is `N passed, M failed`; the status is 0 if M
# is 0.
set -u
unset CDPATH
cd -- "$(dirname -- "$0")/.." || exit 1
scratch=$(mktemp -d) || exit 1
trap 'trap "" TERM; rm -rf "$scratch"' EXIT
[ $# -gt 0 ] || set -- $(ls wrong_bodies)
if ! python3 tools/built.py copy "$scratch" "$@"; then
  echo "0 passed, 1 failed"
  exit 1
fi
cp -r wrong_bodies "$scratch/"
program=$PWD/tools/wrong_bodies.py
cd "$scratch" && python3 "$program" "$@"
