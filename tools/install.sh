#!/usr/bin/env bash
# Proves and builds the three programs, and copies them to PREFIX, with their manual pages and completions:
#
#     bash tools/install.sh [PREFIX]
#     bash tools/install.sh --uninstall [PREFIX]
#
# PREFIX is ~/.local by default; a relative one is in the current folder. With DESTDIR set the files go to
# DESTDIR/PREFIX. It needs the Rattle kit, whose command is `rt`. The programs need Linux on x86-64 with glibc 2.34
# or later, since the linker of the kit has no option for an older one. What the gate has built of the same sources is
# not proved again, and with BUILT_BY_GATE=1 nothing is.
#
# `--uninstall` removes what this script and `c/build.sh install` have copied to PREFIX, by the manifest there, and
# needs no kit. A file that has changed since stays, and is reported.
set -eu
verb=install
[ "${1:-}" != --uninstall ] || { verb=uninstall; shift; }
[[ $# -le 1 && "${1:-}" != -* ]] || { echo "usage: install.sh [--uninstall] [PREFIX]" >&2; exit 2; }
to=${DESTDIR:+$(realpath -ms -- "$DESTDIR")}$(realpath -ms "${1:-$HOME/.local}")
unset CDPATH
cd -- "$(dirname -- "$0")/.."
if [ $verb = uninstall ]; then
  python3 tools/installed.py uninstall "$to"
  echo "removed what was installed in $to"
  exit
fi
programs="fixdec fixdec_lines plural"
python3 tools/built.py programs $programs
stage=
trap 'rm -rf "$stage"' EXIT
# Without this, bash goes on after an interrupt if the command at that time succeeds.
trap 'exit 130' INT
stage=$(mktemp -d)
for program in $programs; do
  install -D -m 755 "crates/$program/out/$program" "$stage/bin/$program"
done
python3 tools/make_manuals.py "$stage/share/man"
python3 tools/make_completions.py "$stage/bin" "$stage/share"
python3 tools/installed.py install "$stage" "$to"
echo "installed $programs in $to/bin"
