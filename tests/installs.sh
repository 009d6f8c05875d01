#!/usr/bin/env bash
# Tries what is installed and packed, in a copy of the repository: PREFIX and DESTDIR; the commands of docs/C.md;
# uninstalling; and that no old program or library is taken for a new one, where a source changes or does not compile.
# With BUILT_BY_GATE set only the exports of the C library are proved, and one program over libraries of the gate. Needs
# git and gcc; without pkg-config the commands are a line `not run: ..`, and a failure under ALL=1. The last line is
# `N passed, M failed`; the status is 0 if M is 0.
set -u
unset CDPATH
cd -- "$(dirname -- "$0")/.." || exit 1
. tests/programs.sh
copy_programs fixdec fixdec_lines plural
python3 tools/built.py archive || { echo "0 passed, 1 failed"; exit 1; }
copy=$room/copy
copy_repository "$copy" rlib
mkdir "$room/here" && cd "$room/here" || exit 1

# ---- Folders
export BUILT_BY_GATE=1
try 'install.sh with a relative PREFIX' bash "$copy/tools/install.sh" prefix
[ "$(prefix/bin/fixdec 250 shift:-2)" = 2.50 ]
judge $? 'the installed program runs'
readelf -d prefix/bin/* | sed -n 's/.*NEEDED.*\[\(.*\)\]/\1/p' | sort -u > needed
newest=$(objdump -T prefix/bin/* | grep -o 'GLIBC_[0-9.]*' | sort -uV | tail -n 1)
[ "$(cat needed)" = libc.so.6 ] && [ "$newest" = GLIBC_2.34 ]
judge $? "the programs need glibc 2.34 alone: $newest $(tr '\n' ' ' < needed)"
DESTDIR=stage try 'install.sh with DESTDIR and a blank' bash "$copy/tools/install.sh" '/opt/a b'
[ "$('stage/opt/a b/bin/plural' en 1)" = one ]
judge $? 'the program below DESTDIR runs'

for script in install.sh release.sh; do
  for word in --help -x; do
    fails "usage: $script*" bash "$copy/tools/$script" "$word"
  done
done

PREFIX='ä b' try 'c/build.sh with a relative PREFIX with a blank and an umlaut' bash "$copy/c/build.sh" install
version=$(sed -n 's/^#define FD_VERSION //p' "$copy/c/fixed_decimal.h")
readelf -d 'ä b/lib/libfixed_decimal.so' | grep -q "SONAME.*\[libfixed_decimal\.so\.$version\]"
judge $? "the soname has the version of the interface, $version"
DESTDIR=stage PREFIX=/usr try 'c/build.sh with DESTDIR' bash "$copy/c/build.sh" install
[ -f stage/usr/lib/libfixed_decimal.a ] && [ -f stage/usr/include/fixed_decimal.h ] &&
  grep -qx 'Libs: -L/usr/lib -lfixed_decimal' stage/usr/lib/pkgconfig/fixed_decimal.pc
judge $? 'the files below DESTDIR'
[ -z "$(find "$copy" -name prefix -o -name stage -o -name 'ä b')" ]
judge $? 'nothing is installed below the repository'

if command -v pkg-config > /dev/null; then
  # The words of pkg-config are quoted for a shell.
  words=$(PKG_CONFIG_PATH='ä b/lib/pkgconfig' pkg-config --cflags --libs fixed_decimal)
  try 'the example by the installed library' eval "gcc '$copy/c/example.c' $words -o example"
  [ "$(LD_LIBRARY_PATH="$PWD/ä b/lib" ./example)" = 1.234,56 ]
  judge $? 'the example writes 1.234,56'

  # The first commands of docs/C.md, with another PREFIX: the program starts.
  awk '/^```/ { if (shown) exit; shown = 1; next } shown' "$copy/docs/C.md" | sed -n 's/^\$ //p' |
    sed "s|PREFIX=/usr/local|PREFIX='$room/usr'|" > commands
  grep -q pkg-config commands
  judge $? 'docs/C.md has a command with pkg-config'
  (cd "$copy" && bash -e "$room/here/commands" && { [ ! -x a.out ] || ./a.out; }) > "$room/out" 2> "$room/log" &&
    [ "$(tail -n 1 "$room/out")" = 1.234,56 ]
  judge $? "the commands of docs/C.md: $(tail -n 1 "$room/log")"
else
  missing pkg-config
fi

# ---- Uninstalling
# tree FOLDER: each file and folder below it, with its sum or its target.
tree() {
  (cd "$1" && find . -type f -exec sha256sum {} + && find . -type l -printf '%p -> %l\n' && find . -type d) | sort
}
uninstall() { bash "$copy/tools/install.sh" --uninstall "$@"; }
# is_as_before NAME: PREFIX has what it had before, and nothing else.
is_as_before() {
  tree 'č d' > after
  cmp -s before after
  judge $? "$1: $(diff before after | head -n 3 | tr '\n' ' ')"
}
mkdir -p 'č d/bin' 'č d/lib'
echo mine > 'č d/bin/mine' && ln -s mine 'č d/bin/link'
tree 'č d' > before
(umask 077 && bash "$copy/tools/install.sh" 'č d') > "$room/log" 2>&1
PREFIX='č d' try 'c/build.sh to the same PREFIX' bash "$copy/c/build.sh" install
(cd 'č d' && sha256sum --check --quiet share/fixed_decimal/manifest) > "$room/log" 2>&1 &&
  [ -z "$(find 'č d/bin' 'č d/share' 'č d/include' -not -type l -not -perm -444)" ] &&
  [ -f 'č d/share/man/man3/fd_run.3' ] && [ -f 'č d/share/fish/vendor_completions.d/fixdec.fish' ]
judge $? "the manifest, and all read the files under a umask: $(head -n 1 "$room/log")"
PATH=/usr/bin:/bin try 'install.sh --uninstall without the kit' uninstall 'č d'
is_as_before 'what was installed is removed, and nothing else'
fails "$PWD/č d/share/fixed_decimal/manifest is missing: nothing is removed" uninstall 'č d'

# What has changed since stays, with its folder and the manifest, until it is as it was installed.
bash "$copy/tools/install.sh" 'č d' > "$room/log" 2>&1
cp 'č d/bin/fixdec' fixdec && echo >> 'č d/bin/fixdec' &&
  ln -sf "$PWD/fixdec" 'č d/bin/plural' && echo > 'č d/share/man/mine'
fails "$PWD/č d/bin/plural is not what was installed: it stays" uninstall 'č d'
[ "$(grep -c 'it stays' "$room/log")" = 2 ] && cmp -s fixdec "$copy/crates/fixdec/out/fixdec"
judge $? "what is linked stays as it was: $(cat "$room/log")"
[ "$(find 'č d' -type f -o -type l | sort | tr '\n' '|')" = \
  'č d/bin/fixdec|č d/bin/link|č d/bin/mine|č d/bin/plural|č d/share/fixed_decimal/manifest|č d/share/man/mine|' ]
judge $? "all else is removed: $(find 'č d' -type f -o -type l | tr '\n' '|')"
rm 'č d/bin/plural' && cp fixdec 'č d/bin/fixdec'
try 'install.sh --uninstall of the rest' uninstall 'č d'
rm 'č d/share/man/mine' && rmdir 'č d/share/man' 'č d/share'
is_as_before 'the rest is removed'

# A copy that a full disk ends is removed too, and the manifest of another version counts.
mkdir -p staged/bin && echo small > staged/bin/fixdec && head -c 200000 /dev/zero > staged/bin/plural
(ulimit -f 64; python3 "$copy/tools/installed.py" install staged 'č d') > "$room/out" 2> "$room/log"
[ $? = 1 ] && grep -q 'File too large$' "$room/log" && [ -f 'č d/bin/fixdec' ] && [ ! -e 'č d/bin/plural' ]
judge $? "a copy that a limit ends: $(tail -n 1 "$room/log")"
try 'install.sh --uninstall after it' uninstall 'č d'
is_as_before 'what was copied in part is removed'
# Several at once: what one of them installs, that one or another removes.
for number in 1 2 3 4; do
  for _ in {1..10}; do
    python3 "$copy/tools/installed.py" install staged 'č d' && python3 "$copy/tools/installed.py" uninstall 'č d'
  done > "log.$number" 2>&1 &
  others[number]=$!
done
wait "${others[@]}"
! grep -vh 'manifest is missing: nothing is removed$' log.[1-4] > "$room/log"
judge $? "installs at once: $(head -n 1 "$room/log")"
is_as_before 'what was installed at once is removed'
bash "$copy/tools/install.sh" 'č d' > "$room/log" 2>&1
echo old > 'č d/lib/libfixed_decimal.so.4'
(cd 'č d' && sha256sum lib/libfixed_decimal.so.4 >> share/fixed_decimal/manifest)
try 'install.sh over another version' bash "$copy/tools/install.sh" 'č d'
cp 'č d/share/fixed_decimal/manifest' manifest
for line in 'x  bin/fixdec' "$(printf '%064d  ../before' 0)" "# folder /etc"; do
  echo "$line" >> 'č d/share/fixed_decimal/manifest'
  fails "$PWD/č d/share/fixed_decimal/manifest: line * is not one of a manifest" uninstall 'č d'
  cp manifest 'č d/share/fixed_decimal/manifest'
done
try 'install.sh --uninstall of two versions' uninstall 'č d'
is_as_before 'files of another version are removed'
mkdir 'č d/bin/fixdec_lines' && tree 'č d' > before
fails "$PWD/č d/bin/fixdec_lines is a folder: nothing is installed" bash "$copy/tools/install.sh" 'č d'
is_as_before 'a folder in the place of a file'

# ---- Sources that change
# Libraries of the same sources are taken, and those above a source that changes are not.
BUILT_BY_GATE='' timeout 60 python3 "$copy/tools/built.py" libraries cli > "$room/log" 2>&1 && [ ! -s "$room/log" ]
judge $? "the libraries that the gate has built are taken: $(head -n 1 "$room/log")"
cp "$copy/crates/plural_rules/src/lib.rt" lib.rt
echo '// Changed.' >> "$copy/crates/plural_rules/src/lib.rt"
fails 'BUILT_BY_GATE is set, and no gate has built plural_rules locale_data of these sources: *' \
  python3 "$copy/tools/built.py" libraries locale_data
cp lib.rt "$copy/crates/plural_rules/src/lib.rt"
# Over libraries of the gate a program is proved without them.
echo '// Changed.' >> "$copy/crates/amounts/src/main.rt"
BUILT_BY_GATE='' timeout 900 python3 "$copy/tools/built.py" programs amounts > "$room/out" 2> "$room/log" &&
  [ "$(cat "$room/log")" = 'proves and builds amounts, 1 of 1' ] &&
  [ "$(echo 199950 | "$copy/crates/amounts/out/amounts")" = "1'999.50" ]
judge $? "a program that changes is proved alone: $(tail -n 1 "$room/log")"
# The gate has built a program, and its source no longer compiles.
cp "$copy/crates/fixdec/src/main.rt" main.rt
echo 'fn broken( {' >> "$copy/crates/fixdec/src/main.rt"
fails 'BUILT_BY_GATE is set, and no gate has built fixdec of these sources: *' bash "$copy/tools/install.sh" other
fails 'BUILT_BY_GATE is set, and no gate has built fixdec of these sources: *' bash "$copy/tests/end_to_end.sh"
BUILT_BY_GATE='' fails 'fixdec was not built' bash "$copy/tools/install.sh" other
[ ! -e other ] && [ ! -e "$copy/crates/fixdec/out/fixdec" ]
judge $? 'no old program is installed, or left'
BUILT_BY_GATE='' fails 'fixdec was not built' bash "$copy/tests/end_to_end.sh"
[ "$(tail -n 1 "$room/out")" = '0 passed, 1 failed' ]
judge $? "the tests of programs that do not compile fail: $(tail -n 1 "$room/out")"
cp main.rt "$copy/crates/fixdec/src/main.rt"
# The exports no longer compile, and then the crate below has another version of the interface.
cp "$copy/crates/fixed_decimal_ffi/src/lib.rt" lib.rt
echo 'fn broken( {' >> "$copy/crates/fixed_decimal_ffi/src/lib.rt"
fails 'fixed_decimal_ffi was not built' bash "$copy/c/build.sh"
[ ! -e "$copy/c/out/libfixed_decimal.a" ] && [ ! -e "$copy/crates/fixed_decimal_ffi/out/libfixed_decimal_ffi.a" ]
judge $? 'no old library is left'
cp lib.rt "$copy/crates/fixed_decimal_ffi/src/lib.rt"
sed -i "s/\b$version\b/$((version + 1))/" "$copy"/crates/fixed_decimal_c/src/lib.rt
! cmp -s "$copy/crates/fixed_decimal_c/src/lib.rt" "$OLDPWD/crates/fixed_decimal_c/src/lib.rt"
judge $? 'the version of the interface is changed'
fails 'BUILT_BY_GATE is set, and no gate has built fixed_decimal_c of these sources: *' bash "$copy/c/build.sh"
fails 'BUILT_BY_GATE is set, and no gate has built fixed_decimal_c of these sources: *' bash "$copy/c/build.sh" install
finish
