#!/usr/bin/env bash
# Tries what tools/release.sh packs, as its users take it: the archive and the package of Debian, which have the same
# bytes wherever they are packed; releases that fail; and the names of versions. With BUILT_BY_GATE set only the exports
# of the C library are proved. What is missing is a line `not run: ..`, and a failure under ALL=1: dpkg, xz, and the
# headers of Python and SQLite, without which nothing is packed; pkg-config, sqlite3, cargo, and venv. The variable
# PYTHONS has the programs of more versions of Python that take the wheel. The last line is `N passed, M failed`; the
# status is 0 if M is 0.
set -u
unset CDPATH
cd -- "$(dirname -- "$0")/.." || exit 1
. tests/programs.sh
copy_programs fixdec fixdec_lines plural
python3 tools/built.py archive || { echo "0 passed, 1 failed"; exit 1; }
export BUILT_BY_GATE=1
PYTHONS=${PYTHONS:-}

lacking=()
command -v dpkg-deb > /dev/null || lacking+=(dpkg)
command -v xz > /dev/null || lacking+=(xz-utils)
command -v objdump > /dev/null || lacking+=(binutils)
echo '#include <sqlite3ext.h>' | gcc -E -x c - > /dev/null 2>&1 || lacking+=(libsqlite3-dev)
python3 -c 'import sysconfig, os; assert os.path.exists(sysconfig.get_path("include") + "/Python.h")' 2> /dev/null ||
  lacking+=(python3-dev)
if [ ${#lacking[@]} != 0 ]; then
  missing "${lacking[*]}"
  finish
  exit
fi
copy=$room/copy
copy_repository "$copy"
mkdir "$room/here" && cd "$room/here" || exit 1

# ---- An archive and a package
not_a_version='no version of CHANGELOG.md is checked out'
newest=$(sed -n 's/^## \[\([0-9][^]]*\)\].*/\1/p' "$copy/CHANGELOG.md" | head -n 1)
name=fixed_decimal-$newest-x86_64-linux
package=fixed-decimal_${newest}_amd64.deb
# commit NAME: commits all files of the copy, and prints the commit.
commit() {
  git -C "$copy" -c user.name=x -c user.email=x@x commit -qam "$1" && git -C "$copy" rev-parse --short=8 HEAD
}
# heading NAME: makes this the newest heading of CHANGELOG.md, and the only one of its name.
heading() {
  awk -v name="$1" 'index($0, "## [" name "]") == 1 { next }
    !done && /^## \[/ { done = 1; print "## [" name "] - 2000-01-01\n"; if (/Unreleased/) next } 1' \
    "$copy/CHANGELOG.md" > changes && cp changes "$copy/CHANGELOG.md"
}
release() { bash "$copy/tools/release.sh" "$@"; }
mkdir packed
fails 'release.sh: no such folder: nothing' release nothing
fails "release.sh: $not_a_version, but $newest+unknown-changed" release --release packed
sed -i "/^## \[$newest\]/d" "$copy/CHANGELOG.md"
git -C "$copy" init -q && git -C "$copy" add . && commit all > "$room/out"
heading "$newest" && [ "$(grep -c "^## \[$newest\]" "$copy/CHANGELOG.md")" = 1 ] && head=$(commit version)
judge $? 'a version is committed'
try 'release.sh at a version' release --release packed
[ "$(ls -A packed | tr '\n' ' ')" = "$package $name.tar.gz " ]
judge $? "what is packed: $(ls -A packed | tr '\n' ' ')"

# The same sources in another folder, under another umask, locale and time zone.
mkdir -p 'other folder/tree' 'other folder/packed' && tar -C "$copy" -cf - . | tar -C 'other folder/tree' -xf -
(umask 077 && cd 'other folder' && TZ=Asia/Tokyo LC_ALL=C bash tree/tools/release.sh --release packed) \
  > "$room/log" 2>&1
judge $? "release.sh in another folder: $(tail -n 1 "$room/log")"
for file in "$name.tar.gz" "$package"; do
  cmp "packed/$file" "other folder/packed/$file" > "$room/log" 2>&1
  judge $? "the bytes of $file are the same: $(cat "$room/log")"
done
rm -r 'other folder'

# ---- The archive, unpacked in a folder with a blank, without the kit
mkdir 'e f' && tar -C 'e f' -xzf "packed/$name.tar.gz" && top="$PWD/e f/$name"
(cd "$top" && sha256sum --check --quiet SHA256SUMS &&
  [ "$(wc -l < SHA256SUMS)" = $(($(find . -type f | wc -l) - 1)) ]) > "$room/log" 2>&1
judge $? "SHA256SUMS has each file: $(head -n 1 "$room/log")"
! tar -tvzf "packed/$name.tar.gz" | grep -v '^\(-rw[-x]r-[-x]r-[-x]\|drwxr-xr-x\|lrwxrwxrwx\) 0/0 .* 1980-01-01 '
judge $? 'all read the files, whose owner and date are fixed'
for program in fixdec fixdec_lines plural; do
  [[ "$("$top/bin/$program" --help)" == *"$program $newest (CLDR "* ]] && [ -f "$top/share/man/man1/$program.1" ] &&
    [ -e "$top/share/bash-completion/completions/$program" ]
  judge $? "$program $newest, its manual page and its completions"
done
! grep -rlF -e "$room" -e "$copy" "$top" > "$room/log"
judge $? "no file names a folder of this machine: $(head -n 1 "$room/log")"
if command -v pkg-config > /dev/null; then
  words=$(PKG_CONFIG_PATH="$top/lib/pkgconfig" pkg-config --cflags --libs fixed_decimal)
  try 'the example by pkg-config' eval "gcc '$copy/c/example.c' $words -o released"
  [ "$(LD_LIBRARY_PATH="$top/lib" ./released)" = 1.234,56 ]
  judge $? 'the example writes 1.234,56 by the shared library'
else
  missing pkg-config
fi
try 'the example by the static library' gcc "$copy/c/example.c" "-I$top/include" "$top/lib/libfixed_decimal.a" -o static
[ "$(./static)" = 1.234,56 ]
judge $? 'the example writes 1.234,56 by the static library'
wheel=$(echo "$top"/python/*)
[[ $(basename "$wheel") =~ ^fixed_decimal-"$newest"-cp310-abi3-manylinux_2_[0-9]+_x86_64\.whl$ ]]
judge $? "the wheel: $wheel"
# takes PYTHON: pip installs the wheel in a new venv, and the tests of the module pass.
takes() {
  try "a venv of $1" "$1" -m venv --clear venv
  try "pip install by $1" venv/bin/pip install --no-index --quiet "$wheel"
  found=$(venv/bin/python -c \
    'import fixed_decimal as it; print(it.__version__, it.Decimal("1234.565").round(-2).format("de"))')
  [ "$found" = "$newest 1.234,56" ]
  judge $? "the wheel, $1: $found"
  venv/bin/python "$copy/python/tests/test_fixed_decimal.py" 1000 > "$room/log" 2>&1
  judge $? "Python beside decimal, $1: $(tail -n 3 "$room/log" | tr '\n' ' ')"
}
if python3 -c 'import venv, ensurepip' 2> /dev/null; then
  for python in python3 $PYTHONS; do takes "$python"; done
else
  missing python3-venv
fi
if command -v sqlite3 > /dev/null; then
  found=$(sqlite3 -cmd ".load '$top/lib/sqlite3/fixdec'" :memory: \
    "SELECT fixdec('1234.565', 'round:-2:half-even:1', 'format:de')" 2>&1)
  [ "$found" = 1.234,56 ]
  judge $? "fixdec.so: $found"
else
  missing sqlite3
fi
# runs_in_rust NAME RUST: a new package with this crate writes 1.234,56.
runs_in_rust() {
  cargo new --quiet --offline "$1" && echo "fixed_decimal_proved = { path = \"$2\" }" >> "$1/Cargo.toml" &&
    awk '/fixed_decimal_proved = / { near = 1 }
      near && /^```rust$/ { shown = 1; near = 0; next }
      /^```$/ { shown = 0 }
      shown' "$top/README.md" > "$1/src/main.rs" &&
    found=$(cd "$1" && CARGO_TARGET_DIR=target cargo run --quiet --offline 2> "$room/log") &&
    [ "$found" = 1.234,56 ] &&
    grep -qF "version = \"$newest\"" "$2/Cargo.toml"
  judge $? "the crate in $2: ${found:-} $(tail -n 1 "$room/log")"
}
if command -v cargo > /dev/null; then
  runs_in_rust archived "$top/rust"
else
  missing cargo
fi

# ---- The package of Debian, in a folder that has the status of libc6 alone
if command -v dpkg > /dev/null; then
  # dpkg_in VERSION WORD..: dpkg where this version of libc6 is installed.
  dpkg_in() {
    rm -rf system && mkdir -p system/var/lib/dpkg/{info,updates,triggers} && : > system/var/lib/dpkg/available
    printf '%s\n' 'Package: libc6' 'Status: install ok installed' 'Architecture: amd64' 'Maintainer: x' \
      'Description: x' "Version: $1" > system/var/lib/dpkg/status
    dpkg --root="$PWD/system" --force-not-root --force-bad-path --log=/dev/null "${@:2}"
  }
  try 'dpkg --install' dpkg_in 2.36-9 --install "packed/$package"
  [ "$(system/usr/bin/plural en 1)" = one ] && [ -f system/usr/lib/libfixed_decimal.so ] &&
    [ -f system/usr/share/man/man1/fixdec.1.gz ] && [ -f system/usr/share/doc/fixed-decimal/copyright ] &&
    [ -z "$(find system/usr -name '*.whl')" ]
  judge $? 'the files of the package'
  [ "$(dpkg --root="$PWD/system" --verify fixed-decimal 2>&1)" = '' ] &&
    [ "$(dpkg-query --admindir=system/var/lib/dpkg -W -f '${Version} ${Architecture} ${Depends}' fixed-decimal)" = \
      "$newest amd64 libc6 (>= 2.34)" ]
  judge $? "the version and the libc6 of the package: $(dpkg-deb -f "packed/$package" Version Depends | tr '\n' ' ')"
  [ -z "$(dpkg-deb -c "packed/$package" | grep -v ' root/root .* 1980-01-01 00:00 ')" ]
  judge $? 'the owner and the date of the package are fixed'
  ! command -v cargo > /dev/null || runs_in_rust packaged "$PWD/system/usr/share/fixed_decimal/rust"
  try 'dpkg --remove' dpkg --root="$PWD/system" --force-not-root --force-bad-path --log=/dev/null --remove fixed-decimal
  [ -z "$(find system/usr -not -type d 2> /dev/null)" ]
  judge $? "dpkg removes all: $(find system/usr -not -type d 2> /dev/null | head -n 1)"
  ! dpkg_in 2.31-13 --install "packed/$package" > "$room/log" 2>&1 && grep -q 'depends on libc6' "$room/log"
  judge $? "dpkg rejects an older libc6: $(tail -n 1 "$room/log")"
else
  missing dpkg
fi

# ---- Releases that fail, and other versions
mkdir broken partly && printf '#!/bin/sh\nhead -c 100\nexit 1\n' > broken/gzip && chmod +x broken/gzip
! PATH=$PWD/broken:$PATH release partly > "$room/log" 2>&1 && [ -z "$(ls -A partly)" ]
judge $? "release.sh leaves no part of a release: $(tail -n 1 "$room/log")"
# ended SIGNAL: a release that this signal ends when the archive is made.
ended() {
  mkdir "by $1" && printf '#!/bin/sh\nkill -%s $PPID\n' "$1" > "by $1/dpkg-deb" && chmod +x "by $1/dpkg-deb"
  # bash reports the signal too.
  ! { TMPDIR="$PWD/by $1" PATH="$PWD/by $1:$PATH" env --default-signal=INT bash "$copy/tools/release.sh" partly; } \
    > "$room/log" 2>&1
}
for signal in TERM INT; do
  ended $signal && [ -z "$(ls -A partly)" ] && [ "$(ls -A "by $signal")" = dpkg-deb ]
  judge $? "release.sh removes all if $signal ends it: $(ls -A partly "by $signal" | tr '\n' ' ')"
done
ended KILL && [ "$(ls -A partly)" = .fixed_decimal-release ]
judge $? "a release that is killed: $(ls -A partly)"
# Two at once, after it, and whatever these variables say.
for number in 1 2; do
  FIXED_DECIMAL=/ TAR_OPTIONS=--mtime=now GZIP=-1 release partly > "log.$number" 2>&1 &
  others[number]=$!
done
wait "${others[1]}" && wait "${others[2]}" && [ "$(ls -A partly | tr '\n' ' ')" = "$package $name.tar.gz " ] &&
  cmp "packed/$name.tar.gz" "partly/$name.tar.gz" > "$room/log" 2>&1 &&
  cmp "packed/$package" "partly/$package" > "$room/log" 2>&1
judge $? "two releases at once: $(tail -qn 1 log.1 log.2 "$room/log" | tr '\n' ' ')"
fails 'release.sh: /proc: *' release /proc
sed -i 's/^version = .*/version = "9.9.9"/' "$copy/rust/Cargo.toml"
fails "release.sh: rust/Cargo.toml has version 9.9.9, and CHANGELOG.md $newest" release packed
git -C "$copy" checkout -q rust/Cargo.toml
echo >> "$copy/README.md"
fails "release.sh: $not_a_version, but $newest+$head-changed" release --release packed
head=$(commit more)
fails "release.sh: $not_a_version, but $newest+$head" release --release packed
git clone -q --depth 1 "file://$copy" shallow
fails "release.sh: $not_a_version, but $newest+$head" bash shallow/tools/release.sh --release packed
heading Unreleased && head=$(commit unreleased)
fails "release.sh: $not_a_version, but $newest+$head" release --release packed
try 'release.sh after a version' release packed
[ -f "packed/fixed_decimal-$newest+$head-x86_64-linux.tar.gz" ] &&
  [ -f "packed/fixed-decimal_$newest+${head}_amd64.deb" ] &&
  grep -qx "$not_a_version: packs $newest+$head" "$room/out"
judge $? "the version after a version: $(head -n 1 "$room/out")"
finish
