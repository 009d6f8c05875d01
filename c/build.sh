#!/usr/bin/env bash
# Makes c/out/libfixed_decimal.a, libfixed_decimal.so.VERSION and fixed_decimal.pc; VERSION is that of the interface.
#
#     bash c/build.sh
#     PREFIX=/usr/local bash c/build.sh install
#
# `install` copies them and the header to PREFIX, by default /usr/local, or, if DESTDIR is set, to DESTDIR/PREFIX; a
# relative one is in the current folder, and `tools/install.sh --uninstall PREFIX` removes them. A program that is
# compiled by c/out/fixed_decimal.pc finds the shared library in c/out. Needs `rt`, gcc and util-linux (flock). What the
# gate has built of the same sources is not proved again; with BUILT_BY_GATE=1 only the exports are.
set -eu
[ $# = 0 ] || { [ $# = 1 ] && [ "$1" = install ]; } || { echo "usage: c/build.sh [install]" >&2; exit 2; }
prefix=$(realpath -ms -- "${PREFIX:-/usr/local}")
to=${DESTDIR:+$(realpath -ms -- "$DESTDIR")}$prefix
unset CDPATH
cd -- "$(dirname -- "$0")"
here=$PWD
version=$(sed -n 's/^#define FD_VERSION //p' fixed_decimal.h)
kit=$(dirname "$(dirname "$(readlink -f "$(command -v rt)")")")

# package LIB INCLUDE FLAG..: the file of pkg-config for a library and a header in these folders.
package() {
  local lib include
  lib=$(sed "s/[\\\\ \"'\$#]/\\\\&/g" <<<"$1")
  include=$(sed "s/[\\\\ \"'\$#]/\\\\&/g" <<<"$2")
  echo "Name: fixed_decimal"
  echo "Description: Exact decimals for display"
  echo "Version: $version"
  echo "Libs: -L$lib ${3:+$3$lib }-lfixed_decimal"
  echo "Cflags: -I$include"
}

# sums: those of all that the library is made of, and of what is made.
sums() {
  sha256sum "$archive" "$kit/c/liblibc_c.a" "$here"/{build.sh,fixed_decimal.h} \
    "$here"/out/{libfixed_decimal.a,libfixed_decimal.so,fixed_decimal.pc} 2>/dev/null || true
}

# build: makes all files in the current folder.
build() {
  cp "$archive" libfixed_decimal.a
  # The three functions over malloc, realloc and free that the kit's allocator calls.
  mkdir heap
  (cd heap; ar x "$kit/c/liblibc_c.a")
  ar r libfixed_decimal.a heap/*.o 2>/dev/null
  rm -r heap
  ranlib libfixed_decimal.a
  {
    echo '{ global:'
    sed -n 's/^\(fd_[a-z]*\|uint32_t\) \(fd_[a-z0-9_]*\)(.*/  \2;/p' "$here/fixed_decimal.h" | sort
    echo '  local: *; };'
  } >exports.map
  gcc -shared -o libfixed_decimal.so.$version -Wl,-soname,libfixed_decimal.so.$version -Wl,-z,defs -Wl,--gc-sections \
    -Wl,--whole-archive libfixed_decimal.a -Wl,--no-whole-archive -Wl,--version-script=exports.map
  ln -s libfixed_decimal.so.$version libfixed_decimal.so
  rm exports.map
  package "$here/out" "$here" -Wl,-rpath, >fixed_decimal.pc
}

# One build at a time: others wait. What it has made of the same files stays, and else its files are replaced, each at
# once. A build that fails leaves no library. `timeout` repeats a signal that ends a script, and would end `rm` too.
exec 9<build.sh
flock 9
trap 'trap "" HUP INT TERM; rm -rf "$here/out"' EXIT
python3 ../tools/built.py archive
archive=$(realpath ../crates/fixed_decimal_ffi/out/libfixed_decimal_ffi.a)
if [ ! -f out/sums ] || [ "$(sums)" != "$(cat out/sums)" ]; then
  rm -rf out/new
  mkdir -p out/new
  cd out/new
  build
  mv -f ./* ..
  cd "$here"
  rmdir out/new
  sums >out/sums
fi
trap - EXIT
if [ "${1:-}" = install ]; then
  stage=$(mktemp -d)
  trap 'trap "" HUP INT TERM; rm -rf "$stage"' EXIT
  mkdir -p "$stage/lib/pkgconfig" "$stage/include"
  cp -P out/libfixed_decimal.a out/libfixed_decimal.so out/libfixed_decimal.so.$version "$stage/lib"
  chmod -x "$stage/lib"/*.so.*
  package "$prefix/lib" "$prefix/include" >"$stage/lib/pkgconfig/fixed_decimal.pc"
  cp "$here/fixed_decimal.h" "$stage/include"
  python3 ../tools/installed.py install "$stage" "$to"
  echo "installed libfixed_decimal $version in $to"
fi
