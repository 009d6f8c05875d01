#!/usr/bin/env bash
# Packs all that a machine without the Rattle kit can use: an archive, and a package of Debian.
#
#     bash tools/release.sh [--release] [FOLDER]
#
# In FOLDER, which is the current folder by default, it makes
#   fixed_decimal-VERSION-x86_64-linux.tar.gz   the programs with their manual pages and completions; the C library, for
#                                               pkg-config from wherever it is unpacked; a wheel for Python 3.10 and all
#                                               later versions; the extension of SQLite; the sources of the Rust crate,
#                                               which link the library beside them; documents, license, SHA256SUMS
#   fixed-decimal_VERSION_amd64.deb             the same below /usr, without the wheel
# VERSION is the newest number of CHANGELOG.md, which the programs, the wheel and the crate have too, if the commit that
# added it is checked out without changes. Any other tree is packed as VERSION+COMMIT, and `--release` rejects it. The
# same sources give the same bytes, by the same tools. BUILT_BY_GATE is as in install.sh.
set -eu
stop() { echo "release.sh: $*" >&2; exit 1; }
is_release=
[ "${1:-}" != --release ] || { is_release=1; shift; }
[[ $# -le 1 && "${1:-}" != -* ]] || { echo "usage: release.sh [--release] [FOLDER]" >&2; exit 2; }
[ -d "${1:-.}" ] || stop "no such folder: $1"
folder=$(realpath "${1:-.}")
unset CDPATH
cd -- "$(dirname -- "$0")/.."

newest=$(sed -n 's/^## \[\([^]]*\)\].*/\1/p' CHANGELOG.md | head -n 1)
number=$(sed -n 's/^## \[\([0-9][^]]*\)\].*/\1/p' CHANGELOG.md | head -n 1)
commit=$(git rev-parse --short=8 HEAD 2> /dev/null) || commit=unknown
added=$(git log -1 --abbrev=8 --format=%h -S"## [$number]" -- CHANGELOG.md 2> /dev/null) || added=
# The oldest commit of a shallow clone seems to add all lines.
[ "$(git rev-parse --is-shallow-repository 2> /dev/null)" != true ] || added=
changed=$(git status --porcelain -uno 2> /dev/null && git ls-files -o --exclude-standard crates c rust) ||
  changed=unknown
version=$number
if [ "$newest" != "$number" ] || [ "$added" != "$commit" ] || [ -n "$changed" ]; then
  version="$number+$commit${changed:+-changed}"
  [ -z "$is_release" ] || stop "no version of CHANGELOG.md is checked out, but $version"
  echo "no version of CHANGELOG.md is checked out: packs $version"
fi
for tool in gcc:gcc objdump:binutils python3:python3 dpkg-deb:dpkg gzip:gzip xz:xz-utils flock:util-linux; do
  command -v ${tool%:*} > /dev/null || stop "${tool%:*} is missing: install ${tool#*:}"
done
echo '#include <sqlite3ext.h>' | gcc -E -x c - > /dev/null 2>&1 ||
  stop "sqlite3ext.h is missing: install libsqlite3-dev"
[ -f "$(python3 -c 'import sysconfig; print(sysconfig.get_path("include"))')/Python.h" ] ||
  stop "Python.h is missing: install python3-dev"

# is_of NUMBER WHAT: stops if the version of this part is another one.
is_of() { [ "$1" = "$number" ] || stop "$2 has version $1, and CHANGELOG.md $number"; }
is_of "$(sed -n 's/^version = "\(.*\)"/\1/p' python/pyproject.toml)" python/pyproject.toml
is_of "$(sed -n 's/^version = "\(.*\)"/\1/p' rust/Cargo.toml)" rust/Cargo.toml

umask 022
# The date of all files, which is the oldest one that a wheel can have.
export SOURCE_DATE_EPOCH=315532800 LC_ALL=C.UTF-8
# These would name another library for the wheel, and other options of tar and gzip.
unset FIXED_DECIMAL TAR_OPTIONS GZIP
name=fixed_decimal-$version-x86_64-linux
# The files are made in a folder beside their places. No other release packs into FOLDER at this time, so that folder is
# there only if a release was killed.
exec 9< "$folder"
flock -n 9 || { echo "waits for another release into $folder"; flock 9; }
new=$folder/.fixed_decimal-release
room=
trap 'rm -rf "$room" "$new"' EXIT
# Without this, bash goes on after an interrupt if the command at that time succeeds.
trap 'exit 130' INT
room=$(mktemp -d)
rm -rf "$new"
mkdir "$new" 2> "$room/log" || stop "$folder: $(sed 's/.*: //' "$room/log")"
top=$room/$name
DESTDIR='' bash tools/install.sh "$top" > "$room/log"
is_of "$("$top/bin/fixdec_lines" --version | cut -d' ' -f2)" fixdec_lines
DESTDIR='' PREFIX=$top bash c/build.sh install > "$room/log"
rm -r "$top/share/fixed_decimal"
sed -i -e 's|^Libs: .* -l|Libs: -L${pcfiledir}/.. -l|' -e 's|^Cflags: .*|Cflags: -I${pcfiledir}/../../include|' \
  "$top/lib/pkgconfig/fixed_decimal.pc"
mkdir -p "$top/lib/sqlite3" "$top/python" "$top/rust" "$top/docs"
gcc -shared -fPIC -O2 -Ic examples/sqlite/fixdec.c c/out/libfixed_decimal.a -Wl,-z,defs -Wl,--exclude-libs,ALL \
  -o "$top/lib/sqlite3/fixdec.so"
chmod -x "$top/lib/sqlite3/fixdec.so"
python3 python/backend/build_wheel.py --abi3 "$top/python" > "$room/log"
cp -r rust/Cargo.toml rust/build.rs rust/src "$top/rust"
cp README.md CHANGELOG.md LICENSE "$top"
cp docs/{GLOSSARY,GUIDE,PROGRAMS,C,PYTHON,RUST,SQL}.md "$top/docs"

# Debian's package: the documents are where Debian has them, and the crate finds the library by a link beside it.
package=fixed-decimal_${version}_amd64.deb
deb=$room/deb
mkdir -p "$deb/DEBIAN" "$deb/usr/share/doc/fixed-decimal" "$deb/usr/share/fixed_decimal"
cp -r "$top/bin" "$top/include" "$top/lib" "$top/share" "$deb/usr"
cp -r "$top/rust" "$deb/usr/share/fixed_decimal"
ln -s ../../lib "$deb/usr/share/fixed_decimal/lib"
mv "$deb/usr/share/zsh/site-functions" "$deb/usr/share/zsh/vendor-completions"
cp README.md docs/{GLOSSARY,GUIDE,PROGRAMS,C,SQL}.md "$deb/usr/share/doc/fixed-decimal"
cp LICENSE "$deb/usr/share/doc/fixed-decimal/copyright"
gzip -9n -c CHANGELOG.md > "$deb/usr/share/doc/fixed-decimal/changelog.gz"
find "$deb/usr/share/man" -type f -exec gzip -9n {} +
glibc=$(objdump -T "$deb"/usr/bin/* "$deb"/usr/lib/*.so.* "$deb/usr/lib/sqlite3/fixdec.so" |
  sed -n 's/.*GLIBC_\([0-9.]*\).*/\1/p' | sort -uV | tail -n 1)
cat > "$deb/DEBIAN/control" <<END
Package: fixed-decimal
Version: $version
Architecture: amd64
Maintainer: fixed_decimal <fixed_decimal@invalid>
Section: math
Priority: optional
Depends: libc6 (>= $glibc)
Installed-Size: $(du -sk --apparent-size "$deb/usr" | cut -f1)
Description: exact decimals for display, formally verified
 The programs fixdec, fixdec_lines and plural, the C library with its header, the
 extension of SQLite, and the sources of the Rust crate.
END
echo 'activate-noawait ldconfig' > "$deb/DEBIAN/triggers"
(cd "$deb" && find usr -type f | sort | xargs md5sum > DEBIAN/md5sums)

(cd "$top" && find . -type f -printf '%P\n' | sort | xargs sha256sum > "$room/sums" && mv "$room/sums" SHA256SUMS)
tar -C "$room" --sort=name --owner=0 --group=0 --numeric-owner --mtime=@$SOURCE_DATE_EPOCH \
  -czf "$new/$name.tar.gz" "$name"
DPKG_DEB_THREADS_MAX=1 dpkg-deb --root-owner-group -Zxz -z6 --build "$deb" "$new/$package" > "$room/log"
# Both take their places last of all.
mv -f "$new/$name.tar.gz" "$new/$package" "$folder"
echo "packed $folder/$name.tar.gz and $package"
