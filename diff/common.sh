# What diff/run.sh, diff/plants.sh and bench/run.sh share. Their first argument is the folder of the original.

. "$(dirname -- "${BASH_SOURCE[0]}")/build.sh"
[ $# -gt 0 ] || die "usage: $0 ORIGINAL [OPTION].. (see README.md)"
original=$(cd "$1" && pwd)
shift
registry=/usr/share/cargo/registry
export KIT_C=$kit/c RUSTFLAGS=${RUSTFLAGS-"-C target-cpu=x86-64-v2"}

need_packages() {
    for package in "$@"; do
        dpkg -s "$package" >/dev/null 2>&1 || die "missing: apt-get install $*"
    done
}

# The original, unchanged, with Debian's smallvec and stand-ins for two small crates.
copy_original() {
    made=$work/fixed_decimal
    rm -rf "$made"
    mkdir -p "$made/src"
    for folder in "$original" "$original/fixed_decimal" "$original/utils/fixed_decimal"; do
        [ ! -f "$folder/src/signed_decimal.rs" ] || cp "$folder"/src/*.rs "$made/src/"
    done
    # The same files, named by their path, as src--signed_decimal.rs.txt, and cut off before their tests: an
    # attribute of these may be the last line.
    for file in "$original"/src--*.rs.txt; do
        [ ! -f "$file" ] || { cat "$file"; echo 'mod end {}'; } >"$made/src/$(basename "${file##*--}" .txt)"
    done
    [ -f "$made/src/signed_decimal.rs" ] || die "no src/signed_decimal.rs of the original below $original"
    cat >"$made/Cargo.toml" <<TOML
[package]
name = "fixed_decimal"
version = "0.7.3"
edition = "2021"
[features]
ryu = []
[dependencies]
displaydoc = { path = "../displaydoc" }
writeable = { path = "../writeable" }
smallvec = { version = "1.9", default-features = false, features = ["const_new"] }
TOML
    for name in writeable displaydoc; do
        mkdir -p "$work/$name/src"
        cp "$project/diff/stand-ins/$name.rs" "$work/$name/src/lib.rs"
        printf '[package]\nname = "%s"\nversion = "0.0.0"\nedition = "2021"\n' "$name" >"$work/$name/Cargo.toml"
    done
    printf '[lib]\nproc-macro = true\n' >>"$work/displaydoc/Cargo.toml"
    copy_smallvec
}

# Debian's smallvec, with the one function that the original calls and 1.9 does not have.
copy_smallvec() {
    rm -rf "$work/smallvec"
    cp -r "$registry"/smallvec-1.* "$work/smallvec"
    rm -rf "$work"/smallvec/{benches,tests,.cargo-checksum.json}
    grep -q from_const_with_len_unchecked "$work/smallvec/src/lib.rs" ||
        sed -i '/^impl<T, const N: usize> SmallVec<\[T; N\]> {/a\
    /// The first `len` items.\
    pub const unsafe fn from_const_with_len_unchecked(items: [T; N], len: usize) -> Self {\
        SmallVec { capacity: len, data: SmallVecData::from_const(MaybeUninit::new(items)) }\
    }' "$work/smallvec/src/lib.rs"
}

# The Rust crate, over the shared library: the driver links another static one.
copy_host() {
    bash "$project/c/build.sh" >&2 || die "the C library was not built"
    rm -rf "$work/fixed_decimal_proved"
    cp -r "$project/rust" "$work/fixed_decimal_proved"
    export FIXED_DECIMAL_LIB=$project/c/out/libfixed_decimal.so LD_LIBRARY_PATH=$project/c/out
}

# build_driver NAME [OLD NEW FILE]: the program of rust/, without a network; in FILE with NEW for OLD, which occurs
# once.
build_driver() {
    rm -rf "$work/$1"
    cp -r "$here/rust" "$work/$1"
    [ $# = 1 ] || python3 - "${@:2:2}" "$work/$1/src/$4" <<'PY'
import sys
old, new, path = sys.argv[1:]
text = open(path).read()
assert text.count(old) == 1, (text.count(old), old)
open(path, "w").write(text.replace(old, new))
PY
    [ ! -f "$here/library/shared.rt.txt" ] || cp "$here/library/shared.rt.txt" "$work/$1/src/shared.rs"
    mkdir -p "$work/.cargo"
    cat >"$work/.cargo/config.toml" <<TOML
[source.crates-io]
replace-with = "debian"
[source.debian]
directory = "$registry"
TOML
    cat >"$work/Cargo.toml" <<TOML
[workspace]
resolver = "2"
members = ["$1"]
[patch.crates-io]
smallvec = { path = "smallvec" }
[profile.release]
opt-level = 3
TOML
    (cd "$work" && cargo build --offline --release --quiet --package "$1" >&2)
}
