#!/usr/bin/env bash
# Tries the Rust crate. Without cargo this is a line `not run: ..`, and a failure under ALL=1. With BUILT_BY_GATE set
# nothing is proved but the exports of the C library. The last line is `N passed, M failed`; the status is 0 if M is 0.
set -u
unset CDPATH
cd -- "$(dirname -- "$0")/.." || exit 1
. tests/programs.sh

if command -v cargo > /dev/null; then
  bash c/build.sh
  judge $? 'c/build.sh'
  # cargo takes the library of c/out, or the one that is named, and else stops with one line.
  mkdir "$room/copy" && cp -r rust "$room/copy/"
  export CARGO_TARGET_DIR=$room/target
  unset FIXED_DECIMAL_LIB
  # stops LINE: cargo's build of the copy fails, with this line of the build script.
  stops() {
    (cd "$room/copy/rust" && timeout 60 cargo build --offline) > "$room/log" 2>&1
    [ $? = 101 ] && [ "$(sed -n '/--- stderr/,$p' "$room/log" | tail -n +2 | sed 's/^ *//')" = "$1" ]
    judge $? "cargo build: $1: $(tail -n 1 "$room/log")"
  }
  c=$room/copy/c
  stops "there is no library $c/out/libfixed_decimal.a: run \`bash $c/build.sh\`, or set FIXED_DECIMAL_LIB to a library"
  FIXED_DECIMAL_LIB=$room/nothing.a stops "there is no library $room/nothing.a, which FIXED_DECIMAL_LIB names"
  FIXED_DECIMAL_LIB=$room stops "there is no library $room, which FIXED_DECIMAL_LIB names"
  mkdir -p "$room/copy/c/out" && cp c/out/libfixed_decimal.a "$room/copy/c/out/" &&
    (cd "$room/copy/rust" && cargo test --offline) > "$room/log" 2>&1 || { tail -n 30 "$room/log"; false; }
  judge $? 'cargo test over the library in c/out'
  (export FIXED_DECIMAL_LIB=$PWD/c/out/libfixed_decimal.so LD_LIBRARY_PATH=$PWD/c/out &&
    cd rust && cargo test --offline --test rows) > "$room/log" 2>&1 || { tail -n 30 "$room/log"; false; }
  judge $? 'cargo test over the shared library that is named'
  # The named file is taken, not one of the usual name beside it.
  mkdir "$room/named" && cp c/out/libfixed_decimal.a "$room/named/other.a" && echo > "$room/named/libfixed_decimal.a" &&
    (export FIXED_DECIMAL_LIB=$room/named/other.a && cd rust && cargo test --offline --test rows) > "$room/log" 2>&1 ||
    { tail -n 30 "$room/log"; false; }
  judge $? 'cargo test over a static library of another name'
  # README's example, in a new package with one line in its Cargo.toml.
  (cd "$room" && cargo new --quiet --offline example) &&
    echo "fixed_decimal_proved = { path = \"$PWD/rust\" }" >> "$room/example/Cargo.toml" &&
    awk '/^For Rust/ { here = 1 } here && /^```rust$/ { shown = 1; next } shown && /^```$/ { exit } shown' README.md \
      > "$room/example/src/main.rs" &&
    found=$(cd "$room/example" && cargo run --quiet --offline 2> "$room/log") && [ "$found" = 1.234,56 ]
  judge $? "README's example: it writes '${found:-}', $(tail -n 1 "$room/log")"
  # The program of docs/RUST.md, and then its other examples, which are run with each error returned.
  block docs/RUST.md src/main.rs > "$room/example/src/main.rs"
  writes docs/RUST.md 'cargo run' bash -c 'cd "$0" && cargo run --quiet --offline' "$room/example"
  { echo 'fn main() -> Result<(), Box<dyn std::error::Error>> {'
    awk '/^## / { here = $2 == "Functions" } here && /^```rust$/ { shown = 1; print "{"; next }
      shown && /^```$/ { shown = 0; print "}"; next } shown' docs/RUST.md
    echo 'Ok(()) }'; } > "$room/example/src/main.rs"
  grep -q NumberFormat "$room/example/src/main.rs" &&
    (cd "$room/example" && cargo run --quiet --offline) > "$room/log" 2>&1 ||
    { tail -n 30 "$room/log"; false; }
  judge $? 'the examples of docs/RUST.md'
else
  missing 'cargo'
fi
finish
