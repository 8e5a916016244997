#!/usr/bin/env bash
# Runs the example shells in C and in Rust against the archive; what they print is compared with what is stored beside them. Then the tests of the wrapper in Rust.
set -euo pipefail
cd "$(dirname "$0")/.."
archives/build.sh --ready x86_64
lib=$PWD/target/archives/x86_64
out=$(mktemp -d)
trap 'rm -rf "$out"' EXIT

gcc -std=c11 -O2 -Wall -Wextra -Werror -pedantic -Iinclude examples/c/shell.c "$lib/libiommufd.a" -o "$out/shell"
timeout 10 "$out/shell" >"$out/c"
diff -u examples/c/stdout "$out/c"

export CARGO_TARGET_DIR="$out/rust" IOMMUFD_LIB="$lib" RUSTFLAGS="-D warnings"
cargo build --quiet --release --offline --manifest-path examples/rust/Cargo.toml
timeout 10 "$out/rust/release/shell" >"$out/r"
diff -u examples/rust/stdout "$out/r"
echo "examples: the shells in C and in Rust print what is stored"

cargo test --quiet --offline --manifest-path examples/rust/Cargo.toml >"$out/say" 2>&1 || { tail -n 60 "$out/say"; exit 1; }
echo "examples: $(awk '/^test result: ok/ { n += $4 } END { print n }' "$out/say") tests of the wrapper in Rust passed"
