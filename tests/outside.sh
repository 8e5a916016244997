#!/usr/bin/env bash
# The archive seen from outside: builds it, and the Rust crate in tests/outside that links it, and runs one of the crate's programs.
#
#   tests/outside.sh differential                      random calls against the model: the fixed set of sequences, every check reached
#   tests/outside.sh differential --calls 10000000     a long run, with a line of progress; --seed S makes other sequences
#   tests/outside.sh mutations                         whether the fixed set notices each of many slips in the model
#   tests/outside.sh instructions                      how many instructions a call takes, as markdown, the same in every run; --limit to fail where the archive takes too many
#   tests/outside.sh benchmark                         how long a call takes, as markdown; --quick for a first look, --limit 2.0 to fail above that ratio
#   tests/outside.sh record FILE [--sequences N]       calls with their answers, for tests/replay.sh; FILE is told from the root of the repository
#   tests/outside.sh test                              the crate's own tests
set -euo pipefail
cd "$(dirname "$0")/.."
export PATH="/opt/rattle/bin:$PATH"
[ $# -ge 1 ] || { sed -n '2,10s/^# \{0,1\}//p' "$0"; exit 2; }
program=$1
shift

# The archive is built anew where a source is newer than it is.
mkdir -p target
archives/build.sh --ready x86_64 >target/archive.say 2>&1 || { tail -n 20 target/archive.say; exit 1; }

[ "$program" != mutations ] || exec python3 tests/mutations.py "$@"

# Loops at a multiple of 64 bytes: where a short loop lies otherwise decides up to half of its time, and the plain program that is measured has one.
export CARGO_TARGET_DIR="$PWD/target/outside" IOMMUFD_LIB="$PWD/target/archives/x86_64" RUSTFLAGS="-D warnings -C llvm-args=-align-loops=64"
[ "$program" != test ] || exec cargo test --quiet --offline --manifest-path tests/outside/Cargo.toml "$@"
cargo build --quiet --release --offline --manifest-path tests/outside/Cargo.toml

# The same program with the kit's own archive in place of the kernel's, for its column.
if [ "$program" = instructions ]; then
  kit=$PWD/target/outside-kit
  if [ ! "$kit/libiommufd.a" -nt target/staticlib/libboundary.a ]; then
    mkdir -p "$kit"
    ar p target/archives/x86_64/libiommufd.a version.o >"$kit/version.o"
    cp target/staticlib/libboundary.a "$kit/kit.a"
    ar rD "$kit/kit.a" "$kit/version.o"
    mv "$kit/kit.a" "$kit/libiommufd.a"
  fi
  CARGO_TARGET_DIR=$kit IOMMUFD_LIB=$kit cargo build --quiet --release --offline --manifest-path tests/outside/Cargo.toml --bin instructions
  set -- --kit "$kit/release/instructions" "$@"
fi
exec "target/outside/release/$program" "$@"
