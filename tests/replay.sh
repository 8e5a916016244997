#!/usr/bin/env bash
# The archives of the three architectures answer alike: tests/outside records calls beside the model, and tests/replay/replay.c makes them again, natively and under
# qemu-user. It fails unless all print the same line. About ten seconds once archives and tests/outside are built, one to four of them for each run under qemu-user.
#
#   tests/replay.sh [--sequences N]     the fixed list of sequences, or the first N
set -euo pipefail
cd "$(dirname "$0")/.."
archives/build.sh --ready
out=target/replay
mkdir -p "$out"

replay() { # ARCH RUNNER COMPILER...
  local arch=$1 runner=$2
  shift 2
  "$@" -std=c11 -O2 -Wall -Wextra -Werror -pedantic -Iinclude tests/replay/replay.c "target/archives/$arch/libiommufd.a" -o "$out/$arch"
  $runner "$out/$arch" <"$out/recording" >"$out/$arch.line" || { echo "replay: the archive for $arch does not answer as recorded"; exit 1; }
  diff "$out/line" "$out/$arch.line" || { echo "replay: the archive for $arch prints another line"; exit 1; }
}

tests/outside.sh record "$out/recording" "$@" >"$out/line"
replay x86_64 "" gcc
replay aarch64 qemu-aarch64 aarch64-linux-gnu-gcc -static
# as in tests/header.sh: no floating number passes between Debian's libc and the archive
replay riscv64 qemu-riscv64 riscv64-linux-gnu-gcc -static -Wl,--no-warn-mismatch
echo "replay: x86_64, aarch64 and riscv64 alike: $(cat "$out/line")"
