#!/usr/bin/env bash
# The header against the archives: that each name in it means what it says.
#
#   tests/header.sh                       the header alone as C and as C++; its prototypes beside the proved entries; tests/header/pins.c with the archive of each
#                                         architecture, aarch64 and riscv64 under qemu
#   tests/header.sh --exchanges [--all]   whether that would notice an exchange in the header, each of many; --each names them all (tests/exchanges.py)
set -euo pipefail
cd "$(dirname "$0")/.."
export PATH="/opt/rattle/bin:$PATH"

case ${1:-} in "" | --exchanges) ;; *) sed -n '2,6s/^# \{0,1\}//p' "$0"; exit 2 ;; esac

archives/build.sh --ready
[ $# = 0 ] || { shift; exec python3 tests/exchanges.py "$@"; }

out=$(mktemp -d)
trap 'rm -rf "$out"' EXIT
strict="-Wall -Wextra -Wpedantic -Werror"

# A kernel may be stricter than that, and has no libc.
echo '#include "iommufd.h"' >"$out/alone.c"
# shellcheck disable=SC2086
gcc -std=c11 -ffreestanding $strict -Wconversion -Wsign-conversion -Wshadow -Wundef -Wcast-qual -Wcast-align=strict -Iinclude -c "$out/alone.c" -o "$out/alone.o"
# shellcheck disable=SC2086
g++ -std=c++11 $strict -Wconversion -Wshadow -Wcast-qual -Iinclude -x c++ -c "$out/alone.c" -o "$out/alone.o"
echo "header: compiles alone as C11 and as C++11 without a warning"
python3 tests/exchanges.py --entries

pins() { # ARCH RUNNER COMPILER...
  local arch=$1 runner=$2
  shift 2
  # shellcheck disable=SC2086
  "$@" -std=c11 -O2 $strict -Iinclude tests/header/pins.c "target/archives/$arch/libiommufd.a" -o "$out/pins.$arch"
  $runner "$out/pins.$arch" >"$out/say" || { tail -n 1 "$out/say"; echo "header: $arch: the archive does not do what the header says"; exit 1; }
  echo "header: $arch: the archive does what the header says, $(wc -l <"$out/say") groups"
}
pins x86_64 "" gcc
pins aarch64 qemu-aarch64 aarch64-linux-gnu-gcc -static
# Debian's libc passes floating numbers in registers of their own, the archive has none to pass: the linker's word on that is not needed.
pins riscv64 qemu-riscv64 riscv64-linux-gnu-gcc -static -Wl,--no-warn-mismatch
