#!/usr/bin/env bash
# The archive in a kernel: builds examples/kernel and boots it in QEMU.
#
#   tests/kernel.sh          with the kernel archive: what it prints is compared with examples/kernel/stdout. With a stack that is too short it has to end at the guard page
#   tests/kernel.sh --kit    with the kit's own archive, which has a red zone and uses SSE: it has to fail, with SSE off at its first vector instruction, with SSE on by
#                            wrong answers or a trap under interrupts, where the kernel archive passes. Prints what it saw
set -euo pipefail
cd "$(dirname "$0")/.."
archives/build.sh --ready x86_64
out=$(mktemp -d)
trap 'rm -rf "$out"' EXIT

fail() { echo "kernel: $*" >&2; exit 1; }

own=target/archives/x86_64/libiommufd.a
needed=$(gcc -E -dM -ffreestanding include/iommufd.h | sed -n 's/^#define IOMMUFD_STACK //p')
# what the archive may take, and a page for the shell and the interrupts; and a stack that is too short
stack=$((needed + 4096))
short=$((needed / 2))

# Builds the kernel and boots it; what it prints is in $out/said. It ends well with QEMU's status 1; where it has not ended after $patience seconds, with 124.
patience=300
boot() { # STACK SSE LOWER WORDS ARCHIVE..
  local define="-DSTACK_TOP=0x300000 -DSTACK_SIZE=$1 -DSSE=$2 -DLOWER=$3" words=$4 f
  shift 4
  # shellcheck disable=SC2086
  gcc $define -c examples/kernel/boot.S -o "$out/boot.o"
  for f in machine shell main; do
    # shellcheck disable=SC2086
    gcc -std=c11 -O2 -Wall -Wextra -Werror -ffreestanding -fno-pic -fno-stack-protector -fno-asynchronous-unwind-tables -mno-red-zone -mgeneral-regs-only $words $define \
      -Iinclude -c "examples/kernel/$f.c" -o "$out/$f.o"
  done
  ld -n --no-warn-rwx-segments -T examples/kernel/link.ld "$out"/{boot,machine,shell,main}.o "$@" -o "$out/kernel64"
  objcopy -O elf32-i386 "$out/kernel64" "$out/kernel" # QEMU boots no other
  local status=0
  timeout $patience qemu-system-x86_64 -kernel "$out/kernel" -display none -monitor none -serial file:"$out/said" -no-reboot -device isa-debug-exit,iobase=0xf4,iosize=1 -m 64 \
    -cpu $cpu || status=$?
  [ $status -ne 124 ] || return 124
  return $((status != 1))
}

# A run that has to fail, and to end.
fails() { # WHY-NOT STACK SSE LOWER WORDS ARCHIVE..
  local why=$1 status=0
  shift
  boot "$@" || status=$?
  [ $status -ne 0 ] || fail "$why"
  [ $status -ne 124 ] || { cat "$out/said"; fail "it did not end"; }
}

# The archive for kernels asks for no more than the first x86-64; the kit's own for x86-64-v2.
cpu=qemu64

number() { sed -n "s/^$1: //p" "$out/said" | tail -n 1; }

case ${1:-} in
'')
  # the stack pointer at 8 below a multiple of 16, for the second run: the archive does not care
  boot $stack 0 8 -mpreferred-stack-boundary=3 $own || { cat "$out/said"; fail "it failed"; }
  diff -u examples/kernel/stdout "$out/said"
  fails "it passed with a stack of $short bytes" $short 0 8 -mpreferred-stack-boundary=3 $own
  grep -q '^trap 14, ' "$out/said" || { cat "$out/said"; fail "a stack that is too short was not caught by its guard page"; }
  echo "kernel: SSE off, $stack bytes of stack, interrupts on the same stack: every answer as without; a stack of $short bytes ends at its guard page"
  ;;
--kit)
  kit=target/staticlib/libboundary.a cpu=Nehalem
  ar p $own version.o >"$out/version.o"
  fails "the kit's archive passed with SSE off" $stack 0 8 -mpreferred-stack-boundary=3 $kit "$out/version.o"
  grep -q '^trap 6, ' "$out/said" || { cat "$out/said"; fail "the kit's archive did not end at a vector instruction"; }
  echo "kernel: the kit's archive, SSE off: $(grep '^trap' "$out/said")"
  # a number that an interrupt wrote over is an answer that differs, an address that is none, or the bound of a loop that then has no end. How long a run takes is told by the
  # kernel archive, which has to pass there; a run of the kit's that takes twenty times as long is stopped and tells nothing, and the next one has half as many interrupts
  started=$SECONDS
  boot $stack 1 0 '' $own || { cat "$out/said"; fail "the kernel archive failed with SSE on"; }
  patience=$((20 * (SECONDS - started + 1)))
  for timer in 60 120 240 480 960; do
    status=0
    boot $stack 1 0 -DTIMER=$timer $kit "$out/version.o" || status=$?
    [ $status -ne 0 ] || fail "the kit's archive passed under interrupts"
    [ $status -eq 124 ] || break
    grep -q '^pages where IOMMU and table disagree: 0$' "$out/said" || { cat "$out/said"; fail "the kit's archive did not end before there were interrupts"; }
    echo "kernel: the kit's archive, SSE on: under interrupts a run did not end in $patience seconds"
  done
  [ $status -ne 124 ] || fail "no run of the kit's archive came to an end"
  if grep -q '^kernel: FAILED' "$out/said"; then
    echo "kernel: the kit's archive, SSE on: $(number 'answers that differ') of $(number commands) answers differ under interrupts"
  elif grep -q '^trap ' "$out/said"; then
    echo "kernel: the kit's archive, SSE on: under interrupts it ends at $(grep '^trap ' "$out/said")"
  else
    cat "$out/said"
    fail "the kit's archive did not come to its end"
  fi
  ;;
*) sed -n '2,7s/^# \{0,1\}//p' "$0"; exit 2 ;;
esac
