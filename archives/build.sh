#!/usr/bin/env bash
# Builds the archives that a kernel links, from the one module of the proved crate boundary.
#
#   archives/build.sh [ARCH...]             x86_64, aarch64, riscv64; all three if none is named
#   archives/build.sh --twice [ARCH...]     twice: fails where the builds differ
#   archives/build.sh --behind-ci [ARCH..]  twice, over the libraries that `rt ci` has just proved and left in a clean clone: boundary alone is proved once more. For .ci/run
#   archives/build.sh --ready [ARCH...]     only those that are missing or older than a source
#
# It writes target/archives/ARCH/libiommufd.a and names each with its SHA-256. The kit's own archive is kept in target/staticlib/libboundary.a: the same module as other
# machine code, with a red zone and vector registers. No kernel may link that one.
#
# How: `rt lib` proves boundary and the libraries below it, and makes the kit's own archive. The same build, boundary's proof with it, is then made with a toolchain folder
# whose clang keeps the module before it compiles it as ever; that has to give the same archive. The module is compiled once more for each kernel, as the kit does it but for
#   - the attributes of its functions: no red zone, general registers only, and the passes of the check kept apart;
#   - the stack: a multiple of 8 is enough on x86-64;
#   - the target, and there how C gives back 32 bits (aarch64, riscv64) and loops that stay loops (aarch64).
#   - the optimiser, which runs twice: an array that a closure fills is taken apart by the second run alone (65 instructions of a call, 96 bytes of stack on x86-64);
#   - the size up to which a function is compiled into its callers.
set -euo pipefail
cd "$(dirname "$0")/.."
export PATH="/opt/rattle/bin:$PATH"

usage() { sed -n '2,8s/^# \{0,1\}//p' "$0"; exit 2; }
fail() { echo "archives: $*" >&2; exit 1; }

builds=1 ready='' behind_ci=''
case ${1:-} in
--twice) builds=2; shift ;;
--behind-ci) builds=2 behind_ci=1; shift ;;
--ready) ready=1; shift ;;
esac
[ $# -gt 0 ] || set -- x86_64 aarch64 riscv64
for arch in "$@"; do
  case $arch in x86_64 | aarch64 | riscv64) ;; *) usage ;; esac
done

is_old() { # ARCH
  local at=target/archives/$1/libiommufd.a
  [ ! -f "$at" ] || [ -n "$(find crates crates.txt include archives -path 'crates/*/out' -prune -o -newer "$at" \( -name '*.rt' -o -name crates.txt -o -name '*.h' -o -name build.sh \) -print -quit)" ]
}

if [ -n "$ready" ]; then
  old=()
  for arch in "$@"; do ! is_old "$arch" || old+=("$arch"); done
  [ ${#old[@]} -gt 0 ] || exit 0
  set -- "${old[@]}"
fi

kit=$(dirname "$(dirname "$(readlink -f "$(command -v rt)")")")
work=$(mktemp -d)
trap 'rm -rf "$work"' EXIT

# The kit's toolchain with a clang that keeps the module and the words that it is given. clang is one program under several names, so the others are called by their own.
watched_toolchain() {
  local f
  mkdir -p "$work/toolchain/bin"
  for f in "$kit"/toolchain/*; do [ "${f##*/}" = bin ] || ln -s "$f" "$work/toolchain/"; done
  for f in "$kit"/toolchain/bin/*; do
    {
      echo '#!/bin/sh'
      [ "${f##*/}" != clang ] || printf 'cp module.bc "%s/module.bc"\nprintf "%%s\\n" "$@" >"%s/words"\n' "$work" "$work"
      printf 'exec "%s" "$@"\n' "$f"
    } >"$work/toolchain/bin/${f##*/}"
  done
  chmod +x "$work/toolchain/bin"/*
}

# What a crate reads, by its line of crates.txt.
reads() { sed 's/#.*//' crates.txt | awk -F: -v name="$1" '{ split($1, word, " ") } word[1] == name { print $2 }'; }

# The words by which rt has boundary built over the libraries below it, one a line.
building() {
  local at=$PWD/crates name todo found=' '
  printf '%s\n' --crate-name boundary src/lib.rt --extern "std=$kit/rlibs/std.rlib" -L "dependency=$kit/rlibs"
  for name in $(reads boundary); do
    if [ -d "crates/$name" ]; then
      printf '%s\n' --extern "$name=$at/$name/out/rlib/$name.rlib"
    else
      printf '%s\n' --extern "$name=$kit/rlibs/$name.rlib"
    fi
  done
  todo=$(reads boundary)
  while [ -n "${todo// /}" ]; do
    # shellcheck disable=SC2086
    set -- $todo
    name=$1
    shift
    todo="$*"
    case $found in *" $name "*) continue ;; esac
    [ -d "crates/$name" ] || continue
    found="$found$name "
    todo="$todo $(reads "$name")"
    printf '%s\n' -L "dependency=$at/$name/out/rlib"
  done
  printf '%s\n' --antt-project "$kit/rattle/logic/antt-project.json" --logic-built "$kit/logic_built" --jobs 1 --links boundary= --crate-type staticlib --backend llvm
}

# Proves boundary over the libraries that are built, and writes its static library.
build() { # TOOLCHAIN ARCHIVE
  local words
  mapfile -t words < <(building)
  mkdir -p "$work/kept"
  (cd crates/boundary && "$kit/bin/rattle" build "${words[@]}" --incremental "$work/kept" --toolchain "$1" -o "$2") >"$work/say" 2>&1 || { tail -n 20 "$work/say" >&2; fail "boundary was not built"; }
  grep -q '^logic=proved ' "$work/say" || fail "boundary is not said to be proved"
}

# The libraries below boundary, and the kit's own archive.
libraries() {
  mkdir -p target/staticlib
  if [ -n "$behind_ci" ]; then
    # a library that `rt ci` built has no stamp; one that has may be older than its sources
    local it
    for it in $(building | sed -n 's/^dependency=\(.*\/out\/rlib\)$/\1/p'); do
      [ -d "$it" ] || fail "rt ci left no library in $it"
      [ ! -e "$it/stamp" ] || fail "$it is none of rt ci's: call this without --behind-ci"
    done
    build "$kit/toolchain" "$PWD/target/staticlib/libboundary.a"
  else
    (cd crates/boundary && rt lib) >"$work/say" 2>&1 || { tail -n 20 "$work/say" >&2; fail "rt lib did not end well"; }
    tail -n 1 "$work/say" | grep -q '^logic=proved ' || fail "rt lib does not say that boundary is proved"
    cp crates/boundary/out/libboundary.a target/staticlib/libboundary.a
    cp -r crates/boundary/out/incremental "$work/kept"
  fi
}

# How the kit compiles; the archives differ from it in the target, and on aarch64 in what becomes of loops.
compile="-mllvm -no-trap-after-noreturn -ffunction-sections -fdata-sections -mllvm -trap-unreachable -mllvm -no-x86-call-frame-opt -mllvm -disable-machine-licm -mllvm -disable-postra-machine-licm -mllvm -sink-common-insts=false --no-default-config -no-canonical-prefixes -fintegrated-cc1 -fno-crash-diagnostics -Werror -c -x ir"
optimise="-fPIC -O3"

# An object goes by value through the functions that decide and write, and each that stays a function of its own copies it: 224 bytes. With the compiler's own measure a host call
# takes 8,608 bytes of stack on riscv64, with this one 6,528 (with 500 as many as before, with 700 a call 240 more), and the code is a tenth smaller on
# aarch64 and riscv64.
inline="-mllvm -inline-threshold=1000"

# The passes of the check stay functions of their own. Compiled into one they take each other's registers: 20,361 instructions in place of 17,429 for an early refusal on a
# full table, and more stack.
apart="check_objects::pass_over check_mappings::pass_over check_table::judge"

# Leaves the module in $work/module.bc and as text in $work/module.ll.
module() {
  rm -f "$work/module.bc" "$work/words"
  build "$work/toolchain" "$work/watched.a"
  local words
  words=$(grep -v -e '^--sysroot=' "$work/words" | tr '\n' ' ')
  [ "$words" = "--target=x86_64-unknown-linux-gnu -march=x86-64 $compile module.bc -o module.o $optimise " ] || fail "the kit compiles otherwise now: $words"
  cmp target/staticlib/libboundary.a "$work/watched.a" || fail "the kit's own archive is of another module"
  (cd "$work" && "$kit/toolchain/bin/clang" --target=x86_64-unknown-linux-gnu --no-default-config -x ir module.bc -S -emit-llvm -O0 -Xclang -disable-llvm-passes -o module.ll)
  # what is changed below, exactly as it is expected
  [ "$(grep -c '^attributes #0 = { nounwind "probe-stack"="inline-asm" "stack-probe-size"="3072" "target-cpu"="x86-64-v2" }$' "$work/module.ll")" = 1 ] || fail "the module's functions have other attributes"
  ! grep '^define ' "$work/module.ll" | grep -qv ' #0 {$' || fail "a function of the module has attributes of its own"
  ! grep -q '^!llvm.module.flags' "$work/module.ll" || fail "the module has flags"
  # how a struct goes by value differs between the targets; no entry takes one
  ! grep -q 'byval(' "$work/module.ll" || fail "a struct is passed by value"
  local f
  for f in $apart; do
    [ "$(grep -c "^define internal .*@\"$f\"(.* #0 {\$" "$work/module.ll")" = 1 ] || fail "the module has no function $f of its own"
  done
}

# What the compiler is told of each kernel: its target, its registers, and which edits the module needs beside its attributes.
target() { # ARCH
  loops=''
  case $1 in
  x86_64)
    triple=x86_64-unknown-linux-gnu words=-march=x86-64
    registers='"target-cpu"="x86-64" "target-features"="-mmx,-sse,-sse2,-sse3,-ssse3,-sse4.1,-sse4.2,-avx,-x87,+soft-float"'
    # the compiler counts on 16 else: a bit that it sets for a sum that it means is then wrong
    edits='$a !llvm.module.flags = !{!1000}\n!1000 = !{i32 1, !"override-stack-alignment", i32 8}'
    ;;
  aarch64) # also where the kernel lets no load be unaligned
    triple=aarch64-unknown-none-elf words=-mgeneral-regs-only
    registers='"target-features"="-neon,-fp-armv8,+strict-align"'
    # eight turns of the search of an allow list laid out one behind the other take 800 bytes of stack more
    loops=-fno-unroll-loops
    ;;
  riscv64)
    triple=riscv64-unknown-none-elf words='-march=rv64imac -mabi=lp64'
    registers='"target-features"="+m,+a,+c,-f,-d"'
    ;;
  esac
  [ "$1" != x86_64 ] || return 0
  local layout
  # shellcheck disable=SC2086
  layout=$(echo 'int x;' | "$kit/toolchain/bin/clang" --target=$triple $words --no-default-config -x c - -S -emit-llvm -o - | sed -n 's/^target datalayout = //p')
  edits="s/^target datalayout = .*/target datalayout = $layout/; s/^target triple = .*/target triple = \"$triple\"/"
  # riscv64 wants 32 bits given back with their sign
  edits="$edits; s/^define noundef i32 @iommufd_/define noundef signext i32 @iommufd_/"
}

# The header's version and the commit, for a kernel that wants to see what it has linked.
version_text() { # VERSION COMMIT
  cat <<S
	.section .rodata.iommufd_archive,"a",%progbits
	.balign 4
	.globl iommufd_archive_version
	.type iommufd_archive_version, %object
	.size iommufd_archive_version, 4
iommufd_archive_version:
	.long $1
	.globl iommufd_archive_commit
	.type iommufd_archive_commit, %object
	.size iommufd_archive_commit, $((${#2} + 1))
iommufd_archive_commit:
	.asciz "$2"
	.section .note.GNU-stack,"",%progbits
S
}

# The commit that is built, with a + where the tree differs from it.
commit() {
  local is
  is=$(git rev-parse HEAD 2>/dev/null) || { echo unknown; return; }
  [ -z "$(git status --porcelain -- crates crates.txt include archives)" ] || is=$is+
  echo "$is"
}

# One archive, in a folder of its own.
archive() { # ARCH FOLDER
  local triple words registers edits f
  target "$1"
  for f in $apart; do edits="/^define internal .*@\"$f\"\(/s/ #0 \{\$/ noinline #0 {/; $edits"; done
  sed -E "s/^attributes #0 = .*/attributes #0 = { nounwind noredzone \"probe-stack\"=\"inline-asm\" \"stack-probe-size\"=\"3072\" $registers }/; $edits" "$work/module.ll" >"$work/kernel.ll"
  [ "$(grep -c ' noinline #0 {$' "$work/kernel.ll")" = "$(echo "$apart" | wc -w)" ] || fail "a pass of the check is not kept apart"
  version_text "$version" "$commit" >"$work/version.s"
  rm -rf "$2"
  mkdir -p "$2"
  # shellcheck disable=SC2086
  (cd "$work" && rm -f libiommufd.a &&
    "$kit/toolchain/bin/clang" --target=$triple $words ${compile/-c -x ir/-S -emit-llvm -x ir} kernel.ll -o optimised.ll $optimise $loops $inline &&
    "$kit/toolchain/bin/clang" --target=$triple $words $compile optimised.ll -o iommufd.o $optimise $loops $inline &&
    "$kit/toolchain/bin/clang" --target=$triple $words --no-default-config -c -x assembler version.s -o version.o &&
    "$kit/toolchain/bin/llvm-ar" rcsD libiommufd.a iommufd.o version.o)
  mv "$work/libiommufd.a" "$2/"
}

version=$(sed -n 's/^#define IOMMUFD_VERSION \([0-9][0-9]*\)$/\1/p' include/iommufd.h)
[ -n "$version" ] || fail "the header has no IOMMUFD_VERSION"
commit=$(commit)
watched_toolchain
libraries
for ((n = 1; n <= builds; n++)); do
  module
  cp "$work/module.bc" "$work/module.$n"
  for arch in "$@"; do archive "$arch" "$work/built.$n/$arch"; done
done

if [ $builds = 2 ]; then
  cmp "$work/module.1" "$work/module.2" || fail "two builds gave two modules"
  diff -r "$work/built.1" "$work/built.2" || fail "two builds differ"
  echo "archives: two builds are alike, and the kit's own archive is of the same module"
fi

mkdir -p target/archives
echo "archives: module $(sha256sum <"$work/module.bc" | cut -c1-64), version $version, commit $commit"
for arch in "$@"; do
  rm -rf "target/archives/$arch"
  mv "$work/built.1/$arch" target/archives/
  echo "archives: target/archives/$arch/libiommufd.a $(wc -c <"target/archives/$arch/libiommufd.a") bytes, SHA-256 $(sha256sum <"target/archives/$arch/libiommufd.a" | cut -c1-64)"
done
