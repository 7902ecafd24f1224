#!/bin/sh
# Compiles C programs for a target of the library and runs them, where this machine can: x86-64 as they are, the others under an emulator.
#
#   target.sh NAME missing                            print what is missing here to do so; nothing where nothing is
#   target.sh NAME cc OUT SOURCE.. [FLAG..] ARCHIVE.a   compile and link
#   target.sh NAME run PROGRAM [WORD..]               run it
#   target.sh NAME emulator                           print the emulator of programs for it, where there is one
set -eu
fail() {
    printf 'target.sh: %s\n' "$*" >&2
    exit 2
}

name=$1 what=$2
shift 2
case $name in
x86-64-bare) emulator= compilers= ;;
aarch64) emulator=qemu-aarch64 compilers=aarch64-linux-gnu-gcc ;;
riscv64) emulator=qemu-riscv64 compilers=riscv64-linux-gnu-gcc ;;
armv7) emulator=qemu-arm compilers='arm-linux-gnueabihf-gcc arm-linux-gnueabi-gcc' ;;
*) fail "no such target: $name" ;;
esac

first_of() { # PROGRAM..
    for program in "$@"; do
        if command -v "$program"; then return; fi
    done
}
emulated() { first_of "$emulator" "$emulator-static"; }
# shellcheck disable=SC2086
compiler() { first_of $compilers; }

case $what in
emulator) emulated ;;
missing)
    # the kit is for x86-64 machines, which run such code as it is
    if [ "$name" != x86-64-bare ]; then
        [ -n "$(compiler)" ] || printf '%s\n' "$compilers" | sed 's/ / or /g'
        [ -n "$(emulated)" ] || printf '%s\n' "$emulator"
    fi
    ;;
cc)
    out=$1
    shift
    [ "$name" != x86-64-bare ] || exec "${CC:-cc}" -O1 -o "$out" "$@"
    # static, so that the emulator wants no C library beside the program
    exec "$(compiler)" -static -O1 -o "$out" "$@"
    ;;
run)
    [ "$name" != x86-64-bare ] || exec "$@"
    exec "$(emulated)" "$@"
    ;;
*) fail "missing, cc, run or emulator is wanted" ;;
esac
