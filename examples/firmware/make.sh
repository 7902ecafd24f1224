#!/bin/sh
# Builds the firmware with the kit's compiler and linker, and nothing of this machine's but the header of integers that gcc has.
#   make.sh NAME PROGRAM    NAME: aarch64 or armv7, whose archive `tools/build library --target NAME` has built
set -eu
here=$(cd "$(dirname "$0")" && pwd -P)
top=$here/../..
bin=$(sh "$top/tools/kit")/toolchain/bin
words=$(sh "$top/tools/target" words "$1")
parts=$2.parts
mkdir -p "$parts"
for source in main.c board.c "start-$1.S"; do
    # shellcheck disable=SC2086
    "$bin/clang" $words -std=c99 -O2 -Wall -Wextra -Wpedantic -Werror -ffreestanding -fno-builtin -nostdinc -isystem \
        "$(gcc -print-file-name=include)" "-I$top/include" -c "$here/$source" -o "$parts/${source%.*}.o"
done
"$bin/ld.lld" -z max-page-size=4096 -T "$here/board.ld" --gc-sections --fatal-warnings -o "$2" "$parts"/*.o "$top/build/lib/$1/libvsmd.a"
rm -r "$parts"
