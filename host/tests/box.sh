#!/bin/sh
# The box's figures: text and rodata, the deepest stack, the state, and their sum with the box's buffers against 2 MiB.
set -eu
cd "$(dirname "$0")/.."
lib=${LIB:-build/libmishkeldur.a}
mkdir -p build/box
${CC:-cc} -std=c11 -O2 -Wall -Wextra -Iinclude -o build/box/stack tests/box/stack.c "$lib"
build/box/stack > build/box/log || { cat build/box/log; echo "box: an entry needs more than 2,048 bytes of stack"; exit 1; }
stack=$(sed -n 's/^deepest: \([0-9]*\) .*/\1/p' build/box/log)
# what a linker would keep of the archive: code and constants
code=$(size -A "$lib" | awk '$1 ~ /^\.(text|rodata)/ { n += $2 } END { print n }')
sum=$((code + stack + 128 + 65536 + 122884 + 61440))
echo "box: text and rodata $code, deepest stack $stack, state 128, receive buffer 65536, staging 122884, packet buffer 61440"
echo "box: $sum bytes of 2097152"
[ "$code" -le 49152 ] || { echo "box: text and rodata are over 48 KiB"; exit 1; }
[ "$sum" -le 2097152 ] || { echo "box: over 2 MiB"; exit 1; }
