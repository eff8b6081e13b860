#!/bin/sh
# The archive exports exactly the functions that the header declares, and wants nothing from outside.
set -eu
cd "$(dirname "$0")/.."
lib=${LIB:-build/libmishkeldur.a}
work=$(mktemp -d)
trap 'rm -rf "$work"' EXIT

# The preprocessor takes away comments and macros; what is then followed by a bracket is a declaration.
${CC:-cc} -E -P -Iinclude include/mishkeldur.h | grep -o 'mk_[a-z0-9_]* *(' | tr -d ' (' | sort > "$work/declared"
nm -g --defined-only "$lib" | awk 'NF == 3 { print $3 }' | sort > "$work/exported"
nm -u "$lib" | awk 'NF == 2 { print $2 }' | sort -u > "$work/undefined"

bad=0
if ! diff "$work/declared" "$work/exported" > "$work/diff"; then
    echo "symbols: header (<) and archive (>) differ:"
    grep '^[<>]' "$work/diff"
    bad=1
fi
if [ -s "$work/undefined" ]; then
    echo "symbols: the archive wants from outside:"
    cat "$work/undefined"
    bad=1
fi
[ "$bad" = 0 ] || exit 1
echo "symbols: passed, $(wc -l < "$work/declared") functions"
