#!/bin/sh
# Installs into a temporary prefix, and builds and runs the first example against it, outside the tree, in C and in C++.
set -eu
cd "$(dirname "$0")/.."
make=${MAKE:-make}
command -v pkg-config > /dev/null || { echo "install: pkg-config is missing (Debian: pkg-config)"; exit 1; }
work=$(mktemp -d)
trap 'rm -rf "$work"' EXIT

want="mishkeldur $(sed -n 's/^#define MK_VERSION "\(.*\)"$/\1/p' include/mishkeldur.h): -60000000 microseconds"

try() { # compiler, standard, file
    command -v "$1" > /dev/null || { echo "install: no $1 here, left out"; return 0; }
    # The words of pkg-config are words, and stand behind the source.
    # shellcheck disable=SC2046
    (cd "$work" && "$1" "$2" -Wall -Wextra -Wpedantic -Werror -o "first-$1" "$3" $(pkg-config --cflags --libs mishkeldur))
    got=$("$work/first-$1")
    [ "$got" = "$want" ] || { echo "install: $1's example printed '$got', not '$want'"; exit 1; }
    echo "install: $1: $got"
}

$make -s install PREFIX="$work/prefix" ARCHIVE="${ARCHIVE:-../crates/mishkeldur/out/libmishkeldur.a}" > /dev/null
cp examples/first.c "$work/first.c"
cp examples/first.c "$work/first.cc"
PKG_CONFIG_PATH="$work/prefix/lib/pkgconfig"
export PKG_CONFIG_PATH
try gcc -std=c11 first.c
try clang -std=c11 first.c
try g++ -std=c++17 first.cc
try clang++ -std=c++17 first.cc

# Staged: the files go below DESTDIR, and the .pc names the prefix alone.
$make -s install PREFIX=/opt/mk DESTDIR="$work/stage" ARCHIVE="${ARCHIVE:-../crates/mishkeldur/out/libmishkeldur.a}" > /dev/null
grep -qx 'prefix=/opt/mk' "$work/stage/opt/mk/lib/pkgconfig/mishkeldur.pc" || { echo "install: the staged .pc names another prefix"; exit 1; }
[ "$(find "$work/stage" -type f | wc -l)" = 3 ] || { echo "install: not three files staged"; exit 1; }
echo "install: passed"
