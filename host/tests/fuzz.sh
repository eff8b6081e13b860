#!/bin/sh
# A bounded run of the fuzz target; a longer one by hand: FUZZ_SECONDS=3600 sh host/tests/fuzz.sh
set -eu
cd "$(dirname "$0")/.."
lib=${LIB:-build/libmishkeldur.a}
clang=${CLANG:-clang}
seconds=${FUZZ_SECONDS:-20}
mkdir -p build/fuzz/corpus

build() { "$clang" -std=c11 -O1 -g -Wall -Wextra -Wno-unused-function -fsanitize=fuzzer,undefined -Iinclude -o build/fuzz/fuzz tests/fuzz/fuzz.c "$lib"; }
if ! build 2> build/fuzz/log; then
    # libFuzzer's runtime is a package of its own
    if [ "$(id -u)" = 0 ] && command -v apt-get > /dev/null; then
        version=$("$clang" -dumpversion 2> /dev/null | cut -d. -f1)
        echo "fuzz: installing clang and libclang-rt-${version:-14}-dev"
        install() { DEBIAN_FRONTEND=noninteractive apt-get install -y --no-install-recommends clang "libclang-rt-${version:-14}-dev" > /dev/null 2>&1; }
        install || { apt-get update > /dev/null 2>&1 || true; install; } || true
        build || { cat build/fuzz/log; echo "fuzz: the target can't be built"; exit 1; }
    else
        cat build/fuzz/log
        echo "fuzz: please install clang and its libFuzzer (Debian: libclang-rt-14-dev)"
        exit 1
    fi
fi
build/fuzz/fuzz -seed=1 -max_len=512 -max_total_time="$seconds" -print_final_stats=1 build/fuzz/corpus > build/fuzz/log 2>&1 || {
    tail -n 30 build/fuzz/log
    echo "fuzz: FAILED"
    exit 1
}
echo "fuzz: passed, $(sed -n 's/^stat::number_of_executed_units: *//p' build/fuzz/log) executions in $seconds seconds, nothing found"
