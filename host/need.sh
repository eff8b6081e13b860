#!/bin/sh
# What the C side is built with: a compiler, make, ar, pkg-config and libcrypto's headers. What is missing is installed as Debian's
# packages where that can be done, and named where it can't.
set -eu
have() { command -v "$1" > /dev/null 2>&1; }
have_libcrypto() { printf '#include <openssl/evp.h>\n' | "${CC:-cc}" -E - > /dev/null 2>&1; }

missing=
have "${CC:-cc}" || missing="$missing gcc libc6-dev"
have make || missing="$missing make"
have ar || missing="$missing binutils"
have pkg-config || missing="$missing pkg-config"
have_libcrypto || missing="$missing libssl-dev"
[ -n "$missing" ] || exit 0

if [ "$(id -u)" != 0 ] || ! have apt-get; then
    echo "please install:$missing (Debian: apt-get install$missing)" >&2
    exit 1
fi
echo "installing$missing" >&2
# shellcheck disable=SC2086
get() { DEBIAN_FRONTEND=noninteractive apt-get install -y --no-install-recommends $missing > /dev/null 2>&1; }
# Package lists may be there already: fetch them only if the first try fails.
get || { apt-get update > /dev/null 2>&1 || true; get; } || { echo "could not be installed:$missing" >&2; exit 1; }
