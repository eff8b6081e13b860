#!/bin/sh
# Makes ready what the oracle is built from: Debian's crates, and under made/ the original files as packages.
#   made/mysql_common     the original files, byte for byte
#   made/mysql_common_m3  the same with MAX_PAYLOAD_LEN 3; made/mysql_common_m7 with 7
set -eu
cd "$(dirname "$0")"

registry=/usr/share/cargo/registry
packages="librust-bytes-dev librust-byteorder-dev librust-flate2-dev librust-flate2+miniz-oxide-dev librust-thiserror-dev"

say() { echo "setup: $*"; }
fail() { echo "setup: $*" >&2; exit 1; }

here() {
    for crate in bytes byteorder flate2 miniz_oxide thiserror; do
        ls -d "$registry/$crate"-[0-9]* >/dev/null 2>&1 || return 1
    done
}

command -v cargo >/dev/null 2>&1 || fail "cargo is missing: Rust 1.87 or later is needed (the original uses is_multiple_of, edition 2024)"
minor=$(rustc --version | sed -n 's/^rustc 1\.\([0-9]*\)\..*/\1/p')
[ "${minor:-0}" -ge 87 ] || fail "$(rustc --version) is too old: 1.87 or later is needed"

if ! here; then
    if [ "$(id -u)" = 0 ] && command -v apt-get >/dev/null 2>&1; then
        say "installing $packages"
        # shellcheck disable=SC2086
        DEBIAN_FRONTEND=noninteractive apt-get install -y --no-install-recommends $packages >setup.log 2>&1 ||
            { apt-get update >>setup.log 2>&1 &&
                DEBIAN_FRONTEND=noninteractive apt-get install -y --no-install-recommends $packages >>setup.log 2>&1; } ||
            { tail -5 setup.log >&2; fail "Debian's crates can't be had here, so the original can't be run"; }
        rm -f setup.log
    else
        fail "Debian's crates are missing and this is not root with apt-get. Install: $packages"
    fi
    here || fail "the packages are installed, but $registry lacks one of the crates"
fi

(cd vendor && sha256sum --quiet -c SHA256SUMS) || fail "vendor/ is not what was published"

# make NAME PAYLOAD: a package of the original files, with the largest payload of a chunk changed if one is given
make_package() {
    name=$1
    dir=made/$name
    rm -rf "$dir"
    mkdir -p "$dir"
    cp -R vendor/src "$dir/src"
    cp vendor/LICENSE-* "$dir/"
    cp absent/lib.rs absent/bitflags_ext.rs absent/misc.rs "$dir/src/"
    for empty in proto/sync_framed value/convert value/json; do
        echo '// Empty: not needed here.' >"$dir/src/$empty.rs"
    done
    cat >"$dir/Cargo.toml" <<TOML
[package]
name = "$name"
version = "0.38.2"
edition = "2024"
publish = false

[dependencies]
byteorder = "1"
bytes = "1"
flate2 = "1"
thiserror = "1"

[lib]
doctest = false
TOML
    if [ $# -gt 1 ]; then
        sed -i "s/^pub static MAX_PAYLOAD_LEN: usize = 16_777_215;\$/pub static MAX_PAYLOAD_LEN: usize = $2;/" "$dir/src/constants.rs"
        [ "$(diff vendor/src/constants.rs "$dir/src/constants.rs" | grep -c '^>')" = 1 ] || fail "constants.rs: not exactly one line changed"
    fi
    for file in $(cd vendor && find src -name '*.rs'); do
        [ $# -gt 1 ] && [ "$file" = src/constants.rs ] && continue
        cmp -s "vendor/$file" "$dir/$file" || fail "$dir/$file differs from the original"
    done
}

make_package mysql_common
make_package mysql_common_m3 3
make_package mysql_common_m7 7
say "ready: made/mysql_common (as published), made/mysql_common_m3 and _m7 (one line changed)"
