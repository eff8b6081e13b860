#!/bin/sh
# Sets up, builds and runs: every wrong rule must be noticed, and no difference found. MISHKELDUR_ARCHIVE as in README.md.
set -eu
cd "$(dirname "$0")"
./setup.sh
cargo build --release --offline -j1 --quiet
target/release/oracle --all-wrong | tail -1
target/release/oracle "$@"
