#!/usr/bin/env bash
# bench.sh: what an event costs (the run, the lent step, the rival) and what a record of an export costs (the product, the rival), in two
# tables with a hash of the bytes as the floor.
set -eu
cd "$(dirname "$0")/.."
[ -f target/staticlib/libpio.a ] || tests/library.sh >&2
export PIO_LIB_DIR="$PWD/target/staticlib"
cargo build --quiet --release --offline --manifest-path rival/Cargo.toml --features library
exec rival/target/release/rival bench
