#!/usr/bin/env bash
# sessions.sh [COUNT [SEED]]: random sessions through the library and through the rival, compared after every event.
set -eu
cd "$(dirname "$0")/.."
[ -f target/staticlib/libpio.a ] || tests/library.sh >&2
export PIO_LIB_DIR="$PWD/target/staticlib"
cargo build --quiet --release --offline --manifest-path rival/Cargo.toml --features library
exec rival/target/release/rival sessions "$@"
