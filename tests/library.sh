#!/usr/bin/env bash
# library.sh: builds the library that C and Rust programs link, target/staticlib/libpio.a: what `rt lib` makes of crates/pio_c, under the
# name that they know. Proves what is not proved yet. Its last line is the directory.
set -eu
cd "$(dirname "$0")/.."
(cd crates/pio_c && rt lib)
mkdir -p target/staticlib
cp crates/pio_c/out/libpio_c.a target/staticlib/libpio.a
echo "$PWD/target/staticlib"
