#!/usr/bin/env bash
# tests/link.sh LIBDIR: links LIBDIR/libpio.a into the C and the Rust program of this folder, runs both and compares what they print
# with tests/session.txt. Prints 'link: C and Rust agree'; anything else exits non-zero. Writes only to a temporary directory.
set -eu
if [ $# -ne 1 ] || [ ! -f "$1/libpio.a" ]; then
    echo "usage: tests/link.sh LIBDIR, the directory of libpio.a" >&2
    exit 2
fi
library=$(cd "$1" && pwd -P)
tests=$(cd "$(dirname "$0")" && pwd -P)
work=$(mktemp -d)
trap 'rm -rf "$work"' EXIT

"${CC:-gcc}" -std=c11 -O2 -Wall -Wextra -Werror -I "$tests/../include" "$tests/c/session.c" "$library/libpio.a" -o "$work/session"
"$work/session" >"$work/c.txt"
diff "$tests/session.txt" "$work/c.txt"

PIO_LIB_DIR=$library RUSTFLAGS="-D warnings" CARGO_TARGET_DIR=$work/target \
    cargo build --quiet --release --offline --locked --manifest-path "$tests/rust/Cargo.toml"
"$work/target/release/session" >"$work/rust.txt"
diff "$tests/session.txt" "$work/rust.txt"

echo "link: C and Rust agree"
