#!/usr/bin/env bash
# compare.sh [--bridge] WORDS..: drives the library for TARGET (tools/target.sh) and the independent model of rust/ through random calls, every octet
# compared. WORDS go to it, as --seed 7 --calls 50000 or --seconds 60. The library of the machine at hand is linked; that of another, or with --bridge this
# one too, is in a process of its own (rust/myrkosti/bridge), which lends it memory that ends where memory ends.
set -eu
cd "$(dirname "$0")/.."
bridge=no
if [ "${1:-}" = --bridge ]; then
    bridge=yes
    shift
fi
. tools/target.sh
compare=(cargo run --quiet --release --manifest-path rust/Cargo.toml -p compare)
if [ "$TARGET" != "$own" ] || [ "$bridge" = yes ]; then
    export MYRKOSTI_LIB="$PWD/${archive%/*}" MYRKOSTI_CC="$compiler" MYRKOSTI_EMULATOR="${run[*]}"
    compare+=(--target-dir "rust/target/bridge/$TARGET") # so that no build undoes another
fi
"${compare[@]}" -- "$@"
