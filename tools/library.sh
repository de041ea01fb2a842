#!/usr/bin/env bash
# library.sh [--over-ci]: proves the library and builds its archive for C programs, by the kit's `rt lib`, in target/staticlib:
#   libmyrkosti.a   the proved archive, for any x86-64 with Linux
#   library.ll      the module that it is compiled from, to be compiled for other machines (tools/archive/module.sh)
#   words           the words that the kit's compiler was called with
# With --over-ci the libraries below are taken as the `rt ci` just before has proved and built them, in a checkout where nothing was built before; only the
# crate `myrkosti` is proved once more.
set -eu
cd "$(dirname "$0")/.."
. tools/archive/module.sh
built=target/staticlib
rm -rf "$built"
mkdir -p "$built"
# Each x86-64 has what the first of the kit's processors has; the kit's default, x86-64-v2, asks for more.
(cd crates/myrkosti && python3 -B ../../tools/archive/kept.py "../../$built" "$@" lib --cpu x86-64)
as_text "$built/module.bc" "$built/module.ll"
# RISC-V wants every number of 32 bits extended by its sign, whatever it says; for the others the word says nothing.
sed -i 's/^define noundef i32 @/define noundef signext i32 @/' "$built/module.ll"
if grep '^define ' "$built/module.ll" | grep -v '^define internal ' | grep -v '^define noundef signext i32 @myrkosti_'; then
    echo 'an exported function of another form' >&2
    exit 1
fi
mv "$built/module.ll" "$built/library.ll"
rm "$built/module.bc"
# The archive last: where it is, the other two are.
cp crates/myrkosti/out/libmyrkosti.a "$built/libmyrkosti.a"
echo "$built/libmyrkosti.a"
