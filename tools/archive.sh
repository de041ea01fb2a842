#!/usr/bin/env bash
# archive.sh [TARGET]: target/TARGET/libmyrkosti.a, the library for C programs on TARGET, which is the machine at hand if none is named:
#   x86_64-linux-gnu    the archive that tools/library.sh has proved and built, itself
#   aarch64-linux-gnu, riscv64-linux-gnu, and aarch64-none-elf, which is freestanding
#                       the module of the proved archive compiled for it, by the same compiler with the same words
# There has to be the proved archive. If the module, compiled for x86-64, is not its code octet for octet, this stops: then something else was compiled.
set -eu
cd "$(dirname "$0")/.."
target=${1:-$(uname -m)-linux-gnu}
proved=target/staticlib/libmyrkosti.a
work=$PWD/target/archive
. tools/archive/module.sh

words_for "$target"
rm -f "target/$target/libmyrkosti.a"
[ -f "$proved" ] || { echo "$proved is missing: prove it first, with tools/library.sh" >&2 && exit 1; }
rm -rf "$work"
mkdir -p "target/$target" "$work"
if [ "$target" = x86_64-linux-gnu ]; then
    cp "$proved" "$work/libmyrkosti.a"
else
    cp target/staticlib/library.ll "$work/"
    mkdir "$work/x86-64" "$work/$target"
    compile_module x86_64-linux-gnu "$work" "$work/x86-64/myrkosti.o"
    python3 -B tools/archive/check.py same "$proved" "$work/x86-64/myrkosti.o"
    compile_module "$target" "$work" "$work/$target/myrkosti.o"
    pack "$work/$target/myrkosti.o" "$work/libmyrkosti.a"
fi
sizes=$(python3 -B tools/archive/check.py alone "$work/libmyrkosti.a")
mv "$work/libmyrkosti.a" "target/$target/"
echo "target/$target/libmyrkosti.a: $sizes"
