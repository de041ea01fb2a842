#!/usr/bin/env bash
# link-test.sh: examples/loop.c built for TARGET (tools/target.sh) as docs/GUIDE-FIRMWARE.md tells a firmware engineer to: by make and by CMake.
set -eu
cd "$(dirname "$0")/.."
. tools/target.sh
tools/install.sh cmake cmake
[ "target/$TARGET/libmyrkosti.a" -nt "$proved" ] || tools/archive.sh "$TARGET"
work=$PWD/target/link/$TARGET
rm -rf "$work"
mkdir -p "$work/make" "$work/cmake"

make --silent -C "$work/make" -f "$PWD/examples/make/Makefile" TARGET="$TARGET" CC="$compiler" LDFLAGS=-static
cmake -S examples/cmake -B "$work/cmake" -DMYRKOSTI_TARGET="$TARGET" -DCMAKE_C_COMPILER="$compiler" -DCMAKE_EXE_LINKER_FLAGS=-static > "$work/cmake.log"
cmake --build "$work/cmake" >> "$work/cmake.log"
for by in make cmake; do
    "${run[@]}" "$work/$by/loop" | diff examples/loop.txt -
done
echo "examples/loop.c for $TARGET: by make and by CMake as in examples/loop.txt"
