#!/usr/bin/env bash
# targets.sh [CALLS]: each archive that tools/archive.sh makes, on its machine or under an emulator: the C test, the fragments by which one links it, and a
# comparison with the model over CALLS calls (ten million); the freestanding one on a bare machine.
set -eu
cd "$(dirname "$0")/.."
for TARGET in x86_64-linux-gnu aarch64-linux-gnu riscv64-linux-gnu; do
    export TARGET
    echo "---- $TARGET"
    tools/archive.sh "$TARGET"
    tools/c-test.sh
    tools/link-test.sh
    tools/compare.sh --seed 43 --calls "${1:-10000000}"
done
echo '---- aarch64-none-elf'
tools/archive.sh aarch64-none-elf
tools/bare-test.sh
