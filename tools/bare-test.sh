#!/usr/bin/env bash
# bare-test.sh: the freestanding archive, target/aarch64-none-elf/libmyrkosti.a, in a program without a system or a C library (tests/bare), on a bare
# machine of qemu's. Then the archive for Linux in its place, which uses registers that are off there: that must be seen.
set -eu
cd "$(dirname "$0")/.."
TARGET=aarch64-linux-gnu
. tools/target.sh
tools/install.sh qemu-system-aarch64 qemu-system-arm
bare=target/aarch64-none-elf/libmyrkosti.a
[ "$bare" -nt "$proved" ] || tools/archive.sh aarch64-none-elf
mkdir -p target/bare

# build ARCHIVE PROGRAM: fails if anything is asked for beside what tests/bare has
build() {
    warned "$compiler" -std=c11 -O2 -ffreestanding -nostdlib -static -no-pie -fno-pie -mgeneral-regs-only -mstrict-align -fno-stack-protector \
        -fno-tree-loop-distribute-patterns -Wl,-T,tests/bare/bare.ld,--gc-sections,--build-id=none,--no-warn-rwx-segments \
        tests/bare/start.S tests/bare/bare.c tests/bare/memory.c "$1" -o "$2"
}
on_bare_machine() { # PROGRAM
    timeout 60 qemu-system-aarch64 -M virt -cpu cortex-a53 -m 16 -nodefaults -display none \
        -semihosting-config enable=on,target=native -kernel "$1" 2>&1
}

build "$bare" target/bare/bare
on_bare_machine target/bare/bare

build "$archive" target/bare/for-linux
if on_bare_machine target/bare/for-linux > target/bare/for-linux.log || ! grep -q '^bare: trapped$' target/bare/for-linux.log; then
    echo 'failed: floating-point registers were used, and not seen' && exit 1
fi
echo 'bare: the archive for Linux is seen to use registers that are off'
