#!/usr/bin/env bash
# Programs for TARGET, which is x86_64-linux-gnu, aarch64-linux-gnu or riscv64-linux-gnu, and the machine at hand where it is not set. On a machine that is
# another, Debian's cross compiler compiles them and Debian's emulator runs them; what is missing is installed here.
# Sourced in the repository's folder, this gives
#   $archive                           the library: for x86-64 the proved archive itself, otherwise what tools/archive.sh makes of it, made here if need be
#   compile SOURCE PROGRAM [WORDS..]   compiles a C program with the header and the library; WORDS are further words to the compiler
#   compile_cpp ..                     the same as C++, of which the program may use nothing but the language: it is linked as C, since Debian's
#                                      libm.a for another machine's programs, which C++ asks for, names files that are elsewhere
#   "${run[@]}" PROGRAM                runs it
#   $compiler, ${tool}objcopy          the compiler, and other tools for such programs
set -eu
own=$(uname -m)-linux-gnu
TARGET=${TARGET:-$own}
case $TARGET in
x86_64-linux-gnu) cross=x86-64-linux-gnu debian=amd64 emulator=qemu-x86_64 ;;
aarch64-linux-gnu) cross=$TARGET debian=arm64 emulator=qemu-aarch64 ;;
riscv64-linux-gnu) cross=$TARGET debian=riscv64 emulator=qemu-riscv64 ;;
*) echo "no programs for $TARGET: x86_64-linux-gnu, aarch64-linux-gnu or riscv64-linux-gnu" >&2 && exit 1 ;;
esac
if [ "$TARGET" = "$own" ]; then
    tool='' run=()
    tools/install.sh gcc gcc libc6-dev
else
    tool=$TARGET- run=("$emulator")
    tools/install.sh "${tool}gcc" "gcc-$cross" "libc6-dev-$debian-cross"
    tools/install.sh "$emulator" qemu-user
fi
compiler=${tool}gcc
proved=target/staticlib/libmyrkosti.a
archive=$proved
[ -f "$proved" ] || tools/library.sh
if [ "$TARGET" != x86_64-linux-gnu ]; then
    archive=target/$TARGET/libmyrkosti.a
    [ "$archive" -nt "$proved" ] || tools/archive.sh "$TARGET"
fi
warned() { # COMPILER WORDS..
    "$1" -Wall -Wextra -Wpedantic -Werror -Iinclude "${@:2}"
}
compile() {
    mkdir -p "$(dirname "$2")"
    warned "$compiler" -static -std=c11 "${@:3}" "$1" "$archive" -o "$2"
}
compile_cpp() {
    tools/install.sh "${tool}g++" "g++${tool:+-$cross}"
    warned "${tool}g++" -x c++ "${@:3}" -c "$1" -o "$2.o"
    compile "$2.o" "$2"
}
