#!/usr/bin/env bash
# The library's module, to be compiled for any machine. The kit builds a static library for x86-64 alone, so its module is kept on its way to the kit's
# compiler (tools/archive/kept.py). Sourced in the repository's folder, this gives
#   as_text MODULE TEXT                           a module as text, without the words that name a machine
#   unproved_module REPOSITORY WORK               WORK/library.ll: the module of the library of another folder, which need not prove. `rt try` compiles a
#                                                 program without its proofs, and puts checks into it, as of each index. So the library in the folder
#                                                 becomes a program there, which calls each function once, and the functions of its module are exported
#   compile_module TARGET WORK OBJECT [WORDS..]   compiles WORK/library.ll for TARGET, with the words with which the kit has compiled the proved archive,
#                                                 which is made here if need be (tools/library.sh); WORDS are further words to the compiler
#   pack OBJECT ARCHIVE                           an archive of it
set -eu
rattle_tools=$(dirname "$(dirname "$(readlink -f "$(command -v rt)")")")/toolchain/bin

as_text() {
    "$rattle_tools/clang" -S -emit-llvm -x ir "$1" -O0 -Xclang -disable-llvm-passes -Wno-override-module -o "$2"
    sed -i -e '/^target /d' -e 's/ "target-cpu"="x86-64"//' "$2"
}

unproved_module() {
    local library=$1/crates/myrkosti/src/lib.rt
    sed -i 's/^myrkosti staticlib:/myrkosti:/' "$1/crates.txt"
    python3 -B tools/archive/calls.py "$library" > "$1/crates/myrkosti/src/main.rt"
    rm "$library"
    rm -rf "$2"
    mkdir -p "$2"
    local kept=$PWD/tools/archive/kept.py into
    into=$(cd "$2" && pwd)
    (cd "$1/crates/myrkosti" && python3 -B "$kept" "$into" try < /dev/null > "$into/try.log" 2>&1) || { cat "$into/try.log" >&2; return 1; }
    as_text "$2/module.bc" "$2/library.ll"
    sed -i -e 's/^define i32 @main(/define internal i32 @main(/' -e 's/@"myrkosti::\(myrkosti_[a-z_]*\)"/@\1/g' \
        -e '/^define internal noundef i32 @myrkosti_/{s/ internal noundef / noundef signext /;s/ zeroext//g}' "$2/library.ll"
}

# The clang's words for TARGET, in $machine. A freestanding program may run before anything is set up: then floating-point registers trap, and so
# does a number that does not lie at a multiple of its size. So that archive uses neither.
words_for() { # TARGET
    case $1 in
    x86_64-linux-gnu) machine=(--target=x86_64-unknown-linux-gnu -march=x86-64) ;;
    aarch64-linux-gnu) machine=(--target=aarch64-unknown-linux-gnu -march=armv8-a) ;;
    riscv64-linux-gnu) machine=(--target=riscv64-unknown-linux-gnu -march=rv64gc -mabi=lp64d) ;;
    aarch64-none-elf) machine=(--target=aarch64-none-elf -march=armv8-a -mgeneral-regs-only -mstrict-align) ;;
    *) echo "no such target: $1 (x86_64-linux-gnu, aarch64-linux-gnu, riscv64-linux-gnu, aarch64-none-elf)" >&2 && return 1 ;;
    esac
}

# The words with which the kit's compiler has made the proved archive, in $words, but for those that name a machine or a file.
words_of_kit() {
    local given n
    [ -f target/staticlib/libmyrkosti.a ] || tools/library.sh
    mapfile -t given < target/staticlib/words
    words=()
    for ((n = 0; n < ${#given[@]}; n++)); do
        case ${given[n]} in
        --target=* | --sysroot=* | -march=* | -c | module.bc) ;;
        -x | -o) n=$((n + 1)) ;;
        *) words+=("${given[n]}") ;;
        esac
    done
}

# How memory is laid out is the machine's own, as this clang has it for a C program.
compile_module() {
    local machine words
    words_for "$1"
    words_of_kit
    { "$rattle_tools/clang" "${machine[@]}" -S -emit-llvm -x c /dev/null -o - | grep '^target '; cat "$2/library.ll"; } > "$2/$1.ll"
    "$rattle_tools/clang" "${machine[@]}" "${words[@]}" -c -x ir "$2/$1.ll" -o "$3" "${@:4}"
}

pack() {
    rm -f "$2"
    "$rattle_tools/llvm-ar" rcs "$2" "$1"
}
