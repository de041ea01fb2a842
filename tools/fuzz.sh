#!/usr/bin/env bash
# fuzz.sh [SECONDS]: what `lacp` parses and writes by itself, each for SECONDS (20) under a coverage-guided fuzzer with address and undefined-behaviour
# checkers: messages of the kernel's, command lines, captures, frames of the tap. Installs Debian's clang and its runtime where they are missing.
set -eu
cd "$(dirname "$0")/.."
seconds=${1:-20}
tools/install.sh clang clang
ls "$(clang -print-runtime-dir)"/libclang_rt.fuzzer-*.a > /dev/null 2>&1 || tools/install.sh "no fuzzer's runtime" "libclang-rt-$(clang -dumpversion | cut -d. -f1)-dev"
mkdir -p target/fuzz/seeds
# what the kernel says of the interfaces here, and command lines, to begin with
python3 -B - << 'END'
import socket, struct
seeds = 'target/fuzz/seeds/'
asked = socket.socket(socket.AF_NETLINK, socket.SOCK_RAW, 0)
asked.send(struct.pack('IHHII', 32, 18, 0x301, 1, 0) + bytes(16))
open(seeds + 'links', 'wb').write(asked.recv(65536))
open(seeds + 'options', 'w').write('-k\n5\n--key\neth1=7\n--system\n02:00:00:00:00:01\n--json\n--every=0.5\n--for\n2.5\n--want\n1\n--table\nt\n--tap\nt0\neth0\neth1\n')
open(seeds + 'pcap', 'wb').write(b'\2a1\2a2\2b1\2b2' + b'\0\1\6abcdef')
open(seeds + 'traffic', 'wb').write(b'\7\0\0\0' + bytes(12) + b'\x08\0\x45' + bytes(8) + b'\x11' + bytes(30))
END

# build PROGRAM FOLDER PARSER: of the tool's files in FOLDER
build() {
    local sources=("tests/fuzz/$3.c" "$2/text.c")
    case $3 in
    traffic) sources+=("$2/tap.c" "$2/sockets.c") ;;
    *) sources+=("$2/$3.c") ;;
    esac
    clang -std=c11 -D_GNU_SOURCE -g -O1 -Wall -Wextra -Werror -Iinclude "-I$2" -fsanitize=fuzzer,address,undefined -fno-sanitize-recover=all "${sources[@]}" -o "$1"
}

# fuzz PROGRAM PARSER: from its seed, for some time
fuzz() {
    rm -rf "$1.found"
    mkdir "$1.found"
    cp "target/fuzz/seeds/$2" "$1.found/seed"
    "$1" -max_total_time="$seconds" -max_len=4096 -print_final_stats=1 -artifact_prefix=target/fuzz/ "$1.found" > "$1.log" 2>&1
}

for parser in links options pcap traffic; do
    build "target/fuzz/$parser" lacp "$parser"
    fuzz "target/fuzz/$parser" "$parser" || { tail -30 "target/fuzz/$parser.log"; echo "fuzz: $parser failed" && exit 1; }
    echo "fuzz: $parser: $(sed -n 's/.*number_of_executed_units: *//p' "target/fuzz/$parser.log") inputs, nothing found"
done

# planted PARSER FILE OLD NEW: the same must find a fault that is planted in a copy
planted() {
    rm -rf target/fuzz/lacp
    cp -r lacp target/fuzz/lacp
    python3 - "target/fuzz/lacp/$2" "$3" "$4" << 'END'
import pathlib, sys
file, old, new = sys.argv[1:]
text = pathlib.Path(file).read_text()
assert text.count(old) == 1, (file, old)
pathlib.Path(file).write_text(text.replace(old, new))
END
    build target/fuzz/planted target/fuzz/lacp "$1"
    ! fuzz target/fuzz/planted "$1" || { echo "fuzz: not found in $2: $4" && exit 1; }
    echo "fuzz: $1: a planted fault is found"
}
planted links links.c ' || attribute.rta_len > length - at' ''
planted options options.c 'if (strcmp(o->interfaces[i], word) == 0) {' 'if (i > 1 && strcmp(o->interfaces[i], word) == 0) {'
planted pcap pcap.c '(4 - length % 4) % 4' '(3 - length % 4) % 4'
planted traffic tap.c ' && header >= 20 && length >= header + 4' ''
rm -f target/fuzz/crash-*
