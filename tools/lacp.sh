#!/usr/bin/env bash
# lacp.sh [--checked]: builds target/lacp/lacp for the machine at hand, from lacp/ and the library's archive (tools/target.sh); with --checked
# target/lacp/lacp-checked, with address and undefined-behaviour checkers in it.
set -eu
cd "$(dirname "$0")/.."
unset TARGET
. tools/target.sh
words=(-std=c11 -D_GNU_SOURCE -O2 -g) program=target/lacp/lacp
if [ "${1:-}" = --checked ]; then
    words+=(-fsanitize=address,undefined -fno-sanitize-recover=all -fno-omit-frame-pointer) program=target/lacp/lacp-checked
fi
mkdir -p target/lacp
warned "$compiler" "${words[@]}" -Wshadow -Wconversion -Wstrict-prototypes -Wmissing-prototypes -Wwrite-strings lacp/*.c "$archive" -o "$program"
echo "$program"
