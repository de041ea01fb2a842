#!/usr/bin/env bash
# yesterday.sh: two libraries of before for TARGET (tools/target.sh), in target/yesterday/TARGET/, to test what becomes of a table when new firmware is
# loaded under it:
#   yesterday.o   of version 0x0100: its tables are of the old form, and its receive and fetch take no counters
#   lately.o      of version 0x0200: its tables are of the form of today
# Neither can ask for a Marker, and their tables end without the octets that tell of one; nor do they say why. They are the library of crates/ with `control` or
# `whole` in the place of `asked`, without the calls that their versions have not, and without proofs (tools/archive/module.sh). Their functions
# have `yesterday_` or `lately_` before their names, so that one program can have all three; tests/c/yesterday.h declares them.
set -eu
cd "$(dirname "$0")/.."
. tools/target.sh
. tools/archive/module.sh
folder=$PWD/target/yesterday/$TARGET
rm -rf "$folder"

# of the library's source: what stands before the moves, which are the last of the calls, and what neither asks for a Marker nor says why
before_moves() { sed '/---- moves between the two forms of a table/,$d'; }
without_later() { sed -e '/^\/\/ Asks for a Marker on a port/,/^}/d' -e '/^\/\/ Why /,/^}/d'; }
# where today's functions are lent counters, these count nothing
without_counters() {
    sed -e '/^    counters: &mut Counters,$/d' -e '/^    \*counters = /d'
}

# begin NAME VERSION: a copy of the library, to be changed
begin() {
    work=$folder/$1
    . tools/other-library.sh
    library=$copy/crates/myrkosti/src/lib.rt
    call_it "$2"
    change myrkosti/src/lib.rt 'asked::old_table_size(' 'table::layout::table_size('
}

# leave COMMAND: what that leaves of the library's source
leave() {
    "$1" < "$library" > "$copy/left"
    mv "$copy/left" "$library"
}

# finish NAME CRATE: the library of CRATE's calls
finish() {
    sed -i "s/\<asked::/$2::/" "$library"
    unproved_module "$copy" "$work/module"
    compile_module "$TARGET" "$work/module" "$work/all.o"
    "${tool}nm" --defined-only --extern-only --format=just-symbols "$work/all.o" | sed "s/.*/& $1_&/" > "$work/names"
    "${tool}objcopy" --redefine-syms="$work/names" "$work/all.o" "$folder/$1.o"
}

begin yesterday 0x0100
change myrkosti/src/lib.rt 'asked::table_size(' 'table::layout::table_size('
leave before_moves
leave without_later
leave without_counters
finish yesterday control

begin lately 0x0200
change counters/src/lib.rt 'counted_if(as_response(a), self.responses)' 'counted_if(matches!(a, Err(Reason::Response)), self.responses)'
leave without_later
finish lately whole
