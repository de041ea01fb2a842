#!/usr/bin/env bash
# longer-record.sh: what a program does with a library of a later version, whose records are longer than its header knows. Builds the library with four octets
# more behind each record and the next version, without its proofs, and runs tests/c/longer.c with it under valgrind: it reads its 78 octets and nothing is
# touched beyond what was lent. The same with a program of version 0x0200, which knows 71 octets, and the library of today. Then two trials that must be
# seen: memory that is shorter than the program says, and headers of which the library has not all.
set -eu
cd "$(dirname "$0")/.."
tools/install.sh valgrind valgrind
. tools/archive/module.sh

# the library of $copy for the machine at hand
library() {
    unproved_module "$copy" "$work/module"
    compile_module "$(uname -m)-linux-gnu" "$work/module" "$work/library.o"
}
# build HEADERS SOURCE PROGRAM [WORDS..], with that library
build() { cc -std=c11 -Wall -Wextra -Wpedantic -Werror -g "-I$1" -Itests/c "${@:4}" "$2" "$work/library.o" -o "$3"; }
checked() { valgrind --quiet --error-exitcode=9 "$@"; }

# run_longer HEADERS PROGRAM LINKED LONGER APPENDED: as it is, and with memory that is too short
run_longer() {
    build "$1" tests/c/longer.c "$2" "-DLINKED=$3" "-DLONGER=$4" "-DAPPENDED={$5}"
    checked "$2"
    if checked "$2" short > "$2.log" 2>&1; then
        echo 'failed: an octet behind the memory lent was not seen' && exit 1
    fi
    grep -q 'Invalid write of size' "$2.log"
}

# a program of version 0x0200: today's header without what was added since. A port that never asked has zeros in its last seven octets
work=$PWD/target/c/shorter
. tools/other-library.sh
library
mkdir "$work/0x0200"
sed -e 's/\(#define MYRKOSTI_VERSION\) .*/\1 0x0200/' -e 's/\(#define MYRKOSTI_RECORD\) 78/\1 71/' -e 's/\(#define MYRKOSTI_OLD_RECORD\) 64/\1 57/' \
    -e '/^\/\* ---- why a port does not carry/,/^\/\* ---- calls/{/---- calls/!d}' \
    -e '/MYRKOSTI_ASKED\|MYRKOSTI_LONGEST_WAIT\|MYRKOSTI_MARKER_\|MYRKOSTI_AT_MARKER\|MYRKOSTI_NOT_DISTRIBUTING\|MYRKOSTI_ALREADY_AWAITING/d' \
    -e '/myrkosti_ask(\|myrkosti_why(\|myrkosti_apart(/d' \
    include/myrkosti.h | sed -e '/^enum {$/{N;/\n};$/d}' > "$work/0x0200/myrkosti.h"
run_longer "$work/0x0200" "$work/longer" "$version" 7 0,0,0,0,0,0,0

# a library of tomorrow, and a program of today
work=$PWD/target/c/longer
. tools/other-library.sh
change asks/src/group.rt 'GROUP: usize = 7;' 'GROUP: usize = 11;'
change asks/src/group.rt 't0, t1, n0, n1, n2, n3]' 't0, t1, n0, n1, n2, n3, 0xe1, 0xe2, 0xe3, 0xe4]'
change asked/src/lib.rt 'ASKED_RECORD: usize = 78;' 'ASKED_RECORD: usize = 82;'
of_version() { printf '0x%04x' $((version + $1)); } # so much above that of crates/
next=$(of_version 1)
call_it "$next"
library
run_longer include "$work/longer" "$next" 4 0xe1,0xe2,0xe3,0xe4

# fits VERSION: what myrkosti_fits says to a program whose header has this version
fits() {
    mkdir -p "$work/$1"
    sed "s/\(#define MYRKOSTI_VERSION\) .*/\1 $1/" include/myrkosti.h > "$work/$1/myrkosti.h"
    printf '#include "myrkosti.h"\nint main(void) { return myrkosti_fits() ? 0 : 1; }\n' > "$work/fits.c"
    build "$work/$1" "$work/fits.c" "$work/fits"
    "$work/fits"
}
# today's and tomorrow's do, and yesterday's; one that knows of more does not, nor those of the generations before and after
if ! fits 0x0200 || ! fits 0x0201 || ! fits "$version" || ! fits "$next" || fits "$(of_version 2)" || fits "$(of_version -0x100)" || fits "$(of_version 0x100)"; then
    echo 'failed: what fits' && exit 1
fi
echo 'a longer record: memory that is too short is seen, and so are headers that do not fit'
