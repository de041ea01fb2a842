#!/usr/bin/env bash
# The C interface: builds tests/c/ and examples/ against include/myrkosti.h and the library for TARGET (tools/target.sh), and runs them.
set -eu
cd "$(dirname "$0")/.."
. tools/target.sh
programs=target/c/$TARGET

for test in calls counters churn asks why; do
    compile tests/c/$test.c "$programs/$test"
    "${run[@]}" "$programs/$test"
done

# Moves between the two forms of a table, with libraries of before beside that of today.
tools/yesterday.sh
compile tests/c/moves.c "$programs/moves" "target/yesterday/$TARGET/yesterday.o" "target/yesterday/$TARGET/lately.o"
"${run[@]}" "$programs/moves"

# The header in each language, with every warning that the compiler has for one of them and that says something of it.
warnings=(-Wshadow -Wconversion -Wsign-conversion -Wcast-qual -Wcast-align=strict -Wundef -Wredundant-decls -Wlogical-op -Wduplicated-cond
    -Wduplicated-branches -Wnull-dereference -Wdouble-promotion -Wformat=2 -Wswitch-enum -Wwrite-strings -Wunused-macros -Wfloat-equal -Winline)
of_c=(-Wstrict-prototypes -Wmissing-prototypes -Wold-style-definition -Wbad-function-cast -Wnested-externs -Wc++-compat)
of_cpp=(-Wold-style-cast -Wuseless-cast -Wzero-as-null-pointer-constant -Wextra-semi -Weffc++)
for language in c99 c11 c17; do
    compile tests/c/names.c "$programs/names-$language" -std=$language "${warnings[@]}" "${of_c[@]}"
    echo -n "$language: "
    "${run[@]}" "$programs/names-$language"
done
compile_cpp tests/c/names.c "$programs/names-c++17" -std=c++17 "${warnings[@]}" "${of_cpp[@]}"
echo -n 'c++17: '
"${run[@]}" "$programs/names-c++17"

# Every name of the header stands in a test.
for name in $(sed 's|/\*.*\*/||' include/myrkosti.h | grep -o '\<MYRKOSTI_[A-Z_]*\>\|\<myrkosti_[a-z_]*\>(' | tr -d '(' | sort -u); do
    [ "$name" = MYRKOSTI_H ] || grep -qw "$name" tests/c/*.c || { echo "failed: no test names $name" && exit 1; }
done

compile tests/c/guide.c "$programs/guide"
"${run[@]}" "$programs/guide"

# The example, and what its chip is told.
compile examples/loop.c "$programs/loop" examples/stand_in.c "${warnings[@]}" "${of_c[@]}"
"${run[@]}" "$programs/loop" > "$programs/loop.txt"
diff examples/loop.txt "$programs/loop.txt"
echo 'examples/loop.c: as in examples/loop.txt'

# What runs on the machine at hand, whatever the target: once, with its own.
if [ "$TARGET" = "$own" ]; then
    tools/link-test.sh
    tools/longer-record.sh
fi
