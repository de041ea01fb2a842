.PHONY: demo archive cases test c-test compare targets wire peers bench mutants lacp try live

# For which machine: x86_64-linux-gnu, aarch64-linux-gnu, riscv64-linux-gnu, or for an archive also aarch64-none-elf, which is freestanding.
TARGET ?= $(shell uname -m)-linux-gnu
export TARGET

# Proves the library and runs two switches of it, joined by four links: a timeline, and the same as a picture in target/demo.svg.
# make demo SCRIPT=FILE replays a list of events; rust/demo/help.txt says what may stand in it.
demo:
	tools/library.sh
	tools/archive.sh
	cargo run --quiet --release --manifest-path rust/Cargo.toml -p demo -- $(if $(SCRIPT),--script $(SCRIPT)) --svg target/demo.svg

# Proves the library and builds its archive for TARGET, target/TARGET/libmyrkosti.a: make archive TARGET=riscv64-linux-gnu
archive:
	tools/library.sh
	tools/archive.sh $(TARGET)

# Proves the libraries and the program, runs it (rt does) and holds what it writes to crates/cases/stdout; then shows that file: what the
# frame tests say of 170 frames that scapy wrote, one port's story, and two trunks of six ports.
cases:
	rt ci cases
	cat crates/cases/stdout

# The whole gate: every proof, the must-fail edits, the programs; the C test and a short comparison of the proved archive, and of that for the machine at
# hand; lacp.
test:
	.ci/run

# The C interface: C programs that include include/myrkosti.h, link the library for TARGET and drive every function.
c-test:
	tools/library.sh
	tools/c-test.sh

# The library for TARGET and an independent model in plain Rust, side by side through random calls, every octet compared.
SECONDS_TO_COMPARE ?= 60
compare:
	tools/library.sh
	tools/compare.sh --seconds $(SECONDS_TO_COMPARE)

# Not in the gate: for each Linux machine the archive, the C test, the fragments of examples/ and a comparison of ten million calls, under an emulator
# where the machine at hand is another; and the freestanding archive on a bare machine. Installs compilers and emulators, and takes about five minutes.
targets:
	tools/library.sh
	tools/targets.sh

# Not in the gate: frames of the library as tshark reads them, every field, Markers among them; frames of scapy as the library reads them, Responses to its
# Markers among them; and the counters against what tshark counts; then each bit of a frame flipped, and frames left out, which must be found.
wire:
	tools/library.sh
	tools/outside.sh wire

# Not in the gate: two links to Open vSwitch, tick by tick: a trunk, cuts, silence, a link on which it never hears us, restarts, Markers that it does not
# answer, new firmware under the trunk and its way back, and the counters against tshark's; Markers that a second switch of ours answers; then a switch that
# never sends, new firmware that starts anew or takes too long, Responses that get lost, and a capture that misses frames, which must be found.
peers:
	tools/library.sh
	tools/outside.sh peers

# Not in the gate: changes a definition and the code that meets it together, one pair at a time, and shows which facts of claims or runs refuse it; then
# tries the wrong definitions, contracts, statements and programs of tools/mutants/. Takes about an hour.
mutants:
	python3 tools/mutants.py

# Time, instructions, stack and text of each call, beside the model's: writes the tables of docs/BENCHMARKS.md and docs/benchmarks.svg.
# Installs valgrind and what else is missing, and takes about a minute once the library is proved.
bench:
	tools/library.sh
	python3 -B tools/bench/bench.py

# The tool lacp: the library on Linux interfaces, target/lacp/lacp. docs/LACP.md is its guide.
lacp:
	tools/library.sh
	tools/lacp.sh

# Two switches of it on four links, with keys to cut, silence, swap and stop; needs no hardware and no root.
try: lacp
	target/lacp/lacp try

# Not in the gate but for a short part: lacp on virtual links, two of it and with Open vSwitch, through cuts, silence, stops, kills, swapped cables and floods;
# the same with address and undefined-behaviour checkers; and fuzzers over what it parses. Needs no root where the machine lets users have namespaces, and
# takes about eighteen minutes.
live: lacp
	tools/live.sh
	tools/live.sh --checked
	tools/fuzz.sh
