"""Text and stack of the library on each machine that there is an archive for: read off its code, and stack also seen where a program can run."""

import struct
import sys
from typing import NamedTuple

import build
import measure
import tables

sys.path.append(str(build.ROOT / "tools/archive"))
import check  # noqa: E402
from elf import Object  # noqa: E402

TARGETS = ["x86_64-linux-gnu", "aarch64-linux-gnu", "riscv64-linux-gnu", "aarch64-none-elf"]
REGISTERS = 8  # in which AArch64 and RISC-V pass arguments
AARCH64_JUMP, AARCH64_CALL, RISCV_CALL = 282, 283, 19  # relocations
OF_MEMORY = 64  # octets of stack that memcpy, memmove, memset and memcmp of the C libraries here take at most, which no bound has in it
# Calls at 32 ports over a painted stack, without the model: under an emulator where the machine at hand is another.
SEE_STACK = """TARGET=$1; . tools/target.sh
compile tests/bench/bench.c "$2" -O2 -Itests/bench -DWITHOUT_MODEL tests/bench/scene.c tests/bench/side.c tests/bench/by_trace.c
"${run[@]}" "$2" stack 32"""


class Size(NamedTuple):
    text: int
    asks_for: set
    stack: dict  # octets at most, by call


def sizes():
    """Those of each target. No call that can be seen there may take more stack than its frames allow."""
    calls = measure.stack_arguments(REGISTERS)
    found = {}
    for target in TARGETS:
        object = Object(build.archive(target))
        stack = measure.stack_bounds(build.member()) if target == TARGETS[0] else stack_bounds(target, object)
        if target.endswith("-linux-gnu"):
            within(stack, target)
        text = sum(section.size for section in object.in_memory().values())
        found[target] = Size(text, object.undefined(), {call: stack[call] for call in calls})
    return found


def within(bounds, target):
    """Stops if a call took more stack than its bound, and than what memcpy and the like, which it asks for, may take of it beyond."""
    seen = measure.figures(build.run("bash", "-c", SEE_STACK, "sizes", target, build.WORK / f"stack-{target}"))
    if beyond := {call: depth for (call, _, side), depth in seen.items() if side == "library" and depth > bounds[tables.function_of(call)] + OF_MEMORY}:
        raise SystemExit(f"{target}: more stack than the frames of the archive allow: {beyond}")
    print(f"{target}: no call took more stack than its frames allow")


def stack_bounds(target, archive):
    """Octets of stack that a call can take at most, whatever it is given: frames along the longest way of calls, and arguments on the stack. The compiler
    says how long each frame is where it is asked to, which must change no code. A jump to a function takes the place of the frame that it leaves."""
    file = build.WORK / f"{target}.o"
    build.run("bash", "-c", '. tools/archive/module.sh; compile_module "$1" "$PWD/target/archive" "$2" -fstack-size-section', "sizes", target, file)
    object = Object(file)
    if check.parts(object) != check.parts(archive):
        raise SystemExit(f"{target}: other code, where the length of frames was asked for")
    frame, callees = frames(object), {section.name: list(calls(object, n)) for n, section in object.in_memory().items()}

    def depth(name):
        return max([frame[name], *(depth(callee) + (0 if is_jump else frame[name]) for callee, is_jump in callees[name])])

    on_stack = measure.stack_arguments(REGISTERS)
    return {call: depth(f".text.myrkosti_{call}") + on_stack[call] for call in on_stack}


def frames(object):
    """The frame of each function, by the section that it has to itself."""
    found = {}
    for n, section in enumerate(object.sections):
        if section.name == ".stack_sizes":
            (place,) = object.relocations[n]
            found[object.sections[place.symbol.section].name] = number_at(section.octets, 8)
    return found


def number_at(octets, at):
    """A number in groups of seven bits, the lowest first."""
    number = 0
    for n, octet in enumerate(octets[at:]):
        number |= (octet & 0x7f) << 7 * n
        if octet < 0x80:
            return number
    raise SystemExit("a number without an end")


def calls(object, n):
    """The functions that the function of section n calls, and whether by a jump. Those that are not the library's are left out."""
    for relocation in object.relocations.get(n, []):
        callee = object.sections[relocation.symbol.section].name
        if relocation.kind in (AARCH64_JUMP, AARCH64_CALL) and callee.startswith(".text."):
            yield callee, relocation.kind == AARCH64_JUMP
        elif relocation.kind == RISCV_CALL and callee.startswith(".text."):
            (jump,) = struct.unpack_from("<I", object.sections[n].octets, relocation.at + 4)
            yield callee, jump >> 7 & 31 == 0  # nothing keeps where it came from
