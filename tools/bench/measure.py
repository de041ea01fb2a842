"""Runs the C program and gathers figures: for (call, ports, side) a number."""

import re
import shutil
import subprocess
from collections import Counter

from build import ARCHIVE, CROSS, EMULATOR, ROOT, WORK, run


def figures(text):
    """The figures of lines 'what, call, ports, side, figure'."""
    found = {}
    for line in text.splitlines():
        _, call, ports, side, figure = line.split("\t")
        found[call, int(ports), side] = float(figure)
    return found


def times(program):
    """Nanoseconds of a call."""
    return figures(run(program, "time"))


def stacks(program):
    """Octets of stack of a call at 32 ports."""
    return figures(run(program, "stack", 32))


def without_calling(counts):
    """Without what it takes to make a call that does nothing. (The first count of a run has some of what went before in it.)"""
    nothing = min(count for (call, _, _), count in counts.items() if call == "nothing")
    return {key: count - nothing for key, count in counts.items() if key[0] != "nothing"}


def counts(program, name):
    """Instructions of a call, by callgrind, and the file that has them function by function."""
    folder = WORK / name
    shutil.rmtree(folder, ignore_errors=True)
    folder.mkdir(parents=True)
    run("valgrind", "-q", "--tool=callgrind", f"--callgrind-out-file={folder}/out", program, "count")
    found, files = {}, {}
    for file in folder.glob("out.*"):
        text = file.read_text()
        label = re.search(r"^desc: Trigger: Client Request: count\t(.*)\t(\d+)\t(.*)$", text, re.M)
        if label:
            key = label[1], int(label[2]), label[3]
            found[key] = int(re.search(r"^totals: (\d+)", text, re.M)[1])
            files[key] = file
    return without_calling(found), files


def by_function(file):
    """The instructions that each function itself takes, and how often it is called, from a file of callgrind's."""
    names, cost, calls = {}, Counter(), Counter()
    function = callee = None
    of_a_call = False
    for line in file.read_text().splitlines():
        named = re.match(r"(c?fn)=\((\d+)\)(?: (.*))?$", line)
        if named:
            names.setdefault(named[2], re.sub(r"'\d+$", "", named[3] or ""))
            function, callee = (named[2], callee) if named[1] == "fn" else (function, named[2])
        elif line.startswith("calls="):
            calls[names[callee]] += int(line[6:].split()[0])
            of_a_call = True
        elif function and re.match(r"[-+*\d]", line):
            if not of_a_call:
                cost[names[function]] += int(line.split()[1])
            of_a_call = False
    return cost, calls


def trace_counts(program, native):
    """Instructions of a call of the archive as it is shipped, at 32 ports: the lines of the emulator's trace between two marks."""
    scene = WORK / "scene"
    scene.write_bytes(subprocess.run([native, "scene", "32"], check=True, stdout=subprocess.PIPE).stdout)
    words = [*EMULATOR, "-one-insn-per-tb", "-d", "exec,nochain", "-D", "/dev/stderr", program, "count", "32", scene]
    with (WORK / "labels").open("w+") as labels, subprocess.Popen(words, stdout=labels, stderr=subprocess.PIPE) as process:
        between = list(lines_between(process.stderr, b" count_begins\n", b" count_ends\n"))
        labels.seek(0)
        keys = [line.rstrip("\n").split("\t")[1:] for line in labels]
    if process.returncode != 0 or len(keys) != len(between):
        raise SystemExit("the emulator's trace is not as expected")
    return without_calling({(call, int(ports), side): lines for (call, ports, side), lines in zip(keys, between)})


def lines_between(trace, begin, end):
    """How many lines there are from each first line that ends in `begin` to the next that ends in `end`."""
    count = None
    for line in trace:
        if line.endswith(begin):
            count = 0 if count is None else count + 1
        elif count is not None:
            count += 1
            if line.endswith(end):
                yield count
                count = None


def stack_arguments(registers):
    """Octets of the arguments of each call that a caller puts on the stack: those for which there is no register, rounded up to 16."""
    declared = re.findall(r"^uint32_t myrkosti_(\w+)\((.*?)\);", (ROOT / "include/myrkosti.h").read_text(), re.M | re.S)
    beyond = {call: max(0, len(arguments.split(",")) - registers) for call, arguments in declared}
    return {call: 16 * ((8 * count + 15) // 16) for call, count in beyond.items()}


def stack_bounds(member):
    """Octets of stack that a call of the archive can take at most, whatever it is given: from the frames of its functions along the longest
    way of calls, with arguments on the stack, return addresses, and what a function without calls keeps below its frame. No function calls
    through a pointer or calls itself again. A jump to a function takes the place of the frame that it leaves."""
    frame, below, callees, followers = Counter(), Counter(), {}, {}
    function = None
    for line in run(f"{CROSS}objdump", "-d", "-r", "-w", "--no-show-raw-insn", member).splitlines():
        if head := re.match(r"[0-9a-f]+ <(.*)>:$", line):
            function = head[1]
            frame[function], callees[function], followers[function] = 8, set(), set()
        elif re.search(r"\tcall +\*", line):
            raise SystemExit(f"a call through a pointer in {function}")
        elif called := re.search(r"\t(call|j\w+) .*R_X86_64_PLT32\s+\.text\.(.*)-0x4", line):
            (callees if called[1] == "call" else followers)[function].add(called[2])
        elif re.search(r"\tpush ", line):
            frame[function] += 8
        elif taken := re.search(r"\tsub +\$0x([0-9a-f]+),%rsp", line):
            frame[function] += int(taken[1], 16)
        if lower := re.search(r"-0x([0-9a-f]+)\(%rsp", line):
            below[function] = max(below[function], int(lower[1], 16))

    def depth(name):
        return max([frame[name] + below[name], *(frame[name] + depth(f) for f in callees[name]), *map(depth, followers[name])])

    calls = {name.removeprefix("myrkosti_"): name for name in frame if name.startswith("myrkosti_")}
    on_stack = stack_arguments(registers=6)
    return {call: depth(name) + on_stack[call] for call, name in calls.items()}


def text_of(file):
    """Octets of code and constants, by `size`."""
    return int(run(f"{CROSS}size", "-t", file).splitlines()[-1].split()[0])


def texts():
    """Octets of the archive's code and constants, and of what a program takes of them that reads no report."""
    exported = [line.split()[-1] for line in run(f"{CROSS}nm", "-g", "--defined-only", ARCHIVE).splitlines() if " T " in line]
    reports = ("myrkosti_port", "myrkosti_aggregator", "myrkosti_why", "myrkosti_apart")
    silent = [function for function in exported if function not in reports]
    return {"all": text_of(ARCHIVE), "linked": taken(exported), "without reports": taken(silent)}


def taken(functions):
    """Octets of what a program takes from the archive that calls these functions, with --gc-sections."""
    linked = WORK / "taken.o"
    roots = [word for function in functions for word in ("-u", function)]
    run(f"{CROSS}ld", "-r", "--gc-sections", *roots, ARCHIVE, "-o", linked)
    return text_of(linked)
