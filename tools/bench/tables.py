"""The tables of docs/BENCHMARKS.md, from figures: for (call, ports, side) a number."""

from textwrap import fill

PORTS = [1, 2, 4, 8, 16, 32]
CALLS = ["receive, repeated", "receive, moves all", "receive, Response", "tick", "tick, all waiting", "tick, all apart", "fetch", "fetch, nothing due",
         "ask", "due", "port report", "aggregator report", "why", "apart", "line, link falls", "line, duplex halves", "settings, new key", "start"]
GROWTH = ["receive, repeated", "receive, moves all", "tick", "tick, all apart", "fetch", "due", "port report", "aggregator report"]
WHERE = ["tick", "tick, all apart", "receive, repeated", "receive, moves all", "aggregator report", "start"]
# What a call may take at most, in instructions on this machine: what is said of it, the call, ports, and how many.
AIMS = [("a tick at rest", "tick", 32, 10000), ("an LACPDU that is repeated", "receive, repeated", 32, 9000), ("a fetch", "fetch", 32, 2200),
        ("a fetch with nothing due", "fetch, nothing due", 32, 1500), ("`due`", "due", 32, 2200), ("a tick at rest", "tick", 1, 600),
        ("an LACPDU that is repeated", "receive, repeated", 1, 1200)]
AIM_STACK = 4096
CLOCK = 100e6
# A second of 32 ports whose partners send at the fast pace: 42 calls, after each the report of a trunk, and 32 LACPDUs that go out. How often
# each kind of call is made by a driver that asks what is due after each of the 42, and by one that fetches on every port.
SECOND = {"tick": ("ticks", 10, 10), "receive, repeated": ("an LACPDU on each port", 32, 32), "due": ("`due` after each of these", 42, 0),
          "fetch": ("a fetch that sends, on each port", 32, 32), "fetch, nothing due": ("a fetch that finds nothing", 0, 42 * 32 - 32),
          "aggregator report": ("the report of a trunk after each", 42, 42)}
# Instructions that two peers take, counted by callgrind on aarch64 (docs/BENCHMARKS.md says how): at rest, by ports; then of an LACPDU that says nothing
# new and of one with another key.
PEERS_PORTS = [1, 2, 8, 16, 31, 32]
PEERS_REST = {"Open vSwitch 3.1: `lacp_run`, at every turn of its main loop": {1: 519, 2: 859, 8: 2799, 16: 5419, 31: 10089, 32: 10669},
              "DPDK 22.11: its callback, every 100 ms": {1: 564, 2: 1083, 8: 4701, 16: 10869, 31: 26574}}
PEERS_HEAR = [["Open vSwitch 3.1, 1 port: `lacp_process_packet`, and `lacp_run` after a change", "363", "360 + 1,035"],
              ["Open vSwitch 3.1, 32 ports: the same", "364", "360 + 16,661"],
              ["DPDK 22.11, 1 to 31 ports: handing it over, and more work for the callback", "87 + 235", ""]]


def table(heads, rows):
    """A Markdown table; all columns but the first are numbers."""
    lines = [heads, ["---"] + ["--:"] * (len(heads) - 1), *rows]
    return "\n".join("| " + " | ".join(line) + " |" for line in lines)


def wrapped(text, indent=""):
    return fill(text, 150, subsequent_indent=indent, break_long_words=False, break_on_hyphens=False)


def number(figure):
    return f"{figure:,.0f}"


def ports(n):
    return f"{n} port{'s' * (n > 1)}"


def ratio(figures, call):
    return figures[call, 32, "library"] / figures[call, 32, "model"]


def aim(counts, sizes):
    """Whether the aim is met: beside the model, by each bound, and by the stack on each machine. counts: instructions on this machine."""
    ratios = {call: ratio(counts, call) for call in CALLS}
    over = [f"{call} ({ratios[call]:.2f})" for call in CALLS if ratios[call] > 1]
    within = [f"{call} ({ratios[call]:.2f})" for call in CALLS if ratios[call] <= 1]
    most_stack, deep, where_deep = max((octets, call, target) for target, size in sizes.items() for call, octets in size.stack.items())
    rows = [[f"{what}, {ports(n)}", number(most), number(counts[call, n, "library"]), met(counts[call, n, "library"] <= most)]
            for what, call, n, most in AIMS]
    return "\n".join([
        wrapped(f"- **At 32 ports no kind of call takes more instructions than the model's: {met(not over)}.** In brackets how many times the model's, on the "
                "machine below.", "  "),
        wrapped(f"  - above: {', '.join(over) or 'none'};", "    "),
        wrapped(f"  - within: {', '.join(within) or 'none'}.", "    "),
        wrapped(f"- **No call above {AIM_STACK:,} octets of stack: {met(most_stack <= AIM_STACK)}**, whatever it is given, on [each machine](#for-each-machine). "
                f"The most is {number(most_stack)}, by `{deep}` on `{where_deep}`.", "  "),
        f"- **Bounds in instructions on the machine below: {met(all(row[-1] == 'met' for row in rows))}.**\n",
        table(["Instructions", "at most", "measured", ""], rows)])


def met(is_met):
    return "met" if is_met else "missed"


def function_of(call):
    """The function behind a call of the tables: its first word."""
    return call.replace(",", "").split()[0]


def beside(figures, call):
    """Library, model and how many times the model's; blanks for the copy and where there is no model."""
    if call == "copy":
        return [number(figures[call, 32, "copy"]), "", ""]
    if (call, 32, "model") not in figures:
        return [number(figures[call, 32, "library"]), "", ""]
    return [number(figures[call, 32, "library"]), number(figures[call, 32, "model"]), f"{ratio(figures, call):.2f}"]


def at_32(kinds, bounds, stacks):
    """Figures of all calls at 32 ports; kinds: for each name of a figure the figures."""
    rows = [[call, *(cell for figures in kinds.values() for cell in beside(figures, call)), number(bounds[function_of(call)]),
             number(stacks[call, 32, "library"]), number(stacks[call, 32, "model"])] for call in CALLS]
    rows.append(["copy of the table", *(cell for figures in kinds.values() for cell in beside(figures, "copy")), "", "", ""])
    heads = [head for name in kinds for head in (name, "model's", "ratio")]
    return table(["At 32 ports", *heads, "archive's stack at most", "stack here", "model's"], rows)


def growth(figures, what):
    rows = [[call, *(f"{number(figures[call, n, 'library'])} / {number(figures[call, n, 'model'])}" for n in PORTS)] for call in GROWTH]
    rows.append(["copy of the table", *(number(figures["copy", n, "copy"]) for n in PORTS)])
    return table([f"{what}: library / model", *map(ports, PORTS)], rows)


def where(profiles):
    """Which functions of the library take the instructions at 32 ports; profiles: for a call (costs, calls) by function."""
    total = {call: sum(profiles[call][0].values()) for call in WHERE}
    names = sorted({name for call in WHERE for name in profiles[call][0]}, key=lambda name: -max(share(profiles, total, c, name) for c in WHERE))
    rows = [[f"`{name}`", *(f"{100 * share(profiles, total, call, name):.0f} %" for call in WHERE)] for name in names[:3]]
    loads = [number(profiles[call][1]["table::record::read_record"]) for call in WHERE]
    return table(["At 32 ports", *WHERE], [*rows, ["records that are loaded", *loads]])


def share(profiles, total, call, name):
    return profiles[call][0][name] / total[call]


def budget(counts):
    """What a second costs at 32 ports with fast partners, in instructions and as a part of a small processor, by either loop."""
    spent = {call: [figure for times in loops for figure in (times, *(times * counts[call, 32, side] for side in ("library", "model")))]
             for call, (_, *loops) in SECOND.items()}  # calls, library's and model's instructions with `due`, then without
    together = [sum(column) for column in zip(*spent.values())]
    _, with_due, models, _, without, models_without = together
    rows = [[what, *(number(figure) if figure else "" for figure in spent[call])] for call, (what, *_) in SECOND.items()]
    rows.append(["together", *map(number, together)])
    rows.append(["part of 100 MHz, an instruction a cycle", "", part(with_due), part(models), "", part(without), part(models_without)])
    longest = max(CALLS, key=lambda call: counts[call, 32, "library"])
    said = wrapped(f"With `due` the library takes {with_due / without:.2f} times what it takes without, and {with_due / models:.2f} times what the model takes "
                   f"with it. Its longest call, *{longest}*, takes {1000 * counts[longest, 32, 'library'] / CLOCK:.1f} ms of the 100 that lie between two ticks, "
                   "and nothing else can be asked of that table meanwhile.")
    return table(["A second at 32 ports", "calls with `due`", "instructions", "model's", "calls without", "instructions", "model's"], rows) + "\n\n" + said


def part(instructions):
    """Of a processor that does an instruction a cycle, in a second."""
    return f"{100 * instructions / CLOCK:.1f} %"


def peers(counts):
    """The library beside two peers: at rest by ports, and of one LACPDU."""
    def ours(call, n):
        return counts[call, n, "library"]
    rest = [["Myrkosti: a tick, every 100 ms", *(number(ours("tick", n)) for n in PEERS_PORTS)],
            ["Myrkosti: a tick, and `due` after it", *(number(ours("tick", n) + ours("due", n)) for n in PEERS_PORTS)]]
    rest += [[name, *(number(figures[n]) if n in figures else "" for n in PEERS_PORTS)] for name, figures in PEERS_REST.items()]
    heard = [[f"Myrkosti, {ports(n)}: `myrkosti_receive`", number(ours("receive, repeated", n)), number(ours("receive, moves all", n))] for n in (1, 32)]
    return "\n\n".join([table(["Instructions at rest", *map(ports, PEERS_PORTS)], rest),
                        table(["Instructions of an LACPDU", "that says nothing new", "with another key"], heard + PEERS_HEAR)])


def targets(sizes):
    """Text, and the most stack of each call, for each machine."""
    calls = list(next(iter(sizes.values())).stack)
    rows = [["octets of code and constants", *(number(size.text) for size in sizes.values())],
            ["asks for", *(", ".join(f"`{name}`" for name in sorted(size.asks_for)) for size in sizes.values())]]
    rows += [[f"stack of `{call}` at most", *(number(size.stack[call]) for size in sizes.values())] for call in calls]
    return table(["", *(f"`{target}`" for target in sizes)], rows)


def text(texts):
    return wrapped(f"The archive has {number(texts['all'])} octets of code and constants and no data (`size`, x86-64). A program that calls every "
                   f"function takes {number(texts['linked'])}, one that reads no report {number(texts['without reports'])} (`--gc-sections`).")
