#!/usr/bin/env python3
"""Brings the repository's own definitions, lemmas and fields to today's spelling of names. Run once, at the top, right after port.py.

Words are in snake case, types and modules in camel case. A dash stays only where it joins two names; a plain word is added with _.
An alias with a middle dot (Call·tick) is one word (call_tick). Functions of src/, exported names and strings keep their spelling.
It prints the names that would fall together, and then changes nothing."""
import collections
import glob
import re
import sys

HEAD = re.compile(r"^((?:(?:abbrev|unfoldable|opaque|pub|record|data|ruleset)\s+)*)([^\s(){}:,;.]+)(?=\s*[:({]|\s+where)")
FIELD = re.compile(r"^\s+(?:pub\s+)?([^\s(){}:,;.=]+)\s+: ")
ALIAS = re.compile(r"(?<= as )([^\s(){},;.]*·[^\s(){},;.]*)")
TOKEN = re.compile(r"[^\s(){}\[\]:,;.`\"@=λ|]+")
# operators and words of std that stand in names of lemmas
STD = set("""and or not length take drop append get_or set map cond reverse zero suc true false add mul sub div mod leb ltb eqb if pick
le lt min max""".split())
# lemmas and promises that would fall together with the definition that they speak of get `_lem`; an alias gets its crate's name
OTHER = {n: n.replace("-", "_") + "_lem" for n in """after_line as-lacpdu as-marker by-word goes_back held_up in-sync is-room no-port no-subtype octets-of
odd-subtype port-in-range put-at same_line same_seen same-sight status-octets two-lags waits-for wrong-length""".split()}
OTHER["Ticks·of"] = "machine_ticks"


def texts():
    yield from sorted(glob.glob("crates/*/specs/**/*.antt", recursive=True) + glob.glob("crates/*/proofs/**/*.antt", recursive=True))


def defined():
    found = set()
    for path in texts():
        top = not path.endswith(("/Proof.antt",))
        for line in open(path, encoding="utf-8"):
            found.update(ALIAS.findall(line))
            if line.startswith(("--", "use ", "mod ", "pub mod ")) or not top:
                continue
            it = HEAD.match(line) or FIELD.match(line)
            if it:
                found.add(it.group(it.lastindex))
    for path in glob.glob("crates/*/src/**/*.rt", recursive=True):
        for line in open(path, encoding="utf-8"):
            if line.startswith("ghost use"):
                found.update(ALIAS.findall(line))
    return {n for n in found if re.match(r"[^\W\d]", n)}


def snake(word):
    if re.match(r"[A-Z]", word):
        return word
    return re.sub(r"(?<=[a-z0-9])([A-Z])", lambda m: "_" + m.group(1).lower(), word)


def respelled(name, names):
    if name in OTHER:
        return OTHER[name]
    if "·" in name:
        return "_".join(snake(p[0].lower() + p[1:]) for p in name.split("·"))
    parts = name.split("-")
    if "" in parts:
        return name
    runs, i = [], 0
    while i < len(parts):
        for j in range(len(parts), i, -1):
            run = "_".join(parts[i:j])
            if j == i + 1 or (run in names and j - i < len(parts)):
                runs.append((snake(run), run in names or run in STD))
                i = j
                break
    out = runs[0][0]
    for (_, before), (word, is_name) in zip(runs, runs[1:]):
        out += ("-" if before and is_name else "_") + word
    # a lemma that would fall together with the definition that it speaks of
    return out + "_lem" if "-" in name and "-" not in out and out in names else out


def changed(line, to, prose):
    """The line with its names respelled: in prose only names between backticks."""
    if prose:
        return re.sub(r"`([^`\s]+)`", lambda m: "`" + TOKEN.sub(lambda t: to.get(t.group(0), t.group(0)), m.group(1)) + "`", line)
    return TOKEN.sub(lambda t: to.get(t.group(0), t.group(0)), line)


def antt(text, to):
    return "".join(changed(l, to, l.lstrip().startswith("--")) for l in text.splitlines(keepends=True))


def source(text, to):
    """Rust-like text: strings keep their spelling, and comments are prose."""
    out = []
    for line in text.splitlines(keepends=True):
        if line.lstrip().startswith("//"):
            out.append(changed(line, to, True))
            continue
        pieces = re.split(r'(b?"(?:[^"\\]|\\.)*")', line)
        out.append("".join(p if i % 2 else changed(p, to, False) for i, p in enumerate(pieces)))
    return "".join(out)


def main():
    names = defined()
    known = names | {snake(n) for n in names if "-" not in n}
    to = {n: respelled(n, known) for n in names}
    to = {n: t for n, t in to.items() if t != n}
    together = collections.defaultdict(set)
    for n in names:
        together[to.get(n, n)].add(n)
    bad = []
    for t, olds in sorted(together.items()):
        if len(olds) > 1:
            bad.append(f"{', '.join(sorted(olds))} -> {t}")
    if bad:
        print("names that would fall together:\n" + "\n".join(bad))
        return 1
    for path in texts():
        was = open(path, encoding="utf-8").read()
        now = antt(was, to)
        if now != was:
            open(path, "w", encoding="utf-8").write(now)
    # a function of src/ may have the name of a lemma above, and keeps it
    to = {n: t for n, t in to.items() if not (n in OTHER and "-" not in n)}
    for path in glob.glob("crates/*/src/**/*.rt", recursive=True) + glob.glob("crates/*/must-fail/*.edit"):
        was = open(path, encoding="utf-8").read()
        now = source(was, to)
        if now != was:
            open(path, "w", encoding="utf-8").write(now)
    for path in ["README.md", *glob.glob("docs/*.md")]:
        was = open(path, encoding="utf-8").read()
        now = "".join(changed(l, to, True) for l in was.splitlines(keepends=True))
        if now != was:
            open(path, "w", encoding="utf-8").write(now)
    print(f"{len(to)} names respelled")
    return 0


if __name__ == "__main__":
    sys.exit(main())
