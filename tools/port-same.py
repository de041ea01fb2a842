#!/usr/bin/env python3
"""port-same.py OLD: what the move to today's Rattle left as it was. OLD is a folder with the tree before the move (docs/PORT.md names the commit).

Three things are laid beside one another, each as trees of words, so that brackets and layout do not count:

  definitions   every file of specs/: the trees must be alike under one renaming of words, the same in all files
  laws          every file of lemmas in proofs/, statements and proofs, in the same way
  contracts     of every function: its signature, and each clause under the renaming that the definitions gave. The older form of a clause is
                rewritten first: `now (x .entry)` is `x.now` of a & and `x.old` of a &mut, `now (x .exit)` is `x.new`, and the λ binds the result

It prints what differs, words that are spelled otherwise in more than their joints (a number that became another would be one), the whole renaming with
--names, and counts. It does not look at imports, fields of types, values of constants and bodies of functions. Its status says nothing."""
import collections
import glob
import os
import re
import sys

WORD = re.compile(r"(?P<space>\s+)|(?P<bracket>[()\[\]{},;⌜⌝])|(?P<dot>\.)|(?P<word>[^\s()\[\]{},;.⌜⌝]+)")
APART = {"let", "in", "λ", "elim", "as", "record", "where", "unfolding", "pub", "abbrev", "unfoldable", "data", "module"}
FN = re.compile(r"(\s*)(?:pub(?:\(\w+\))? )?(?:extern \"C\" )?fn (\w+)")


def joins(word):
    """Whether a word stands between applications, as an operator does."""
    return word in APART or not re.match(r"[\w'«◌]", word)


def text(path):
    """A file's text without comments and imports. A line that begins at the margin begins a new item."""
    lines = [l for l in open(path, encoding="utf-8") if not l.lstrip().startswith("--") and not re.match(r"(pub )?(use|mod) ", l)]
    return "".join((" ; " if l[:1].strip() else "") + re.sub(r" -- .*", "", l) for l in lines)


def words(source):
    """Words with, for a dot that takes a field, whether a space stands before it."""
    out, spaced = [], True
    for m in WORD.finditer(source):
        if m.lastgroup == "space":
            spaced = True
            continue
        if m.lastgroup == "dot":
            takes = source[m.end() : m.end() + 1].strip() != ""
            out.append(("FIELD", spaced) if takes else ("DOT", False))
        else:
            out.append((m.group(0), False))
        spaced = False
    return out


def tree(source):
    """The words of a text as they belong together. A field after a space is one of all that was applied before it; today's form has no space."""
    it, at = words(source), 0

    def sequence():
        nonlocal at
        items, run = [], []

        def close():
            if run:
                items.append(run[0] if len(run) == 1 else ["apply", *run])
                run.clear()

        while at < len(it):
            word, spaced = it[at]
            if word in (")", "}", "]", "⌝"):
                break
            at += 1
            if word in ("(", "{", "[", "⌜"):
                inner = sequence()
                at += 1
                alone = word == "(" and len(inner) == 1 and not (isinstance(inner[0], str) and joins(inner[0]))
                run.append(inner[0] if alone else [word, *inner])
            elif word == "FIELD":
                name = it[at][0]
                at += 1
                if spaced and len(run) > 1:
                    run[:] = [["apply", *run]]
                run.append(["field", run.pop(), name])
            elif word in (",", ";", "DOT") or joins(word):
                close()
                items.append(word)
            else:
                run.append(word)
        close()
        return items

    return sequence()


def flat(node):
    if isinstance(node, str):
        return [node]
    out = []
    for n in node:
        out += flat(n) if isinstance(n, str) else ["<", *flat(n), ">"]
    return out


def beside(old, new, pattern, renamed):
    """Files of OLD that fit the pattern beside today's: how many, and those whose trees differ."""
    count, other = 0, []
    for path in sorted(glob.glob(f"{old}/crates/{pattern}", recursive=True)):
        today = new + path[len(old) :]
        count += 1
        if not os.path.exists(today):
            other.append(f"{today} is missing")
            continue
        a, b = flat(tree(text(path))), flat(tree(text(today)))
        if len(a) != len(b) or any((x == "<") != (y == "<") or (x == ">") != (y == ">") for x, y in zip(a, b)):
            other.append(f"{today}: another tree")
            continue
        for x, y in zip(a, b):
            renamed[x][y] += 1
    return count, other


def functions(path):
    """The functions of a file: the text from the name to the body, by type and name."""
    out, lines, at, owner = {}, open(path, encoding="utf-8").read().split("\n"), 0, ""
    while at < len(lines):
        line = lines[at]
        if line.startswith("impl"):
            owner = line.strip(" {")
        elif line == "}":
            owner = ""
        m = FN.match(line)
        at += 1
        if not m:
            continue
        head = [line]
        if not line.rstrip().endswith(("{", "}")):
            while lines[at] != m.group(1) + "{":
                head.append(lines[at])
                at += 1
        out[f"{owner if m.group(1) else ''}::{m.group(2)}"] = "\n".join(head)
    return out


def parted(head):
    """A signature, and its clauses as pairs of a word and a text."""
    clauses = []
    starts = list(re.finditer(r"\b(requires|ensures)(?: \w+)? \{", head))
    for m in starts:
        deep, at = 1, m.end()
        while deep:
            deep += (head[at] == "{") - (head[at] == "}")
            at += 1
        clauses.append((m.group(1), head[m.end() : at - 1]))
    signature = re.sub(r"\s+", "", head[: starts[0].start()] if starts else head)
    return signature.replace(",)", ")").rstrip("{"), clauses


def respelled(clause, kind, signature):
    """A clause of the older form in today's."""
    clause = clause.replace("⌜", " ").replace("⌝", " ").replace("«", "").replace("»", "").strip()
    changed = set(re.findall(r"(\w+):&mut", signature)) | ({"self"} if "&mutself" in signature else set())
    result = re.match(r"λ (\S+)\. ", clause) if kind == "ensures" else None
    if result:
        clause = clause[result.end() :].strip()
    before = lambda m: (m.group(1) or m.group(2)) + (".old" if (m.group(1) or m.group(2)) in changed else ".now")
    clause = re.sub(r"\(now \((\w+) \.entry\)\)|now \((\w+) \.entry\)", before, clause)
    clause = re.sub(r"\(now \((\w+) \.exit\)\)|now \((\w+) \.exit\)", lambda m: (m.group(1) or m.group(2)) + ".new", clause)
    clause = re.sub(r"(?<![.\w])\(now (\w+)\)|(?<![.\w])now (\w+)", before, clause)
    if result and result.group(1) != "_":
        clause = re.sub(rf"(?<![\w.']){re.escape(result.group(1))}(?![\w'])", "result", clause)
    return clause


def bare(clause):
    """A clause's tree without brackets round the whole of it."""
    it = tree(clause)
    while len(it) == 1 and it[0][0] == "(":
        it = it[0][1:]
    return it


def contracts(old, new, renamed):
    """Every function of OLD beside today's: how many, how many clauses, and those that differ."""
    to = {x: next(iter(ys)) for x, ys in renamed.items() if len(ys) == 1}
    snake = lambda w: w if w[:1].isupper() and "·" not in w else re.sub(r"(?<=[a-z0-9])([A-Z])", lambda m: "_" + m.group(1).lower(), "_".join(p[:1].lower() + p[1:] for p in w.split("·")))
    count, clauses, other = 0, 0, []
    for path in sorted(glob.glob(f"{old}/crates/*/src/**/*.rt", recursive=True)):
        today = new + path[len(old) :]
        before, after = functions(path), functions(today)
        for name in sorted(set(before) ^ set(after)):
            other.append(f"{today} {name}: only on one side")
        for name in sorted(set(before) & set(after)):
            (was, olds), (now, news) = parted(before[name]), parted(after[name])
            count += 1
            if was != now:
                other.append(f"{today} {name}: {was} | {now}")
            if [k for k, _ in olds] != [k for k, _ in news]:
                other.append(f"{today} {name}: other clauses")
                continue
            for (kind, a), (_, b) in zip(olds, news):
                clauses += 1
                # `record` is a word of the language, and here the name of a parameter
                one, two = (re.sub(r"\brecord(?=\.)", "the_record", t.replace("«", "").replace("»", "")) for t in (respelled(a, kind, was), b))
                if [to.get(w, snake(w)) for w in flat(bare(one))] != flat(bare(two)):
                    other.append(f"{today} {name}: {' '.join(a.split())} | {' '.join(b.split())}")
    return count, clauses, other


def main(argv):
    if len(argv) not in (1, 2):
        print(__doc__)
        return 2
    old, new = argv[0].rstrip("/"), "."
    renamed = collections.defaultdict(collections.Counter)
    files, other = beside(old, new, "*/specs/**/*.antt", renamed)
    functions_, clauses, unlike = contracts(old, new, dict(renamed))
    laws, others = beside(old, new, "*/proofs/*.antt", renamed)
    back = collections.defaultdict(set)
    for x, ys in renamed.items():
        for y in ys:
            back[y].add(x)
    split = [f"{x} has become {', '.join(ys)}" for x, ys in renamed.items() if len(ys) > 1]
    joined = [f"{', '.join(sorted(xs))} have become {y}" for y, xs in back.items() if len(xs) > 1]
    letters = lambda word: re.sub(r"[-_·◌]", "", word).lower()
    apart = [f"{x} has become {y}" for x, ys in renamed.items() for y in ys if len(ys) == 1 and letters(x) != letters(y)]
    for line in other + others + unlike + split + joined + apart:
        print(line)
    if "--names" in argv:
        print("\n".join(sorted(f"{x} {y}" for x, ys in renamed.items() for y in ys if x != y)))
    print(f"definitions: {files} files, {len(other)} with another tree; laws: {laws} files, {len(others)} with another tree; "
          f"contracts: {functions_} functions, {clauses} clauses, {len(unlike)} otherwise; {len(split)} words of which two have become; {len(joined)} words that two have become; "
          f"{len(apart)} words spelled otherwise")
    return 0


if __name__ == "__main__":
    sys.exit(main(sys.argv[1:]))
