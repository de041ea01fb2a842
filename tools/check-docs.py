#!/usr/bin/env python3
"""Holds docs/CONFORMANCE.md, docs/RULES.md and the references between the papers against the repository. Not part of the gate.

CONFORMANCE.md  each item of 43.7 and 43B.6 has one row, with a known answer; the counts are right.
RULES.md        the numbers of a section go up by one; no edit is left out.
both            each definition, contract, theorem and test that is cited exists.
everywhere      a rule, a decision or a file of docs/ that is cited exists.

    tools/check-docs.py [TREE]     TREE is another repository in which names may stand too, as a request that has not landed
"""
import re
import subprocess
import sys
from collections import Counter
from pathlib import Path

ROOT = Path(__file__).resolve().parent.parent
TREES = [ROOT, *map(Path, sys.argv[1:2])]
ANSWERS = ["Yes", "By rule", "No", "N/A", "Chip"]

# the item codes of IEEE Std 802.3ad-2000, 43.7.3 to 43.7.25 and 43B.6.2.3 to 43B.6.2.4, in their order; a star marks an option
FAMILIES = """*MG *AM *CM FC:2 FD:3 MGR:2 APM:4 CPM:2 SID:2 AID1 AID2 *AID3 AID4 PID:1 CID:2 LAG:1 DLA:1 LPS:3 SMV:2 RM:2 PM:1 SLM:14
XM:1 TM:14 CM:1 FP:9 CCR:4 LSM:2 SP:3 FH:1"""


def text_of(*path):
    return ROOT.joinpath(*path).read_text()


def files(pattern):
    return [file for tree in TREES for file in tree.glob(pattern) if file.is_file()]


def has(pattern, regex):
    return any(re.search(regex, file.read_text(), re.M) for file in files(pattern))


# Citations.

def defined(pattern, name):
    return has(pattern, rf"^\s*(?:(?:abbrev|unfoldable|pub|record|data)\s+)*{re.escape(name)}\s*[:(]")


def crates():
    return {path.name for path in ROOT.joinpath("crates").iterdir()}


def cited_in_backticks(text):
    """Definitions `crate/specs/File.antt: name, ..` or `crate/File: name, ..`, theorems `crate: name, ..`, functions `crate::..::name`."""
    for cited in re.findall(r"`([^`]+)`", text):
        place, _, names = cited.partition(": ")
        m = re.fullmatch(r"(\w+)/(?:specs/)?(\w+)(?:\.antt)?", place)
        if names and m and m[1] in crates():
            for name in names.split(", "):
                yield f"{place}: {name}", defined(f"crates/{m[1]}/specs/{m[2]}.antt", name)
        elif names and place in crates():
            for name in names.split(", "):
                yield f"{place}: {name}", defined(f"crates/{place}/proofs/*.antt", name)
        elif "::" in cited and cited.split("::")[0] in crates():
            crate, *_, name = cited.split("::")
            yield cited, has(f"crates/{crate}/src/*.rt", rf"\bfn {re.escape(name)}\b")


def is_edit(name):
    crate, _, edit = name.partition("/")
    return bool(files(f"crates/{crate}/must-fail/{edit}.edit") or files(f"tools/mutants/{crate}/{edit}.edit"))


# How each kind of test is found by its name.
TESTS = {
    "edit": is_edit,
    "case": lambda name: has("crates/runs/specs/*.antt", rf"^  pub {name} :"),
    "witness": lambda name: has("crates/claims/specs/Witness.antt", rf"^  pub {name} :"),
    "breakage": lambda name: has("rust/model/src/breakage.rs", rf'"{name}"'),
    "model": lambda name: has("rust/model/tests/*.rs", rf"^fn {name}\("),
    "C": lambda name: has("tests/c/*.c", rf"\b{name}\("),
    "Rust": lambda name: has("rust/*/**/*.rs", rf"fn {name}\("),
}


def cited_tests(text):
    """'edits `a`, `b`; case `c`; mutant *d*', as the last column of RULES.md has it."""
    text = re.sub(r"<!--.*?-->", "", text)
    for word, names in re.findall(r"\b(edit|case|witness|breakage|model|C|Rust)s? ((?:`[\w/-]+`(?:, | and )?)+)", text):
        for name in re.findall(r"`([^`]+)`", names):
            yield f"{word} {name}", TESTS[word](name)
    for names in re.findall(r"\bmutants? ((?:\*[^*]+\*(?:, )?)+)", text):
        for name in re.findall(r"\*([^*]+)\*", names):
            yield f"mutant {name}", has("tools/mutants.py", re.escape(name)) or has("tools/mutants/**/*", re.escape(name))


# The standard's tables.

def codes():
    for family in FAMILIES.split():
        name, _, count = family.partition(":")
        yield from (f"{name}{n}" for n in range(1, int(count) + 1)) if count else (name,)


def rows(text):
    """The items of each row of the standard's tables, with its answer: the word before a comma."""
    for line in text.split("\n"):
        cells = [cell.strip() for cell in line.strip("|").split("|")]
        if len(cells) == 6 and re.match(r"`?\*?[A-Z]{2,3}\d*\b", cells[0]):
            for code in cells[0].replace("`", "").split(", "):
                yield code, cells[4].split(",")[0]


def conformance(text):
    items = list(rows(text))
    if [code for code, _ in items] != list(codes()):
        seen, asked = Counter(code for code, _ in items), Counter(codes())
        yield f"items missing {sorted(asked - seen)}, too many {sorted(seen - asked)}, or out of order"
    count = Counter(answer for _, answer in items)
    yield from (f"no such answer: {answer}" for answer in count if answer not in ANSWERS)
    told = "| " + " | ".join(str(count[answer]) for answer in ANSWERS) + f" | {len(items)} |"
    if told not in text:
        yield f"the counts are {told}"


# Rules, decisions, files.

def numbers(text):
    return [(int(a), int(b)) for a, b in re.findall(r"(?m)^\| R(\d+)\.(\d+) \|", text)]


def rules(text):
    found = numbers(text)
    sections = sorted({a for a, _ in found})
    if found != [(a, b + 1) for a in sections for b in range(sum(x == a for x, _ in found))]:
        yield "the rules are not numbered in order"
    edits = {f"{file.parts[-3]}/{file.stem}" for file in ROOT.glob("crates/*/must-fail/*.edit")}
    edits |= {f"{file.parts[-2]}/{file.stem}" for file in ROOT.glob("tools/mutants/*/*.edit")}
    yield from (f"an edit without a rule: {edit}" for edit in sorted(edits) if f"`{edit}`" not in text)


def references():
    """Rules, decisions and papers that are cited anywhere, and do not exist."""
    known = set(numbers(text_of("docs", "RULES.md")))
    decisions = [int(n) for n in re.findall(r"(?m)^(\d+)\. ", text_of("docs", "DECISIONS.md"))]
    if decisions != list(range(1, len(decisions) + 1)):
        yield "the decisions are not numbered in order"
    listed = subprocess.run(["git", "ls-files"], cwd=ROOT, capture_output=True, text=True, check=True).stdout.split()
    for name in listed:
        path = ROOT / name
        if not path.is_file() or path.suffix not in {".md", ".antt", ".rt", ".h", ".c", ".rs", ".py", ".edit", ".txt"}:
            continue
        text = path.read_text()
        yield from (f"{name}: no rule R{a}.{b}" for a, b in re.findall(r"\bR(\d+)\.(\d+)\b", text) if (int(a), int(b)) not in known)
        cited = re.findall(r"DECISIONS\.md\)?,? (\d+)", text)
        yield from (f"{name}: no decision {n}" for n in cited if not 1 <= int(n) <= len(decisions))
        yield from (f"{name}: no file docs/{paper}" for paper in re.findall(r"docs/([A-Z-]+\.md)", text) if not ROOT.joinpath("docs", paper).is_file())


def main():
    papers = {name: text_of("docs", name) for name in ("CONFORMANCE.md", "RULES.md", "PROOFS.md")}
    cited = {name: there for text in papers.values() for name, there in cited_in_backticks(text)}
    cited |= dict(cited_tests(papers["RULES.md"]))
    wrong = [f"does not exist: {name}" for name, there in cited.items() if not there]
    wrong += [*conformance(papers["CONFORMANCE.md"]), *rules(papers["RULES.md"]), *references()]
    for line in wrong:
        print(line)
    print(f"{len(list(rows(papers['CONFORMANCE.md'])))} items, {len(numbers(papers['RULES.md']))} rules, {len(cited)} citations, {len(wrong)} wrong")
    return bool(wrong)


if __name__ == "__main__":
    sys.exit(main())
