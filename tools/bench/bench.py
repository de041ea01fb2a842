#!/usr/bin/env python3
"""Measures the library beside the model, and writes the tables of docs/BENCHMARKS.md and the picture docs/benchmarks.svg.
bench.py --sizes: text and stack for each machine alone, which are read off the archives, so that nothing else on the machine matters.

The text of docs/BENCHMARKS.md is written by hand; what stands between '<!-- begin NAME -->' and '<!-- end NAME -->' is replaced."""

import os
import platform
import re
import subprocess
import sys

import build
import measure
import picture
import sizes
import tables

DOCUMENT = build.ROOT / "docs/BENCHMARKS.md"
PICTURE = build.ROOT / "docs/benchmarks.svg"


def processor():
    """What kind of machine it is, and what its processor is called, if it says so."""
    told = subprocess.run(["lscpu"], text=True, stdout=subprocess.PIPE, stderr=subprocess.DEVNULL).stdout
    name = re.search(r"^Model name: *(.*)$", told, re.M)
    return f"{platform.machine()} ({name[1]})" if name else platform.machine()


def caution():
    if os.getloadavg()[0] > 0.5:
        print(f"caution: other programs run (load {os.getloadavg()[0]:.1f}); times may be too long, instructions are not")


def parts():
    """Every part of the document, by its name."""
    build.WORK.mkdir(parents=True, exist_ok=True)
    build.install()
    program = build.bench(build.library(), build.model())
    shipped = build.bench_as_shipped()
    build.run(program, "check")
    print("library and model agree on every call that is measured, octet for octet")
    caution()
    times = measure.times(program)
    counts, files = measure.counts(program, "counts")
    again, _ = measure.counts(program, "counts-again")
    if counts != again:
        raise SystemExit(f"callgrind counted otherwise the second time: {set(counts.items()) ^ set(again.items())}")
    print(f"callgrind counted {len(counts)} calls twice, and the same both times")
    stacks = measure.stacks(program)
    everywhere = sizes.sizes()
    shipped_counts = measure.trace_counts(shipped, program) if shipped else counts
    profiles = {call: measure.by_function(files[call, 32, "library"]) for call in tables.WHERE}
    PICTURE.write_text(picture.picture(counts, tables.GROWTH))
    print(f"written: {PICTURE.relative_to(build.ROOT)}")
    kinds = {"instructions here": counts, "ns here": times} | ({"instructions, x86-64": shipped_counts} if shipped else {})
    return {"aim": tables.aim(counts, everywhere),
            "at-32": "\n\n".join([machine(len(counts)), tables.at_32(kinds, everywhere["x86_64-linux-gnu"].stack, stacks), tables.text(measure.texts())]),
            "growth": tables.growth(times, "ns") + "\n\n" + tables.growth(counts, "Instructions"),
            "targets": tables.targets(everywhere), "where": tables.where(profiles), "second": tables.budget(counts), "peers": tables.peers(counts)}


def sizes_alone():
    build.WORK.mkdir(parents=True, exist_ok=True)
    build.install()
    return {"targets": tables.targets(sizes.sizes())}


def machine(counted):
    compiled = "the archive itself" if build.X86_64 else f"the archive for {build.OWN} (below)"
    return tables.wrapped(f"Measured on {processor()}; the library is {compiled}. {counted} calls were counted twice by callgrind, "
                          "with the same counts. A time is the least of 25 repeats of a millisecond or more.")


def put(text, name, part):
    """The text with that part in its place."""
    marked = re.compile(f"(<!-- begin {name} -->\n).*?(<!-- end {name} -->)", re.S)
    if not marked.search(text):
        raise SystemExit(f"{DOCUMENT}: no place for {name}")
    return marked.sub(lambda found: found[1] + part + "\n" + found[2], text)


def main():
    text = DOCUMENT.read_text()
    for name, part in (sizes_alone() if "--sizes" in sys.argv else parts()).items():
        text = put(text, name, part)
        print(f"\n{part}")
    DOCUMENT.write_text(text)
    print(f"\nwritten: {DOCUMENT.relative_to(build.ROOT)}")


if __name__ == "__main__":
    main()
