"""Checks of an archive.

check.py same PROVED REMADE   both have the same code and constants, octet for octet, and every place in them leads to the same place
check.py alone FILE           it asks for nothing but what any compiler may ask for, and has no memory of its own"""

import sys
from collections import Counter

from elf import MERGE, WRITE, Object

# What a compiler may call in a program without a C library; include/myrkosti.h names them.
MAY_BE_ASKED_FOR = {"memcpy", "memmove", "memset", "memcmp"}


def place(object, relocation):
    """Where a relocation leads, in words that do not depend on the order of functions: a constant that has a name is told by its octets, and one that
    has none by its place among all of them."""
    symbol = relocation.symbol
    if not symbol.section:
        return symbol.name, relocation.addend
    section = object.sections[symbol.section]
    if not section.flags & MERGE:
        return section.name, symbol.value, relocation.addend
    if not symbol.name:
        return section.name, section.octets, relocation.addend
    return section.name, section.octets[symbol.value:symbol.value + section.entry], relocation.addend


def parts(object):
    """What a program has in memory, by name: octets, and what stands where a relocation is. Of constants that may be merged, each and how often."""
    found = {}
    for n, section in object.in_memory().items():
        if section.name in found:
            raise SystemExit(f"two sections {section.name}")
        octets = section.octets
        if section.flags & MERGE:
            octets = Counter(octets[at:at + section.entry] for at in range(0, len(octets), section.entry))
        places = [(each.at, each.kind, place(object, each)) for each in object.relocations.get(n, [])]
        found[section.name] = (section.flags, octets, places)
    return found


def names(object):
    """The functions that a program may call, each with its place."""
    return {name: (object.sections[symbol.section].name, symbol.value) for name, symbol in object.exported().items()}


def same(proved, remade):
    theirs, ours = Object(proved), Object(remade)
    shown = parts(theirs), parts(ours)
    differing = sorted(name for name in shown[0].keys() | shown[1].keys() if shown[0].get(name) != shown[1].get(name))
    if names(theirs) != names(ours):
        differing.append("the names of functions")
    if theirs.undefined() != ours.undefined():
        differing.append("what is asked for")
    if differing:
        raise SystemExit(f"{proved} is of other code than this module (make it anew: tools/library.sh): {', '.join(differing)}")
    functions = sum(name.startswith(".text.") for name in shown[0])
    octets = sum(section.size for section in theirs.in_memory().values())
    print(f"compiled for x86-64: all {functions} functions, {len(names(theirs))} of them for C, and all constants are the proved archive's, {octets:,} octets")


def alone(file):
    object = Object(file)
    if beyond := object.undefined() - MAY_BE_ASKED_FOR:
        raise SystemExit(f"{file} asks for {', '.join(sorted(beyond))}")
    if written := [section.name for section in object.in_memory().values() if section.flags & WRITE]:
        raise SystemExit(f"{file} has memory of its own: {', '.join(written)}")
    octets = sum(section.size for section in object.in_memory().values())
    print(f"{octets:,} octets of code and constants; asks for {', '.join(sorted(object.undefined())) or 'nothing'}")


if __name__ == "__main__":
    {"same": same, "alone": alone}[sys.argv[1]](*sys.argv[2:])
