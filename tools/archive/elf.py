"""Object files of 64-bit little-endian machines, and archives of one of them: as much as the checks of an archive read."""

import struct
from pathlib import Path
from typing import NamedTuple

WRITE, ALLOC, MERGE = 1, 2, 16  # flags of a section: in memory it is written; it is in memory; equal entries may be merged
SYMBOLS, NO_OCTETS = 2, 8  # types of a section
LOCAL = 0


class Section(NamedTuple):
    name: str
    kind: int
    flags: int
    octets: bytes
    link: int
    info: int
    entry: int
    size: int


class Symbol(NamedTuple):
    name: str
    section: int  # 0 if it is undefined
    value: int
    binding: int


class Relocation(NamedTuple):
    at: int
    kind: int
    symbol: Symbol
    addend: int


def octets_of(path):
    """The object file itself, or an archive's only one."""
    file = Path(path).read_bytes()
    if not file.startswith(b"!<arch>\n"):
        return file
    members, at = [], 8
    while at < len(file):
        name, size = file[at:at + 16].rstrip(), int(file[at + 48:at + 58])
        if name not in (b"/", b"//"):
            members.append(file[at + 60:at + 60 + size])
        at += 60 + size + size % 2
    if len(members) != 1:
        raise SystemExit(f"{path}: {len(members)} object files, not one")
    return members[0]


def text_at(octets, at):
    return octets[at:octets.index(b"\0", at)].decode()


class Object:
    """The sections of an object file in their order, its symbols, and the relocations of each section by the section's number."""

    def __init__(self, path):
        file = octets_of(path)
        if file[:6] != b"\x7fELF\x02\x01":
            raise SystemExit(f"{path}: no object file of a 64-bit little-endian machine")
        (start,) = struct.unpack_from("<Q", file, 40)
        width, count, names = struct.unpack_from("<HHH", file, 58)
        heads = [struct.unpack_from("<IIQQQQIIQQ", file, start + width * n) for n in range(count)]
        bodies = [b"" if kind == NO_OCTETS else file[at:at + size] for _, kind, _, _, at, size, *_ in heads]
        self.sections = [Section(text_at(bodies[names], name), kind, flags, body, link, info, entry, size)
                         for (name, kind, flags, _, _, size, link, info, _, entry), body in zip(heads, bodies)]
        (table,) = [section for section in self.sections if section.kind == SYMBOLS]
        self.symbols = [Symbol(text_at(self.sections[table.link].octets, name), section, value, info >> 4)
                        for name, info, _, section, value, _ in struct.iter_unpack("<IBBHQQ", table.octets)]
        self.relocations = {section.info: self.relocations_of(section) for section in self.sections if section.kind == 4}

    def relocations_of(self, section):
        return [Relocation(at, info & 0xffffffff, self.symbols[info >> 32], addend) for at, info, addend in struct.iter_unpack("<QQq", section.octets)]

    def in_memory(self):
        """The sections that a program has in memory, by number."""
        return {n: section for n, section in enumerate(self.sections) if section.flags & ALLOC and section.size}

    def exported(self):
        return {symbol.name: symbol for symbol in self.symbols if symbol.section and symbol.binding != LOCAL}

    def undefined(self):
        return {symbol.name for symbol in self.symbols if symbol.name and not symbol.section}
