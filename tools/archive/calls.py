"""calls.py FILE: the source of a library for C, and behind it a `main` that calls each of its functions once, with nothing in what it lends. As a program it
has them all."""

import re
import sys
from pathlib import Path

# What is lent or given to a parameter, by its type.
GIVEN = {
    "bool": "false",
    "u16": "0",
    "u32": "0",
    "&[u8]": "&[0u8; 0]",
    "&[u8; 6]": "&[0u8; 6]",
    "&[u8; 15]": "&[0u8; 15]",
    "&mut [u8]": "&mut [0u8; 0]",
    "&mut u32": "&mut 0",
    "&mut Counters": "&mut Counters { lacpdus: 0, markers: 0, responses: 0, unknown: 0, illegal: 0, sent: 0, answered: 0 }",
}


def main(file):
    source = Path(file).read_text()
    print(source)
    print("fn main() {")
    for name, parameters in re.findall(r'^pub extern "C" fn (\w+)\(([^)]*)\)', source, re.M):
        given = [GIVEN[kind] for kind in re.findall(r"\w+: ([^,\n]+)", parameters)]
        print(f"    let _ = {name}({', '.join(given)});")
    print("}")


main(sys.argv[1])
