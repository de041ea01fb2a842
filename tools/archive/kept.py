"""kept.py FOLDER [--over-ci] WORDS..: `rt WORDS..`, as the kit has it, but for one thing: the compiler that it calls keeps in FOLDER what it was given.

FOLDER/module.bc is then the module of the static library or of the program, and FOLDER/words the words that the compiler was called with, one a line.
With --over-ci the libraries below stand as the last `rt ci` has proved and built them, whatever their text is now: else `rt` would prove each once more."""

import importlib.machinery
import importlib.util
import os
import shutil
import subprocess
import sys
import tempfile

sys.dont_write_bytecode = True
RT = os.path.realpath(shutil.which("rt"))
TOOLCHAIN = f"{os.path.dirname(os.path.dirname(RT))}/toolchain"

# A program is compiled with the checkers of `rt try`, or optimized; what else the compiler is called for is not kept.
CLANG = """#!/bin/sh
case " $* " in
*" -O3 "* | *" -fsanitize=address "*) cp module.bc "{folder}/" && printf '%s\\n' "$@" > "{folder}/words" ;;
esac
exec "{toolchain}/bin/clang" "$@"
"""


def loaded(path):
    loader = importlib.machinery.SourceFileLoader("rt", path)
    module = importlib.util.module_from_spec(importlib.util.spec_from_loader("rt", loader))
    loader.exec_module(module)
    return module


def toolchain_that_keeps(at, folder):
    """The kit's toolchain in the folder `at`, by links, with that compiler."""
    for part in os.listdir(TOOLCHAIN):
        os.mkdir(f"{at}/{part}")
        for name in os.listdir(f"{TOOLCHAIN}/{part}"):
            if (part, name) != ("bin", "clang"):
                os.symlink(f"{TOOLCHAIN}/{part}/{name}", f"{at}/{part}/{name}")
    with open(f"{at}/bin/clang", "w", encoding="utf-8") as file:
        file.write(CLANG.format(folder=folder, toolchain=TOOLCHAIN))
    os.chmod(f"{at}/bin/clang", 0o755)


def call_with(toolchain):
    """Each command that is given the kit's toolchain gets that one."""
    class Popen(subprocess.Popen):
        def __init__(self, words, *given, **named):
            if not isinstance(words, str):
                words = [toolchain if word == TOOLCHAIN and before == "--toolchain" else word for before, word in zip([None, *words], words)]
            super().__init__(words, *given, **named)

    subprocess.Popen = Popen


def over_ci(crate):
    """Has rt take the libraries that `rt ci` left, which have no stamp. Where one has the stamp of rt's other commands, rt looks at it by itself."""
    is_built = crate.is_built

    def is_there(self):
        below = [self, *self.below()]
        by_ci = all(os.path.isfile(f"{it.rlib}/format") and not os.path.exists(f"{os.path.dirname(it.rlib)}/stamp") for it in below)
        return by_ci or is_built(self)

    crate.is_built = is_there


def main(folder, *words):
    rt = loaded(RT)
    if words[0] == "--over-ci":
        words = words[1:]
        over_ci(rt.rtlib.Crate)
    with tempfile.TemporaryDirectory() as at:
        toolchain_that_keeps(at, os.path.abspath(folder))
        call_with(at)
        return rt.main([*words])


if __name__ == "__main__":
    sys.exit(main(*sys.argv[1:]))
