"""lacp on real interfaces: live.py LACP FLOOD [--short] [--checked] [PART..], in a network and mount namespace with a /run of its own.

A line for each part says what was measured, in seconds where nothing else is said, and the last one how many checks passed and failed. --short is a selection for
a gate, each part shortened, and all of them at once; --checked says that LACP was built with sanitizers, which must have nothing to report.
"""

import os
import re
import signal
import subprocess
import sys
import tempfile
import time
import traceback

import load
import others
import pairs
import single
import trial
from checks import Checks, Failure
from tool import Bench

PARTS = pairs.PARTS | single.PARTS | others.PARTS | load.PARTS | trial.PARTS
SHORT = ("cut", "kill", "listen", "want")
# Namespaces as tools/live.sh makes them, for a part that runs beside others.
APART = ("setpriv", "--pdeathsig", "KILL", "unshare", "--net", "--mount", "bash", "-c", 'mount -t tmpfs tmpfs /run && mkdir /run/netns && exec "$@"', "live")
LAST_LINE = "live: {} checks passed, {} failed"


def run(bench, name):
    """One part, and its line."""
    checks = bench.checks
    checks.part, checks.notes, failed, start = name, [], checks.failed, time.monotonic()
    try:
        PARTS[name](bench)
    except Failure as failure:
        checks.true(failure, False)
    except Exception as error:  # whatever it is, the part did not pass
        traceback.print_exc()
        checks.true(f"broken off: {error!r}", False)
    result = "WRONG" if checks.failed > failed else "right" if not checks.notes[:1] or not checks.notes[0].startswith("left out") else "-"
    print(f"{name}: {result}; {'; '.join(checks.notes)} ({time.monotonic() - start:.1f} s)", flush=True)


def run_beside(words, names, checks):
    """These parts at once, each in a process and in namespaces of its own; what they print, one after the other."""
    processes = [subprocess.Popen((*APART, sys.executable, "-B", *sys.argv[:1], *words, name), stdout=subprocess.PIPE, text=True) for name in names]
    for process in processes:
        *lines, last = process.communicate(timeout=60)[0].splitlines() or [""]
        print(*lines, sep="\n", flush=True)
        found = re.fullmatch(LAST_LINE.format(r"(\d+)", r"(\d+)"), last)
        passed, failed = map(int, found.groups()) if found else (0, 1)
        checks.passed, checks.failed = checks.passed + passed, checks.failed + failed


def main(lacp, flood, *words):
    """All parts that are asked for; whether all is well."""
    options, names = {word for word in words if word.startswith("--")}, [word for word in words if not word.startswith("--")]
    unknown = [*(options - {"--short", "--checked"}), *(name for name in names if name not in PARTS)]
    if unknown:
        print(f"live: no such word: {', '.join(unknown)}; parts: {', '.join(PARTS)}", file=sys.stderr)
        return False
    checks, short = Checks(), "--short" in options
    with tempfile.TemporaryDirectory(prefix="live.") as folder:
        os.chmod(folder, 0o755)
        bench = Bench(os.path.abspath(lacp), os.path.abspath(flood), "--checked" in options, short, folder, checks)
        if short and not names:
            run_beside((lacp, flood, *words), SHORT, checks)
        for name in names or (() if short else PARTS):
            run(bench, name)
    print(LAST_LINE.format(checks.passed, checks.failed))
    return checks.failed == 0 and checks.passed > 0


if __name__ == "__main__":
    signal.signal(signal.SIGTERM, lambda *_: sys.exit(1))
    sys.exit(0 if main(*sys.argv[1:]) else 1)
