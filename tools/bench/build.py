"""Builds what is measured: the library, the model, and the C program that drives both."""

import os
import platform
import shutil
import subprocess
from pathlib import Path

ROOT = Path(__file__).resolve().parents[2]
WORK = ROOT / "target/bench"
ARCHIVE = ROOT / "target/staticlib/libmyrkosti.a"
X86_64 = platform.machine() == "x86_64"
CROSS = "" if X86_64 else "x86_64-linux-gnu-"
EMULATOR = [] if X86_64 else ["qemu-x86_64"]
OWN = f"{platform.machine()}-linux-gnu"
C = ["-O2", "-std=c11", "-Wall", "-Wextra", "-Wpedantic", "-Werror", "-I", "include", "-I", "tests/bench"]


def run(*words, **more):
    """What a command prints; it must succeed."""
    return subprocess.run([str(word) for word in words], cwd=ROOT, check=True, text=True, stdout=subprocess.PIPE, **more).stdout


def install():
    """Debian's packages for what is missing: a C compiler, Rust, valgrind, and elsewhere than on x86-64 the cross compiler."""
    wanted = {f"{CROSS}gcc": [], "gcc": ["gcc", "libc6-dev"], "cargo": ["cargo-web", "rustc-web"], "valgrind": ["valgrind"]}
    missing = [program for program in wanted if not shutil.which(program)]
    if missing:
        print("installing what is missing:", *missing, flush=True)
        run("apt-get", "update", "-q")
        packages = [package for program in missing for package in wanted[program]]
        run("apt-get", "install", "-y", "-q", *packages, env={**os.environ, "DEBIAN_FRONTEND": "noninteractive"})
    run("tools/target.sh", env={**os.environ, "TARGET": "x86_64-linux-gnu"})  # the cross compiler, where it is needed


def library():
    """The archive for this machine: on x86-64 the proved one itself, elsewhere its module compiled anew, and tested."""
    made = archive(OWN)
    run("gcc", *C, "tests/c/calls.c", made, "-o", WORK / "calls")
    print("compiled for this machine:", run(WORK / "calls").strip())
    return made


def archive(target):
    """The archive for that machine."""
    print(run("tools/archive.sh", target), end="")
    return ROOT / "target" / target / "libmyrkosti.a"


def member():
    """The archive's one object file."""
    folder = WORK / "shipped"
    folder.mkdir(parents=True, exist_ok=True)
    run(f"{CROSS}ar", "x", ARCHIVE, "--output", folder)
    return folder / "myrkosti.o"


def model():
    """The model as a static library for this machine, optimized."""
    run("cargo", "build", "--quiet", "--profile", "measured", "--manifest-path", "rust/Cargo.toml", "-p", "bench-model")
    return ROOT / "rust/target/measured/libbench_model.a"


def bench(archive, model):
    """The program for this machine, which callgrind can count."""
    program = WORK / "bench"
    sources = [f"tests/bench/{name}.c" for name in ("bench", "scene", "side", "by_callgrind")]
    run("gcc", *C, *sources, archive, model, "-Wl,-z,now", "-lpthread", "-ldl", "-lm", "-o", program)
    return program


def bench_as_shipped():
    """The program for x86-64 with the archive itself, which runs under the emulator, and the model if it can be had; none on x86-64."""
    if X86_64:
        return None
    program = WORK / "bench-x86-64"
    sources = [f"tests/bench/{name}.c" for name in ("bench", "scene", "side", "by_trace")]
    model = model_for_x86_64()
    run(f"{CROSS}gcc", *C, "-static", *sources, ARCHIVE, *([model] if model else ["-DWITHOUT_MODEL"]), "-Wl,--gc-sections,--no-warnings", "-o", program)
    return program


def model_for_x86_64():
    """The model for x86-64, by a Rust of Debian's; none where that cannot be had."""
    try:
        run("tools/bench/model-x86-64.sh")
    except subprocess.CalledProcessError:
        print("caution: no Rust for x86-64 could be had, so the archive has no model beside it")
        return None
    return WORK / "model-x86-64/libbench_model.a"
