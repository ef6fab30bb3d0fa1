"""Tries a package on another processor under qemu-user, beside the library that the kit built for this one."""
import glob
import os
import shutil
import tempfile

import atomics
from kept import TOP, Missing
from llvm_text import Unreadable, read
from packed import PATH, make, run, unpacked

# For each processor: the prefix of its compilers, its emulator, how the text is compiled, and the clangs in the order of choice.
# Between them an old and a new clang are tried, where both are there, and code for speed and for size. An old one makes no stack probes
# for aarch64, of which the package's Makefile tells.
TARGETS = {
    "aarch64": ("aarch64-linux-gnu-", "qemu-aarch64-static", "-Os", range(22, 14, -1)),
    "riscv64": ("riscv64-linux-gnu-", "qemu-riscv64-static", "-O2", range(15, 23)),
}


def needed(name, package):
    found = shutil.which(name)
    if not found:
        raise Missing(f"{name} is not installed (Debian's {package})")
    return found


def clang_of(versions):
    """The first of these clangs that is there."""
    for it in versions:
        if shutil.which(f"clang-{it}"):
            return f"clang-{it}"
    raise Missing(f"no clang is installed of version {min(versions)} to {max(versions)} (Debian's clang-16, say)")


def same_sessions(folder, runner, room):
    """Sessions that are recorded here and there are the same, and play here and there to the same reports."""
    run("make", "-s", "-C", "embed/c", "build/recorded", "build/play")
    os.makedirs(f"{room}/here")
    run(f"{TOP}/embed/c/build/recorded", f"{room}/here")
    scripts = sorted(glob.glob(f"{room}/here/*.qtree"))
    for it in scripts:
        there = f"{folder}/build/{os.path.basename(it)}"
        wanted = read(it.replace(".qtree", ".out"))
        if read(there) != read(it) or read(there.replace(".qtree", ".out")) != wanted:
            raise Unreadable(f"{os.path.basename(it)} was recorded otherwise there")
        if run(runner, "./qtree", "play", it, cwd=folder) != wanted or run(f"{TOP}/embed/c/build/play", there) != wanted:
            raise Unreadable(f"{os.path.basename(it)} plays to another report")
    return len(scripts)


def same_reports(folder, runner):
    """The examples play as the program's command line is given them."""
    scripts = sorted(glob.glob(f"{folder}/examples/*.script"))
    for it in scripts:
        base, words = it[: -len(".script")], []
        if os.path.exists(f"{base}.args"):
            words = [word for word in read(f"{base}.args").split() if word != "play"]
        status = int(read(f"{base}.status")) if os.path.exists(f"{base}.status") else 0
        shell = '"$@"; status=$?; echo "status $status"'
        if run("sh", "-c", shell, "sh", runner, "./qtree", "play", *words, it, cwd=folder) != f"{read(f'{base}.out')}status {status}\n":
            raise Unreadable(f"{os.path.basename(it)} plays to another report or status")
    return len(scripts)


def on(name, package):
    """Builds the package for this processor, runs the tests and plays every script there, and reads the code of its atomics."""
    if not package:
        raise Missing("no package was made")
    if name not in TARGETS:
        raise Missing(f"{name} is none of {', '.join(TARGETS)}")
    prefix, emulator, opt, versions = TARGETS[name]
    clang, runner = clang_of(versions), needed(emulator, "qemu-user-static")
    needed(f"{prefix}gcc", f"gcc-{prefix}".rstrip("-"))
    if not glob.glob(f"/usr/{prefix.rstrip('-')}/lib/libc.a"):
        raise Missing(f"no C library for {name} is installed (Debian's libc6-dev-{'arm64' if name == 'aarch64' else name}-cross)")
    with tempfile.TemporaryDirectory(prefix="qtree-portable-") as room:
        folder = unpacked(package, room)
        words = [f"CLANG={clang}", f"CC={prefix}gcc", f"AR={prefix}ar", f"RUN={runner}", f"OPT={opt}"]
        make(folder, *words, "test")
        said = run("env", "-i", PATH, runner, "./qtree", "--version", cwd=folder)
        if f"rewritten for {name}-" not in said:
            raise Unreadable(f"the player does not say for what it was rewritten: {said}")
        counts = atomics.check(run(f"{prefix}objdump", "-d", "--no-show-raw-insn", f"{folder}/build/module.o"), name)
        sessions, scripts = same_sessions(folder, runner, room), same_reports(folder, runner)
        text = run(f"{prefix}size", f"{folder}/build/module.o").split("\n")[1].split()[0]
    return f"{clang} {opt}, {text} bytes of code and constants; all tests; {sessions} sessions there and back, {scripts} examples; {counts}"
