"""Plants in a copy of the repository what no clause refuses, and says which test tells it."""
import hashlib
import os
import re
import shutil
import signal
import subprocess
import sys
import time

from mutation import switched
from mutation.planted import mutants_in

FOLDER = "tools/mutation/told_by_tests"
PROGRAM, LIBRARY = "crates/qtree/out/unproved/qtree", "crates/qtree_c/out/unproved/libqtree_c.a"
# A mutant may make a test wait for ever: so many seconds at least, and so many times what the suite takes without one.
SECONDS, TIMES = 60, 8
# A suite's command, and which builds it needs.
SUITES = {
    "program": (["crates/qtree/tests/run", PROGRAM], (PROGRAM,)),
    "explained": (["crates/qtree/tests/run", PROGRAM, "test_explanations", "test_sentences"], (PROGRAM,)),
    "c": (["make", "-C", "embed/c", "test"], (LIBRARY, PROGRAM)),
    "figures": (["sh", "-c", "make -s -C embed/c build/figures && embed/c/build/figures"], (LIBRARY,)),
    "rust": (["cargo", "test", "-q", "--manifest-path", "embed/rust/Cargo.toml"], (LIBRARY,)),
    "go": (["embed/go/test"], (LIBRARY,)),
    "python": (["embed/python/test"], (LIBRARY,)),
    "page": (["embed/page/test", PROGRAM], (LIBRARY, PROGRAM)),
    "wide": (["embed/page/test"], (LIBRARY,)),
    "wire": (["wire/test"], (LIBRARY,)),
    # The tests of wire/test that need no card, without the builds of the others.
    "wire_parts": (["sh", "-c", "make -s -C wire build/head build/parts && cd wire && build/head && build/parts"], (LIBRARY,)),
    "exporter": (["examples/exporter/test"], (LIBRARY,)),
    "capture": (["examples/capture/test", PROGRAM], (LIBRARY, PROGRAM)),
    "import": (["examples/import/test", PROGRAM], (PROGRAM,)),
    "heap": (["embed/portable/try-heap"], ()),
}
# Those of which only the tests are run that mutants name: all take minutes, and some need what a copy has not.
NAMED = ("wire",)
# Those that are tried where a mutant names none.
ALL = ("program", "c", "rust")
BUILDS = {PROGRAM: ["tools/build-unproved"], LIBRARY: ["tools/build-unproved", "qtree_c"]}
# How the suites name the test that failed.
FAILED = (
    r"^(?:FAIL|ERROR): (\w+) \(",
    r"^---- (\S+).* stdout ----",
    r"^test (\S+) \.\.\. FAILED",
    r"^--- FAIL: (\w+)",
    r"^(\w+): FAILED",
    r"^(\w+\.c:\d+: .*)",
    r"^SUMMARY: (.*)",
)
UNREAD = r"^\S+:\d+:\d+: (?:fatal )?error: |^error\[E\d+\]|could not compile|SyntaxError|IndentationError|\[build failed\]|undefined reference"


def listed(top):
    """Each file's name and mutant."""
    paths = sorted(os.listdir(f"{top}/{FOLDER}"))
    return [(path.removesuffix(".mutants"), it) for path in paths if path.endswith(".mutants") for it in mutants_in(f"{top}/{FOLDER}/{path}")]


def copied(top, room):
    """Copies what git knows; of an earlier copy only what differs is written, so that what it built stays."""
    paths = subprocess.run(["git", "ls-files", "-z", "--cached", "--others", "--exclude-standard"], cwd=top, capture_output=True, check=True).stdout
    for path in paths.decode().split("\0"):
        here, there = f"{top}/{path}", f"{room}/{path}"
        if not path or not os.path.isfile(here):
            continue
        os.makedirs(os.path.dirname(there), exist_ok=True)
        if not os.path.isfile(there) or bytes_of(here) != bytes_of(there):
            shutil.copy2(here, there)
            os.utime(there)


def bytes_of(path):
    with open(path, "rb") as file:
        return file.read()


class Written:
    """Files of the copy with other texts, until the `with` ends."""

    def __init__(self, room, texts):
        self.room, self.texts, self.were = room, texts, {}

    def __enter__(self):
        for path, text in self.texts.items():
            there = f"{self.room}/{path}"
            self.were[there] = switched.read(there) if os.path.exists(there) else None
            if self.were[there] != text:
                switched.write(there, text)

    def __exit__(self, *_):
        for there, text in self.were.items():
            if text is None:
                os.remove(there)
            elif switched.read(there) != text:
                switched.write(there, text)


def sources(top):
    """The sources in Rattle, in order."""
    found = []
    for at, folders, names in os.walk(f"{top}/crates"):
        folders[:] = [it for it in folders if it not in ("out", "proofs", "mutants")]
        found += [f"{at}/{name}" for name in names if name.endswith(".rt")]
    return sorted(found)


def checksum(top):
    known = hashlib.sha256()
    for path in sources(top):
        known.update(path.removeprefix(top).encode() + bytes_of(path))
    return known.hexdigest()


def built(top, room, needed):
    """Builds what is needed, where neither the copy nor the repository has a build of the same sources."""
    known, newest = checksum(room), max(map(os.path.getmtime, sources(top)))
    for made in needed:
        stamp, here = f"{room}/{made}.switched", f"{top}/{made}"
        if os.path.exists(stamp) and switched.read(stamp) == known:
            continue
        if os.path.exists(here) and os.path.getmtime(here) > newest and checksum(top) == known:
            os.makedirs(os.path.dirname(stamp), exist_ok=True)
            shutil.copytree(os.path.dirname(here), os.path.dirname(stamp), dirs_exist_ok=True)
        else:
            status, said = run(room, BUILDS[made], 0)
            if status != 0:
                sys.exit(f"mutants: {made} cannot be built with its switches\n{said}")
        switched.write(stamp, known)


def run(room, words, number, seconds=3600):
    """Runs a command in the copy, where it meets the mutant of this number: its status, None where it takes too long, and what it says."""
    words = [f"{room}/{words[0]}" if "/" in words[0] else words[0], *(f"{room}/{it}" if it in BUILDS else it for it in words[1:])]
    env = {**os.environ, switched.VARIABLE: str(number), "LC_ALL": "C.UTF-8"}
    how = {"stdin": subprocess.DEVNULL, "stdout": subprocess.PIPE, "stderr": subprocess.STDOUT}
    with subprocess.Popen(["nice", *words], cwd=room, env=env, start_new_session=True, **how) as ran:
        try:
            said, _ = ran.communicate(timeout=seconds)
            status = ran.returncode
        except subprocess.TimeoutExpired:
            os.killpg(ran.pid, signal.SIGKILL)
            said, status = ran.communicate()[0], None
        except BaseException:
            os.killpg(ran.pid, signal.SIGKILL)
            raise
    return status, said.decode(errors="replace")


def teller(said):
    """Which test failed, by what a suite says."""
    lines = said.split("\n")
    for form in FAILED:
        if named := next((it[1] for it in map(re.compile(form).match, lines) if it), None):
            return named
    ran = [it.split()[0] for it in lines if re.match(r"(build/|\./|for )", it)]
    if ran and any(it.startswith("make: ***") for it in lines):
        return ran[-1]
    return next((it.strip() for it in reversed(lines) if it.strip()), "")


def judged(room, mutant, number, longest):
    """Which suite and test tell a mutant: the result, both, and what was said."""
    for suite in suites_of(mutant):
        status, said = run(room, [*SUITES[suite][0], *names_of(suite, [mutant])], number, longest[suite])
        if status is None:
            return "told", suite, f"it did not end in {longest[suite]} s", said
        if status and re.search(UNREAD, said, re.M):
            return "NOT READ", suite, next(it for it in said.split("\n") if re.search(UNREAD, it)), said
        if status:
            return "told", suite, teller(said) or f"status {status}", said
    return "SURVIVES", mutant.suite or " ".join(ALL), "", ""


def show(name, mutant, came, suite, test, begun):
    print(f"{name:12} {mutant.name:50} {came:11} {suite:8} {test[:70]:70} {time.monotonic() - begun:4.0f} s", flush=True)


def names_of(suite, mutants):
    """The tests of a suite that are run for some mutants; none where all are."""
    return sorted({it.test for it in mutants if it.suite == suite and it.test}) if suite in NAMED else []


def stand(room, suites, mutants):
    """The suites that pass without a mutant, each with the longest time that it may take with one."""
    longest = {}
    for suite in suites:
        begun = time.monotonic()
        status, said = run(room, [*SUITES[suite][0], *names_of(suite, mutants)], 0)
        longest[suite] = max(SECONDS, int(TIMES * (time.monotonic() - begun)))
        if status != 0:
            del longest[suite]
            print(f"mutants: the suite {suite} does not pass as it is, with status {status}: {teller(said)}", file=sys.stderr)
    return longest


def switched_texts(every, room):
    """Each mutant that is behind a switch gets its number: by this all of them, and the changed sources of all."""
    behind, texts = {}, {}
    for number, (name, mutant) in enumerate(every, 1):
        if switched.is_switched(mutant):
            switched.numbered(mutant, number)
            more = mutant.texts(room, texts)
            if more is None:
                show(name, mutant, "NOT APPLIED", "", "", time.monotonic())
            else:
                texts, behind[mutant] = more, number
    return behind, switched.with_questions(room, texts)


def tried(every, found, top, room):
    """Tries some of all mutants in a copy; how many are told. All that are behind a switch are there, so that any of them has one build."""
    suites = sorted({suite for _, it in found for suite in suites_of(it)})
    needed, count = sorted({it for suite in suites for it in SUITES[suite][1]}), 0
    behind, texts = switched_texts(every, room) if any(switched.is_switched(it) for _, it in found) else ({}, {})
    with Written(room, texts):
        built(top, room, needed)
        if behind and LIBRARY in needed:
            switched.answer_in(f"{room}/{LIBRARY}")
        if LIBRARY in needed:
            run(room, ["make", "-s", "-C", "embed/c"], 0)
        longest = stand(room, suites, [it for _, it in found])
        for name, mutant in found:
            is_tried = mutant in behind or not switched.is_switched(mutant)
            if is_tried and all(it in longest for it in suites_of(mutant)):
                count += of_one(name, mutant, behind.get(mutant, 0), room, longest)
    return count


def suites_of(mutant):
    return (mutant.suite,) if mutant.suite else ALL


def of_one(name, mutant, number, room, longest):
    """Tries one mutant, which has a number if it is behind a switch; whether it is told."""
    begun, texts = time.monotonic(), {} if number else mutant.texts(room)
    if texts is None:
        show(name, mutant, "NOT APPLIED", "", "", begun)
        return False
    with Written(room, texts):
        came, suite, test, said = judged(room, mutant, number, longest)
    show(name, mutant, came, suite, test, begun)
    if os.environ.get("QTREE_SAID"):
        switched.write(f"{os.environ['QTREE_SAID']}/{name}.{mutant.name}", said)
    return came == "told"


def main(top, words, room):
    """Tries those that are named, as FILE or FILE/MUTANT, and else all; the status."""
    every = listed(top)
    for it in words:
        if not any(it in (name, f"{name}/{mutant.name}") for name, mutant in every):
            print(f"mutants: {FOLDER} has no {it}", file=sys.stderr)
            return 2
    unknown = [mutant.name for _, mutant in every if mutant.suite and mutant.suite not in SUITES]
    if unknown:
        print(f"mutants: no such suite: {' '.join(unknown)}", file=sys.stderr)
        return 2
    found = [(name, mutant) for name, mutant in every if not words or name in words or f"{name}/{mutant.name}" in words]
    copied(top, room)
    count = tried(every, found, top, room)
    print(f"{len(found)} mutants, {count} told by a test, {len(found) - count} not")
    return 0 if count == len(found) else 1
