#!/usr/bin/env python3
"""Tries tools/import-tc on input that is wrong, long or hostile: one line of error or a remark, no traceback, no control character, and
never more than 20 seconds of a processor or a gigabyte.

    examples/import/bad_input_test.py

Needs:   Python.
Takes:   10 seconds.
Writes:  nothing but a temporary folder, which goes at the end.
"""
import contextlib
import functools
import importlib.machinery
import importlib.util
import io
import json
import os
import re
import resource
import sys
import tempfile
import time

HERE = os.path.dirname(os.path.realpath(__file__))
sys.dont_write_bytecode = True
PROGRAM = f"{HERE}/../../tools/import-tc"
ADD = "tc qdisc add dev e root pfifo limit "
DIGITS = "9" * 6000
MOST_SECONDS = 20
FILTER = {"kind": "flower", "protocol": "ip", "pref": 1, "options": {}}
WORDS = {"kind": "u32", "protocol": "ip", "pref": 1}

# Text, status, and words of what is said on standard error or in a comment.
SCRIPTS = {
    "twenty thousand lines": ("a\n" * 20_000, 2, "no line of tc"),
    "twenty thousand lines and one of tc": ("a\n" * 20_000 + ADD + "3\n", 0, ""),
    "a variable that grows tenfold a line": ("A=aaaaaaaaaa\n" + 'A="$A$A$A$A$A$A$A$A$A$A"\n' * 30, 2, "line 5: the value of A grows"),
    "an empty sum": (ADD + "$(())\n", 2, "a sum is empty"),
    "a number of 6000 digits": (ADD + DIGITS + "\n", 2, "999..999"),
    "a rate of 6000 digits": (f"tc qdisc add dev e root tbf rate {DIGITS} burst 3k latency 1s\n", 2, "is no rate"),
    "a priomap of 6000 digits": (f"tc qdisc add dev e root prio priomap {DIGITS}\n", 2, "is too long"),
    "a sum of 6000 digits": (f"A=$(({DIGITS}))\n{ADD}$A\n", 2, "6000 characters is too long"),
    "a power": (f"{ADD}$((9**9**9))\n", 2, "the power is too large"),
    "brackets in a sum": (f"{ADD}$(({'(' * 400}1))\n", 2, "is not"),
    "names of Python": (f"{ADD}$((__import__('os').system('id')))\n", 2, "is not followed"),
    "control characters": (f"{ADD}3\ntc qdisc add dev e parent 1: \x1b[31mred\x07\x9b\u202e\n", 1, "\\x1b[31mred\\x07\\x9b\\u202e"),
    "a device's name with control characters": ("tc qdisc add dev \x1b[31m root pfifo\n", 2, "no line of tc that adds something to e"),
    "quotes that nothing closes": ("echo $(\n" * 20_000, 2, "more than 20 quotes or brackets are not closed"),
    "brackets in one another": ('"$(' * 5000, 2, "brackets stand in one another"),
    "conditions in one another": ("if true\n" * 5000, 2, "commands stand in one another"),
    "a loop without an end": (f"while :; do {ADD.replace('add', 'replace')}3; done\n", 1, "more than 1000 rounds"),
    "loops in one another": ("for i in $(seq 9999); do for j in $(seq 9999); do :; done; done\n", 2, "runs more than"),
    "functions that call themselves": ("f() { f; f; }\nf\n", 2, "functions call one another"),
    "what closes nothing": ("done\n", 2, "line 1: this is no shell script"),
    "very many filters": ("filter add dev e parent 1: prio 1 protocol ip matchall classid 1:1\n" * 4100, 2, "more than 4096 filters"),
    "very many qdiscs": ("".join(f"qdisc add dev e parent 1:{it:x} pfifo\n" for it in range(1, 1500)), 2, "more than 1024 qdiscs"),
    "three hundred filters": (
        "tc qdisc add dev e root handle 1: drr\ntc class add dev e parent 1: classid 1:1 drr\n"
        + "".join(f"tc filter add dev e parent 1: prio {it} protocol ip flower dst_port {it} classid 1:1\n" for it in range(1, 301)),
        1,
        "at most 256 filters",
    ),
    "a deep tree": ("tc qdisc add dev e root handle 1: drr\n" + "".join(
        f"tc class add dev e parent {it:x}: classid {it:x}:1 drr\ntc qdisc add dev e parent {it:x}:1 handle {it + 1:x}: drr\n"
        for it in range(1, 100)), 1, "it is too deep"),
    "bytes that are no text": ("\udcff\udcfe", 2, "is no text"),
    "zeros": ("\0" * 5_000_000, 2, "has more than"),
}  # fmt: skip
QDISC = {"kind": "pfifo", "handle": "1:", "root": True, "options": {}}
# What does not fit in a row of tc's json.
ROWS = [
    {"kind": 5}, {"kind": ["pfifo"]}, {"kind": {}}, {"handle": 7}, {"handle": []}, {"options": []}, {"options": "limit"}, {"dev": []},
    {"dev": {}}, {"root": 1}, {"parent": 5, "root": False}, {"kind": "tbf", "options": {"rate": {"rate": "x"}}},
    {"kind": "tbf", "options": {"rate": {"rate": [1]}}}, {"kind": "tbf", "options": {"rate": {}}},
    {"kind": "prio", "options": {"bands": {}}}, {"kind": "prio", "options": {"priomap": ["x", None, [1]]}},
    WORDS | {"options": {"match": 5}}, WORDS | {"options": {"match": [{}]}},
    WORDS | {"options": {"match": {"value": 1, "mask": 2, "off": 3}}},
    WORDS | {"options": {"match": {"value": "1", "mask": "-2", "off": -3}}},
    FILTER | {"pref": "1"}, FILTER | {"protocol": ["ip"]}, FILTER | {"options": {"keys": []}}, FILTER | {"options": {"classid": 5}},
    FILTER | {"pref": 0}, FILTER | {"chain": "x"},
    {"class": 7}, {"class": "drr", "handle": 5}, {"class": "drr", "handle": None}, {"stab": 3}, {"kind": "\x1b[31m"},
    {"kind": "pfifo", "options": {"limit": 10**4000}}, {"kind": "pfifo", "options": {"limit": 1e400}},
    {"kind": "pfifo", "options": {"limit": None}}, {"kind": "pfifo", "options": {"limit": "\x1b"}},
]  # fmt: skip


def run(text, room):
    """The program in this process, with the seconds of a processor that it took."""
    path, out, err = f"{room}/input", io.StringIO(), io.StringIO()
    with open(path, "wb") as file:
        file.write(text.encode("utf-8", "surrogateescape"))
    sys.argv = ["import-tc", "--dev", "e", path]
    began = time.process_time()
    with contextlib.redirect_stdout(out), contextlib.redirect_stderr(err):
        try:
            status = program_of_tc().main()
        except Exception as error:  # Whatever it is, it is a fault of the program.
            status = f"{error!r}"
    return status, out.getvalue(), err.getvalue(), time.process_time() - began


@functools.cache
def program_of_tc():
    """tools/import-tc as a module."""
    loader = importlib.machinery.SourceFileLoader("import_tc_program", PROGRAM)
    made = importlib.util.module_from_spec(importlib.util.spec_from_loader("import_tc_program", loader))
    loader.exec_module(made)
    return made


def fault_of(ran, statuses, words):
    """What is wrong with a run, or None."""
    status, out, err, seconds = ran
    if status not in statuses:
        return f"status {status}"
    if len(err.splitlines()) != (status != 0) or status == 2 and out:
        return "not one line of error"
    if re.search("[\x00-\x09\x0b-\x1f\x7f-\x9f\u202e]", out + err):
        return "a control character"
    if seconds > MOST_SECONDS:
        return f"{seconds:.0f} seconds"
    return None if words in err + " ".join(out.replace("\n#  ", "").split()) else f"does not say {words}"


def main():
    if sys.argv[1:2] in (["-h"], ["--help"]):
        print(__doc__.strip())
        return 0
    resource.setrlimit(resource.RLIMIT_CPU, (10 * MOST_SECONDS, 10 * MOST_SECONDS))
    resource.setrlimit(resource.RLIMIT_AS, (2**30, 2**30))
    sys.setrecursionlimit(10_000)
    cases = [(name, text, (status,), words) for name, (text, status, words) in SCRIPTS.items()]
    for row in ROWS:
        rows = [QDISC, QDISC | row] if "class" in row or "protocol" in row else [QDISC | row]
        cases.append((f"{row}", json.dumps(rows), (1, 2), ""))
    faults = []
    with tempfile.TemporaryDirectory() as room:
        for name, text, statuses, words in cases:
            ran = run(text, room)
            if why := fault_of(ran, statuses, words):
                faults.append(f"{name[:200]}: {why}: {ran[2][:300]!r}")
    print("\n".join(faults), end="\n" if faults else "")
    return int(bool(faults))


if __name__ == "__main__":
    sys.exit(main())
