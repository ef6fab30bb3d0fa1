#!/usr/bin/env python3
"""Tries tools/import-tc on one construct after another: the lines that it writes, and packets that are played through them.

    examples/import/constructs_test.py [PROGRAM]    PROGRAM, where one is named, plays the packets
    examples/import/constructs_test.py --write      writes anew what is expected

Each file of constructs/ has pieces that begin with == and a name: the input, a line with -- and the status, and what is written.
Packets are those of the kinds that the filters can tell apart. The program has to bring each to the leaf that the importer's own
rules name, and to lose it where they say so; and no packet of a set-up with status 0 is lost.

Needs:   Python.
Takes:   3 seconds.
Writes:  nothing; with --write the files of constructs/.
"""
import contextlib
import importlib.machinery
import importlib.util
import io
import os
import re
import subprocess
import sys
import tempfile

HERE = os.path.dirname(os.path.realpath(__file__))
sys.dont_write_bytecode = True
loader = importlib.machinery.SourceFileLoader("import_tc_program", f"{HERE}/../../tools/import-tc")
program_of_tc = importlib.util.module_from_spec(importlib.util.spec_from_loader("import_tc_program", loader))
loader.exec_module(program_of_tc)
from import_tc import played  # noqa: E402

MOST_PACKETS = 300


def pieces(path):
    """The pieces of a file: name, input, status and what is expected, both empty where they are not there yet."""
    with open(path, encoding="utf-8", newline="\n") as file:
        texts = re.split("(?m)^== ", file.read())[1:]
    for it in texts:
        name, _, rest = it.partition("\n")
        given, _, expected = rest.partition("\n-- ")
        status, _, lines = expected.partition("\n")
        yield name, given.rstrip("\n") + "\n", status, lines


def imported(text, room):
    """The status and what is written without its first line."""
    path, out = f"{room}/input", io.StringIO()
    with open(path, "w", encoding="utf-8", newline="\n") as file:
        file.write(text)
    sys.argv = ["import-tc", "--dev", "e", path]
    with contextlib.redirect_stdout(out), contextlib.redirect_stderr(io.StringIO()):
        status = program_of_tc.main()
    return str(status), out.getvalue().partition("\n")[2]


def nodes_of(tree):
    return played.every(tree.root)


def script_of(lines, packets):
    """Each packet arrives while the tree is empty; then all counters are shown, and it is taken out."""
    made, time = list(lines), 0
    for it in packets:
        made += [f"at {time}", played.packet_text(it), "reap", "tc -s qdisc show", "totals", f"at {time + 10**15}", "poll"]
        time += 2 * 10**15
    return "\n".join(made) + "\n"


def answers_of(text):
    """Of each packet: the cause of its loss or None, and how many packets each node has counted as arrived."""
    cause, arrived = None, []
    for line in text.splitlines():
        if line.startswith("lost "):
            cause = line.split()[3]
        elif line.startswith(" arrived "):
            arrived.append(int(line.split()[1][:-1]))
        elif line.startswith("device arrived "):
            yield cause, arrived
            cause, arrived = None, []


def play(program, name, lines, status):
    """What is wrong, in lines, where packets take another way in the program."""
    tree = played.Tree()
    refused = [it for it in lines if tree.add(it)]
    packets = played.Kinds(tree).all()[:MOST_PACKETS] if tree.root else []
    ran = subprocess.run([program, "play"], input=script_of(lines, packets), capture_output=True, text=True, check=False)
    if refused or ran.returncode or re.search("(?m)^line ", ran.stdout):
        return [f"{name}: {refused} {ran.returncode} {ran.stdout[:300]}{ran.stderr[:300]}"]
    nodes, before, faults = nodes_of(tree), None, []
    for packet, (cause, arrived) in zip(packets, answers_of(ran.stdout), strict=True):
        way, why = tree.way(packet)
        before = before or [0] * len(arrived)
        came = [node for node, now, was in zip(nodes, arrived, before, strict=True) if now > was]
        before = arrived
        if cause != why or [id(it) for it in came] != [id(it) for it in way]:
            faults.append(f"{name}: {played.packet_text(packet)}: {cause} at {came[-1].name()}, expected {why} at {way[-1].name()}")
        if cause and status == "0":
            faults.append(f"{name}: {played.packet_text(packet)} is lost, and the status is 0")
    return faults


def main():
    if sys.argv[1:2] in (["-h"], ["--help"]):
        print(__doc__.strip())
        return 0
    program = sys.argv[1] if len(sys.argv) > 1 else None
    faults, count = [], 0
    with tempfile.TemporaryDirectory() as room:
        for path in sorted(os.listdir(f"{HERE}/constructs")):
            written = []
            for name, given, status, expected in pieces(f"{HERE}/constructs/{path}"):
                found, lines = imported(given, room)
                count += 1
                written.append(f"== {name}\n{given}-- {found}\n{lines}")
                if program == "--write":
                    continue
                if (found, lines) != (status, expected):
                    faults.append(f"{path}: {name}: expected status {status}:\n{expected}written with status {found}:\n{lines}")
                elif program:
                    faults += play(program, name, [it for it in lines.splitlines() if it.startswith("tc ")], status)
            if program == "--write":
                with open(f"{HERE}/constructs/{path}", "w", encoding="utf-8", newline="\n") as file:
                    file.write("".join(written))
    if count < 40:
        faults.append(f"there are {count} constructs, fewer than there were")
    print("\n".join(faults), end="\n" if faults else "")
    return int(bool(faults))


if __name__ == "__main__":
    sys.exit(main())
