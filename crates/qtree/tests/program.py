"""What the tests of this folder share: a run of the program, and how what it came to is compared.

The program is the one that the environment variable QTREE names; `run` sets it.
"""
import os
import pty
import select
import subprocess
import tempfile
import unittest
from typing import NamedTuple

# A failure is traced to the line of a test, and not further into this module.
__unittest = True

# After so many seconds a run has failed, and a terminal has been told nothing.
LONGEST = 60
LONGEST_SILENCE = 10

# A script that several modules play, with its report.
TWO_OF_THREE = """\
tc qdisc add dev eth0 root handle 1: pfifo limit 2
pkt 100
pkt 200
pkt 300
poll 3
tc -s qdisc show dev eth0
"""

TWO_OF_THREE_REPORT = """\
sent 1 100
sent 2 200
idle
qdisc pfifo 1: root limit 2p
 arrived 3p 600b sent 2p 300b refused 1p 300b dropped 0p 0b queued 0p 0b
"""


class Answer(NamedTuple):
    """What a run came to."""

    status: int
    output: bytes
    errors: bytes


def as_bytes(text):
    """Texts stand for their bytes in UTF-8; what is none is given as bytes."""
    return text if isinstance(text, bytes) else text.encode()


def not_done(lines):
    """The line on standard error where so many lines had a fault or were refused, and nobody asked for explanations."""
    return f"qtree: lines that were not done: {lines}; --explain says why\n"


def shown(value, other):
    """A status, or the lines of a stream from two before the first that differs from the other's. Long ones are cut."""
    if isinstance(value, int):
        return f"    {value}"
    lines, others = value.splitlines(True), other.splitlines(True)
    both = range(min(len(lines), len(others)))
    begin = max(0, next((at for at in both if lines[at] != others[at]), len(both)) - 2)
    return "\n".join(f"    {at + 1}: {lines[at][:400]!r}" for at in range(begin, min(len(lines), begin + 20))) or "    nothing"


class ProgramTest(unittest.TestCase):
    """A test, which has a folder of its own for its runs."""

    def setUp(self):
        folder = tempfile.TemporaryDirectory(prefix="qtree-tests-")
        self.addCleanup(folder.cleanup)
        self.folder = folder.name

    def how(self, **streams):
        """How a program is started: by the name qtree, as its usage says, and in the test's folder."""
        program = os.path.abspath(os.environ["QTREE"])
        return {"executable": program, "cwd": self.folder, "stdout": subprocess.PIPE, "stderr": subprocess.PIPE, **streams}

    def answer(self, line, script="", **streams):
        """What a command line comes to, with a script on standard input."""
        ran = subprocess.run(line.split(" "), input=as_bytes(script), timeout=LONGEST, check=False, **self.how(**streams))
        return Answer(ran.returncode, ran.stdout or b"", ran.stderr)

    def answer_without(self, descriptor, line, script=""):
        """The same where the program is started with this descriptor closed."""
        return self.answer(line, script, preexec_fn=lambda: os.close(descriptor))

    def answer_at_terminal(self, line, script):
        """The same where standard input is a terminal; and before it what was told when nothing was typed yet."""
        terminal, of_program = pty.openpty()
        self.addCleanup(os.close, terminal)
        with subprocess.Popen(line.split(" "), bufsize=0, **self.how(stdin=of_program)) as run:
            try:
                os.close(of_program)
                has_told, _, _ = select.select([run.stderr], [], [], LONGEST_SILENCE)
                told = os.read(run.stderr.fileno(), 4096) if has_told else b""
                # Control-D behind a whole line is the end.
                os.write(terminal, as_bytes(script) + b"\x04")
                output, errors = run.communicate(timeout=LONGEST)
            finally:
                run.kill()
        return told, Answer(run.returncode, output, errors)

    def assert_is(self, row, got, wanted):
        """Fails with the row, and with each part of an answer that is not as wanted."""
        differences = [
            f"{part} was to be\n{shown(want, have)}\nand is\n{shown(have, want)}"
            for part, have, want in zip(("the status", "standard output", "standard error"), got, wanted)
            if have != want
        ]
        if differences:
            self.fail("\n".join([row, *differences]))

    def assert_answers(self, line, script, status, output, errors):
        """What a command line and a script come to: the status, standard output and standard error, to the byte."""
        row = f"{line}, with the script {as_bytes(script)[:200]!r}"
        self.assert_is(row, self.answer(line, script), Answer(status, as_bytes(output), as_bytes(errors)))
