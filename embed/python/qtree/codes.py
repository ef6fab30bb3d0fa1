"""What calls return: causes of losses, and errors."""
from __future__ import annotations

from enum import IntEnum
from typing import List

from ._library import batch, name_of

DONE, IDLE, LATER, NOTHING = 0, 30, 31, 32
FAULTY, NO_COMMAND, OUT_OF_RANGE, UNDONE, CLOSED, MEMORY = 40, 41, 42, 44, 50, 90
LOST_MOST = 9


class Cause(IntEnum):
    """Why a packet is lost; KEPT if it is queued. A later library may have more causes, up to 9, which stay plain numbers."""
    KEPT = 0
    TOO_LONG = 1
    NO_CLASS = 2
    OVER_LIMIT = 3
    CODEL = 4
    FAT_FLOW = 5
    PURGED = 6


class QtreeError(Exception):
    """A call that was refused. Nothing has changed, unless the call says how far it came."""

    def __init__(self, code: int, done: int = 0) -> None:
        self.code, self.name = code, name_of(0, code)
        self.done = done  # of a call over many packets: how many of them arrived
        super().__init__(code, done)

    def __str__(self) -> str:
        said = f"{self.name}: {batch.qtree_batch_sentence(self.code).decode()}"
        return f"{said} ({self.done} packets arrived before that.)" if self.done else said


class LineError(QtreeError):
    """A line of tc that is not carried out."""

    def __init__(self, code: int, line: int, explanation: str, fault: str = "", word: int = 0) -> None:
        super().__init__(code)
        self.args = (code, line, explanation, fault, word)
        self.line = line  # its number in the file, counted from 1
        self.explanation = explanation  # the line with a mark below the word at which it fails, and a sentence on what to do
        self.fault, self.word = fault, word  # of a line that cannot be read: the fault's name, and which word it is

    def __str__(self) -> str:
        return f"line {self.line}: {self.name}\n{self.explanation.rstrip()}"


class SetUpError(QtreeError):
    """A file of which lines cannot be carried out: none was."""

    def __init__(self, lines: List[LineError], count: int) -> None:
        super().__init__(UNDONE)
        self.args = (lines, count)
        self.lines = lines  # the first hundred
        self.count = count

    def __str__(self) -> str:
        said = [str(it) for it in self.lines]
        if self.count > len(said):
            said.append(f"and {self.count - len(said)} lines more")
        return "\n".join(said)


def check(code: int, done: int = 0) -> None:
    """Raises an error for each code but DONE."""
    if code != DONE:
        raise QtreeError(code, done)


def cause_of(code: int) -> int:
    """The cause of a loss, with its name if this package knows it."""
    return Cause(code) if code in Cause._value2member_map_ else code


def arrived(code: int) -> int:
    if code > LOST_MOST:
        raise QtreeError(code)
    return cause_of(code)
