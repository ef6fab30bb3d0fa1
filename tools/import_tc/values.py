"""Values as tc reads and shows them: rates in bits a second, sizes in bytes, times in nanoseconds, handles and class ids as numbers."""
import re
from fractions import Fraction


class Unfit(Exception):
    """What is left out, and why, in a line for the user."""


class Unread(Exception):
    """Input that cannot be read at all, in a line for the user."""


def shown(text, most=60):
    """A text of the input for a message: no control characters, and not longer than this."""
    text = text if len(text) <= most else f"{text[: most - 20]}..{text[-16:]}"
    return "".join(it if it.isprintable() else it.encode("unicode_escape", "backslashreplace").decode() for it in text)


SI = {"": 1, "k": 10**3, "m": 10**6, "g": 10**9, "t": 10**12}
BINARY = {"ki": 2**10, "mi": 2**20, "gi": 2**30, "ti": 2**40}
RATES = {"": 1} | {f"{name}{unit}": power * of for name, power in (SI | BINARY).items() for unit, of in (("bit", 1), ("bps", 8))}
SIZES = {"": 1, "b": 1, "k": 2**10, "kb": 2**10, "m": 2**20, "mb": 2**20, "g": 2**30, "gb": 2**30}
SIZES |= {"kbit": 2**7, "mbit": 2**17, "gbit": 2**27}
TIMES = {"": 1000, "us": 1000, "usec": 1000, "usecs": 1000, "ms": 10**6, "msec": 10**6, "msecs": 10**6}
TIMES |= {"s": 10**9, "sec": 10**9, "secs": 10**9, "ns": 1}


def scaled(text, units, what):
    found = re.fullmatch(r"([0-9]{1,30}(?:\.[0-9]{0,30})?|\.[0-9]{1,30})([a-z]*)", text.lower())
    if not found or found[2] not in units:
        raise Unfit(f"{shown(text)} is no {what}")
    return int(Fraction(found[1]) * units[found[2]])


def rate(text):
    if text.endswith("%"):
        raise Unfit(f"the rate {shown(text)} depends on the interface's speed: write it as a number")
    return scaled(text, RATES, "rate")


def size(text):
    """Bytes, as 15k; behind a slash tc allows the size of a cell, which has no effect."""
    return scaled(text.partition("/")[0], SIZES, "size")


def time(text):
    return scaled(text, TIMES, "time")


def whole(text):
    if not re.fullmatch(r"[0-9]{1,30}|0x[0-9a-fA-F]{1,30}", text):
        raise Unfit(f"{shown(text)} is no number")
    return int(text, 0) if text.startswith("0x") else int(text)


def minor(text):
    """The number of a class, which tc reads in hexadecimal, with its major or without."""
    return id_of(text if ":" in text else f":{text.removeprefix('0x')}")[1]


def id_of(text):
    """The major and minor number of a handle or class id, with 0 for a part that is not there."""
    if text == "root":
        return 0xFFFF, 0xFFFF
    if not re.fullmatch(r"[0-9a-fA-F]{0,4}(:[0-9a-fA-F]{0,4})?", text):
        raise Unfit(f"{shown(text)} is no handle and no class id")
    parts = text.partition(":")
    return int(parts[0] or "0", 16), int(parts[2] or "0", 16)


def id_text(it):
    return f"{it[0]:x}:{it[1]:x}"


def unit_text(value, units):
    """With the greatest unit of which the value is a multiple."""
    return next(f"{value // of}{name}" for name, of in units if value and value % of == 0 or of == units[-1][1])


def rate_text(bits):
    return unit_text(bits, [("gbit", 10**9), ("mbit", 10**6), ("kbit", 10**3), ("bit", 1)])


def size_text(count):
    return unit_text(count, [("mb", 2**20), ("kb", 2**10), ("", 1)])


def time_text(nanoseconds):
    return unit_text(nanoseconds // 1000, [("s", 10**6), ("ms", 10**3), ("us", 1)])
