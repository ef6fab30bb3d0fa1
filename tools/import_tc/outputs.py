"""Commands of a shell whose answer or output is computed: tests, echo, printf, expr, seq and their like."""
import os
import re

from .arithmetic import expr
from .scan import Operator
from .values import Unfit, shown, whole

COMPARES = {
    **{"-eq": lambda a, b: a == b, "-ne": lambda a, b: a != b, "-lt": lambda a, b: a < b},
    **{"-le": lambda a, b: a <= b, "-gt": lambda a, b: a > b, "-ge": lambda a, b: a >= b},
}


def number(text):
    if not re.fullmatch(r"\s*[-+]?[0-9]{1,18}\s*", text, re.ASCII):
        raise Unfit(f"{shown(text)} is no number")
    return int(text)


def tested(words):
    """What test answers; an error where it depends on the machine."""
    if len(words) > 40:
        raise Unfit(f"a test of {len(words)} words is not followed")
    for word, joins in (("-o", any), ("-a", all)):
        if word in words[1:-1] and len(words) > 3:
            at = words.index(word, 1)
            return joins((tested(words[:at]), tested(words[at + 1 :])))
    if words[:1] == ["!"] and len(words) > 1:
        return not tested(words[1:])
    if len(words) < 2:
        return bool(words and words[0])
    if len(words) == 2 and words[0] in ("-n", "-z"):
        return (words[1] != "") == (words[0] == "-n")
    if len(words) == 3 and words[1] in ("=", "==", "!="):
        return (words[0] == words[2]) == (words[1] != "!=")
    if len(words) == 3 and words[1] in COMPARES:
        return COMPARES[words[1]](number(words[0]), number(words[2]))
    raise Unfit(f"the test {shown(' '.join(words))} is not followed")


class Conditions:
    """[[ .. ]] of bash, over tokens."""

    def __init__(self, words, tokens):
        self.words, self.tokens, self.at = words, tokens, 0

    def text_here(self):
        it = self.tokens[self.at] if self.at < len(self.tokens) else None
        return it.text if isinstance(it, Operator) else it.plain() if it else None

    def whole(self):
        result = self.either()
        if self.at < len(self.tokens):
            raise Unfit("a condition in [[ ]] is not followed")
        return result

    def either(self):
        result = self.both()
        while self.text_here() == "||":
            self.at += 1
            second = self.both()
            result = result or second
        return result

    def both(self):
        result = self.one()
        while self.text_here() == "&&":
            self.at += 1
            second = self.one()
            result = result and second
        return result

    def one(self):
        if self.text_here() == "!":
            self.at += 1
            return not self.one()
        first = self.at
        while self.at < len(self.tokens) and self.text_here() not in ("&&", "||", "(", ")"):
            self.at += 1
        it = self.tokens[first : self.at]
        if any(isinstance(one, Operator) for one in it) or not it:
            raise Unfit("a condition in [[ ]] is not followed")
        if len(it) == 3 and it[1].plain() in ("=", "==", "!="):
            return bool(self.words.pattern(it[2]).fullmatch(self.words.text(it[0]))) == (it[1].plain() != "!=")
        return tested([self.words.text(one) for one in it])


def echo(words, _given):
    newline = words[:1] != ["-n"]
    words = words[words[:1] in (["-n"], ["-e"]) :]
    text = " ".join(words)
    if "\\" in text:
        raise Unfit("echo has a backslash")
    return text + "\n" * newline


def printf(words, _given):
    form, values = (words or [""])[0], words[1:]
    form = form.replace("\\n", "\n").replace("\\t", "\t")
    pieces = re.split("(%.)", form, flags=re.DOTALL)
    if "\\" in form or any(it not in ("%s", "%d", "%%") for it in pieces[1::2]):
        raise Unfit(f"printf {shown(form)} is not followed")
    places, made = sum(it in ("%s", "%d") for it in pieces[1::2]), []
    for first in range(0, max(len(values), 1), places or max(len(values), 1)):
        row = iter(values[first:])
        made += ["%" if it == "%%" else it if not it.startswith("%") else next(row, "") for it in pieces]
    return "".join(made)


def seq(words, _given):
    found = [number(it) for it in words]
    if not 1 <= len(found) <= 3:
        raise Unfit(f"seq {shown(' '.join(words))} is not followed")
    first, step, last = (1, 1, *found) if len(found) == 1 else (found[0], 1, found[1]) if len(found) == 2 else found
    if not step or abs(last - first) // abs(step) > 10_000:
        raise Unfit(f"seq {shown(' '.join(words))} is not followed")
    return "".join(f"{it}\n" for it in range(first, last + (1 if step > 0 else -1), step))


def path_of(words, _given):
    """which, type -p and command -v: the name stands for its path."""
    names = [it for it in words if not it.startswith("-")]
    if len(names) != 1:
        raise Unfit("it asks for several commands")
    return f"{os.path.basename(names[0])}\n"


def cat(words, given):
    if words not in ([], ["-"]) or given is None:
        raise Unfit("what is in files is not looked up")
    return given.rest()


def bc(words, given):
    """Sums of whole numbers alone: bc divides toward zero too, as long as no scale is set."""
    if words or given is None:
        raise Unfit("bc is not followed")
    lines = given.rest().split("\n")
    return "".join(f"{expr(re.findall(r'[0-9.]+|[^0-9. ]', it))}\n" for it in lines if it.strip())


# By name, from the words and what comes in, or None of that.
OUTPUTS = {
    **{"echo": echo, "printf": printf, "seq": seq, "which": path_of, "cat": cat, "bc": bc},
    **{"expr": lambda words, _given: f"{expr(words)}\n"},
}


class Lines:
    """A text that comes in, line by line."""

    def __init__(self, text, line):
        self.text, self.line, self.at = text, line, 0

    def next(self):
        """The next line, or None behind the last."""
        if self.at >= len(self.text):
            return None
        end = self.text.find("\n", self.at)
        end = len(self.text) if end < 0 else end
        found, self.at = self.text[self.at : end], end + 1
        return found

    def rest(self):
        found, self.at = self.text[self.at :], len(self.text)
        return found


def levels(words):
    """Of how many loops break or continue speaks."""
    return max(whole(words[0]), 1) if words else 1
