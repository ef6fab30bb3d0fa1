"""Cuts a shell script into words and operators, with here-documents read and quotes kept apart."""
import dataclasses
import re

from .values import Unread

BLANK = re.compile(r"(?:[ \t\r]|\\\n)+")
PLAIN = re.compile(r"""[^ \t\r\n;&|()<>\\'"$`]+""")
IN_DOUBLE = re.compile(r"""[^\\"$`]+""")
NAME = re.compile(r"[A-Za-z_]\w*|[0-9@*#?$!-]", re.ASCII)
OPERATOR = re.compile(r"&>>|<<<|<<-|;;&|&&|\|\||;;|;&|<<|>>|<&|>&|<>|>\||&>|[;&|()<>\n]")
MARKS = re.compile(r"""[()'"\\`]""")
DEEPEST, MOST_FAULTS, MOST_TOKENS = 30, 20, 400_000


class Open(Exception):
    """A quote or bracket that nothing closes."""


@dataclasses.dataclass
class Word:
    """Parts in order: (kind, text, is quoted), where the kind is text, name, command, sum or strange."""

    parts: list
    line: int
    at: int = 0
    end: int = 0

    def plain(self):
        """The text of a word without quotes and without anything that is put in, or None."""
        return self.parts[0][1] if len(self.parts) == 1 and self.parts[0][0] == "text" and not self.parts[0][2] else None


@dataclasses.dataclass
class Operator:
    """An operator; of a redirection its descriptor, of a here-document its text, and whether values are put into it."""

    text: str
    line: int
    at: int = 0
    end: int = 0
    descriptor: str = ""
    body: object = None


@dataclasses.dataclass
class Fault:
    """A line that was not cut into words."""

    why: str
    text: str
    line: int
    at: int = 0
    end: int = 0


class Scanner:
    def __init__(self, text, line=1, depth=0):
        self.text, self.at, self.line, self.depth = text, 0, line, depth
        self.counted, self.found, self.pending, self.faults = 0, [], [], 0
        if depth > DEEPEST:
            raise Unread(f"line {line}: brackets stand in one another more than {DEEPEST} times")

    def line_here(self):
        """The line of this place; each character is counted once."""
        self.line += self.text.count("\n", self.counted, self.at)
        self.counted = max(self.counted, self.at)
        return self.line

    def tokens(self):
        while self.at < len(self.text):
            first = self.at
            if len(self.found) > MOST_TOKENS:
                raise Unread(f"line {self.line}: the script has more than {MOST_TOKENS} words")
            try:
                self.token()
            except Open as error:
                self.skip_line(first, str(error))
        return self.found

    def skip_line(self, first, why):
        """Leaves out the line of a quote that is not closed, and goes on behind it."""
        self.faults += 1
        if self.faults > MOST_FAULTS:
            raise Unread(f"line {self.line}: more than {MOST_FAULTS} quotes or brackets are not closed")
        begin = self.text.rfind("\n", 0, first) + 1
        end = self.text.find("\n", first)
        end = len(self.text) if end < 0 else end
        while self.found and self.found[-1].at >= begin and getattr(self.found[-1], "text", "") != "\n":
            self.found.pop()
        self.at = end
        self.found.append(Fault(why, self.text[begin:end].strip(), self.line, begin, end))

    def token(self):
        if blank := BLANK.match(self.text, self.at):
            self.at = blank.end()
            return
        line, first = self.line_here(), self.at
        if self.text[first] == "#":
            end = self.text.find("\n", first)
            self.at = len(self.text) if end < 0 else end
        elif it := OPERATOR.match(self.text, first):
            self.at = it.end()
            self.operator(it[0], line, first)
        else:
            self.found.append(self.word(line))

    def operator(self, text, line, first):
        made = Operator(text, line, first, self.at)
        before = self.found[-1] if self.found else None
        if text[0] in "<>" and isinstance(before, Word) and before.end == first and re.fullmatch("[0-9]", before.plain() or ""):
            made.descriptor = self.found.pop().plain()
        self.found.append(made)
        if text in ("<<", "<<-"):
            if blank := BLANK.match(self.text, self.at):
                self.at = blank.end()
            end = self.word(line)
            self.pending.append((made, "".join(it[1] for it in end.parts), any(it[2] for it in end.parts)))
        elif text == "\n":
            for one in self.pending:
                self.here_document(*one)
            self.pending = []

    def here_document(self, made, end, is_quoted):
        """The lines up to the word that ends them."""
        lines, line = [], self.line_here()
        while self.at < len(self.text):
            stop = self.text.find("\n", self.at)
            stop = len(self.text) if stop < 0 else stop
            found = self.text[self.at : stop]
            self.at = stop + 1
            if made.text == "<<-":
                found = found.lstrip("\t")
            if found == end:
                break
            lines.append(f"{found}\n")
        self.at = min(self.at, len(self.text))
        made.body = ("".join(lines), not is_quoted, line)

    def word(self, line):
        parts, first = [], self.at
        while self.at < len(self.text):
            if it := PLAIN.match(self.text, self.at):
                parts.append(("text", it[0], False))
                self.at = it.end()
            elif self.text[self.at] in " \t\r\n;&|()<>":
                break
            else:
                self.part(parts)
        return Word(parts, line, first, self.at)

    def part(self, parts):
        """One quoted piece of a word, or one that is put in."""
        mark = self.text[self.at]
        self.at += 1
        if mark == "\\":
            if self.text[self.at : self.at + 1] != "\n":
                parts.append(("text", self.text[self.at : self.at + 1], True))
            self.at += 1
        elif mark == "'":
            end = self.find("'")
            parts.append(("text", self.text[self.at : end], True))
            self.at = end + 1
        elif mark == '"':
            self.double(parts)
        elif mark == "`":
            self.backquote(parts, False)
        else:
            self.dollar(parts, False)

    def find(self, mark):
        end = self.text.find(mark, self.at)
        if end < 0:
            raise Open("a quote is not closed")
        return end

    def double(self, parts):
        parts.append(("text", "", True))
        while self.at < len(self.text):
            if it := IN_DOUBLE.match(self.text, self.at):
                parts.append(("text", it[0], True))
                self.at = it.end()
                continue
            mark = self.text[self.at]
            self.at += 1
            if mark == '"':
                return
            if mark == "`":
                self.backquote(parts, True)
            elif mark == "$":
                self.dollar(parts, True)
            else:
                self.escaped(parts)
        raise Open("a quote is not closed")

    def escaped(self, parts):
        """Behind a backslash within double quotes."""
        it = self.text[self.at : self.at + 1]
        self.at += 1
        if it != "\n":
            parts.append(("text", it if it in '$`"\\' else f"\\{it}", True))

    def backquote(self, parts, is_quoted):
        found = re.compile(r"((?:[^`\\]|\\.)*)`", re.DOTALL).match(self.text, self.at)
        if not found:
            raise Open("a backquote is not closed")
        self.at = found.end()
        parts.append(("command", re.sub(r"\\([`$\\])", r"\1", found[1]), is_quoted))

    def dollar(self, parts, is_quoted):
        text, at = self.text, self.at
        if text.startswith("((", at) and (end := self.closing(at + 2, 2)) and text[end - 1] == ")":
            self.put(parts, "sum", at + 2, end - 1, end + 1, is_quoted)
        elif text.startswith("(", at):
            end = self.closing(at + 1, 1)
            self.put(parts, "command", at + 1, end, end + 1, is_quoted)
        elif text.startswith("[", at):
            end = self.find("]")
            self.put(parts, "sum", at + 1, end, end + 1, is_quoted)
        elif text.startswith("{", at):
            end = self.brace(at + 1)
            self.put(parts, "name", at + 1, end, end + 1, is_quoted)
        elif text.startswith("'", at) and not is_quoted:
            self.at += 1
            end = self.find("'")
            self.put(parts, "strange", at, end, end + 1, True)
        elif it := NAME.match(text, at):
            self.put(parts, "name", at, it.end(), it.end(), is_quoted)
        else:
            parts.append(("text", "$", is_quoted))

    def put(self, parts, kind, first, end, after, is_quoted):
        parts.append((kind, self.text[first:end], is_quoted))
        self.at = after

    def brace(self, at):
        """Where ${ ends: at the first closing brace that no inner one needs."""
        depth = 1
        for it in re.compile(r"[{}\n]").finditer(self.text, at):
            depth += {"{": 1, "}": -1}.get(it[0], 0)
            if not depth:
                return it.start()
            if it[0] == "\n":
                break
        raise Open("a brace is not closed")

    def closing(self, at, depth):
        """Where so many brackets are closed, with quotes passed over."""
        while it := MARKS.search(self.text, at):
            at, mark = it.end(), it[0]
            if mark in "()":
                depth += 1 if mark == "(" else -1
                if not depth:
                    return it.start()
            elif mark == "\\":
                at += 1
            elif mark == "'":
                at = self.text.find("'", at) + 1 or len(self.text)
            else:
                inner = Scanner(self.text, self.line, self.depth + 1)
                inner.at = inner.counted = at
                inner.double([]) if mark == '"' else inner.backquote([], False)
                at = inner.at
        raise Open("a bracket is not closed")


def words_within(text, line, depth):
    """The parts of a text in which values are put in as within double quotes, such as a here-document."""
    scanner, parts = Scanner(text, line, depth), []
    while scanner.at < len(text):
        mark = text[scanner.at]
        scanner.at += 1
        if mark == "`":
            scanner.backquote(parts, True)
        elif mark == "$":
            scanner.dollar(parts, True)
        elif mark == "\\":
            scanner.escaped(parts)
        else:
            end = re.compile(r"[\\$`]").search(text, scanner.at)
            end = end.start() if end else len(text)
            parts.append(("text", text[scanner.at - 1 : end], True))
            scanner.at = end
    return Word(parts, line)
