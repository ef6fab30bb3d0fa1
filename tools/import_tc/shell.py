"""Follows a shell script as far as it can be computed, and calls for each line of tc; nothing is run."""
import contextlib
import itertools
import re

from .commands import Builtins, Left
from .expand import Unknown, assignment_of
from .outputs import Conditions, Lines
from .parse import Bad, Parser, Simple
from .values import Unfit, Unread, shown

MOST_CALLS, MOST_ROUNDS = 20, 1000
# A line of which something may be meant for tc.
ABOUT_TC = re.compile(r"\btc\b|\b(?:qdisc|class|filter)\s+(?:add|del|delete|change|replace)\b", re.IGNORECASE)


class Shell(Builtins):
    """Hands each line of tc to the reader, which carries it out."""

    def __init__(self, reader):
        super().__init__(reader)
        self.called, self.reached, self.parsed = set(), 0, {}

    def script(self, text):
        commands = Parser(text).script()
        with contextlib.suppress(Left):
            self.list(commands)
        for name, (_, source, line) in self.functions.items():
            if name not in self.called and ABOUT_TC.search(source):
                self.reader.leave_out(line, "nothing calls this function", name)

    def list(self, items):
        """Carries commands out; the answer of the last is True, False or None where it is not known."""
        answer = True
        for it in items:
            answer = self.and_or(it)
        return answer

    def and_or(self, items):
        answer = True
        for at, (operator, pipeline) in enumerate(items):
            if answer is (operator == "||"):
                continue
            is_tried = at + 1 < len(items) and items[at + 1][0] == "||"
            if answer is None:
                self.maybe([lambda it=pipeline: self.pipeline(it, True)], pipeline.commands[0].line, True)
            else:
                answer = self.pipeline(pipeline, is_tried)
        return answer

    def maybe(self, bodies, line, may_be_none):
        """Reads each of these once, where it is not known which of them runs; what they set is known where they agree."""
        before, ends = self.variables, []
        for body in bodies:
            self.variables = dict(before)
            self.unsure.append(line)
            with contextlib.suppress(Left):
                body()
            self.unsure.pop()
            ends.append(self.variables)
        self.variables = dict(before)
        for name in {name for it in ends for name in it}:
            values = [it.get(name) for it in [*ends, *([before] if may_be_none else [])]]
            if any(it is not values[0] and it != values[0] for it in values[1:]):
                self.set(name, Unknown(f"it depends on the condition in line {line}"), line)
            elif values[0] is not None:
                self.set(name, values[0], line)
        return None

    def pipeline(self, it, is_tried=False):
        given, tried, self.is_tried = self.given, self.is_tried, is_tried
        try:
            for one in it.commands[:-1]:
                text = self.output_of(lambda one=one: self.command(one))
                self.given = Lines(text, one.line) if text is not None else None
            if len(it.commands) == 1:
                answer = self.command(it.commands[0])
            else:
                with self.apart():
                    answer = self.command(it.commands[-1])
        finally:
            self.given, self.is_tried = given, tried
        return answer if not it.is_negated or answer is None else not answer

    @contextlib.contextmanager
    def apart(self):
        """A subshell: what it sets is gone at the end, and exit ends it alone."""
        kept = self.variables, self.arguments
        self.variables = dict(self.variables)
        try:
            yield
        except Left as it:
            if it.kind != "exit":
                raise
        finally:
            self.variables, self.arguments = kept

    def output_of(self, body):
        """What commands write, or None where that is not known."""
        kept, self.output = self.output, []
        try:
            with self.apart():
                body()
            return None if None in self.output else "".join(self.output)
        finally:
            self.output = kept

    def captured(self, text, line):
        """What $(TEXT) stands for."""
        self.step(line)
        self.count(len(text), line)
        self.nested += 1
        try:
            if text not in self.parsed:
                self.parsed[text] = Parser(text, line, self.nested).script()
            found = self.output_of(lambda: self.list(self.parsed[text]))
        except Unread as error:
            if self.nested > 1 or "no shell script" not in str(error):
                raise
            found = None
        finally:
            self.nested -= 1
        if found is None:
            raise Unfit(f"the output of {shown(' '.join(text.split()))} is not known")
        return found.rstrip("\n")

    def command(self, it):
        self.step(it.line)
        if isinstance(it, Bad):
            return self.bad(it)
        with self.redirected(it):
            if isinstance(it, Simple):
                return self.simple(it)
            return getattr(self, f"{it.kind}_")(it, *it.parts)

    def bad(self, it):
        if found := re.match(r"(?:(?:local|declare|export|readonly)\s+(?:-\w+\s+)*)?([A-Za-z_]\w*)\+?=", it.text, re.ASCII):
            self.set(found[1], Unknown(it.why), it.line)
        if ABOUT_TC.search(it.text) or not found:
            self.reader.leave_out(it.line, it.why, it.text)
        return None

    @contextlib.contextmanager
    def redirected(self, it):
        kept, path, append = (self.given, self.output), None, False
        for operator, word in it.redirections:
            if operator.text in ("<<", "<<-"):
                self.given = self.here_document(operator)
            elif operator.text == "<<<":
                self.given = self.read_as(lambda word=word: f"{self.text(word)}\n", it.line)
            elif operator.text[0] == "<":
                self.given = self.read_as(lambda word=word: self.files.get(self.text(word)), it.line)
            elif operator.descriptor in ("", "1"):
                path, append = word, operator.text == ">>"
        if path is not None:
            self.output = []
        try:
            yield
        finally:
            written = self.output
            self.given, self.output = kept
            if path is not None:
                self.write(path, written, append)

    def read_as(self, text_of, line):
        try:
            text = text_of()
        except Unfit:
            text = None
        return None if text is None else Lines(text, line)

    def here_document(self, operator):
        text, is_expanded, line = operator.body
        self.count(len(text), line)
        return self.read_as((lambda: self.within(text, line)) if is_expanded else lambda: text, line)

    def write(self, path, written, append):
        """Keeps what goes to a file, for a line that reads it."""
        with contextlib.suppress(Unfit):
            name = self.text(path)
            before = self.files.get(name) if append else ""
            if name != "/dev/null" and len(self.files) < 100:
                self.files[name] = None if None in written or before is None else before + "".join(written)

    def simple(self, it):
        self.count(len(it.text), it.line)
        values = list(itertools.takewhile(bool, map(assignment_of, it.words)))
        first = len(values)
        if first == len(it.words):
            for one in values:
                self.assign(*one, it.line)
            return True
        if it.words[first].plain() in ("export", "local", "readonly", "declare", "typeset"):
            return self.declare(it.words[first].plain(), it.words[first + 1 :], it)
        name = it.words[first].plain()
        try:
            self.is_test = name in ("[", "test")
            fields = [one for word in it.words[first:] for one in self.fields(word)]
        except Unfit as error:
            if ABOUT_TC.search(it.text) or name in self.functions:
                self.reader.leave_out(it.line, error, it.text)
            self.called.add(name)
            self.put_out(None)
            # A line of tc is taken to succeed; what a test of unknown words answers is not known.
            return None if name in ("[", "test") else True
        finally:
            self.is_test = False
        return self.named(fields, it)

    def assign(self, name, is_added, word, line):
        try:
            value = self.text(word)
            self.set(name, self.get(name) + value if is_added and name in self.variables else value, line)
        except Unfit as error:
            self.set(name, Unknown(str(error)), line)

    def call(self, name, words, it):
        self.called.add(name)
        body, kept = self.functions[name][0], (self.arguments, self.locals, self.base)
        if self.calls >= MOST_CALLS:
            raise Unread(f"line {it.line}: functions call one another more than {MOST_CALLS} times")
        self.calls += 1
        self.arguments, self.locals, self.base = words, {}, len(self.unsure)
        try:
            return self.command(body)
        except Left as left:
            if left.kind != "return":
                raise
            return None
        finally:
            for one, value in self.locals.items():
                self.variables.pop(one, None)
                if value is not None:
                    self.variables[one] = value
            self.arguments, self.locals, self.base = kept
            self.calls -= 1

    def function_(self, it, name, body, source):
        self.functions[name] = (body, source, it.line)
        self.called.discard(name)
        return True

    def group_(self, _it, body):
        return self.list(body)

    def subshell_(self, _it, body):
        with self.apart():
            return self.list(body)

    def if_(self, it, arms):
        for at, (condition, body) in enumerate(arms):
            answer = True if condition is None else self.list(condition)
            if answer is None:
                bodies = [lambda body=body: self.list(body) for _, body in arms[at:]]
                return self.maybe(bodies, it.line, arms[-1][0] is not None)
            if answer:
                return self.list(body)
        return True

    def while_(self, it, condition, body, end=False):
        reached = self.reached
        for _ in range(MOST_ROUNDS):
            answer = self.list(condition)
            if answer is None:
                return self.maybe([lambda: self.list(body)], it.line, True)
            if answer is end or self.round(body):
                return True
        if self.reached > reached:
            self.reader.leave_out(it.line, f"a loop has more than {MOST_ROUNDS} rounds", "the rounds after these")
        return None

    def until_(self, it, condition, body):
        return self.while_(it, condition, body, True)

    def round(self, body):
        """One round of a loop; whether it is the last."""
        kept, self.base = self.base, len(self.unsure)
        try:
            self.list(body)
        except Left as left:
            if left.kind not in ("break", "continue"):
                raise
            if left.loops > 1:
                raise Left(left.kind, left.loops - 1) from None
            return left.kind == "break"
        finally:
            self.base = kept
        return False

    def for_(self, it, name, words, body):
        if name is None:
            return self.counted_loop(it, words, body)
        try:
            if words is None:
                self.get("@")
            values = self.arguments if words is None else [one for word in words for one in self.fields(word)]
        except Unfit as error:
            self.set(name, Unknown(str(error)), it.line)
            return self.maybe([lambda: self.list(body)], it.line, True)
        for value in values:
            self.set(name, value, it.line)
            if self.round(body):
                break
        return True

    def counted_loop(self, it, text, body):
        """for ((first; condition; step))."""
        pieces = text.split(";")
        if len(pieces) != 3:
            raise Unread(f"line {it.line}: this is no shell script: for (( )) has three parts")
        self.sum_(it, pieces[0])
        for _ in range(MOST_ROUNDS):
            answer = self.sum_(it, pieces[1]) if pieces[1].strip() else True
            if answer is None:
                return self.maybe([lambda: self.list(body)], it.line, True)
            if not answer or self.round(body):
                return True
            self.sum_(it, pieces[2])
        self.reader.leave_out(it.line, f"a loop has more than {MOST_ROUNDS} rounds", "the rounds after these")
        return None

    def select_(self, it, name, _words, body):
        self.set(name, Unknown("it is asked for"), it.line)
        return self.maybe([lambda: self.list(body)], it.line, True)

    def case_(self, it, word, arms):
        try:
            value = self.text(word)
            for patterns, body in arms:
                if any(self.pattern(one).fullmatch(value) for one in patterns):
                    return self.list(body)
        except Unfit:
            return self.maybe([lambda body=body: self.list(body) for _, body in arms], it.line, True)
        return True

    def test_(self, _it, tokens):
        try:
            self.is_test = True
            return Conditions(self, tokens).whole()
        except Unfit:
            return None
        finally:
            self.is_test = False
