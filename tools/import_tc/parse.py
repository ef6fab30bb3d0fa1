"""Makes the commands of a shell script out of its words and operators."""
import dataclasses

from .scan import Fault, Operator, Scanner, Word
from .values import Unread

CLOSING = ("then", "do", "done", "fi", "elif", "else", "esac", "}")
DEEPEST = 40


@dataclasses.dataclass
class Simple:
    """A command of words, with its redirections as (operator, word) and its text as it stands."""

    words: list
    redirections: list
    text: str
    line: int


@dataclasses.dataclass
class Bad:
    """What was not cut into words, or is no form that is followed."""

    why: str
    text: str
    line: int


@dataclasses.dataclass
class Compound:
    """kind is if, while, until, for, case, group, subshell, function, sum or test; what it consists of is in parts."""

    kind: str
    parts: tuple
    redirections: list
    line: int


@dataclasses.dataclass
class Pipeline:
    commands: list
    is_negated: bool


class Parser:
    def __init__(self, text, line=1, depth=0):
        self.text = text
        self.tokens, self.at, self.depth = Scanner(text, line, depth).tokens(), 0, 0

    def here(self):
        return self.tokens[self.at] if self.at < len(self.tokens) else None

    def is_operator(self, *texts):
        it = self.here()
        return isinstance(it, Operator) and it.text in texts

    def is_word(self, *texts):
        it = self.here()
        return isinstance(it, Word) and it.plain() in texts

    def fault(self, missing):
        it = self.here()
        line = it.line if it else self.tokens[-1].line if self.tokens else 1
        return Unread(f"line {line}: this is no shell script: {missing} is missing")

    def need(self, *texts):
        self.skip_lines()
        if not self.is_word(*texts):
            raise self.fault(texts[0])
        self.at += 1
        return self.tokens[self.at - 1].plain()

    def need_operator(self, text):
        if not self.is_operator(text):
            raise self.fault(text)
        self.at += 1

    def skip_lines(self):
        while self.is_operator("\n"):
            self.at += 1

    def script(self):
        found = self.list()
        if self.here():
            raise Unread(f"line {self.here().line}: this is no shell script: what stands here closes nothing")
        return found

    def list(self):
        """Commands up to the end or to a word or bracket that closes them, each as [(operator before it, pipeline)]."""
        self.depth += 1
        if self.depth > DEEPEST:
            raise Unread(f"line {self.here().line if self.here() else 1}: commands stand in one another more than {DEEPEST} times")
        found = []
        while True:
            while self.is_operator("\n", ";", "&"):
                self.at += 1
            if not self.here() or self.is_word(*CLOSING) or self.is_operator(")", ";;", ";&", ";;&"):
                break
            found.append(self.and_or())
        self.depth -= 1
        return found

    def and_or(self):
        found, operator = [], "&&"
        while True:
            found.append((operator, self.pipeline()))
            if not self.is_operator("&&", "||"):
                return found
            operator = self.here().text
            self.at += 1
            self.skip_lines()

    def pipeline(self):
        is_negated = self.is_word("!")
        self.at += is_negated
        commands = [self.command()]
        while self.is_operator("|"):
            self.at += 1
            self.skip_lines()
            commands.append(self.command())
        return Pipeline(commands, is_negated)

    def command(self):
        it = self.here()
        if isinstance(it, Fault):
            self.at += 1
            return Bad(it.why, it.text, it.line)
        if it is None or isinstance(it, Operator) and it.text not in ("(", "<", ">", ">>", "<<", "<<-", "<<<", "&>", ">&", "&>>"):
            raise self.fault("a command")
        if self.is_operator("("):
            return self.with_redirections(self.bracket)
        name = it.plain() if isinstance(it, Word) else None
        forms = {"if": self.if_, "while": self.loop, "until": self.loop, "for": self.for_, "select": self.for_, "case": self.case}
        forms |= {"{": self.group, "function": self.function, "[[": self.test}
        if name in forms:
            return self.with_redirections(forms[name])
        after = self.tokens[self.at + 1 : self.at + 3]
        if name and len(after) == 2 and all(isinstance(one, Operator) for one in after) and [one.text for one in after] == ["(", ")"]:
            return self.function()
        return self.simple()

    def with_redirections(self, form):
        made = form()
        while self.redirection(made.redirections):
            pass
        return made

    def redirection(self, into):
        it = self.here()
        if not isinstance(it, Operator) or it.text[0] not in "<>" and it.text not in ("&>", "&>>"):
            return False
        self.at += 1
        after = self.tokens[self.at + 1] if self.at + 1 < len(self.tokens) else None
        if it.body is None and self.is_operator("<", ">") and isinstance(after, Operator) and after.text == "(":
            self.at += 1
        if it.body is None and self.is_operator("("):
            into.append((it, self.process()))
        elif it.body is None:
            if not isinstance(self.here(), Word):
                raise self.fault("the name of a file")
            into.append((it, self.here()))
            self.at += 1
        else:
            into.append((it, None))
        return True

    def process(self):
        """<( .. ) or >( .. ), whose commands are not followed."""
        line, first = self.here().line, self.here().at
        self.bracket()
        return Word([("strange", self.text[first : self.tokens[self.at - 1].end], False)], line)

    def simple(self):
        words, redirections, first = [], [], self.here()
        while True:
            it = self.here()
            if isinstance(it, Word):
                words.append(it)
                self.at += 1
                if self.is_operator("(") and it.end == self.here().at:
                    return self.array(first)
            elif not self.redirection(redirections):
                break
        last = self.tokens[self.at - 1]
        return Simple(words, redirections, self.text[first.at : last.end], first.line)

    def array(self, first):
        """name=(..), or a word with a bracket that no shell has."""
        depth = 0
        while it := self.here():
            self.at += 1
            if isinstance(it, Operator):
                depth += {"(": 1, ")": -1}.get(it.text, 0)
                if not depth:
                    break
        end = self.tokens[self.at - 1].end
        return Bad("a list in brackets is not followed", self.text[first.at : end], first.line)

    def bracket(self):
        """( .. ), or ((..)) with a sum."""
        line, second = self.here().line, self.tokens[self.at + 1] if self.at + 1 < len(self.tokens) else None
        if isinstance(second, Operator) and second.text == "(" and second.at == self.here().end:
            return Compound("sum", (self.sum(),), [], line)
        self.at += 1
        body = self.list()
        self.need_operator(")")
        return Compound("subshell", (body,), [], line)

    def sum(self):
        """The text within (( and ))."""
        first, depth = self.here().at + 2, 0
        while it := self.here():
            self.at += 1
            if isinstance(it, Operator):
                depth += {"(": 1, ")": -1}.get(it.text, 0)
                if not depth:
                    return self.text[first : it.at - 1]
        raise self.fault("))")

    def group(self):
        line = self.here().line
        self.at += 1
        body = self.list()
        self.need("}")
        return Compound("group", (body,), [], line)

    def function(self):
        line = self.here().line
        self.at += self.is_word("function")
        name = self.here().plain() if isinstance(self.here(), Word) else None
        if not name:
            raise self.fault("the name of a function")
        self.at += 1
        if self.is_operator("("):
            self.at += 1
            self.need_operator(")")
        self.skip_lines()
        first = self.here().at if self.here() else 0
        body = self.command()
        return Compound("function", (name, body, self.text[first : self.tokens[self.at - 1].end]), [], line)

    def if_(self):
        line, arms = self.here().line, []
        self.at += 1
        while True:
            condition = self.list()
            self.need("then")
            arms.append((condition, self.list()))
            word = self.need("fi", "elif", "else")
            if word == "else":
                arms.append((None, self.list()))
                word = self.need("fi")
            if word == "fi":
                return Compound("if", (arms,), [], line)

    def loop(self):
        line, kind = self.here().line, self.here().plain()
        self.at += 1
        condition = self.list()
        return Compound(kind, (condition, self.body()), [], line)

    def body(self):
        self.need("do")
        found = self.list()
        self.need("done")
        return found

    def for_(self):
        line, kind = self.here().line, self.here().plain()
        self.at += 1
        if self.is_operator("("):
            counted = self.sum()
            self.at += self.is_operator(";")
            return Compound("for", (None, counted, self.body()), [], line)
        name = self.here().plain() if isinstance(self.here(), Word) else None
        if not name:
            raise self.fault("the name of a variable")
        self.at += 1
        self.skip_lines()
        words = None
        if self.is_word("in"):
            self.at, words = self.at + 1, []
            while isinstance(self.here(), Word):
                words.append(self.here())
                self.at += 1
        self.at += self.is_operator(";")
        return Compound(kind, (name, words, self.body()), [], line)

    def case(self):
        line, arms = self.here().line, []
        self.at += 1
        word = self.here()
        if not isinstance(word, Word):
            raise self.fault("a word")
        self.at += 1
        self.need("in")
        self.skip_lines()
        while not self.is_word("esac"):
            self.at += self.is_operator("(")
            patterns = []
            while isinstance(self.here(), Word):
                patterns.append(self.here())
                self.at += 1
                self.at += self.is_operator("|")
            self.need_operator(")")
            arms.append((patterns, self.list()))
            self.at += self.is_operator(";;", ";&", ";;&")
            self.skip_lines()
        self.at += 1
        return Compound("case", (word, arms), [], line)

    def test(self):
        """[[ .. ]], with operators as words."""
        line, words = self.here().line, []
        self.at += 1
        while not self.is_word("]]"):
            it = self.here()
            if it is None or isinstance(it, Fault):
                raise self.fault("]]")
            words.append(it)
            self.at += 1
        self.at += 1
        return Compound("test", (words,), [], line)
