"""What the words of a shell script stand for: variables, sums and outputs of commands that can be computed."""
import re

from .arithmetic import computed
from .scan import Word, words_within
from .values import Unfit, Unread, shown

LONGEST_VALUE, MOST_VARIABLES, MOST_CHARACTERS, MOST_STEPS = 65536, 1000, 2**25, 50_000
BLANKS = " \t\n"
PARAMETER = re.compile(r"(\w+|[@*#?$!-])(?:(:?[-=+?]|%%?|##?)(.*))?", re.ASCII | re.DOTALL)
RANGE = re.compile(r"\{(-?[0-9]{1,6})\.\.(-?[0-9]{1,6})\}")


class Unknown:
    """The value of a variable that was set to what is not computed."""

    def __init__(self, why):
        self.why = why


class Words:
    """Expands words by the variables so far; captured(text, line) gives the output of commands."""

    def __init__(self):
        self.variables, self.arguments = {}, None
        self.is_test, self.nested, self.size, self.steps = False, 0, 0, 0

    def captured(self, text, line):
        raise NotImplementedError

    def count(self, characters, line):
        """Ends the reading of a script that grows without bound."""
        self.size += characters
        if self.size > MOST_CHARACTERS:
            raise Unread(f"line {line}: the values of the script grow beyond {MOST_CHARACTERS} characters")

    def step(self, line):
        self.steps += 1
        if self.steps > MOST_STEPS:
            raise Unread(f"line {line}: the script runs more than {MOST_STEPS} commands")

    def set(self, name, value, line):
        if isinstance(value, str) and len(value) > LONGEST_VALUE:
            raise Unread(f"line {line}: the value of {shown(name)} grows beyond {LONGEST_VALUE} characters")
        if name not in self.variables and len(self.variables) >= MOST_VARIABLES:
            raise Unread(f"line {line}: there are more than {MOST_VARIABLES} variables")
        self.variables[name] = value

    def get(self, name):
        """The value of a variable or argument; what is not known is an error."""
        if re.fullmatch("[0-9@*#]", name) or name.isdecimal():
            return self.argument(name)
        if name not in self.variables:
            raise Unfit(f"${shown(name)} is not set in the script")
        value = self.variables[name]
        if isinstance(value, Unknown):
            raise Unfit(f"${shown(name)} is not known: {value.why}")
        return value

    def argument(self, name):
        if self.arguments is None:
            if self.is_test and name != "#":
                return ""
            raise Unfit(f"${name} is an argument of the script")
        if name == "#":
            return str(len(self.arguments))
        if name in "@*":
            return " ".join(self.arguments)
        number = int(name[:6])
        if not number:
            raise Unfit("$0 is not known")
        return self.arguments[number - 1] if number <= len(self.arguments) else ""

    def parameter(self, text, line):
        """What ${TEXT} stands for."""
        if len(text) > 1 and re.fullmatch(r"#\w+", text, re.ASCII):
            return str(len(self.get(text[1:])))
        found = PARAMETER.fullmatch(text)
        if not found:
            raise Unfit(f"${{{shown(text)}}} is not followed")
        name, operator, word = found.groups()
        if operator is None:
            return self.get(name)
        if operator[0] in "%#":
            return self.cut(self.get(name), operator, self.within(word, line))
        return self.chosen(name, operator, word, line)

    def cut(self, value, operator, end):
        if re.search(r"[*?\[\\]", end):
            raise Unfit(f"the pattern {shown(end)} is not followed")
        return value.removesuffix(end) if operator[0] == "%" else value.removeprefix(end)

    def chosen(self, name, operator, word, line):
        """${name:-word} and its like."""
        is_argument = self.arguments is None and (name.isdecimal() or name in "@*")
        value = None if is_argument or name not in self.variables and not re.fullmatch("[0-9@*#]", name) else self.get(name)
        is_set = value is not None and (value != "" or operator[0] != ":")
        if operator[-1] == "+":
            return self.within(word, line) if is_set else ""
        if is_set:
            return value
        if operator[-1] == "?":
            raise Unfit(f"${shown(name)} is not set in the script")
        value = self.within(word, line)
        if operator[-1] == "=":
            self.set(name, value, line)
        return value

    def within(self, text, line):
        """A text with values put in, as in double quotes."""
        self.nested += 1
        if self.nested > 20:
            raise Unfit("values stand in one another too deep")
        try:
            return self.text(words_within(text, line, self.nested))
        finally:
            self.nested -= 1

    def value(self, kind, text, line):
        if kind == "name":
            found = self.parameter(text, line)
        elif kind == "sum":
            found = str(computed(self.within(text, line), self.get))
        elif kind == "command":
            found = self.captured(text, line)
        else:
            raise Unfit(f"$'{shown(text)}' is not followed")
        self.count(len(found), line)
        return found

    def text(self, word):
        """The word as one text."""
        return "".join(text if kind == "text" else self.value(kind, text, word.line) for kind, text, _ in word.parts)

    def fields(self, word):
        """The words that a word becomes: values without quotes are split at blanks."""
        if (plain := word.plain()) is not None:
            found = RANGE.fullmatch(plain) if plain.startswith("{") else None
            return self.ranged(int(found[1]), int(found[2]), word.line) if found else [without_pattern(plain)]
        done, now = [], None
        for kind, text, is_quoted in word.parts:
            if kind == "text":
                now = (now or "") + (text if is_quoted else without_pattern(text))
            elif is_quoted and (kind, text) == ("name", "@"):
                self.get("@")
                for at, it in enumerate(self.arguments):
                    done += [now] if at else []
                    now = it if at else (now or "") + it
            elif is_quoted:
                now = (now or "") + self.value(kind, text, word.line)
            else:
                now = self.split(without_pattern(self.value(kind, text, word.line)), done, now)
        return done if now is None else [*done, now]

    def ranged(self, first, last, line):
        self.count(10 * abs(last - first), line)
        step = 1 if first <= last else -1
        return [str(it) for it in range(first, last + step, step)]

    def split(self, value, done, now):
        if "IFS" in self.variables:
            raise Unfit("IFS is set, by which values are split")
        pieces = value.split()
        if now is not None and (not value or value[0] in BLANKS) and pieces:
            done.append(now)
            now = None
        for at, it in enumerate(pieces):
            if at:
                done.append(now)
                now = it
            else:
                now = (now or "") + it
        if pieces and value[-1] in BLANKS:
            done.append(now)
            now = None
        return now

    def pattern(self, word):
        """A pattern of case or [[ as a regular expression."""
        made = ""
        for kind, text, is_quoted in word.parts:
            text = text if kind == "text" else self.value(kind, text, word.line)
            if is_quoted:
                made += re.escape(text)
            elif "[" in text or text.count("*") > 3:
                raise Unfit(f"the pattern {shown(text)} is not followed")
            else:
                made += "".join({"*": ".*", "?": "."}.get(it) or re.escape(it) for it in text)
        return re.compile(made, re.DOTALL)


def without_pattern(text):
    """A text without quotes, in which no names of files are looked up and no braces stand for several words."""
    if re.search(r"[*?]|\[[^\]]*\]", text) or "{" in text and re.search(r"\{[^}]*(?:,|\.\.)", text):
        raise Unfit(f"what {shown(text)} stands for is not looked up")
    return text


def assignment_of(word):
    """The name, whether it appends, and the word of the value, or None of a word that sets no variable."""
    kind, text, is_quoted = word.parts[0] if word.parts else ("", "", False)
    found = re.match(r"([A-Za-z_]\w*)(\+?)=", text, re.ASCII) if kind == "text" and not is_quoted else None
    if not found:
        return None
    parts = [("text", text[found.end() :], False), *word.parts[1:]]
    return found[1], bool(found[2]), Word(parts, word.line)
