"""The text of a module of LLVM, cut into its parts."""
import re

NAME = r'@(?:"[^"]*"|[\w.$]+)'


class Unreadable(Exception):
    """What the module has and this does not know."""


class Module:
    """Globals, functions (a list of lines each) and declarations by their names, attributes by their numbers, and lines of metadata."""

    def __init__(self, text):
        self.globals, self.functions, self.declared, self.attributes = {}, {}, {}, {}
        self.metadata, self.target = [], []
        lines = iter(text.split("\n"))
        for line in lines:
            if line.startswith("define "):
                body = [line]
                while body[-1] != "}":
                    body.append(next(lines))
                self.functions[re.search(rf"({NAME})\(", line)[1]] = body
            elif line and not line.startswith(";"):
                self.take(line)

    def take(self, line):
        """A line that stands alone."""
        if found := re.match(rf"({NAME}) = ", line):
            self.globals[found[1]] = line
        elif line.startswith("declare "):
            self.declared[re.search(rf"({NAME})\(", line)[1]] = line
        elif found := re.fullmatch(r"attributes (#\d+) = \{ (.*) \}", line):
            self.attributes[found[1]] = found[2]
        elif re.match(r"!\d+ = |!llvm\.ident = ", line):
            self.metadata.append(line)
        elif re.match(r"target |source_filename ", line):
            self.target.append(line)
        else:
            raise Unreadable(f"a line of an unknown form: {line[:200]}")

    def reached(self, roots):
        """The names that these use, directly or not, and they themselves."""
        seen, left = set(roots), list(roots)
        while left:
            name = left.pop()
            body = "\n".join(self.functions[name]) if name in self.functions else self.globals.get(name, "")
            for it in re.findall(NAME, body):
                if it not in seen and (it in self.functions or it in self.globals or it in self.declared):
                    seen.add(it)
                    left.append(it)
        return seen


def read(path):
    with open(path, encoding="utf-8") as file:
        return file.read()


def write(path, text):
    with open(path, "w", encoding="utf-8") as file:
        file.write(text)
