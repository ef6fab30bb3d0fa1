"""The text with typed pointers, which clang 14 wants: ptr is i8*, and is cast where it is used.

    python3 typed.py < TEXT > TYPED"""
import re
import sys

from llvm_text import NAME, Unreadable

POINTER = r"(%\w+|bitcast \(.*? to i8\*\))"
TYPE = r"(\{.*?\}|<.*?>|\w+)"


def plain(text):
    return re.sub(r"\bptr\b", "i8*", text)


class Types:
    """The types of globals and functions, by their names."""

    def __init__(self, lines):
        self.globals, self.functions = {}, {}
        for line in lines:
            if found := re.match(rf"({NAME}) = (?:private |unnamed_addr )*constant (\[\d+ x i8\]|<\{{.*?\}}>) ", line):
                self.globals[found[1]] = plain(found[2])
            elif found := re.match(rf"(?:define|declare) (.*?)({NAME})\((.*?)\)", line):
                result = re.sub(r"\b(internal|noundef|zeroext|signext|QTREE_WIDE)\b ?", "", found[1]).strip()
                given = [it for it in re.split(r", (?![^{]*\})", found[3]) if it]
                words = [re.sub(r"\b(noundef|immarg|zeroext|signext)\b|%\w+", "", it).strip() for it in given]
                self.functions[found[2]] = f"{plain(result)} ({', '.join(map(plain, words))})*"

    def cast(self, name):
        """A global or function as i8*."""
        kind = self.functions.get(name) or f"{self.globals[name]}*"
        return f"bitcast ({kind} {name} to i8*)"

    def referring(self, line):
        """The line with each `ptr @NAME` as a cast."""
        return re.sub(rf"\bptr ({NAME})(?!\()", lambda it: "ptr " + self.cast(it[1]), line)


class Writer:
    """Writes lines of code, with a cast before each access."""

    def __init__(self, types):
        self.types, self.lines, self.casts = types, [], 0

    def at(self, pointer, kind):
        """A pointer to this type."""
        if kind == "i8":
            return pointer
        self.casts += 1
        self.lines.append(f"  %cast{self.casts} = bitcast i8* {pointer} to {kind}*")
        return f"%cast{self.casts}"

    def alloca(self, line):
        found = re.match(r"  (%\w+) = alloca (.*), align (\d+)$", line)
        if not found or found[2] == "i8":
            return bool(found) and not self.lines.append(line)
        kind = plain(found[2])
        self.lines += [f"  {found[1]}.own = alloca {kind}, align {found[3]}", f"  {found[1]} = bitcast {kind}* {found[1]}.own to i8*"]
        return True

    def access(self, line):
        """A load, a store or an exchange."""
        if found := re.match(rf"  (%\w+) = load (atomic )?{TYPE}, ptr {POINTER}(.*)$", line):
            kind = plain(found[3])
            self.lines.append(f"  {found[1]} = load {found[2] or ''}{kind}, {kind}* {self.at(found[4], kind)}{found[5]}")
        elif found := re.match(rf"  store (atomic )?{TYPE} (.*), ptr {POINTER}((?: seq_cst)?, align \d+.*)$", line):
            kind = plain(found[2])
            self.lines.append(f"  store {found[1] or ''}{kind} {found[3]}, {kind}* {self.at(found[4], kind)}{found[5]}")
        elif found := re.match(r"  (%\w+) = atomicrmw (\w+) ptr (%\w+), (\w+) (.*)$", line):
            self.lines.append(f"  {found[1]} = atomicrmw {found[2]} {found[4]}* {self.at(found[3], found[4])}, {found[4]} {found[5]}")
        else:
            return False
        return True

    def write(self, line):
        line = line.replace("@llvm.memset.p0.", "@llvm.memset.p0i8.").replace("@llvm.memmove.p0.p0.", "@llvm.memmove.p0i8.p0i8.")
        line = self.types.referring(line)
        if self.alloca(line) or self.access(line):
            return
        if re.match(r"  (?:%\w+ = )?(?:alloca|load|store|atomicrmw) |.*@llvm\.memcpy", line):
            raise Unreadable(f"an access that has no typed form: {line.strip()}")
        self.lines.append(plain(line))


def typed(text):
    """The text with typed pointers."""
    lines = text.split("\n")
    writer = Writer(Types(lines))
    for line in lines:
        writer.write(line)
    return "\n".join(writer.lines)


if __name__ == "__main__":
    sys.stdout.write(typed(sys.stdin.read()))
