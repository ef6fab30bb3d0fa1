"""The commands that a shell has itself, and programs of which it is known what they do."""
import os
import re

from .arithmetic import computed
from .expand import Unknown, Words, assignment_of
from .outputs import OUTPUTS, levels, tested
from .values import Unfit, shown

# Words before a command, with those of their options that have a value.
BEFORE = {
    **{"sudo": "ugCp", "doas": "u", "exec": "a", "env": "u", "nice": "n", "ionice": "cn", "stdbuf": "ioe"},
    **dict.fromkeys(("command", "nohup", "time", "busybox", "builtin"), ""),
}
# Programs that are taken to succeed; of any other it is not known.
SUCCEED = {
    **dict.fromkeys(("modprobe", "insmod", "ip", "ifconfig", "ethtool", "sysctl", "logger", "mkdir", "rm", "sleep", "touch"), True),
    **dict.fromkeys(("iptables", "ip6tables", "nft", "ulimit", "cd", "umask", "trap", "wait", "hash", "kill", "chmod"), True),
    **{":": True, "true": True, "false": False},
}


class Left(Exception):
    """What ends a script, a function or a loop; of a loop how many of them."""

    def __init__(self, kind, loops=0):
        super().__init__(kind)
        self.kind, self.loops = kind, loops


class Builtins(Words):
    def __init__(self, reader):
        super().__init__()
        self.reader, self.functions, self.unsure, self.base = reader, {}, [], 0
        self.given, self.output, self.files, self.locals, self.calls, self.is_tried = None, None, {}, {}, 0, False

    def put_out(self, text):
        """Adds to the output that is read, None where it is not known."""
        if self.output is not None:
            self.output.append(text)
            self.count(len(text or ""), 0)

    def without_prefix(self, words):
        """The command behind sudo and its like."""
        is_plain = False
        while words:
            name = os.path.basename(words[0])
            if words[:3] == ["ip", "netns", "exec"]:
                words = words[4:]
            elif re.match(r"[A-Za-z_]\w*=", words[0], re.ASCII) and is_plain:
                words = words[1:]
            elif name in BEFORE and not (name == "command" and words[1:2] in (["-v"], ["-V"])):
                valued, words, is_plain = BEFORE[name], words[1:], True
                while words and words[0].startswith("-"):
                    words = words[2:] if words[0][1:2] in list(valued) and len(words[0]) == 2 else words[1:]
            else:
                break
        return words, is_plain

    def named(self, words, it):
        """A command by its words."""
        words, is_plain = self.without_prefix(words)
        if not words:
            return True
        name, words = words[0], words[1:]
        if name in self.functions and not is_plain:
            return self.call(name, words, it)
        name = os.path.basename(name)
        if name == "tc":
            return self.line_of_tc(words, it)
        if do := getattr(self, f"do_{BUILTINS.get(name, '')}", None):
            return do(name, words, it)
        if name in OUTPUTS or name in ("command", "type"):
            return self.put(name, words)
        self.put_out(None)
        if name not in SUCCEED and any(os.path.basename(one) == "tc" for one in words) or name in ("qdisc", "class", "filter"):
            self.reader.leave_out(it.line, f"what {shown(name)} does is not followed", it.text)
        return SUCCEED.get(name)

    def put(self, name, words):
        try:
            self.put_out(OUTPUTS.get(name, OUTPUTS["which"])(words, self.given))
        except Unfit:
            self.put_out(None)
        return True

    def line_of_tc(self, words, it):
        """Carries a line of tc out, or a batch; a line that is not understood is taken to succeed."""
        self.put_out(None)
        self.reached += 1
        try:
            if self.unsure:
                self.tc_unsure(words, it)
            if at := next((at for at, one in enumerate(words, 1) if re.fullmatch("-b(a(t(ch?)?)?)?", one)), 0):
                self.batch_of(words[at:], it)
                return True
            return self.reader.tc(words, it.line, self.is_tried)
        except Unfit as error:
            self.reader.leave_out(it.line, error, it.text)
            return True

    def tc_unsure(self, words, it):
        line = self.unsure[-1]
        self.reader.doubt(line)
        if any(one in ("del", "delete") for one in words[:4]):
            raise Unfit(f"it may not run, by the condition in line {line}")

    def batch_of(self, words, it):
        name = words[0] if words and not words[0].startswith("-") or words[:1] == ["-"] else "-"
        if name in ("-", "/dev/stdin"):
            if self.given is None:
                raise Unfit("what it reads is not known")
            first = self.given.line
            self.reader.batch(self.given.rest(), first)
        elif self.files.get(name) is not None:
            self.reader.batch(self.files[name], it.line, True)
        else:
            raise Unfit(f"the file {shown(name)} is not read: name it as a FILE")

    def declare(self, kind, words, it):
        for word in words:
            found, plain = assignment_of(word), word.plain() or ""
            name = found[0] if found else plain
            if not re.fullmatch(r"[A-Za-z_]\w*", name, re.ASCII):
                continue
            if kind in ("local", "declare", "typeset") and self.calls and name not in self.locals:
                self.locals[name] = self.variables.get(name)
            if found:
                self.assign(*found, it.line)
            elif kind == "local":
                self.set(name, "", it.line)
        return True

    def sum_(self, it, text):
        """((TEXT)), or a part of for ((..)): whether it is not 0."""
        try:
            if found := re.fullmatch(r"\s*([A-Za-z_]\w*)\s*(\+\+|--)\s*", text, re.ASCII):
                text = f"{found[1]} {found[2][0]}= 1"
            if found := re.fullmatch(r"\s*([A-Za-z_]\w*)\s*([-+*/%]?)=(?!=)(.*)", text, re.ASCII | re.DOTALL):
                name, operator, rest = found.groups()
                value = computed(self.within(f"{name} {operator} ({rest})" if operator else rest, it.line), self.get)
                self.set(name, str(value), it.line)
            elif not text.strip():
                return True
            else:
                value = computed(self.within(text, it.line), self.get)
            return value != 0
        except Unfit as error:
            for name in re.findall(r"([A-Za-z_]\w*)\s*(?:\+\+|--|[-+*/%]?=(?!=))", text, re.ASCII):
                self.set(name, Unknown(str(error)), it.line)
            return None

    def do_test(self, name, words, _it):
        try:
            return tested(words[:-1] if name == "[" else words)
        except Unfit:
            return None

    def do_let(self, _name, words, it):
        answer = None
        for one in words:
            answer = self.sum_(it, one)
        return answer

    def do_leave(self, name, words, _it):
        """exit, return, break or continue; where it is not known whether it runs, the rest of its branch does not."""
        if len(self.unsure) > (0 if name == "exit" else self.base):
            raise Left("branch")
        raise Left(name, levels(words) if name in ("break", "continue") else 0)

    def do_shift(self, _name, words, _it):
        if self.arguments is not None:
            self.arguments = self.arguments[levels(words) :]
        return True

    def do_set(self, _name, words, _it):
        if "--" in words:
            self.arguments = words[words.index("--") + 1 :]
        return True

    def do_unset(self, _name, words, _it):
        for one in words:
            self.variables.pop(one, None)
            self.functions.pop(one, None)
        return True

    def do_read(self, _name, words, it):
        """Sets variables by a line that comes in."""
        names = [one for one in words if not one.startswith("-")]
        line = self.given.next() if self.given else None
        if self.given is None:
            for one in names:
                self.set(one, Unknown("it is read from outside"), it.line)
            return None
        pieces = (line or "").split(None, max(len(names) - 1, 0)) if names else []
        for at, one in enumerate(names):
            self.set(one, pieces[at].strip() if at < len(pieces) else "", it.line)
        return line is not None

    def do_source(self, name, words, it):
        """What another script sets is not known."""
        self.reader.leave_out(it.line, "that script is not read", it.text)
        return True

    def do_eval(self, _name, _words, it):
        self.put_out(None)
        self.reader.leave_out(it.line, "eval is not followed", it.text)
        return None


BUILTINS = {
    **{"[": "test", "test": "test", "let": "let", "shift": "shift", "set": "set", "unset": "unset", "read": "read"},
    **{".": "source", "source": "source", "eval": "eval"},
    **dict.fromkeys(("exit", "return", "break", "continue"), "leave"),
}
