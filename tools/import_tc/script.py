"""Reads a shell script or a batch file with lines of tc, and carries each out for its device."""
import re

from .model import INGRESS, ROOT, Classifier, Missing, Qdisc, TrafficClass
from .shell import Shell
from .values import Unfit, id_of, id_text, shown, whole
from .words import flower_keys, options_of, u32_keys

OBJECTS = ("qdisc", "class", "filter")
VERBS = ("add", "delete", "change", "replace", "show", "list", "lst")
WORD = re.compile(r"""(?:[^\s'"]|'[^']*'|"[^"]*")+|['"]""")


def spelled(word, names):
    """The whole name of a word that may be shortened."""
    return next((it for it in names if word and it.startswith(word)), None)


def head_of(words, valued):
    """The words of the head with their values, and the rest; words with a value are in valued."""
    head, at = {}, 0
    while at < len(words):
        word = {"pref": "prio", "flowid": "classid"}.get(words[at], words[at])
        if word in ("root", "ingress", "clsact", "egress"):
            head[word], at = word, at + 1
        elif word in valued:
            if at + 1 == len(words):
                raise Unfit(f"a value is missing after {shown(words[at])}")
            head[word], at = words[at + 1], at + 2
        elif word in ("estimator", "stab"):
            head[word], at = True, at + (3 if word == "estimator" else 1)
        elif "stab" in head and word in ("overhead", "linklayer", "mtu", "mpu", "tsize"):
            at += 2
        else:
            break
    return head, words[at:]


class Script:
    """Carries the commands of a script out, for one device."""

    def __init__(self, setup):
        self.setup = setup

    def run(self, words):
        thing, verb = spelled((words or [""])[0], OBJECTS), spelled(words[1] if words[1:] else "show", VERBS)
        if thing is None or verb is None:
            raise Unfit(f"tc {shown(' '.join(words[:2]))} is not followed")
        if verb not in ("show", "list", "lst"):
            getattr(self, thing)(verb, words[2:])

    def qdisc(self, verb, words):
        head, rest = head_of(words, ("dev", "handle", "parent"))
        for it in ("ingress", "clsact"):
            if it in head:
                head, rest = {**head, "parent": f"{INGRESS:x}:"}, [it, *rest]
        parent = ROOT if "root" in head else id_of(head["parent"]) if "parent" in head else None
        handle = id_of(head["handle"])[0] if "handle" in head else 0
        old = self.setup.find(parent, handle)
        if verb == "delete":
            if old:
                self.setup.remove(old)
            return
        if not rest or parent is None and not (old and verb != "add"):
            raise Unfit("the line names no place or no kind")
        options, others = options_of(rest[1:])
        others += ["stab"] * ("stab" in head)
        if old and old.kind == rest[0] and verb != "add":
            old.options, old.rest = (old.options | options if verb == "change" else options), others
        elif verb == "change" or parent is None:
            raise Missing("what it changes is not there")
        else:
            self.put(verb, Qdisc(rest[0], handle, parent, options, others))

    def put(self, verb, made):
        if verb == "add" and self.setup.find(made.parent, 0):
            raise Missing("a qdisc is there already")
        twin = self.setup.find(None, made.handle) if made.handle else None
        if twin and (verb == "add" or twin.parent != made.parent):
            raise Missing("another qdisc has that handle")
        self.setup.put(made)

    def class_(self, verb, words):
        head, rest = head_of(words, ("dev", "classid", "parent"))
        parent, number = (ROOT if "root" in head else id_of(head.get("parent", "root"))), id_of(head.get("classid", ":"))
        if verb == "delete":
            return self.setup.remove_class(number)
        if not rest or not number[1]:
            raise Unfit("the line has no classid or no kind")
        number = (number[0] or parent[0], number[1])
        options, others = options_of(rest[1:])
        old = self.setup.classes.get(number)
        if old and verb == "add":
            raise Missing(f"the class {id_text(number)} is there already")
        if old:
            old.options.update(options)
        elif verb == "change":
            raise Missing(f"the class {id_text(number)} is not there")
        else:
            self.setup.add_class(TrafficClass(rest[0], number, parent, options, others))
        return None

    def filter(self, verb, words):
        head, rest = head_of(words, ("dev", "parent", "prio", "protocol", "handle", "chain", "block"))
        parent = id_of(head["parent"]) if "parent" in head else self.setup.parent_of_filters()
        if any(it in head for it in ("ingress", "egress")):
            parent = (INGRESS, 0)
        prio = whole(head["prio"]) if "prio" in head else None
        if verb == "delete":
            self.setup.drop_filters(lambda it: it.parent == parent and prio in (None, it.prio))
            return
        if not rest:
            raise Unfit("the line has no kind of filter")
        prio = prio or self.setup.automatic_prio(parent)
        if not 1 <= prio <= 65535:
            raise Unfit(f"there is no prio {prio}")
        made = filter_of(rest, parent, prio, head.get("protocol", "all"))
        made.lost += [f"chain {head['chain']}"] if head.get("chain", "0") != "0" else []
        self.setup.add_filter(made)


setattr(Script, "class", Script.class_)


def filter_of(words, parent, prio, protocol):
    """A filter by its words from the kind on."""
    kind, target, own, lost = words[0], None, [], []
    at = 1
    while at < len(words):
        if words[at] in ("flowid", "classid") and at + 1 < len(words):
            target, at = id_of(words[at + 1]), at + 2
        elif words[at] in ("action", "police"):
            rest = words[at:]
            end = next((one for one, it in enumerate(rest) if it in ("flowid", "classid")), len(rest))
            lost.append(" ".join(rest[: min(end, 4)]))
            at += end
        else:
            own.append(words[at])
            at += 1
    if target and not target[0]:
        target = (parent[0], target[1])
    keys, is_behind = {}, False
    if kind == "flower":
        keys, more = flower_keys(own)
    elif kind == "u32":
        keys, more, is_behind = u32_keys(own, protocol == "ipv6")
    else:
        more = own if kind != "matchall" else []
    return Classifier(kind, parent, prio, protocol, keys, target, more + lost, is_behind)


class Reader:
    """What the lines of one script do to the set-ups of devices, and what is said of those that do nothing."""

    def __init__(self, setups, device):
        self.setups, self.device, self.name, self.doubts = setups, device, None, set()

    def tc(self, words, line, is_tried=False):
        """Carries out a line of tc behind the word tc; whether it succeeds. One that fails where another is tried then is not said."""
        while words and words[0].startswith("-"):
            words = words[2:] if words[0] in ("-n", "-netns", "-cf", "-conf") else words[1:]
        self.name = next((words[at + 1] for at, it in enumerate(words[:-1]) if it == "dev"), None)
        try:
            Script(self.setups[self.name or self.device]).run(words)
        except Missing as error:
            if not is_tried:
                self.leave_out(line, error, " ".join(["tc", *words]))
            return False
        return True

    def batch(self, text, first, is_file=False):
        """The lines of a batch, which have no variables; those of a file are called by the line that reads it."""
        for number, line in logical_lines(text, first):
            number = first if is_file else number
            words = [it[0] for it in WORD.finditer(line.partition("#")[0])]
            words = words[words[:1] == ["tc"] :]
            if not words:
                continue
            try:
                if any(it in "'\"" for it in words):
                    raise Unfit("a quote is not closed")
                self.tc([re.sub("['\"]", "", it) for it in words], number)
            except Unfit as error:
                self.leave_out(number, error, line)

    def leave_out(self, line, why, text):
        """Remarks are without the name of the device, since qtree play --explain looks for one in comments too."""
        name = next((it for it in re.findall(r"\bdev\s+([^\s$\"']+)", text) if it in self.setups), self.device)
        text = re.sub(r"\bdev\s+\S+\s*", "", " ".join(text.replace("\\\n", " ").split()))
        self.setups[name].leave_out(f"line {line} is left out, since {why}: {shown(text, 300)}")

    def doubt(self, line):
        if line not in self.doubts:
            self.doubts.add(line)
            self.setups[self.device].leave_out(f"line {line} has a condition that is not known: each of its lines that adds is read once")


def logical_lines(text, first=1):
    """The lines with their numbers, those that a backslash joins as one."""
    held, begin = [], first
    for number, line in enumerate(text.split("\n"), first):
        begin = begin if held else number
        if line.endswith("\\") and not line.lstrip().startswith("#"):
            held.append(line[:-1])
            continue
        yield begin, " ".join([*held, line])
        held = []
    if held:
        yield begin, " ".join(held)


def is_batch(text):
    """Whether the first line that says something begins with an object of tc, as no shell script does."""
    for line in text.split("\n"):
        if words := line.partition("#")[0].split(None, 1):
            return spelled(words[0], OBJECTS) is not None and len(words) == 2
    return False


def read_script(text, setups, device):
    """Carries out each line of tc; what a line does not do becomes a remark of its device."""
    text = text.replace("\r\n", "\n")
    reader = Reader(setups, device)
    if is_batch(text):
        reader.batch(text, 1)
    else:
        Shell(reader).script(text)
