"""Reads what tc shows: json of qdiscs, classes and filters, and the text of classes."""
import json
import re

from .model import ROOT, Qdisc, TrafficClass
from .script import filter_of
from .values import Unfit, Unread, id_of, shown, whole
from .words import READERS, Matches, bits, options_of

# json has rates in bytes a second, sizes in bytes and times in microseconds, but some sizes as text.
RATES = ("rate", "ceil", "peakrate", "bandwidth", "maxrate")
# What each part of a row is, where the row has it.
TYPES = {
    **dict.fromkeys(("kind", "dev", "handle", "parent", "protocol", "class", "leaf"), str),
    **{"root": bool, "options": dict, "stab": dict, "pref": int, "chain": int},
}


def pairs(found):
    """An object of json, in which tc repeats the key match: its values become a list."""
    it = dict(found)
    if "match" in it:
        it["match"] = [value for key, value in found if key == "match"]
    return it


def rows_of(text, name):
    # Some kinds of filter have text in their json: it becomes one word.
    text = re.sub(r'"options":\{([^"{}]+)\}', lambda it: json.dumps({"text": it[1].strip()}).join(['"options":', ""]), text)
    try:
        rows = json.loads(text, object_pairs_hook=pairs)
    except (ValueError, RecursionError) as error:
        raise Unread(f"{name} is no json: {shown(str(error).splitlines()[0])}") from None
    if not isinstance(rows, list) or not all(isinstance(it, dict) for it in rows):
        raise Unread(f"{name} is not what tc prints")
    for row in rows:
        for part, value in row.items():
            if part in TYPES and type(value) is not TYPES[part]:
                text = f"{part} is {shown(json.dumps(value))} in a row of {shown(str(row.get('kind')))}"
                raise Unread(f"{name} is not what tc prints: {text}")
    return rows


def words_of(options):
    """The options of json as the words of a line."""
    if "text" in options:
        return options["text"].split()
    words = []
    for name, value in options.items():
        is_list = name == "priomap" and isinstance(value, list) and all(type(it) is int for it in value)
        if (name in READERS and isinstance(value, (dict, list)) and name != "rate") or (name == "priomap" and not is_list):
            raise Unfit(f"its {name} is {shown(json.dumps(value))}")
        if isinstance(value, bool):
            words += [name] if value else []
        elif isinstance(value, list):
            words += [name, *(str(it) for it in value[:20])]
        elif isinstance(value, dict):
            words += [name, f"{int(value['rate']) * 8}bit"] if name == "rate" else [name]
        elif name in RATES and isinstance(value, int):
            words += [name, f"{value * 8}bit"]
        elif name == "default":
            words += [name, str(value).removeprefix("0x")]
        else:
            words += [name, str(value)]
    return words


def qdisc_of(row):
    options, rest = options_of(words_of(row.get("options", {})))
    rest += ["stab"] if "stab" in row else []
    parent = ROOT if row.get("root") else id_of(row.get("parent", "root"))
    return Qdisc(row["kind"], id_of(row.get("handle", "0:"))[0], parent, options, rest)


def class_of(row):
    known = {"class", "kind", "handle", "parent", "root", "leaf", "dev", "options", "stats"}
    options, rest = options_of(words_of({key: it for key, it in row.items() if key not in known} | row.get("options", {})))
    parent = ROOT if row.get("root") else id_of(row.get("parent", "root"))
    return TrafficClass(row.get("class") or row["kind"], id_of(row["handle"]), parent, options, rest)


def class_of_text(line):
    """class KIND ID root|parent ID [leaf ID] OPTIONS, as tc prints it where it knows no json of classes."""
    words = line.split()
    kind, number, at, parent = words[1], id_of(words[2]), 3, ROOT
    if words[at : at + 1] == ["dev"]:
        at += 2
    if words[at : at + 1] == ["root"]:
        at += 1
    elif words[at : at + 1] == ["parent"]:
        parent, at = id_of(words[at + 1]), at + 2
    if words[at : at + 1] == ["leaf"]:
        at += 2
    options, rest = options_of(words[at:])
    return TrafficClass(kind, number, parent, options, rest)


def flower_words(keys):
    words = []
    for name, value in keys.items():
        if isinstance(value, dict):
            words += [name, "-".join(str(it) for it in value.values())]
        else:
            words += [name, str(value)]
    return words


def filter_of_row(row, parent):
    """The filter of a row, or None of a row that only tells of a table."""
    options = row.get("options")
    if options is None or row["kind"] == "u32" and "match" not in options:
        return None
    parent = id_of(row["parent"]) if "parent" in row else parent
    protocol, prio = row.get("protocol", "all"), row.get("pref", 0)
    if not 1 <= prio <= 65535:
        raise Unfit(f"there is no prio {prio}")
    target = options.get("flowid") or options.get("classid")
    words = [row["kind"], *(["flowid", target] if target else [])]
    if row["kind"] == "flower":
        words += flower_words(options.get("keys", {}))
    elif row["kind"] not in ("matchall", "u32"):
        words += options.get("text", "").split()
    if options.get("actions") or "police" in options:
        words += ["action", "of", "its", "own"]
    it = filter_of(words, parent, prio, protocol)
    it.lost += [f"chain {row['chain']}"] if row.get("chain") else []
    if row["kind"] == "u32":
        matches = Matches(protocol == "ipv6")
        for one in options["match"]:
            matches.add(bits(one["value"], 32), bits(one["mask"], 32), whole(str(one["off"])), bool(one.get("offmask")))
        it.keys = matches.keys()
        it.is_behind = matches.is_behind
        it.lost = it.lost + matches.lost + ([f"link {shown(str(options['link']))}"] if "link" in options else [])
    return it


def read_shown(text, name, setups, device, parent=None):
    """Reads what tc printed, which is json or the text of classes; filters that name no parent have this one, or else the root."""
    if not text.lstrip().startswith("["):
        for line in text.splitlines():
            if line.startswith("class "):
                add(setups[device], name, line.split()[1:2], lambda line=line: setups[device].add_class(class_of_text(line)))
        return
    for row in rows_of(text, name):
        setup = setups[row.get("dev", device)]
        add(setup, name, [row.get("kind") or row.get("class"), row.get("handle")], lambda row=row, setup=setup: add_row(setup, row, parent))


def add(setup, name, what, carry_out):
    what = " ".join(it for it in what if it)
    try:
        carry_out()
    except Unfit as error:
        setup.leave_out(f"{shown(what)} is left out, since {error}")
    except (KeyError, TypeError, ValueError, AttributeError, IndexError, OverflowError) as error:
        raise Unread(f"{name} is not what tc prints: {shown(repr(error))} in a row of {shown(what)}") from None


def add_row(setup, row, parent):
    if "protocol" in row:
        if found := filter_of_row(row, parent or setup.parent_of_filters()):
            setup.add_filter(found)
    elif "class" in row:
        setup.add_class(class_of(row))
    elif "kind" in row:
        setup.add_qdisc(qdisc_of(row))
