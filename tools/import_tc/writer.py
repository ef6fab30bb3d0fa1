"""Writes lines and remarks of one set-up, and each line after a look at what qtree would say to it."""
import ipaddress
import textwrap

from .model import INGRESS
from .played import Tree, losses
from .tables import HARMLESS, INSTEAD, PROTOCOLS, RANGES, WRITTEN
from .texts import filter_text, option_text
from .values import id_text, shown
from .words import FLOWER


class Writer:
    def __init__(self, setup, device):
        self.setup, self.device = setup, "".join(it if "!" <= it <= "~" else "_" for it in device)
        self.lines, self.is_short, self.tree = [], setup.is_short, Tree()
        self.filters_done, self.seen, self.taken, self.levels = set(), set(), set(), 0
        self.given = {it.handle for it in setup.qdiscs}

    def say(self, *remarks):
        for it in remarks:
            it = shown(it, 1000)
            self.lines += textwrap.wrap(it, 120, initial_indent="# ", subsequent_indent="#   ", break_on_hyphens=False)

    def leave_out(self, *remarks):
        """Says what is not carried over, by which the status is 1."""
        self.is_short = True
        self.say(*remarks)

    def tc(self, *words):
        line = " ".join(["tc", *words[:2], "dev", self.device, *(it for it in words[2:] if it)])
        if why := self.tree.add(line):
            self.leave_out(f"left out, since {why}: {' '.join([*words[:1], *words[2:]])}")
        else:
            self.lines.append(line)

    def lost(self):
        """Says which packets would be lost by what is written."""
        self.leave_out(*found) if (found := losses(self.tree)) else None

    def pass_over(self, qdisc):
        """Takes a qdisc, with all below it, as one of which enough was said."""
        if id(qdisc) in self.seen:
            return
        self.seen.add(id(qdisc))
        self.filters_done |= {id(it) for it in self.setup.filters if qdisc.handle and it.parent[0] == qdisc.handle}
        for it in self.setup.children(qdisc):
            self.pass_over(it)

    def fresh_handle(self):
        found = next(it for it in range(1, INGRESS) if it not in self.given)
        self.given.add(found)
        return found

    def head(self, it, place, handle=None):
        handle = it.handle if handle is None else handle
        return [*place.split(), *(["handle", f"{handle:x}:"] if handle else [])]

    def options(self, kind, options, rest, defaults=()):
        """The options that are written as words, after remarks about the others."""
        written, words = WRITTEN.get(kind, {}), []
        for name, value in (dict(defaults) | options).items():
            if name in written:
                value = self.in_range(kind, name, value)
                words += [name] if written[name] is None else [name, written[name](value)]
            elif value:
                self.say(f"{option_text(name, value)} is left out: {INSTEAD.get(name, 'it has no counterpart')}")
        rest = [name for name in rest if name not in HARMLESS.get(kind, ())]
        for name in [it for it in rest if it in INSTEAD]:
            self.say(f"{name} is left out: {INSTEAD[name]}")
        if rest and not any(it in INSTEAD for it in rest):
            self.say(f"left out, since it has no counterpart: {shown(' '.join(rest), 300)}")
        return words

    def in_range(self, kind, name, value):
        """The value, or the nearest one that the option takes."""
        low, high = RANGES.get((kind, name), RANGES.get(name, (0, 2**32 - 1)))
        if value is True or low <= value <= high:
            return value
        nearest = min(max(value, low), high)
        self.say(f"{option_text(name, value)} is out of range here, and {option_text(name, nearest)} is written")
        return nearest

    def filters_nowhere(self, it):
        """Filters of a qdisc that takes none here."""
        found = [one for one in self.setup.filters if it.handle and one.parent[0] == it.handle]
        for one in found:
            self.filters_done.add(id(one))
            self.leave_out(f"left out, since {it.kind} takes no filters here: {filter_text(one)}")

    def filters(self, handle, ids):
        found = [one for one in self.setup.filters if handle and one.parent[0] == handle]
        for one in sorted(found, key=lambda it: it.prio):
            self.filters_done.add(id(one))
            why = self.why_not(one, ids)
            if why:
                self.leave_out(f"left out, since {why}: {filter_text(one)}")
                continue
            if one.parent[1]:
                self.say(f"this filter was at class {id_text(one.parent)}: here it is tried for all packets")
            if one.is_behind:
                self.say("Linux finds ports of tcp, udp or nexthdr only below a link with an offset: here each packet's are compared")
            if one.lost:
                self.action(one)
            self.filter_line(handle, one.prio, one.protocol, one.keys, one.target)

    def action(self, one):
        """One that lets the packet pass does what a filter here does."""
        words = shown(", ".join(one.lost))
        if all(it in ("action pass", "action ok", "action gact pass") for it in one.lost):
            self.say(f"the action is left out, since a filter here has no other effect: {words}")
        else:
            self.leave_out(f"the action is left out, for which there is no counterpart: {words}")

    def filter_line(self, handle, prio, protocol, keys, target):
        compared = [word for name in FLOWER if name in keys for word in (name, keys[name])]
        words = ["parent", f"{handle:x}:", "prio", str(prio), "protocol", protocol, "flower", *compared, "classid", id_text(target)]
        self.tc("filter", "add", *words)

    def why_not(self, one, ids):
        """Why a filter is not written, or nothing."""
        if one.kind == "fw":
            return "there is no mark of netfilter: let the program set a port or address that a filter compares"
        if one.kind not in ("flower", "u32", "matchall"):
            return f"a filter of the kind {shown(one.kind)} has no counterpart"
        if one.protocol not in PROTOCOLS:
            return f"protocol {shown(one.protocol)} is none of ip, ipv6 and all"
        comparisons = [it for it in one.lost if not it.startswith(("action", "police"))]
        if comparisons:
            return f"no key compares {shown(', '.join(comparisons), 100)}"
        if one.target is None:
            return "it names no class"
        if one.target not in ids:
            return f"there is no class {id_text(one.target)} in what is written"
        families = {ipaddress.ip_network(one.keys[it]).version for it in ("src_ip", "dst_ip") if it in one.keys}
        if len(families) > 1 or families and one.protocol == ("ipv6" if 4 in families else "ip"):
            return "its addresses are of another family than its protocol"
        return None
