"""The tree that written lines make, by the rules of qtree: which lines it would refuse, and which packets it would lose.

A kind of packet is what filters can tell apart. Along each way from the root, one filter a level is met, or the priority where none is
met. Where a filter compares nothing, the packet has a value that no filter names: whatever loses some packet of that way loses this one.
"""
import dataclasses
import ipaddress

from . import values
from .words import PROTOCOLS

DEEPEST, MOST_NODES, MOST_FILTERS, MOST_KINDS, FIRST_HANDLE = 8, 256, 256, 5_000, 0x8001
MTU = 1514
FAMILIES = {"ip": 4, "ipv6": 6}
PORTS = ("src_port", "dst_port")
ADDRESSES = ("src_ip", "dst_ip")


@dataclasses.dataclass
class Node:
    """A qdisc, or an implicit leaf with handle 0; classes by their minor number."""

    kind: str
    handle: int
    depth: int
    options: dict
    classes: dict = dataclasses.field(default_factory=dict)
    filters: list = dataclasses.field(default_factory=list)

    def name(self):
        return f"{self.kind} {self.handle:x}:" if self.handle else f"the {self.kind}"


@dataclasses.dataclass
class Filter:
    prio: int
    protocol: str
    keys: dict
    minor: int

    def matches(self, packet):
        if self.protocol in FAMILIES and packet["family"] != FAMILIES[self.protocol]:
            return False
        return all(self.agrees(name, value, packet) for name, value in self.keys.items())

    def agrees(self, name, value, packet):
        if name in ADDRESSES:
            return value.version == packet["family"] and packet[name] in value
        return packet[name] == value


class Tree:
    def __init__(self):
        self.root, self.handles, self.nodes = None, {}, 0

    def add(self, line):
        """Carries out a line of tc that was written; returns why qtree would refuse it, or None."""
        words = line.split()
        head = dict(zip(words[5::2], words[6::2])) if words[5] != "root" else dict(zip(words[6::2], words[7::2]))
        return {"qdisc": self.add_qdisc, "class": self.add_class, "filter": self.add_filter}[words[1]](words, head)

    def place(self, words, head):
        """The node and minor number of a place, or why there is none."""
        if words[5] == "root":
            return None, 0
        major, minor = values.id_of(head["parent"])
        parent = self.handles.get(major)
        if parent is None or minor not in parent.classes:
            raise values.Unfit("its place is not there")
        return parent, minor

    def add_qdisc(self, words, head):
        try:
            parent, minor = self.place(words, head)
        except values.Unfit as error:
            return str(error)
        handle = values.id_of(head["handle"])[0] if "handle" in head else 0
        at = 6 + (words[5] != "root") + 2 * bool(handle)
        handle = handle or next(it for it in range(FIRST_HANDLE, 0xFFFF) if it not in self.handles)
        old = parent.classes[minor] if parent else self.root
        made = self.node(words[at], handle, parent.depth + 1 if parent else 1, words[at + 1 :])
        nodes = self.nodes + 1 + len(made.classes) - bool(old)
        if old and not old.options.get("implicit"):
            return "a qdisc is there already"
        if handle in self.handles:
            return "its handle is there already"
        if why := self.too_much(made, nodes):
            return why
        self.nodes = nodes
        if parent:
            parent.classes[minor] = made
        else:
            self.root = made
        self.handles[handle] = made
        return None

    def too_much(self, made, nodes):
        if made.depth + bool(made.classes) > DEEPEST:
            return f"a tree has at most {DEEPEST} levels"
        return f"a tree has at most {MOST_NODES} qdiscs, with those of empty classes" if nodes > MOST_NODES else None

    def node(self, kind, handle, depth, words):
        options = dict(zip(words[::2], words[1::2]))
        if kind == "prio":
            options = {"bands": int(words[1]), "priomap": [int(it) for it in words[3:]]}
        made = Node(kind, handle, depth, options)
        for minor in range(1, {"prio": options.get("bands"), "tbf": 1}.get(kind, 0) + 1):
            made.classes[minor] = self.leaf(made)
        return made

    def leaf(self, parent):
        """The implicit leaf of a class: below tbf a bfifo of its limit."""
        limit = {}
        if parent.kind == "tbf":
            options = parent.options
            burst = values.size(options["burst"])
            limit = {"limit": options.get("limit")}
            if "latency" in options:
                limit = {"limit": str(values.rate(options["rate"]) * values.time(options["latency"]) // (8 * 10**9) + burst)}
        return Node("bfifo" if limit else "pfifo", 0, parent.depth + 1, {"implicit": True} | limit)

    def add_class(self, _words, head):
        node, minor = self.handles.get(values.id_of(head["parent"])[0]), values.id_of(head["classid"])[1]
        if node is None or node.kind != "drr":
            return "its drr is not there"
        if self.nodes == MOST_NODES or node.depth + 1 > DEEPEST:
            return f"a tree has at most {DEEPEST} levels and {MOST_NODES} qdiscs, with those of empty classes"
        self.nodes += 1
        node.classes[minor] = self.leaf(node)
        return None

    def add_filter(self, words, head):
        node = self.handles.get(values.id_of(head["parent"])[0])
        at = words.index("flower")
        keys = dict(zip(words[at + 1 :: 2], words[at + 2 :: 2]))
        minor = values.id_of(keys.pop("classid"))[1]
        if node is None or minor not in node.classes:
            return "its class is not there"
        if len(node.filters) == MOST_FILTERS:
            return f"a qdisc has at most {MOST_FILTERS} filters"
        node.filters.append(Filter(int(head["prio"]), head["protocol"], {name: key_of(name, it) for name, it in keys.items()}, minor))
        node.filters.sort(key=lambda it: it.prio)
        return None

    def way(self, packet):
        """The nodes that an arriving packet passes in an empty tree, and why the last loses it, or None."""
        found, node = [], self.root
        while node:
            found.append(node)
            why, minor = step(node, packet)
            if why or minor is None:
                return found, why
            node = node.classes[minor]
        return found, None


def step(node, packet):
    """Why a node loses an arriving packet, and the class it goes to."""
    limit = node.options.get("limit")
    if node.kind == "pfifo":
        return ("OverLimit" if limit is not None and int(limit) == 0 else None), None
    if node.kind == "bfifo":
        return ("OverLimit" if limit is not None and values.size(limit) < packet["length"] else None), None
    if node.kind == "fq_codel":
        return None, None
    if node.kind == "tbf":
        return ("TooLong" if packet["length"] > values.size(node.options["burst"]) else None), 1
    minor = next((it.minor for it in node.filters if it.matches(packet)), None)
    if minor is None and node.kind == "drr":
        return "NoClass", None
    return None, minor or node.options["priomap"][packet["prio"]] + 1


def key_of(name, text):
    if name in ADDRESSES:
        return ipaddress.ip_network(text)
    if name == "ip_proto":
        return PROTOCOLS[text] if text in PROTOCOLS else int(text, 16)
    return int(text)


class Kinds:
    """The kinds of packets that the filters of a tree can tell apart."""

    def __init__(self, tree):
        self.tree, self.found, self.steps, self.is_partial = tree, {}, 0, False
        filters = [it for node in every(tree.root) for it in node.filters]
        maps = [node.options["priomap"] for node in every(tree.root) if node.kind == "prio"]
        # One priority of those that every prio of the tree treats alike.
        self.priorities = sorted({tuple(one[it] for one in maps): it for it in range(15, -1, -1)}.values())
        self.named = {name: {it.keys[name] for it in filters if name in it.keys} for name in ("ip_proto", *PORTS, *ADDRESSES)}
        self.other = {name: self.unnamed(name, 255 if name == "ip_proto" else 65535) for name in ("ip_proto", *PORTS)}

    def all(self):
        if self.tree.root:
            self.walk(self.tree.root, {})
        return list(self.found.values())

    def unnamed(self, name, most):
        """A value that no filter compares."""
        found = next((it for it in (0, *range(most, 0, -1)) if it not in self.named[name]), None)
        self.is_partial |= found is None
        return found or 0

    def walk(self, node, wanted):
        """Packets with these values, and below this node with those that its filters want too."""
        self.steps += 1
        if self.steps > MOST_KINDS:
            self.is_partial = True
            return
        self.note(wanted)
        for it in node.filters:
            merged = both(wanted, it)
            if merged is not None:
                self.walk(node.classes[it.minor], merged)
        if node.kind == "prio":
            for it in [wanted["prio"]] if "prio" in wanted else self.priorities:
                self.walk(node.classes[node.options["priomap"][it] + 1], wanted | {"prio": it})
        elif node.kind == "tbf":
            self.walk(node.classes[1], wanted)

    def note(self, wanted):
        """Keeps the packets with these values, of each family that they allow, short and long."""
        nets = [wanted[it] for it in ADDRESSES if it in wanted]
        families = {wanted["family"]} if "family" in wanted else {it.version for it in nets} or {0, 4, 6}
        for family in sorted(families):
            for source in self.addresses("src_ip", wanted.get("src_ip"), family):
                for target in self.addresses("dst_ip", wanted.get("dst_ip"), family):
                    for length in (64, MTU):
                        packet = {name: wanted.get(name, self.other[name]) for name in ("ip_proto", *PORTS)}
                        packet |= {"family": family, "src_ip": source, "dst_ip": target, "prio": wanted.get("prio", 0), "length": length}
                        self.found[tuple(packet.items())] = packet
                        if len(self.found) > MOST_KINDS:
                            self.is_partial = True
                            return

    def addresses(self, name, within, family):
        """An address of this net that is in no smaller one that a filter names, or one of each of those that cover it."""
        if not family:
            return [None]
        within = within or ipaddress.ip_network("0.0.0.0/0" if family == 4 else "::/0")
        inner = [it for it in self.named[name] if it.version == family and it.prefixlen > within.prefixlen and it.subnet_of(within)]
        at, last = int(within.network_address), int(within.broadcast_address)
        tops = []
        for it in sorted(inner, key=lambda one: (int(one.network_address), one.prefixlen)):
            if int(it.network_address) > at:
                break
            if int(it.broadcast_address) >= at:
                tops.append(it)
                at = int(it.broadcast_address) + 1
        if at <= last:
            return [type(within.network_address)(at)]
        return [address for it in tops for address in self.addresses(name, it, family)]


def every(node):
    """A node and all below it."""
    if node is None:
        return []
    return [node, *(one for child in node.classes.values() for one in every(child))]


def both(wanted, one):
    """What a packet has that has these values and matches a filter, or None where there is none."""
    made = dict(wanted)
    if one.protocol in FAMILIES and made.setdefault("family", FAMILIES[one.protocol]) != FAMILIES[one.protocol]:
        return None
    for name, value in one.keys.items():
        old = made.get(name, value)
        if name in ADDRESSES:
            if made.setdefault("family", value.version) != value.version or not old.overlaps(value):
                return None
            value = max(old, value, key=lambda it: it.prefixlen)
        elif old != value:
            return None
        made[name] = value
    return made


def packet_text(packet):
    """The words of a line for qtree play in which this packet arrives."""
    words = [f"pkt {packet['length']}"]
    if packet["family"]:
        words += [f"src_ip {packet['src_ip']}", *([f"dst_ip {packet['dst_ip']}"] if int(packet["dst_ip"]) else [])]
    words += [f"ip_proto {packet['ip_proto']:x}"] if packet["ip_proto"] else []
    return " ".join([*words, *(f"{name} {packet[name]}" for name in (*PORTS, "prio") if packet[name])])


def losses(tree):
    """What the tree would lose of packets that arrive while it is empty, in lines for the user."""
    kinds, found = Kinds(tree), {}
    for packet in kinds.all():
        way, why = tree.way(packet)
        if why:
            found.setdefault((id(way[-1]), why), (way, []))[1].append(packet)
    lines = []
    for (_, why), (way, packets) in found.items():
        one = min(packets, key=lambda it: (it["family"] != 4, it["length"]))
        lines.append(f"packets would be lost: {loss_text(way, why, packets)}. One of them: {packet_text(one)}")
    if kinds.is_partial:
        lines.append("packets may be lost: the filters tell more kinds of packets apart than were tried")
    return lines


def loss_text(way, why, packets):
    node = way[-1]
    where = node.name() if node.handle or len(way) < 2 else f"{node.name()} below {way[-2].name()}"
    if why == "TooLong":
        return f"{where} loses packets longer than its burst, as in Linux: for an mtu of {MTU} give at least that"
    if why == "OverLimit":
        return f"the limit of {where} is less than a packet"
    if not node.classes:
        return f"{where} has no class, and loses every packet, as in Linux"
    families = [text for it, text in ((4, "ip"), (6, "ipv6"), (0, "other protocols")) if any(one["family"] == it for one in packets)]
    some = f"some packets of {', '.join(families)}"
    return f"{where} has no filter for {some}, as in Linux: a last filter with protocol all and no keys takes them"
