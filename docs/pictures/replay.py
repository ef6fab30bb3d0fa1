"""Reads a script and its report for tools/picture, and says of each packet when it arrived, and when it was sent or lost."""
import collections
import ipaddress
import math
import re

ON_ARRIVAL = ("TooLong", "NoClass", "OverLimit")
REPORTED = r"(sent|lost) (\d+) (\d+)(?: ce| (TooLong|NoClass|OverLimit|CoDel|FatFlow|Purged))?"
PROTOCOLS = {"icmp": 1, "tcp": 6, "udp": 17, "icmpv6": 58, "sctp": 132}
PRIOMAP = (1, 2, 2, 2, 1, 2, 0, 0, 1, 1, 1, 1, 1, 1, 1, 1)
HEADS = {
    "qdisc": ("dev", "root", "parent", "handle"),
    "class": ("dev", "parent", "classid"),
    "filter": ("dev", "parent", "prio", "pref", "protocol"),
}


class Unfit(Exception):
    """Why no picture can be drawn."""


# What a packet says of itself: family, protocol, addresses and ports.
Key = collections.namedtuple("Key", "family protocol source destination source_port destination_port")
NO_KEY = Key(0, 0, 0, 0, 0, 0)


class Packet:
    """A packet of the script, and what became of it: the times at which it was sent or lost, if it was."""

    def __init__(self, length, key, hash_, prio, is_ce):
        self.length, self.key, self.hash, self.prio, self.is_ce = length, key, hash_, prio, is_ce
        self.arrived = self.sent = self.lost = self.cause = self.where = None
        self.is_marked = False

    @property
    def gone(self):
        return self.sent if self.lost is None else self.lost

    @property
    def sojourn(self):
        return self.sent - self.arrived

    def group(self, by):
        """The name of its flow, class or priority."""
        if by == "prio":
            return f"prio {self.prio}"
        if by == "class":
            return self.where
        if self.hash is not None:
            return f"hash {self.hash}"
        if self.key == NO_KEY:
            return "packets without a key"
        names = {number: name for name, number in PROTOCOLS.items()}
        source = end_text(self.key.family, self.key.source, self.key.source_port)
        destination = end_text(self.key.family, self.key.destination, self.key.destination_port)
        return f"{names.get(self.key.protocol, f'protocol {self.key.protocol}')} {source} to {destination}"


def end_text(family, number, port):
    shown = {0: lambda _: "?", 4: ipaddress.IPv4Address, 6: ipaddress.IPv6Address}[family](number)
    return f"{shown} port {port}" if port else str(shown)


def address(text):
    """The family and the number of an address."""
    if ":" in text:
        return 6, int(ipaddress.IPv6Address(text))
    return 4, int.from_bytes(bytes(int(it) for it in text.split(".")), "big")


def protocol(text):
    return PROTOCOLS[text] if text in PROTOCOLS else int(text, 16)


def pairs(words):
    return dict(zip(words[::2], words[1::2]))


def packet_of_pkt(words):
    said = pairs(words[2:])
    addresses = {it: address(said[it]) for it in ("src_ip", "dst_ip") if it in said}
    key = Key(
        next((family for family, _ in addresses.values()), 0),
        protocol(said.get("ip_proto", "0")),
        addresses.get("src_ip", (0, 0))[1],
        addresses.get("dst_ip", (0, 0))[1],
        int(said.get("src_port", 0)),
        int(said.get("dst_port", 0)),
    )
    hash_ = int(said["hash"]) if "hash" in said else None
    return Packet(int(words[1]), key, hash_, int(said.get("prio", 0)), int(said.get("ecn", 0)) == 3)


def packet_of_frame(words):
    """What the head on the wire says, as docs/LANGUAGE.md has it."""
    head, key, traffic = bytes.fromhex(words[2]), NO_KEY, 0
    version = head[0] >> 4
    size = (head[0] & 15) * 4 if version == 4 else 40
    if (version == 4 and 20 <= size <= len(head)) or (version == 6 and len(head) >= 40):
        if version == 4:
            traffic, proto, spans = head[1], head[9], (12, 16, 20)
        else:
            traffic, proto, spans = (head[0] & 15) * 16 + (head[1] >> 4), head[6], (8, 24, 40)
        is_first = version == 6 or (head[6] & 31) * 256 + head[7] == 0
        has_ports = proto in (6, 17, 132) and is_first and len(head) >= size + 4
        ports = [int.from_bytes(head[at : at + 2], "big") if has_ports else 0 for at in (size, size + 2)]
        ends = [int.from_bytes(head[a:b], "big") for a, b in zip(spans, spans[1:])]
        key = Key(version, proto, *ends, *ports)
    return Packet(int(words[1]), key, None, (0, 2, 6, 4)[traffic >> 3 & 3], traffic & 3 == 3)


class Tree:
    """The qdiscs by place, as far as they decide where a packet goes; a place is `root` or a class, as (major, minor)."""

    def __init__(self):
        self.nodes = {}

    def node(self, major):
        return next((it for it in self.nodes.values() if it["major"] == major), None)

    def prune(self, place):
        gone = self.nodes.pop(place, None)
        for it in [it for it in self.nodes if gone and it != "root" and it[0] == gone["major"]]:
            self.prune(it)

    def command(self, words):
        """Does a tc line that was accepted, from its second word on."""
        what, verb = words[0], {"delete": "del"}.get(words[1], words[1])
        head, rest = {}, words[2:]
        while rest and rest[0] in HEADS[what]:
            size = 1 if rest[0] == "root" else 2
            head[{"pref": "prio"}.get(rest[0], rest[0])] = rest[size - 1]
            rest = rest[size:]
        if what == "qdisc":
            self.qdisc(verb, head, rest)
        elif what == "class" and verb == "del":
            self.prune(class_of(head["classid"]))
        elif what == "filter":
            filters = self.node(class_of(head["parent"])[0])["filters"]
            if verb == "del":
                filters[:] = [it for it in filters if it[0] != int(head["prio"])]
            else:
                filters.append((int(head["prio"]), head.get("protocol", "all"), pairs(rest[1:])))
                filters.sort(key=lambda it: it[0])

    def qdisc(self, verb, head, rest):
        place = "root" if "root" in head else class_of(head["parent"]) if "parent" in head else None
        major = class_of(head["handle"])[0] if "handle" in head else None
        if place is None:
            place = next(place for place, it in self.nodes.items() if it["major"] == major)
        if verb == "del":
            self.prune(place)
            return
        bands, priomap = 3, PRIOMAP
        if rest[0] == "prio":
            if "bands" in rest:
                bands = int(rest[rest.index("bands") + 1])
            if "priomap" in rest:
                at = rest.index("priomap") + 1
                priomap = [int(it) for it in rest[at : at + 16]]
        if verb == "add":
            taken = {it["major"] for it in self.nodes.values()}
            major = major or next(it for it in range(0x8001, 0xFFFF) if it not in taken)
            self.nodes[place] = {"kind": rest[0], "major": major, "priomap": priomap, "filters": []}
        else:
            node = self.nodes[place]
            node["priomap"] = priomap
            if rest[0] == "prio":
                for it in [it for it in self.nodes if it != "root" and it[0] == node["major"] and it[1] > bands]:
                    self.prune(it)

    def leaf(self, packet):
        """The place of the last qdisc that a packet comes to, as a text."""
        place = "root"
        while place in self.nodes and self.nodes[place]["kind"] in ("prio", "tbf", "drr"):
            node = self.nodes[place]
            taking = (it.get("classid") or it["flowid"] for _, of, it in node["filters"] if matches(of, it, packet.key))
            found = next((class_of(it) for it in taking), None)
            if node["kind"] == "tbf":
                found = node["major"], 1
            elif node["kind"] == "prio":
                found = found or (node["major"], node["priomap"][packet.prio] + 1)
            if found is None:
                return "no class"
            place = found
        return place if place == "root" else f"class {place[0]:x}:{place[1]:x}"


def class_of(text):
    major, _, minor = text.partition(":")
    return int(major, 16), int(minor or "0", 16)


def matches(of, said, key):
    """Whether a filter takes a packet of this key."""
    if of != "all" and key.family != {"ip": 4, "ipv6": 6}[of]:
        return False
    for name, number in (("src_ip", key.source), ("dst_ip", key.destination)):
        if name in said:
            text, _, length = said[name].partition("/")
            family, wanted = address(text)
            bits = 32 if family == 4 else 128
            if key.family != family or (number ^ wanted) >> (bits - int(length or bits)):
                return False
    ports = (("src_port", key.source_port), ("dst_port", key.destination_port))
    if any(name in said and int(said[name]) != number for name, number in ports):
        return False
    return "ip_proto" not in said or protocol(said["ip_proto"]) == key.protocol


class Replay:
    """The packets of a script, joined with its report."""

    def __init__(self, script, report):
        self.packets, self.tree = [], Tree()
        self.first, self.time, self.clock, self.line, self.changes = None, 0, 0, 0, 0
        self.flows = collections.defaultdict(list)
        self.report = collections.deque(report.split("\n"))
        if self.report[-1] == "":
            self.report.pop()
        for self.line, text in enumerate(script.split("\n"), 1):
            words = re.split("[ \t\r]+", text.strip(" \t\r"))
            if words[0] and not words[0].startswith("#"):
                try:
                    self.step(words)
                except (ValueError, IndexError, KeyError, TypeError, StopIteration):
                    raise Unfit(f"line {self.line} of the script cannot be read, and the report names no fault of it") from None
        if self.report:
            raise Unfit(f"the report goes on after the script: {self.report[0][:60]}")
        self.date_losses()

    def event(self):
        self.clock = max(self.clock, self.time)
        if self.first is None:
            self.first = self.clock

    def step(self, words):
        start = f"line {self.line}: "
        said = self.report.popleft()[len(start) :] if self.report and self.report[0].startswith(start) else ""
        if said.startswith("fault "):
            return
        if words[0] in ("pkt", "frame"):
            packet = packet_of_pkt(words) if words[0] == "pkt" else packet_of_frame(words)
            self.packets.append(packet)
            if not said:
                self.event()
                packet.arrived, packet.where = self.clock, self.tree.leaf(packet)
                self.flows[packet.hash, packet.key, packet.prio, self.changes].append(packet)
        elif said:
            pass
        elif words[0] == "at":
            self.time = int(words[1])
        elif words[0] == "poll":
            for _ in range(int(words[1]) if words[1:] else 1):
                self.event()
                self.poll()
        elif words[0] == "reap":
            while self.report and self.report[0].startswith("lost ") and self.packet_line("lost", True):
                pass
        elif words[0] == "totals":
            if not self.report or not self.report.popleft().startswith("device arrived "):
                raise Unfit(f"the report has no totals for line {self.line} of the script")
        elif words[0] == "tc":
            self.command(words[2:] if words[1] == "-s" else words[1:])
        else:
            raise ValueError

    def command(self, words):
        if words[1] in ("show", "list", "ls"):
            while self.report and re.match("qdisc | arrived |class |filter ", self.report[0]):
                self.report.popleft()
        else:
            self.event()
            self.changes += 1
            self.tree.command(words)

    def poll(self):
        if not self.report:
            raise Unfit(f"the report ends before line {self.line} of the script")
        if self.report[0] in ("idle", "later"):
            self.report.popleft()
        else:
            self.packet_line("sent", False)

    def packet_line(self, word, may_wait):
        """Takes the next line of the report, which names a packet. Returns False if the line belongs to a later reap."""
        found = re.fullmatch(REPORTED, self.report[0])
        if not found or found[1] != word or (found[4] is None) == (word == "lost"):
            raise Unfit(f"the report does not fit line {self.line} of the script: {self.report[0][:60]}")
        number, length = int(found[2]), int(found[3])
        if may_wait and number > len(self.packets):
            return False
        packet = self.packets[number - 1] if 0 < number <= len(self.packets) else None
        if packet is None or packet.arrived is None or packet.length != length or packet.gone is not None:
            why = "that never came or is gone" if packet is None or packet.length == length else "of another length"
            raise Unfit(f"the report names at line {self.line} of the script a packet {why}: {self.report[0][:60]}")
        if word == "sent":
            packet.sent, packet.is_marked = self.clock, self.report[0].endswith(" ce") and not packet.is_ce
        else:
            packet.lost, packet.cause = self.clock, found[4]
        self.report.popleft()
        return True

    def date_losses(self):
        for packets in self.flows.values():
            passed = math.inf
            for packet in reversed(packets):
                if packet.cause in ON_ARRIVAL:
                    packet.lost = packet.arrived
                elif packet.lost is not None:
                    packet.lost = min(packet.lost, passed)
                passed = min(passed, packet.sent if packet.sent is not None else math.inf)
