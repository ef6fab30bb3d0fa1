"""The words behind a kind: the options of a qdisc or class, and what a filter compares."""
import ipaddress
import itertools
import re

from . import values
from .values import Unfit, shown

READERS = {
    **dict.fromkeys(("rate", "ceil", "peakrate", "bandwidth", "maxrate"), values.rate),
    **dict.fromkeys(("burst", "cburst", "limit", "quantum", "memory_limit", "mtu", "minburst", "mpu", "overhead"), values.size),
    **dict.fromkeys(("latency", "target", "interval", "ce_threshold"), values.time),
    **dict.fromkeys(("bands", "flows", "drop_batch", "prio", "r2q", "weight", "direct_qlen"), values.whole),
    "default": values.minor,
}
SAME = {"buffer": "burst", "maxburst": "burst", "lat": "latency"}
PROTOCOLS = {"icmp": 1, "tcp": 6, "udp": 17, "icmpv6": 58, "sctp": 132}
FLOWER = ("ip_proto", "src_ip", "dst_ip", "src_port", "dst_port")


def options_of(words):
    """The options by name with their values, and the words that are none."""
    options, rest, at = {}, [], 0
    while at < len(words):
        name = SAME.get(words[at], words[at])
        if name == "priomap":
            options[name] = [int(it) for it in itertools.takewhile(re.compile("[0-9]+").fullmatch, map(short, words[at + 1 : at + 17]))]
            at += 1 + len(options[name])
        elif words[at : at + 2] == ["bandwidth", "unlimited"]:
            at += 2
        elif name in READERS and at + 1 < len(words):
            options[name] = READERS[name](words[at + 1])
            at += 2
        elif name in ("ecn", "noecn"):
            options = {key: it for key, it in options.items() if key not in ("ecn", "noecn")} | {name: True}
            at += 1
        else:
            rest.append(name)
            at += 1
    return options, rest


def short(text):
    if len(text) > 1000:
        raise Unfit(f"{shown(text)} is too long")
    return text


def protocol_text(number):
    return next((name for name, it in PROTOCOLS.items() if it == number), f"{number:x}")


def network(text):
    """An address with or without a length, as filters of tc write it: 0/0 too."""
    address, _, length = text.partition("/")
    if ":" not in address:
        address = ".".join((address.split(".") + ["0", "0", "0"])[:4])
    try:
        return str(ipaddress.ip_network(f"{address}/{length}" if length else address, strict=False))
    except ValueError:
        raise Unfit(f"{shown(text)} is no address") from None


def bits(text, count):
    """A number that tc reads in hexadecimal, of so many bits at most."""
    if not re.fullmatch("(0[xX])?[0-9a-fA-F]{1,8}", text) or int(text, 16) >> count:
        raise Unfit(f"{shown(text)} is no number of {count} bits")
    return int(text, 16)


def key(text, count):
    """A number as tc reads what a u32 compares: 0x is hexadecimal, a leading 0 octal."""
    is_octal = re.fullmatch("0[0-7]{1,11}", text)
    number = int(text, 8) if is_octal else values.whole(text)
    if number >> count or text[:1] == "0" and len(text) > 1 and not is_octal and text[:2] not in ("0x", "0X"):
        raise Unfit(f"{shown(text)} is no number of {count} bits")
    return number


def ip_proto(text):
    """The protocol as flower writes it: a name, or the number in hexadecimal."""
    return text.lower() if text.lower() in PROTOCOLS else protocol_text(bits(text, 8))


def port(text):
    number = values.whole(text)
    if number > 65535:
        raise Unfit(f"there is no port {number}")
    return str(number)


def flower_keys(words):
    """The keys of a flower, and those that have no counterpart."""
    keys, lost, at = {}, [], 0
    while at < len(words):
        name, value = words[at], words[at + 1] if at + 1 < len(words) else ""
        if name in ("skip_sw", "skip_hw", "verbose"):
            at += 1
            continue
        if name in FLOWER and not (name.endswith("port") and not re.fullmatch("[0-9]+", value)):
            keys[name] = network(value) if name.endswith("_ip") else port(value) if name.endswith("port") else ip_proto(value)
        elif name != "eth_type":
            lost.append(f"{name} {value}".strip())
        at += 2
    return keys, lost


class Matches:
    """The 32-bit words that a u32 compares, by their offset in the header, and behind it."""

    def __init__(self, is_six):
        self.is_six, self.words, self.behind, self.lost, self.is_behind = is_six, {}, {}, [], False

    def add(self, value, mask, offset, is_behind=False):
        """A word of 32 bits at an offset of whole words."""
        length = 40 if self.is_six else 20
        self.is_behind |= is_behind
        if not is_behind and offset >= length:
            is_behind, offset = True, offset - length
        words = self.behind if is_behind else self.words
        before = words.get(offset, (0, 0))
        words[offset] = (before[0] | value & mask, before[1] | mask)

    def add_bytes(self, value, mask, offset, count, is_behind=False):
        """One, two or four bytes anywhere within a word."""
        shift = 8 * (4 - count - offset % 4)
        if shift < 0:
            self.lost.append(f"{count} bytes at {offset}")
        else:
            self.add(value << shift, mask << shift, offset - offset % 4, is_behind)

    def address(self, first):
        """The address that is compared from an offset on, as text with its length, or None without one."""
        size = 16 if self.is_six else 4
        found = [self.words.pop(it, (0, 0)) for it in range(first, first + size, 4)]
        value, mask = (sum(it[which] << 32 * at for at, it in enumerate(reversed(found))) for which in (0, 1))
        length = mask.bit_count()
        if mask != (1 << size * 8) - (1 << size * 8 - length):
            self.lost.append("an address under a mask with gaps")
        elif length:
            kind = ipaddress.IPv6Network if self.is_six else ipaddress.IPv4Network
            return str(kind((value, length)))
        return None

    def keys(self):
        """The keys of flower that say the same; what they cannot say is in lost."""
        keys = {}
        at, mask, shift = (4, 0xFF00, 8) if self.is_six else (8, 0xFF0000, 16)
        if self.words.get(at, (0, 0))[1] == mask:
            keys["ip_proto"] = protocol_text(self.words.pop(at)[0] >> shift)
        for name, first in (("src_ip", 8), ("dst_ip", 24)) if self.is_six else (("src_ip", 12), ("dst_ip", 16)):
            if text := self.address(first):
                keys[name] = text
        value, mask = self.behind.pop(0, (0, 0))
        for name, shift in (("src_port", 16), ("dst_port", 0)):
            if mask >> shift & 0xFFFF == 0xFFFF:
                keys[name] = str(value >> shift & 0xFFFF)
            elif mask >> shift & 0xFFFF:
                self.lost.append(f"a part of {name}")
        self.lost += [f"the word at {it}" for it, (_, mask) in self.words.items() if mask]
        self.lost += [f"the word at {it} behind the header" for it, (_, mask) in self.behind.items() if mask]
        return keys


def match_words(words, matches):
    """One match of a u32, without the word match; how many words it has."""
    raw = re.fullmatch("u(8|16|32)", words[0])
    if raw:
        offset = words[4] if words[3:4] == ["at"] else "0"
        is_behind = offset.startswith("nexthdr")
        offset = values.whole(offset.removeprefix("nexthdr").removeprefix("+") or "0")
        value, mask = key(words[1], int(raw[1])), bits(words[2], int(raw[1]))
        matches.add_bytes(value, mask, offset, int(raw[1]) // 8, is_behind)
        return 5 if words[3:4] == ["at"] else 3
    layer, field, value = words[:3]
    if field in ("src", "dst") and layer in ("ip", "ip6"):
        it = ipaddress.ip_network(network(value))
        first = {"ipsrc": 12, "ipdst": 16, "ip6src": 8, "ip6dst": 24}[layer + field]
        for at, byte in enumerate(it.network_address.packed):
            matches.add_bytes(byte, it.netmask.packed[at], first + at, 1)
        return 3
    mask = bits(words[3], 16)
    if field in ("sport", "dport", "src", "dst"):
        # ip sport is the word behind a header of 20 bytes; tcp src is that behind the header's own length.
        first = (0 if field.startswith("s") else 2) + (0 if layer in ("tcp", "udp") else 40 if matches.is_six else 20)
        matches.add_bytes(key(value, 16), mask, first, 2, layer in ("tcp", "udp"))
    elif field == "protocol" and layer in ("ip", "ip6"):
        number = PROTOCOLS[value] if value in PROTOCOLS else key(value, 8)
        if mask >> 8:
            raise Unfit(f"{shown(words[3])} is no number of 8 bits")
        matches.add_bytes(number, mask, 6 if layer == "ip6" else 9, 1)
    else:
        matches.lost.append(f"{layer} {field}")
    return 4


def u32_keys(words, is_six):
    matches, at = Matches(is_six), 0
    while at < len(words):
        if words[at] == "match":
            try:
                at += 1 + match_words(words[at + 1 :], matches)
            except (ValueError, IndexError):
                raise Unfit(f"the match {shown(' '.join(words[at + 1 : at + 5]))} is not understood") from None
        else:
            matches.lost.append(words[at])
            at += 1
    keys = matches.keys()
    return keys, matches.lost, matches.is_behind
