"""Frames of many kinds, as they come on Ethernet."""
import random
import socket
import struct

TO, FROM = bytes.fromhex("020000000002"), bytes.fromhex("020000000001")
IP4, IP6, TAG, OUTER = b"\x08\x00", b"\x86\xdd", b"\x81\x00\x00\x05", b"\x88\xa8\x00\x07"


def checksum(header):
    total = sum(struct.unpack(f"!{len(header) // 2}H", header))
    while total >> 16:
        total = (total & 0xFFFF) + (total >> 16)
    return ~total & 0xFFFF


def ip4(payload=b"\0" * 30, proto=17, source="10.77.9.1", target="10.77.9.2", tos=0, first=0x45, total=None, fragment=0):
    length = 20 + len(payload) if total is None else total
    addresses = socket.inet_aton(source) + socket.inet_aton(target)
    header = struct.pack("!BBHHHBBH", first, tos, length, 1, fragment, 64, proto, 0) + addresses
    return header[:10] + struct.pack("!H", checksum(header)) + header[12:] + payload


def ip6(payload, proto=17, length=None, traffic=0):
    begin = struct.pack("!IHBB", 0x60000000 | traffic << 20, len(payload) if length is None else length, proto, 64)
    return begin + bytes(15) + b"\1" + bytes(15) + b"\2" + payload


def udp(count=30, source=1000, target=2000):
    return struct.pack("!HHHH", source, target, 8 + count, 0) + bytes(count)


def session(protocol, payload):
    return b"\x88\x64\x11\x00\x00\x01" + struct.pack("!H", len(payload) + 2) + protocol + payload


def control(last, rest):
    return bytes.fromhex("0180c20000" + last) + FROM + rest


HEAD = TO + FROM
KINDS = {
    "ARP to all": b"\xff" * 6 + FROM + b"\x08\x06" + bytes(28),
    "IPv4 and UDP": HEAD + IP4 + ip4(udp()),
    "IPv6 and UDP": HEAD + IP6 + ip6(udp()),
    "IPv4 to many": bytes.fromhex("01005e000001") + FROM + IP4 + ip4(proto=2, target="224.0.0.1"),
    "IPv6 to many": bytes.fromhex("333300000001") + FROM + IP6 + ip6(bytes(24), 58),
    "STP, with a length in place of a type": control("00", b"\x00\x26" + bytes(38)),
    "LACP": control("02", b"\x88\x09" + bytes(100)),
    "LLDP": control("0e", b"\x88\xcc" + bytes(50)),
    "PAUSE": control("01", b"\x88\x08" + bytes(46)),
    "VLAN 5": HEAD + TAG + IP4 + ip4(udp()),
    "VLAN 0 with a priority": HEAD + b"\x81\x00\xa0\x00" + IP4 + ip4(udp()),
    "two tags": HEAD + OUTER + TAG + IP4 + ip4(udp()),
    "three tags": HEAD + OUTER + TAG + b"\x81\x00\x00\x06" + IP4 + ip4(udp()),
    "PPPoE discovery": b"\xff" * 6 + FROM + b"\x88\x63\x11\x09\x00\x00\x00\x04" + bytes(40),
    "a PPPoE session with IPv4": HEAD + session(b"\x00\x21", ip4(udp())),
    "a PPPoE session with LCP": HEAD + session(b"\xc0\x21", bytes(40)),
    "a PPPoE session with IPv6 in a VLAN": HEAD + TAG + session(b"\x00\x57", ip6(udp())),
    "MPLS": HEAD + b"\x88\x47\x00\x01\x01\x40" + ip4(udp()),
    "1514 bytes": HEAD + IP4 + ip4(udp(1472)),
    "1518 bytes with a tag": HEAD + TAG + IP4 + ip4(udp(1472)),
    "1518 bytes with two tags": HEAD + OUTER + TAG + IP4 + ip4(udp(1468)),
    "14 bytes": HEAD + IP4,
    "15 bytes": HEAD + IP4 + b"\x45",
    "version 7": HEAD + IP4 + ip4(first=0x75),
    "a header of 12 bytes": HEAD + IP4 + ip4(first=0x43),
    "a header that is cut": HEAD + IP4 + ip4(first=0x4F)[:30],
    "a total length of 0": HEAD + IP4 + ip4(total=0),
    "a total length of 65535": HEAD + IP4 + ip4(total=65535),
    "a later fragment": HEAD + IP4 + ip4(fragment=0x2005),
    "a payload length of 65535": HEAD + IP6 + ip6(udp(), length=65535),
    "options hop by hop": HEAD + IP6 + ip6(bytes([17, 0, 1, 4, 0, 0, 0, 0]) + udp(), 0),
    "an unknown type": HEAD + b"\x88\x70" + bytes(60),
    "from a group": TO + b"\x01" + FROM[1:] + IP4 + ip4(udp()),
}


def mutated(count, seed):
    """Frames of random bytes, and changed ones of those above; no two are the same."""
    chance, kinds, made = random.Random(seed), list(KINDS.values()), set()
    types = (IP4, IP6, b"\x88\x64", b"\x88\x47", b"\x81\x00", b"\x88\xa8")
    while len(made) < count:
        kind = chance.randrange(4)
        if kind == 0:
            frame = HEAD + chance.randbytes(chance.randrange(2, 200))
        elif kind == 1:
            frame = HEAD + chance.choice(types) + chance.randbytes(chance.randrange(1400))
        else:
            frame = bytearray(chance.choice(kinds))
            for _ in range(chance.randrange(1, 4)):
                frame[chance.randrange(12, len(frame))] = chance.randrange(256)
        made.add(bytes(frame))
    return sorted(made, key=lambda it: chance.random())


def ecn(number):
    """A frame of 1014 bytes whose packet can be marked: in turn of IPv4, of IPv6, in a PPPoE session, and behind a label of MPLS."""
    kind, port = number % 4, 1000 + number % 32
    if kind == 1:
        return HEAD + IP6 + ip6(udp(952, port), traffic=2)
    room = (1000, 0, 992, 996)[kind]
    packet = ip4(udp(room - 28, port), tos=2)
    return HEAD + (IP4 + packet if kind == 0 else session(b"\x00\x21", packet) if kind == 2 else b"\x88\x47\x00\x01\x01\x40" + packet)


def mark_of(frame):
    """The ECN codepoint of a frame as above, and whether the checksum of an IPv4 header is right."""
    at = {b"\x88\x64": 22, b"\x88\x47": 18}.get(frame[12:14], 14)
    if frame[at] >> 4 == 4:
        return frame[at + 1] & 3, checksum(frame[at : at + 20]) == 0
    return (struct.unpack("!I", frame[at : at + 4])[0] >> 20) & 3, True
