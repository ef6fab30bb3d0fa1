#!/usr/bin/env python3
"""Writes the example capture: three seconds of ten flows towards a home, in bursts, as a server's side of a slow link sees them.

    examples/capture/make_capture.py FILE [--form pcap|pcapng] [--link ethernet|vlan|raw|cooked|cooked2] [--snap N]

Two downloads, one of which supports ECN, four web sites that send in bursts, two calls, name lookups and a game over IPv6. The frames are
cut to their first 58 bytes, or those of --snap. The same options give the same bytes."""
import argparse
import random
import struct

SECONDS, START = 3, 1_795_000_000
LINKS = {"ethernet": 1, "vlan": 1, "raw": 101, "cooked": 113, "cooked2": 276}


def ipv4(source, protocol, payload, tos=0):
    to = bytes((192, 0, 2, 7))
    header = struct.pack(">BBHHHBBH4s4s", 0x45, tos, 20 + len(payload), 0, 0x4000, 60, protocol, 0, bytes(source), to)
    total = sum(struct.unpack(">10H", header))
    total = (total & 0xFFFF) + (total >> 16)
    return header[:10] + struct.pack(">H", ~(total + (total >> 16)) & 0xFFFF) + header[12:] + payload


def ipv6(payload):
    source, to = b"\x20\x01\x0d\xb8" + bytes(11) + b"\x09", b"\x20\x01\x0d\xb8" + bytes(11) + b"\x07"
    return struct.pack(">IHBB", 6 << 28, len(payload), 17, 60) + source + to + payload


def tcp(sport, dport, size, number):
    return struct.pack(">HHIIBBHHH", sport, dport, number & 0xFFFFFFFF, 0, 0x50, 0x10, 8192, 0, 0) + bytes(size)


def udp(sport, dport, size):
    return struct.pack(">HHHH", sport, dport, 8 + size, 0) + bytes(size)


def bursts(rng, begin, mean, sizes):
    """The times of packets, in seconds: bursts of so many at a gigabit per second, with pauses of this mean between them."""
    at = begin
    while at < SECONDS:
        for place in range(rng.randint(*sizes)):
            yield at + place * 12.3e-6
        at += rng.expovariate(1 / mean)


def packets():
    """The time in microseconds and the IP packet of each, in order."""
    rng, found = random.Random(7), []
    for at, sport, tos, mean in ((0.0, 443, 0, 0.025), (0.6, 8443, 2, 0.026)):
        source = (198, 51, 100, 1 + (tos > 0))
        found += [(it, ipv4(source, 6, tcp(sport, 40001 + tos, 1448, 0), tos)) for it in bursts(rng, at, mean, (8, 12))]
    for site in range(4):
        source, sizes = (203, 0, 113, 5 + site), (400, 1200, 1448)
        found += [(it, ipv4(source, 6, tcp(80, 50000 + site, rng.choice(sizes), 0))) for it in bursts(rng, rng.random(), 1.0, (5, 40))]
    for call in range(2):
        source = (203, 0, 113, 20 + call)
        found += [(0.01 * call + 0.02 * it, ipv4(source, 17, udp(16384, 16384 + call, 160), 0xB8)) for it in range(SECONDS * 50)]
    found += [(it, ipv4((198, 51, 100, 53), 17, udp(53, 53535, 90))) for it in bursts(rng, 0.3, 0.25, (1, 1))]
    found += [(0.1 + 0.05 * it, ipv6(udp(6000, 6001, 500))) for it in range((SECONDS - 1) * 20)]
    # Packets of the same microsecond stay in the order in which they were made.
    return sorted(((int(at * 1e6), packet) for at, packet in found), key=lambda it: it[0])


def framed(packet, link):
    kind = b"\x86\xdd" if packet[0] >> 4 == 6 else b"\x08\x00"
    macs = bytes.fromhex("020000000002" "020000000001")
    return {
        "ethernet": macs + kind,
        "vlan": macs + b"\x81\x00\x00\x05" + kind,
        "raw": b"",
        "cooked": struct.pack(">HHH8s", 0, 1, 6, macs[6:]) + kind,
        "cooked2": kind + struct.pack(">HIHBB8s", 0, 2, 1, 0, 6, macs[6:]),
    }[link] + packet


def block(kind, body):
    size = 12 + len(body) + -len(body) % 4
    return struct.pack("<II", kind, size) + body + bytes(-len(body) % 4) + struct.pack("<I", size)


def capture(form, link, snap):
    if form == "pcap":
        yield struct.pack("<IHHiIII", 0xA1B2C3D4, 2, 4, 0, 0, snap, LINKS[link])
    else:
        yield block(0x0A0D0D0A, struct.pack("<IHHq", 0x1A2B3C4D, 1, 0, -1))
        yield block(1, struct.pack("<HHIHHB3xHH", LINKS[link], 0, snap, 9, 1, 9, 0, 0))
    for when, packet in packets():
        frame = framed(packet, link)
        kept = frame[:snap]
        if form == "pcap":
            yield struct.pack("<IIII", START + when // 10**6, when % 10**6, len(kept), len(frame)) + kept
        else:
            at = START * 10**9 + when * 1000
            yield block(6, struct.pack("<IIIII", 0, at >> 32, at & 0xFFFFFFFF, len(kept), len(frame)) + kept)


def main():
    parser = argparse.ArgumentParser(description=__doc__, formatter_class=argparse.RawDescriptionHelpFormatter)
    parser.add_argument("file")
    parser.add_argument("--form", choices=("pcap", "pcapng"), default="pcap")
    parser.add_argument("--link", choices=LINKS, default="ethernet")
    parser.add_argument("--snap", type=int, default=58)
    asked = parser.parse_args()
    with open(asked.file, "wb") as file:
        file.write(b"".join(capture(asked.form, asked.link, asked.snap)))


if __name__ == "__main__":
    main()
