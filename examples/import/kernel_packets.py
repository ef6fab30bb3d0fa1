#!/usr/bin/env python3
"""Sends packets over the loopback of a network namespace that kernel_packets.sh has set up: each has to reach the class that the
written lines name.

    examples/import/kernel_packets.py LINES

LINES is what tools/import-tc wrote of kernel_packets.sh. examples/import/beside_kernel runs it in a namespace of its own.

Needs:   root, tc and ip (Debian's iproute2), and a namespace in which kernel_packets.sh ran.
Takes:   a second.
Writes:  nothing but addresses of the namespace's loopback.
"""
import ipaddress
import os
import re
import socket
import subprocess
import sys
import time

sys.dont_write_bytecode = True
sys.path.insert(0, f"{os.path.dirname(os.path.realpath(__file__))}/../../tools")
from import_tc import played  # noqa: E402

ADDRESSES = ("10.1.0.1/32", "192.0.2.7/32", "2001:db8::1/128", "2001:db8:8000::1/128")
# Source, its port, destination and its port, all by UDP.
PACKETS = (
    ("10.1.0.1", 5000, "127.0.0.1", 80),
    ("10.1.0.1", 5000, "127.0.0.1", 81),
    ("127.0.0.1", 5000, "127.0.0.1", 80),
    ("127.0.0.1", 80, "10.1.0.1", 5000),
    ("10.1.0.1", 53, "127.0.0.1", 80),
    ("127.0.0.1", 7, "192.0.2.7", 5000),
    ("2001:db8::1", 5000, "2001:db8::1", 53),
    ("2001:db8::1", 53, "2001:db8::1", 5000),
    ("2001:db8::1", 5000, "2001:db8:8000::1", 53),
    ("10.1.0.1", 5001, "10.1.0.1", 80),
    ("127.0.0.1", 5000, "127.0.0.1", 1389),
    ("127.0.0.1", 53, "192.0.2.7", 5000),
)


def counters():
    """How many packets each leaf class has sent."""
    text = subprocess.run(["tc", "-s", "class", "show", "dev", "lo"], capture_output=True, text=True, check=True).stdout
    return {it[1]: int(it[2]) for it in re.finditer(r"class htb (\S+) (?:root|parent \S+) leaf.*\n Sent \d+ bytes (\d+) pkt", text)}


def send(source, source_port, target, target_port):
    """One datagram, and the classes whose counters it raised."""
    family = socket.AF_INET6 if ":" in source else socket.AF_INET
    with socket.socket(family, socket.SOCK_DGRAM) as taker, socket.socket(family, socket.SOCK_DGRAM) as sender:
        taker.bind((target, target_port))
        sender.bind((source, source_port))
        before, end = counters(), time.monotonic() + 5
        sender.sendto(b"x" * 100, (target, target_port))
        while time.monotonic() < end:
            found = [name for name, count in counters().items() if count > before[name]]
            if found:
                return found
    return []


def named(lines, source, source_port, target, target_port):
    """The class to which the written lines bring the packet."""
    tree = played.Tree()
    for line in lines:
        tree.add(line)
    first, second = ipaddress.ip_address(source), ipaddress.ip_address(target)
    packet = {"family": first.version, "src_ip": first, "dst_ip": second, "ip_proto": 17, "prio": 0, "length": 128}
    way, why = tree.way(packet | {"src_port": source_port, "dst_port": target_port})
    drr = next(it for it in way if it.kind == "drr")
    return None if why else next(f"{drr.handle:x}:{minor:x}" for minor, it in drr.classes.items() if any(it is one for one in way))


def main():
    if len(sys.argv) != 2 or sys.argv[1] in ("-h", "--help"):
        print(__doc__.strip())
        return 0 if sys.argv[1:] in (["-h"], ["--help"]) else 2
    with open(sys.argv[1], encoding="utf-8") as file:
        lines = [it.rstrip("\n") for it in file if it.startswith("tc ")]
    for it in ADDRESSES:
        subprocess.run(["ip", "address", "add", it, "dev", "lo", *(["nodad"] if ":" in it else [])], check=True)
    faults = [f"{it}: the kernel {send(*it)}, the lines {named(lines, *it)}" for it in PACKETS if send(*it) != [named(lines, *it)]]
    print("\n".join(faults), end="\n" if faults else "")
    return int(bool(faults))


if __name__ == "__main__":
    sys.exit(main())
