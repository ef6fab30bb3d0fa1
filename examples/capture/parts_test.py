#!/usr/bin/env python3
"""Tries the parts of tools/capture by themselves: headers, segments of offloads, addresses, times, and the numbers of its table.

    examples/capture/parts_test.py

Needs:   Python.
Takes:   less than a second.
Writes:  nothing.
"""
import argparse
import collections
import importlib.machinery
import importlib.util
import ipaddress
import os
import sys
import unittest

HERE = os.path.dirname(os.path.realpath(__file__))
sys.dont_write_bytecode = True
sys.path.insert(0, HERE)
import make_capture as frames  # noqa: E402

loader = importlib.machinery.SourceFileLoader("capture_program", f"{HERE}/../../tools/capture")
capture = importlib.util.module_from_spec(importlib.util.spec_from_loader("capture_program", loader))
loader.exec_module(capture)

SOURCE, TARGET = (198, 51, 100, 9), "192.0.2.7"
MACS = bytes(12)


def tcp(size, options=0):
    """An IPv4 packet of TCP with this much data, and as many options in its header, in words of four bytes."""
    segment = bytearray(frames.tcp(1, 2, options * 4 + size, 0))
    segment[12] = 5 + options << 4
    return frames.ipv4(SOURCE, 6, bytes(segment))


class Parts(unittest.TestCase):
    def test_segments_have_the_headers_of_their_frame(self):
        rows = (
            (tcp(1460), [1514]),
            (tcp(1461), [1514, 55]),
            (tcp(2920), [1514, 1514]),
            (tcp(3000), [1514, 1514, 134]),
            (tcp(3000, 3), [1514, 1514, 170]),
            (frames.ipv4(SOURCE, 17, frames.udp(1, 2, 1472)), [1514]),
            (frames.ipv4(SOURCE, 17, frames.udp(1, 2, 1473)), [1514, 43]),
            (frames.ipv6(frames.udp(1, 2, 2904)), [1514, 1514]),
        )
        for head, lengths in rows:
            with self.subTest(len(head)):
                self.assertEqual(capture.segments(14 + len(head), head[:256], 14, 1500), lengths)
        # Of a head that is cut before the data offset of TCP 20 bytes are taken; where no data fit, the frame stays whole.
        self.assertEqual(capture.segments(3054, tcp(3000)[:30], 14, 1500), [1514, 1514, 134])
        self.assertEqual(capture.segments(3054, tcp(3000), 14, 40), [3054])

    def test_headers_before_the_ip_header(self):
        tagged = MACS + b"\x88\xa8\0\5\x81\0\0\6\x08\0"
        rows = (
            (capture.ETHERNET, MACS + b"\x08\0", (14, 14, True)),
            (capture.ETHERNET, MACS + b"\x86\xdd", (14, 14, True)),
            (capture.ETHERNET, MACS + b"\x08\6", (14, 14, False)),
            (capture.ETHERNET, MACS + b"\x81\0\0\6\x08\0", (18, 18, True)),
            (capture.ETHERNET, tagged, (22, 22, True)),
            (capture.RAW[0], b"", (0, 0, True)),
            (capture.COOKED, bytes(14) + b"\x08\0", (16, 14, True)),
            (capture.COOKED_2, b"\x86\xdd" + bytes(18), (20, 14, True)),
            (capture.COOKED_2, b"\x08\6" + bytes(18), (20, 14, False)),
        )
        for link, data, wanted in rows:
            with self.subTest(link=link, data=data):
                self.assertEqual(capture.heads(link, data), wanted)

    def test_sources_in_networks(self):
        four, six = tcp(1), frames.ipv6(frames.udp(1, 2, 3))
        self.assertEqual((str(capture.source(four)), str(capture.source(six))), ("198.51.100.9", "2001:db8::9"))
        networks = [ipaddress.ip_network(it) for it in ("203.0.113.0/24", "198.51.100.0/28", "2001:db8::8/125")]
        self.assertTrue(capture.is_from(four, networks) and capture.is_from(six, networks))
        self.assertFalse(capture.is_from(four, networks[::2]) or capture.is_from(six, networks[:2]) or capture.is_from(b"", networks))
        self.assertIsNone(capture.source(four[:15]))

    def test_lengths_that_can_be_played(self):
        capture.check_lengths("f", 1, 65535, [1, 65535], capture.MOST_SEGMENTS)
        for lengths, parts in (([0], 0), ([65536], 0), ([100, -3], 0), ([100], capture.MOST_SEGMENTS + 1)):
            with self.assertRaises(capture.Unfit):
                capture.check_lengths("f", 1, 5, lengths, parts)

    def test_delays_that_a_share_does_not_exceed(self):
        delays = [it * capture.MS for it in range(1, 101)]
        self.assertEqual([capture.at_most(delays, it) for it in (50, 95, 99)], ["50.000", "95.000", "99.000"])
        self.assertEqual([capture.at_most(delays[:3], it) for it in (50, 95)], ["2.000", "3.000"])
        self.assertEqual((capture.at_most(delays[:1], 50), capture.at_most([], 50)), ("1.000", "-"))

    def test_flows_in_both_directions(self):
        key = collections.namedtuple("Key", "family source destination source_port destination_port")
        packet = collections.namedtuple("Packet", "key")
        keys = [key(4, "a", "b", 1, 2), key(4, "b", "a", 2, 1), key(4, "a", "b", 1, 3), key(0, "", "", 0, 0), key(4, "b", "a", 2, 1)]
        self.assertEqual(capture.both_ways([packet(it) for it in keys]), 1)

    def test_rates_and_numbers_of_options(self):
        self.assertEqual(capture.RATES, {"bit": 1, "kbit": 1000, "mbit": 1000**2, "gbit": 1000**3})
        self.assertEqual(capture.rate_word("10mbit"), "10mbit")
        for word in ("0mbit", "10", "mbit", "1.5mbit", "10Mbit", "10mbps"):
            with self.assertRaises(argparse.ArgumentTypeError):
                capture.rate_word(word)
        read = capture.number_between(68, 65000)
        self.assertEqual((read("68"), read("65000")), (68, 65000))
        for word in ("67", "65001", "-1", "x", "6٩"):
            with self.assertRaises(argparse.ArgumentTypeError):
                read(word)

    def captured(self, *records, mtu=1500):
        """What is read of a capture of these records: the time, the link layer, the bytes and the length of each."""
        kept, capture.records = capture.records, lambda path: iter(records)
        try:
            return capture.Capture("f", [], mtu)
        finally:
            capture.records = kept

    def test_packets_out_of_order_go_with_the_one_before(self):
        frame = MACS + b"\x08\0" + tcp(0)
        times = [500, 900, 700, 800, 1000]
        read = self.captured(*((it, capture.ETHERNET, frame, len(frame)) for it in times))
        self.assertEqual([it.time for it in read.arrivals], [0, 400, 400, 400, 500])
        self.assertTrue(read.notes[0].endswith(": 2 packets."))
        self.assertEqual([it for it in read.lines() if it.startswith("at")], ["at 0", "at 400", "at 500"])

    def test_the_mtu_has_room_for_the_longest_link_header(self):
        plain, tagged = MACS + b"\x08\0" + tcp(0), MACS + b"\x81\0\0\6\x08\0" + tcp(0)
        other = MACS + b"\x81\0\0\6\x08\6" + bytes(40)
        for given, wanted in (([plain], 1514), ([plain, tagged], 1518), ([other], 1514), ([plain, other], 1514)):
            self.assertEqual(self.captured(*((1, capture.ETHERNET, it, len(it)) for it in given)).mtu, wanted)


if __name__ == "__main__":
    unittest.main()
