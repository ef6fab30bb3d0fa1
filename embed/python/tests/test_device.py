import pickle
import struct
import unittest

import qtree
from qtree import Cause, Device, Frame, LineError, Packet, QtreeError, SetUpError

TBF = "tc qdisc add dev w root handle 1: tbf rate 8mbit burst 2000 latency 1s\n"


def udp(length, sport, ecn=0):
    """The bytes of a datagram over IPv4."""
    head = struct.pack(">BBHHHBBH4s4sHH", 0x45, ecn, length, 0, 0, 64, 17, 0, bytes([10, 0, 0, 1]), bytes([10, 0, 0, 2]), sport, 5060)
    return head.ljust(length, b"\0")


class TestDevice(unittest.TestCase):
    def test_three_packets_through_a_bucket(self):
        seen = []
        with Device("tc qdisc add dev wan root handle 1: tbf rate 8mbit burst 2000 latency 50ms") as device:
            for buf in range(3):
                self.assertEqual(device.arrive(Packet(len=1000, buf=buf), 0), Cause.KEPT)
            while (now := device.ready_at()) is not None:
                if sent := device.poll(now):
                    seen.append((sent.buf, now))
        self.assertEqual(seen, [(0, 0), (1, 0), (2, 1000000)])

    def test_every_packet_is_sent_or_lost_in_turns(self):
        seen, now = [], 0
        with Device(TBF + "tc qdisc add dev w parent 1:1 handle 2: pfifo limit 10") as device:
            causes = device.arrive_many(qtree.packets(50, len=1000, buf=range(50)), 0)
            self.assertEqual(list(causes), [0] * 10 + [3] * 40)
            while now is not None:
                turned = device.turn(now, room=3)
                seen += [(it["buf"], now) if not isinstance(it, qtree.Sent) else (it.buf, now) for it in turned.sent]
                lost = [it["buf"] if not isinstance(it, qtree.Lost) else it.buf for it in turned.lost]
                seen += [(it, None) for it in lost]
                now = turned.again
            counters = device.counters()
        self.assertEqual(sorted(it for it, _ in seen), list(range(50)))
        self.assertEqual([it for it in seen if it[1] is not None][-1], (9, 8000000))
        self.assertEqual((counters.arrived, counters.sent, counters.refused), ((50, 50000), (10, 10000), (40, 40000)))

    def test_frames_arrive_like_packets(self):
        block, frames, read = b"", [], []
        for buf in range(70):
            bytes_of = udp(100 + buf, 1000 + buf % 5)
            frames.append(Frame(number=buf << 40, offset=len(block), buf=buf, count=len(bytes_of), len=len(bytes_of)))
            packet = Packet(len=len(bytes_of), buf=buf, number=buf << 40)
            packet.read_head(bytes_of, 7)
            self.assertEqual((packet.sport, packet.dport, packet.family, packet.src_low), (1000 + buf % 5, 5060, 4, 0x0a000001))
            read.append(packet)
            block += bytes_of
        tree = "tc qdisc add dev w root handle 1: fq_codel"
        with Device(tree) as one, Device(tree) as other:
            self.assertFalse(any(one.arrive_many(read, 5)))
            self.assertFalse(any(other.arrive_frames(block, frames, 5, seed=7)))
            for _ in range(70):
                sent, same = one.poll(6), other.poll(6)
                self.assertEqual(sent, same)
                self.assertEqual(sent.number, sent.buf << 40)
            self.assertIsNone(one.poll(6))
            self.assertIsNone(one.ready_at())
            frames[40].offset = len(block) - 50
            with self.assertRaises(QtreeError) as raised:
                other.arrive_frames(block, frames, 7)
            self.assertEqual((raised.exception.name, raised.exception.done), ("OutOfRange", 40))

    def test_lines_that_are_not_carried_out(self):
        with Device() as device:
            with self.assertRaises(LineError) as raised:
                device.run("tc qdisc add dev w root fq_codell")
            error = raised.exception
            self.assertEqual((error.name, error.fault, error.word, error.line), ("Faulty", "UnknownWord", 7, 1))
            self.assertIn("did you mean fq_codel?", str(error))
            self.assertEqual(str(pickle.loads(pickle.dumps(error))), str(error))
            with self.assertRaises(SetUpError) as raised:
                device.set_up("tc qdisc add dev w root handle 1: pfifo\n" + "pkt\n" * 150)
            self.assertEqual((raised.exception.count, len(raised.exception.lines), raised.exception.lines[0].line), (150, 100, 2))
            self.assertTrue(str(raised.exception).endswith("and 50 lines more"))
            self.assertEqual(device.show("qdiscs"), Device().show("qdiscs"))
            self.assertEqual(device.set_up("tc qdisc add dev w root handle 1: pfifo limit 7\n").added, 1)
            self.assertEqual(device.most_packets(), 7)
        with self.assertRaises(SetUpError):
            Device("tc qdisc add dev w root\n")

    def test_what_is_out_of_its_range(self):
        with Device() as device:
            for call in (lambda: device.arrive(Packet(len=0), 0), lambda: device.poll(-1), lambda: device.poll(1 << 64),
                         lambda: device.turn(qtree.MOMENT_MAX + 1), lambda: device.latest("root", 65536), lambda: Device(mtu=65536)):
                with self.assertRaises(QtreeError) as raised:
                    call()
                self.assertEqual(raised.exception.name, "OutOfRange")
            for place in ("", "bottom", "1", "1:0", "1:2:3", "1:g"):
                with self.assertRaises(ValueError):
                    device.counters(place)
            with self.assertRaises(ValueError):
                device.show("all")
            with self.assertRaises(TypeError):
                qtree.packets(2, length=5)
        with self.assertRaises(QtreeError) as raised:
            device.poll(0)
        self.assertEqual(raised.exception.name, "IsClosed")
        device.close()

    def test_losses(self):
        with Device("tc qdisc add dev w root handle 1: pfifo limit 1") as device:
            self.assertEqual(device.arrive(Packet(len=9999, buf=5, number=1 << 50), 0), Cause.TOO_LONG)
            device.arrive(Packet(len=9), 0)
            self.assertEqual(device.arrive(Packet(len=9, buf=6), 0), Cause.OVER_LIMIT)
            lost = device.reap()
            self.assertEqual((lost.buf, lost.number, lost.cause), (5, 1 << 50, Cause.TOO_LONG))
            self.assertEqual(repr(device.reap()), "Lost(buf=6, cause=3)")
            self.assertIsNone(device.reap())
            self.assertEqual(device.oldest(), 0)

    def test_promises(self):
        drr = "tc qdisc add dev w root handle 1: tbf rate 20mbit burst 1640 latency 50ms\ntc qdisc add dev w parent 1:1 handle 2: drr\n"
        drr += "".join(f"tc class add dev w parent 2: classid 2:{it} drr quantum {q}\n" for it, q in ((1, 3000), (2, 1500)))
        with Device(drr) as device:
            service = device.service("2:1")
            self.assertEqual((service.link, service.rate, service.slack), (20000000, 13333333, 5532))
            self.assertIsNone(device.service("2:3"))
            self.assertIn("class drr 2:1", device.show("classes"))
        with Device(TBF + "tc qdisc add dev w parent 1:1 handle 2: pfifo limit 2") as device:
            self.assertEqual(device.latest("1:1", 1000).bytes, 1000)
            self.assertGreater(device.worst("1:1").ns, 0)
            self.assertIsNone(device.oldest())
        with Device("tc qdisc add dev w root handle 1: pfifo limit 2") as device:
            self.assertIsNone(device.worst("root").ns)

    def test_a_turn_sends_as_many_as_there_is_room_for(self):
        with Device("tc qdisc add dev w root handle 1: pfifo limit 5") as device:
            device.arrive_many(qtree.packets(7, len=100), 0)
            for sent, lost, again in ((2, 2, 0), (2, 0, 0), (1, 0, None)):
                turned = device.turn(0, room=2)
                self.assertEqual((len(turned.sent), len(turned.lost), turned.again), (sent, lost, again))

    def test_packets_have_the_hash_of_their_fields(self):
        for packet in qtree.packets(3, seed=9, family=4, sport=[1, 2, 3], proto=17):
            alone = Packet(family=4, sport=int(packet["sport"] if not isinstance(packet, Packet) else packet.sport), proto=17)
            alone.set_hash(9)
            self.assertEqual(int(packet["hash"] if not isinstance(packet, Packet) else packet.hash), alone.hash)
        named = qtree.packets(2, hash=[5, 6])
        self.assertEqual([int(it["hash"] if not isinstance(it, Packet) else it.hash) for it in named], [5, 6])
        self.assertEqual([int(it["len"] if not isinstance(it, Packet) else it.len) for it in named], [1500, 1500])

    def test_records_are_equal_in_all_fields(self):
        self.assertEqual(Packet(len=1, ecn=2), Packet(len=1, ecn=2))
        self.assertNotEqual(Packet(len=1, ecn=2), Packet(len=1, ecn=1))
        self.assertNotEqual(qtree.Sent(number=1, len=5), qtree.Sent(number=1, len=6))

    def test_ends_of_ranges(self):
        with Device("tc qdisc add dev w root handle fffe: drr\ntc class add dev w parent fffe: classid fffe:ffff drr\n", mtu=65535) as device:
            self.assertEqual(device.counters("fffe:ffff").arrived, (0, 0))
            for place in ("ffff:1", "1:10000"):
                with self.assertRaises(ValueError):
                    device.counters(place)
        with Device("tc qdisc add dev w root handle 1: pfifo limit 2", mtu=65535) as device:
            self.assertEqual(device.latest("root", 65535).bytes, 65535)
            for block in ([256] * 20, [-1] * 20):
                with self.assertRaises(ValueError):
                    device.arrive_frames(block, [Frame(count=20, len=20)], 0)
            self.assertEqual(list(device.arrive_frames([255] * 20, [Frame(count=20, len=20)], 0)), [0])

    def test_what_is_said_of_one_more(self):
        with Device() as device, self.assertRaises(SetUpError) as raised:
            device.set_up("pkt\n" * 101)
        self.assertTrue(str(raised.exception).endswith("and 1 lines more"))
        self.assertEqual([it.line for it in raised.exception.lines], list(range(1, 101)))
        with Device() as device, self.assertRaises(QtreeError) as raised:
            device.arrive_many([Packet(len=1), Packet(len=0)], 0)
        self.assertTrue(str(raised.exception).endswith("(1 packets arrived before that.)"))

    def test_a_recorded_session(self):
        with Device(TBF, recorder=1000) as device:
            device.arrive_many(qtree.packets(300, len=100), 0)
            self.assertEqual(device.recorded_script().count("\npkt "), 300)


if __name__ == "__main__":
    unittest.main()
