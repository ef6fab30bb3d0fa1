import random
import unittest

import qtree
from qtree import Cause, Device, Packet, QtreeError, SetUpError, simulate

TREES = {
    "fq_codel": "tc qdisc add dev w root handle 1: tbf rate 5mbit burst 3100 latency 1s\n"
                "tc qdisc add dev w parent 1:1 handle 2: fq_codel limit 60",
    "prio": "tc qdisc add dev w root handle 1: tbf rate 5mbit burst 1514 latency 1s\ntc qdisc add dev w parent 1:1 handle 2: prio\n"
            "tc qdisc add dev w parent 2:1 handle 3: pfifo limit 4\ntc qdisc add dev w parent 2:2 handle 4: bfifo limit 9000",
    "pfifo": "tc qdisc add dev w root handle 1: pfifo limit 20",
}


def traffic(count):
    chance = random.Random(1)
    times = sorted(chance.randrange(count * 1000000) for _ in range(count))
    fields = {"len": [chance.randrange(64, 1515) for _ in times], "sport": [chance.randrange(6) for _ in times], "family": 4, "proto": 17,
              "src_low": 1, "dst_low": 2, "prio": [chance.randrange(16) for _ in times], "ecn": [chance.randrange(3) for _ in times]}
    return qtree.packets(count, seed=3, buf=range(count), **fields), times


def one_by_one(tree, packets, times):
    """The same by calls of their own: what became of each packet."""
    fates, array = {}, packets if not hasattr(packets, "tobytes") else [Packet.from_buffer_copy(it.tobytes()) for it in packets]
    with Device(tree) as device:
        for packet, at in [*zip(array, times), (None, qtree.MOMENT_MAX + 1)]:
            while (now := device.ready_at()) is not None and now < at:
                if sent := device.poll(now):
                    fates[sent.buf] = (now, 0, sent.ecn)
                while lost := device.reap():
                    fates[lost.buf] = (now, lost.cause, None)
            if packet is not None:
                device.arrive(packet, at)
            while lost := device.reap():
                fates[lost.buf] = (at, lost.cause, None)
    return [fates[it] for it in range(len(times))]


class TestSimulate(unittest.TestCase):
    def test_the_same_as_by_calls_of_their_own(self):
        packets, times = traffic(3000)
        for name, tree in TREES.items():
            with self.subTest(name):
                found = simulate(tree, packets, times)
                wanted = one_by_one(tree, packets, times)
                self.assertEqual([(int(at), int(code)) for at, code in zip(found.at, found.code)], [it[:2] for it in wanted])
                self.assertEqual([int(it) for it, code in zip(found.ecn, found.code) if code == 0], [it[2] for it in wanted if it[1] == 0])
                wanted_in = {"pfifo": (), "prio": (Cause.OVER_LIMIT,), "fq_codel": (Cause.CODEL, Cause.FAT_FLOW)}[name]
                self.assertTrue(all(it in found.code for it in wanted_in), set(found.code))
                self.assertTrue(name != "fq_codel" or 3 in found.ecn)

    def test_a_link_with_a_rate(self):
        found = simulate("tc qdisc add dev w root handle 1: pfifo limit 3", [Packet(len=1000)] * 5, [0] * 4 + [7500001], rate=8000000)
        self.assertEqual(list(found.at), [0, 1000000, 2000000, 0, 7500001])
        self.assertEqual(list(found.code), [0, 0, 0, Cause.OVER_LIMIT, 0])
        third = simulate("", [Packet(len=1)] * 2, [0, 0], rate=3)
        self.assertEqual(list(third.at), [0, 2666666667])

    def test_the_more_urgent_of_two_at_once(self):
        found = simulate(TREES["prio"], [Packet(len=1500, prio=0), Packet(len=1500, prio=6)], [10, 10])
        self.assertGreater(found.at[0], found.at[1])

    def test_an_end(self):
        found = simulate(TREES["pfifo"], [Packet(len=1000)] * 3, [0, 0, 5000000], rate=8000000, end=1000000)
        self.assertEqual([(int(at), int(code)) for at, code in zip(found.at, found.code)], [(0, 0), (1000000, 0), (1000000, qtree.QUEUED)])
        self.assertEqual(len(simulate("", [], []).at), 0)
        last = simulate("", [Packet(len=1)], [qtree.MOMENT_MAX])
        self.assertEqual((int(last.at[0]), int(last.code[0])), (qtree.MOMENT_MAX, qtree.SENT))

    def test_an_end_at_the_beginning_and_an_mtu(self):
        found = simulate("", [Packet(len=1000)] * 2, [0, 0], rate=8000000, end=0)
        self.assertEqual(list(found.code), [0, qtree.QUEUED])
        found = simulate("", [Packet(len=9000), Packet(len=9001)], [0, 0], mtu=9000)
        self.assertEqual(list(found.code), [0, Cause.TOO_LONG])

    def test_bad_input(self):
        with self.assertRaises(QtreeError) as raised:
            simulate("", [Packet(len=1)] * 3, [2, 3, 2])
        self.assertEqual(str(raised.exception).partition(":")[0], "OutOfRange")
        self.assertEqual(raised.exception.done, 2)
        for times in ([1], [1, -1], [1, 1 << 64]):
            with self.assertRaises(ValueError):
                simulate("", [Packet(len=1)] * 2, times)
        with self.assertRaises(QtreeError):
            simulate("", [Packet(len=0)], [0])
        with self.assertRaises(SetUpError):
            simulate("tc qdisc", [], [])
        with self.assertRaises(ValueError):
            simulate("", [], [], rate=-1)
        with self.assertRaises(QtreeError):
            simulate("", [Packet(len=1)], [qtree.MOMENT_MAX + 1])


try:
    import numpy
except ImportError:
    numpy = None


@unittest.skipUnless(numpy, "numpy is not installed")
class TestArrays(unittest.TestCase):
    def test_arrays_go_in_and_come_out(self):
        packets = qtree.packets(4, len=1000, sport=numpy.arange(4), family=4)
        self.assertEqual(len(set(packets["hash"].tolist())), 4)
        found = simulate(TREES["pfifo"], packets, numpy.arange(4) * 10, rate=8000000)
        self.assertEqual((found.at - numpy.arange(4, dtype=numpy.uint64) * 10).tolist(), [0, 999990, 1999980, 2999970])
        self.assertEqual(simulate(TREES["pfifo"], packets[::2], [0, 0]).at.tolist(), [0, 0])
        with Device() as device:
            device.arrive_many(packets, 0)
            turned = device.turn(0)
        self.assertEqual(turned.sent["buf"].tolist(), [0] * 4)
        block = numpy.zeros(100, numpy.uint8)
        with Device() as device:
            self.assertEqual(device.arrive_frames(block, [qtree.Frame(count=100, len=100)], 0).tolist(), [0])

    def test_other_arrays(self):
        packets = qtree.packets(2)
        for times in (numpy.array([0.0, 1.0]), numpy.array([[0, 1]])):
            with self.assertRaises(TypeError):
                simulate("", packets, times)
        with self.assertRaises(ValueError):
            simulate("", packets, numpy.array([-1, 0]))
        with self.assertRaises(TypeError):
            simulate("", numpy.zeros(2, numpy.uint64), [0, 0])


if __name__ == "__main__":
    unittest.main()
