"""Faults of lines of classes, filters and packets, and of times, with each number one below its range and one above.

The answers are what the grammar gives: q_worked_examples has the same lines, with their answers computed from it.
"""
from reading import LineTest, bad_number, out_of_range


class LineFields(LineTest):
    def test_classes_out_of_range(self):
        self.assert_read(
            "tc class add dev e parent ",
            [
                ("1: classid 1:1 drr quantum 0", out_of_range(12)),
                ("1: classid 1:1 drr quantum 4294967296", out_of_range(12)),
                ("0: classid 1:1 drr", out_of_range(7)),
                ("ffff: classid 1:1 drr", out_of_range(7)),
                ("1: classid 0:1 drr", out_of_range(9)),
                ("1: classid 1:0 drr", out_of_range(9)),
                ("1: classid ffff:ffff drr", out_of_range(9)),
                ("1: classid fffe:10000 drr", out_of_range(9)),
            ],
        )

    def test_filters_out_of_range(self):
        self.assert_read(
            "tc filter add dev e parent ",
            [
                ("1: prio 0 flower classid 1:1", out_of_range(9)),
                ("1: prio 65536 flower classid 1:1", out_of_range(9)),
                ("0: prio 1 flower classid 1:1", out_of_range(7)),
                ("ffff: prio 1 flower classid 1:1", out_of_range(7)),
                ("1: prio 1 flower classid 0:1", out_of_range(12)),
                ("1: prio 1 flower classid 1:0", out_of_range(12)),
                ("1: prio 1 flower classid ffff:ffff", out_of_range(12)),
                ("1: prio 1 flower classid fffe:10000", out_of_range(12)),
            ],
        )

    def test_keys_out_of_range(self):
        self.assert_read(
            "tc filter add dev e parent 1: prio 1 flower classid 1:1 ",
            [
                ("ip_proto 100", out_of_range(14)),
                ("src_port -1", bad_number(14)),
                ("src_port 65536", out_of_range(14)),
                ("dst_port -1", bad_number(14)),
                ("dst_port 65536", out_of_range(14)),
            ],
        )

    def test_packets_out_of_range(self):
        self.assert_read(
            "pkt ",
            [
                ("0", out_of_range(2)),
                ("65536", out_of_range(2)),
                ("1 hash -1", bad_number(4)),
                ("1 hash 4294967296", out_of_range(4)),
                ("1 prio -1", bad_number(4)),
                ("1 prio 16", out_of_range(4)),
                ("1 ip_proto 100", out_of_range(4)),
                ("1 src_port -1", bad_number(4)),
                ("1 src_port 65536", out_of_range(4)),
                ("1 dst_port -1", bad_number(4)),
                ("1 dst_port 65536", out_of_range(4)),
                ("1 ecn -1", bad_number(4)),
                ("1 ecn 4", out_of_range(4)),
            ],
        )

    def test_moments_polls_and_frames_out_of_range(self):
        self.assert_read(
            "",
            [
                ("at -1", bad_number(2)),
                ("at 4611686018427387905", out_of_range(2)),
                ("poll 0", out_of_range(2)),
                ("poll 100001", out_of_range(2)),
                ("frame 0 00", out_of_range(2)),
                ("frame 65536 00", out_of_range(2)),
            ],
        )
