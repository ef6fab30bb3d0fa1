"""Faults of lines of qdiscs, with each number one below its range and one above.

The answers are what the grammar gives: q_worked_examples has the same lines, with their answers computed from it.
"""
from reading import LineTest, bad_number, out_of_range


class LineRanges(LineTest):
    def test_fifos_out_of_range(self):
        self.assert_read(
            "tc qdisc add dev e root ",
            [
                ("pfifo limit -1", bad_number(9)),
                ("pfifo limit 4294967296", out_of_range(9)),
                ("bfifo limit -1", bad_number(9)),
                ("bfifo limit 4294967296", out_of_range(9)),
            ],
        )

    def test_prios(self):
        self.assert_read(
            "tc qdisc add dev e root prio ",
            [
                ("bands 1", out_of_range(9)),
                ("bands 17", out_of_range(9)),
            ],
        )

    def test_tbfs_out_of_range(self):
        self.assert_read(
            "tc qdisc add dev e root tbf ",
            [
                ("burst 1 limit 0 rate 0", out_of_range(13)),
                ("burst 1 limit 0 rate 1000000000001", out_of_range(13)),
                ("rate 1 limit 0 burst 0", out_of_range(13)),
                ("rate 1 limit 0 burst 4294967296", out_of_range(13)),
                ("rate 1 burst 1 limit -1", bad_number(13)),
                ("rate 1 burst 1 limit 4294967296", out_of_range(13)),
                ("rate 1 burst 1 latency -0.001", bad_number(13)),
                ("rate 1 burst 1 latency 1000000000.001us", out_of_range(13)),
            ],
        )

    def test_fq_codels_out_of_range(self):
        self.assert_read(
            "tc qdisc add dev e root fq_codel ",
            [
                ("limit 0", out_of_range(9)),
                ("limit 4294967296", out_of_range(9)),
                ("flows 0", out_of_range(9)),
                ("flows 65537", out_of_range(9)),
                ("quantum 0", out_of_range(9)),
                ("quantum 4294967296", out_of_range(9)),
                ("drop_batch 0", out_of_range(9)),
                ("drop_batch 65537", out_of_range(9)),
                ("target -0.001", bad_number(9)),
                ("target 1000000000.001us", out_of_range(9)),
                ("interval 0.999us", out_of_range(9)),
                ("interval 1000000000.001us", out_of_range(9)),
            ],
        )

    def test_handles_out_of_range(self):
        self.assert_read(
            "tc qdisc add dev e ",
            [
                ("root handle 0: drr", out_of_range(8)),
                ("root handle ffff: drr", out_of_range(8)),
                ("parent 0:1 drr", out_of_range(7)),
                ("parent 1:0 drr", out_of_range(7)),
                ("parent ffff:ffff drr", out_of_range(7)),
                ("parent fffe:10000 drr", out_of_range(7)),
            ],
        )
