"""Lines with words that are no rate, no size or no time.

The answers are what the grammar gives: q_worked_examples has the same lines, with their answers computed from it.
"""
from reading import LineTest, bad_number, out_of_range


class LineUnits(LineTest):
    def test_words_that_are_no_rate(self):
        self.assert_read(
            "tc qdisc add dev e root tbf burst 1 limit 0 rate ",
            [
                ("0.9bit", out_of_range(13)),
                ("0.000000999mbit", out_of_range(13)),
                ("1.1gbps2", bad_number(13)),
                ("1kb", bad_number(13)),
                ("1k", bad_number(13)),
                ("1.", bad_number(13)),
                (".5", bad_number(13)),
                ("1.0123456789kbit", bad_number(13)),
                ("1.2.3", bad_number(13)),
                ("kbit", bad_number(13)),
                ("1,5", bad_number(13)),
            ],
        )

    def test_words_that_are_no_size(self):
        self.assert_read(
            "tc qdisc add dev e root bfifo limit ",
            [
                ("4g", out_of_range(9)),
                ("32gbit", out_of_range(9)),
                ("1ki", bad_number(9)),
                ("1kib", bad_number(9)),
                ("1bit", bad_number(9)),
                ("1bps", bad_number(9)),
                ("1t", bad_number(9)),
                ("1kbits", bad_number(9)),
                ("b", bad_number(9)),
            ],
        )

    def test_words_that_are_no_time(self):
        self.assert_read(
            "tc qdisc add dev e root fq_codel target ",
            [
                ("1000.000000001s", out_of_range(9)),
                ("1ns", bad_number(9)),
                ("1m", bad_number(9)),
                ("1min", bad_number(9)),
                ("1secss", bad_number(9)),
                ("s", bad_number(9)),
            ],
        )

    def test_units_of_other_options(self):
        self.assert_read(
            "",
            [
                ("tc class change dev e classid 1:1 drr quantum 0.5", out_of_range(10)),
                ("tc qdisc add dev e root pfifo limit 1k", bad_number(9)),
                ("tc qdisc add dev e root fq_codel limit 1k", bad_number(9)),
                ("tc qdisc add dev e root fq_codel flows 1k", bad_number(9)),
                ("tc qdisc add dev e root fq_codel drop_batch 1.0", bad_number(9)),
                ("tc qdisc add dev e root prio bands 3b", bad_number(9)),
                ("pkt 1k", bad_number(2)),
                ("at 1us", bad_number(2)),
                ("poll 1.0", bad_number(2)),
            ],
        )
