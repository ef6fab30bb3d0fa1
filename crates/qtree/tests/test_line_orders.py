"""Lines with words that occur twice, with bytes that are no UTF-8, and with a priomap before its bands.

The answers are what the grammar gives: q_worked_examples has the same lines, with their answers computed from it.
"""
from reading import READ, LineTest, bad_number, bad_utf8, missing, out_of_range, twice, unknown_word


class LineOrders(LineTest):
    def test_names_of_one_option(self):
        self.assert_read(
            "tc qdisc ",
            [
                ("add dev e root parent 1:1 pfifo", twice(7)),
                ("add dev e parent 1:1 root pfifo", twice(8)),
                ("del dev e parent 1:1 parent 1:2", twice(8)),
                ("add dev e root tbf rate 1 burst 1 limit 0 latency 5", twice(14)),
                ("add dev e root tbf rate 1 burst 1 latency 5 limit 0", twice(14)),
                ("add dev e root tbf burst 1 buffer 2", twice(10)),
                ("add dev e root tbf buffer 1 maxburst 2", twice(10)),
                ("add dev e root tbf maxburst 1 burst 2", twice(10)),
                ("add dev e root fq_codel ecn noecn", twice(9)),
                ("add dev e root fq_codel noecn ecn", twice(9)),
                ("add dev e root tbf buffer 2 latency 1 rate 3", READ),
                ("add dev e root tbf maxburst 3 limit 1 rate 3", READ),
            ],
        )

    def test_names_of_one_key(self):
        self.assert_read(
            "tc filter add dev e parent 1: ",
            [
                ("prio 1 pref 2 flower classid 1:1", twice(10)),
                ("pref 2 prio 1 flower classid 1:1", twice(10)),
                ("prio 1 flower classid 1:1 flowid 1:2", twice(13)),
                ("prio 1 flower flowid 1:2 classid 1:1", twice(13)),
                ("pref 2 flower flowid 1:a", READ),
            ],
        )

    def test_options_again(self):
        self.assert_read(
            "tc qdisc ",
            [
                ("add dev e dev f root pfifo", twice(6)),
                ("add dev e root root pfifo", twice(7)),
                ("add dev e root handle 1: handle 2: pfifo", twice(9)),
                ("add dev e root pfifo limit 1 limit 2", twice(10)),
                ("add dev e root bfifo limit 1 limit 2", twice(10)),
                ("add dev e root prio bands 3 bands 4", twice(10)),
                ("add dev e root prio priomap 0 0 0 0 0 0 0 0 0 0 0 0 0 0 0 0 priomap", twice(25)),
                ("add dev e root tbf rate 1 rate 2", twice(10)),
                ("add dev e root tbf limit 1 limit 2", twice(10)),
                ("add dev e root tbf latency 1 latency 2", twice(10)),
                ("add dev e root tbf burst 1 burst 2", twice(10)),
                ("add dev e root fq_codel limit 1 limit 2", twice(10)),
                ("add dev e root fq_codel flows 1 flows 2", twice(10)),
                ("add dev e root fq_codel quantum 1 quantum 2", twice(10)),
                ("add dev e root fq_codel target 1 target 2", twice(10)),
                ("add dev e root fq_codel interval 1 interval 2", twice(10)),
                ("add dev e root fq_codel drop_batch 1 drop_batch 2", twice(10)),
                ("add dev e root fq_codel ecn ecn", twice(9)),
                ("add dev e root fq_codel noecn noecn", twice(9)),
                ("show dev e dev f", twice(6)),
            ],
        )

    def test_class_words_again(self):
        self.assert_read(
            "tc class add dev e parent 1: ",
            [
                ("parent 2: classid 1:1 drr", twice(8)),
                ("classid 1:1 classid 1:2 drr", twice(10)),
                ("classid 1:1 drr quantum 1 quantum 2", twice(13)),
            ],
        )

    def test_filter_words_again(self):
        self.assert_read(
            "tc filter add dev e parent 1: ",
            [
                ("parent 2: prio 1 flower classid 1:1", twice(8)),
                ("prio 1 prio 2 flower classid 1:1", twice(10)),
                ("prio 1 protocol ip protocol all flower classid 1:1", twice(12)),
                ("prio 1 flower classid 1:1 ip_proto tcp ip_proto udp", twice(15)),
                ("prio 1 flower classid 1:1 src_ip ::1 src_ip ::2", twice(15)),
                ("prio 1 flower classid 1:1 dst_ip ::1 dst_ip ::2", twice(15)),
                ("prio 1 flower classid 1:1 src_port 1 src_port 2", twice(15)),
                ("prio 1 flower classid 1:1 dst_port 1 dst_port 2", twice(15)),
                ("prio 1 flower classid 1:1 classid 1:2", twice(13)),
            ],
        )

    def test_fields_again(self):
        self.assert_read(
            "pkt 1 ",
            [
                ("hash 1 hash 2", twice(5)),
                ("prio 1 prio 2", twice(5)),
                ("ip_proto 1 ip_proto 2", twice(5)),
                ("src_ip ::1 src_ip ::2", twice(5)),
                ("dst_ip ::1 dst_ip ::2", twice(5)),
                ("src_port 1 src_port 2", twice(5)),
                ("dst_port 1 dst_port 2", twice(5)),
                ("ecn 1 ecn 2", twice(5)),
            ],
        )

    def test_bytes_of_words(self):
        self.assert_read(
            "",
            [
                (b"x\xff", bad_utf8(1)),
                (b"pkt \xff", bad_utf8(2)),
                (b"foo \xff", unknown_word(1)),
                (b"pkt 1 \xff x", bad_utf8(3)),
                (b"pkt 1 x \xff", unknown_word(3)),
                (b"pkt 1 hash \xff \xff", bad_utf8(4)),
                (b"pkt 1 hash x \xff", bad_number(4)),
                (b"tc qdisc add dev e root pfifo limit \xff", bad_utf8(9)),
                (b"tc qdisc show dev \xc3", bad_utf8(5)),
                (b"tc qdisc show dev \xc3\xa9", READ),
                (b"tc qdisc add dev \xe2\x82\xac root drr", READ),
                (b"pkt \xc3\xa9", bad_number(2)),
                (b"tc \xc0\x80", bad_utf8(2)),
                (b"tc \xed\xa0\x80", bad_utf8(2)),
                (b"tc \xf4\x90\x80\x80", bad_utf8(2)),
                (b"tc \xe2\x82", bad_utf8(2)),
                (b"tc \xf0\x9f\x98\x80", unknown_word(2)),
                (b"tc qdisc add dev e root prio priomap 0 9 \xff", bad_utf8(11)),
                (b"# \xff", READ),
                (b"#\xff \xff", READ),
                (b" \t#\xff", READ),
                (b"\xff#", bad_utf8(1)),
                (b"\tpkt\r 1 \r", READ),
            ],
        )

    def test_bands_out_of_range(self):
        self.assert_read(
            "tc qdisc add dev e root prio ",
            [
                ("priomap 0 0 0 0 0 0 0 0 0 0 0 0 0 0 0 3", out_of_range(24)),
                ("priomap 0 0 0 0 0 0 0 0 0 0 0 0 0 0 0 4 bands 4", out_of_range(24)),
                ("priomap 0 16 0 16 0 16 0 16 0 16 0 16 0 16 0 16 bands 16", out_of_range(10)),
                ("priomap 0 0 0 0 0 0 0 0 0 0 0 0 0 0 18446744073709551616 5 bands 16", out_of_range(23)),
                ("priomap 2 2 2 2 2 2 2 2 2 2 2 2 2 2 2 2 bands 2", out_of_range(9)),
                ("priomap 1 1 1 1 1 1 1 1 1 1 1 1 1 1 1 1 bands", missing(26)),
                ("priomap 4 4 4 4 4 4 4 4 4 4 4 4 4 4 4 4 bands", out_of_range(9)),
                ("priomap 9 9 9 9 9 9 9 9 9 9 9 9 9 9 9", out_of_range(9)),
                ("priomap 0 0 0 0 0 0 0 0 0 0 0 0 0 0 0 0 0", unknown_word(25)),
                ("bands 2", missing(10)),
            ],
        )
