"""Lines with each part that they need, and without it.

The answers are what the grammar gives: q_worked_examples has the same lines, with their answers computed from it.
"""
from reading import READ, LineTest, bad_number, missing, out_of_range, unknown_word


class LineHeads(LineTest):
    def test_names_and_handles(self):
        self.assert_read(
            "tc qdisc add dev ",
            [
                ("abcdefghijklmno root drr", READ),
                ("abcdefghijklmnop root drr", out_of_range(5)),
                ("root root drr", READ),
                ("e root handle 1 drr", READ),
                ("e root handle 1:0 drr", READ),
                ("e root handle 10 drr", READ),
                ("e root handle FFFE:0 drr", READ),
                ("e root handle 0fe: drr", READ),
                ("e root handle 1:1 drr", out_of_range(8)),
                ("e root handle 1:00 drr", out_of_range(8)),
                ("e root handle 00001 drr", out_of_range(8)),
                ("e root handle 12345: drr", out_of_range(8)),
                ("e root handle 0 drr", out_of_range(8)),
                ("e root handle 0x1: drr", bad_number(8)),
                ("e root handle 1:: drr", bad_number(8)),
                ("e root handle g drr", bad_number(8)),
                ("e root handle : drr", bad_number(8)),
                ("e root handle :0 drr", bad_number(8)),
                ("e root handle 12345:g drr", bad_number(8)),
                ("e root handle 0:1:1 drr", bad_number(8)),
                ("e parent A:10 drr", READ),
                ("e parent 0001:0001 drr", READ),
                ("e parent 00001:1 drr", out_of_range(7)),
                ("e parent 1:00001 drr", out_of_range(7)),
                ("e parent 1 drr", bad_number(7)),
                ("e parent 1: drr", bad_number(7)),
                ("e parent :1 drr", bad_number(7)),
                ("e parent 1:g drr", bad_number(7)),
                ("e parent 12345:g drr", bad_number(7)),
                ("e parent 1:1:1 drr", bad_number(7)),
            ],
        )

    def test_qdisc_heads(self):
        self.assert_read(
            "tc qdisc ",
            [
                ("add handle 2: dev e parent 1:1 drr", READ),
                ("add root drr", missing(6)),
                ("add dev e drr", missing(7)),
                ("add dev e handle 1: drr", missing(9)),
                ("add root drr dev e", unknown_word(6)),
                ("add dev e root", missing(7)),
                ("add dev e root netem", unknown_word(7)),
                ("change dev e drr", missing(7)),
                ("change root drr", missing(6)),
                ("change dev e root drr", READ),
                ("change dev e handle 1: drr", READ),
                ("change handle 2: dev e parent 1:1 drr", READ),
                ("change dev e root", missing(7)),
                ("del dev e", missing(6)),
                ("del root", missing(5)),
                ("del dev e root", READ),
                ("delete dev e handle 1:", READ),
                ("del dev e handle 2: parent 1:1 fq_codel", READ),
                ("del dev e root netem", unknown_word(7)),
                ("del dev e root drr drr", unknown_word(8)),
                ("del root drr", missing(6)),
                ("del dev e root tbf rate 1", unknown_word(8)),
            ],
        )

    def test_class_heads(self):
        self.assert_read(
            "tc class ",
            [
                ("add classid 1:1 parent 1: dev e drr", READ),
                ("add parent 1: classid 1:1 drr", missing(9)),
                ("add dev e classid 1:1 drr", missing(9)),
                ("add dev e parent 1: drr", missing(9)),
                ("add dev e parent 1: classid 1:1", missing(10)),
                ("add dev e parent 1: flowid 1:1 drr", unknown_word(8)),
                ("add dev e parent 1: classid 1:1 prio", unknown_word(10)),
                ("add dev e root classid 1:1 drr", unknown_word(6)),
                ("change dev e classid 1:1 drr quantum 2", READ),
                ("change dev e parent 1: classid 1:1 drr", READ),
                ("change classid 1:1 drr", missing(7)),
                ("change dev e parent 1: drr", missing(9)),
                ("change dev e classid 1:1", missing(8)),
                ("del dev e classid 1:1", READ),
                ("delete dev e parent 1: classid 1:2", READ),
                ("del classid 1:1", missing(6)),
                ("del dev e parent 1:", missing(8)),
                ("del dev e classid 1:1 drr", unknown_word(8)),
                ("replace", unknown_word(3)),
            ],
        )

    def test_filter_heads(self):
        self.assert_read(
            "tc filter ",
            [
                ("add prio 1 protocol ipv6 parent 1: dev e flower classid 2:3", READ),
                ("add parent 1: prio 1 flower classid 1:1", missing(11)),
                ("add dev e prio 1 flower classid 1:1", missing(11)),
                ("add dev e parent 1: flower classid 1:1", missing(11)),
                ("add dev e parent 1: prio 1 flower", missing(11)),
                ("add dev e parent 1: prio 1", missing(10)),
                ("add dev e parent 1: prio 1 u32", unknown_word(10)),
                ("add dev e parent 1: prio 1 protocol ipv4 flower", unknown_word(11)),
                ("add dev e root prio 1", unknown_word(6)),
                ("change", unknown_word(3)),
                ("add dev e parent 1: pref 0 flower classid 1:1", out_of_range(9)),
                ("add dev e parent 1: pref 1 flower classid 1:1", READ),
                ("add dev e parent 1: pref 65535 flower classid 1:1", READ),
                ("add dev e parent 1: pref 65536 flower classid 1:1", out_of_range(9)),
                ("del dev e parent 1: prio 1", READ),
                ("delete dev e parent 1: pref 2 protocol ip flower", READ),
                ("del dev e parent 1: prio 1 flower classid 1:1", unknown_word(11)),
                ("del parent 1: prio 1", missing(8)),
                ("del dev e prio 1", missing(8)),
                ("del dev e parent 1:", missing(8)),
                ("del dev e parent 1: prio 1 u32", unknown_word(10)),
            ],
        )

    def test_shows(self):
        self.assert_read(
            "",
            [
                ("tc qdisc show", READ),
                ("tc -s qdisc list dev e", READ),
                ("tc class ls", READ),
                ("tc -s class show", READ),
                ("tc filter show dev e", READ),
                ("tc -s filter ls", READ),
                ("tc qdisc show root", unknown_word(4)),
                ("tc -s -s", unknown_word(3)),
                ("tc -s", missing(3)),
                ("tc", missing(2)),
                ("tc qdisc", missing(3)),
                ("tc qdisc sh", unknown_word(3)),
                ("tc qdisc replace", unknown_word(3)),
                ("tc qdiscs", unknown_word(2)),
                ("tc -d", unknown_word(2)),
                ("TC", unknown_word(1)),
            ],
        )

    def test_script_lines(self):
        self.assert_read(
            "",
            [
                ("", READ),
                (" \t\r", READ),
                ("# pkt 1", READ),
                ("reap", READ),
                ("totals", READ),
                ("reap 1", unknown_word(2)),
                ("totals x", unknown_word(2)),
                ("Reap", unknown_word(1)),
                ("at", missing(2)),
                ("at 1 2", unknown_word(3)),
                ("poll", READ),
                ("poll 1 2", unknown_word(3)),
                ("pkt", missing(2)),
                ("pkt 1 len", unknown_word(3)),
                ("frame", missing(2)),
                ("frame 60", missing(3)),
                ("frame 60 4", bad_number(3)),
                ("frame 60 4g", bad_number(3)),
                ("frame 60 0x45", bad_number(3)),
                ("frame 60 aBc0", READ),
                ("frame 60 45 46", unknown_word(4)),
                ("frame x 45", bad_number(2)),
            ],
        )
