"""Whole runs: scripts with the reports that follow from docs/LANGUAGE.md."""
from program import TWO_OF_THREE, TWO_OF_THREE_REPORT, ProgramTest, not_done

# A name, the script, its report, and how many of its lines are not done.
SCRIPTS = [
    ("empty", "", "", 0),
    ("two of three packets", TWO_OF_THREE, TWO_OF_THREE_REPORT, 0),
    (
        "implicit root replaced",
        """\
pkt 100
tc qdisc add dev eth0 root pfifo limit 2
poll
tc qdisc show dev eth0
tc qdisc add dev eth0 root pfifo
""",
        """\
idle
qdisc pfifo 8001: root limit 2p
line 5: refused 11 Exists
""",
        1,
    ),
    (
        "too long",
        """\
pkt 2000
poll
reap
""",
        """\
idle
lost 1 2000 TooLong
""",
        0,
    ),
    (
        "limit 0",
        """\
tc qdisc add dev eth0 root pfifo limit 0
pkt 100
poll
tc -s qdisc ls
""",
        """\
idle
qdisc pfifo 8001: root limit 0p
 arrived 1p 100b sent 0p 0b refused 1p 100b dropped 0p 0b queued 0p 0b
""",
        0,
    ),
    (
        "the longest packet",
        """\
pkt 1514
pkt 1515
pkt 7
poll
tc -s qdisc show
""",
        """\
sent 1 1514
qdisc pfifo 0: root limit 1000p
 arrived 2p 1521b sent 1p 1514b refused 0p 0b dropped 0p 0b queued 1p 7b
""",
        0,
    ),
    (
        "purged packets keep their numbers",
        """\
pkt 100
tc qdisc add dev eth0 root handle Fffe: pfifo
pkt 60
poll
tc -s qdisc show
""",
        """\
sent 2 60
qdisc pfifo fffe: root limit 1000p
 arrived 1p 60b sent 1p 60b refused 0p 0b dropped 0p 0b queued 0p 0b
""",
        0,
    ),
    (
        "handle of two digits",
        """\
tc qdisc add dev eth0 root handle 00A0 pfifo limit 4294967295
tc qdisc show
""",
        """\
qdisc pfifo a0: root limit 4294967295p
""",
        0,
    ),
    (
        "handle of three digits",
        """\
tc qdisc add dev eth0 root handle 0bcd:0 pfifo limit 5
tc qdisc show
""",
        """\
qdisc pfifo bcd: root limit 5p
""",
        0,
    ),
]

# The same of scripts with faults, and of one that is read in spite of its blanks.
FAULTS = [
    (
        "line ends, tabs and a comment",
        b"# two \xff\r\n"
        b"\r\n"
        b"\tpkt\t100\r\n"
        b" pkt 200 \r\n"
        b"at 9\r\n"
        b"poll 2",
        """\
sent 1 100
sent 2 200
""",
        0,
    ),
    (
        "a zero byte",
        b"pkt\0 100\n"
        b"pkt 100\0\n"
        b"poll\n",
        """\
line 1: fault 1 UnknownWord word 1
line 2: fault 3 BadNumber word 2
idle
""",
        2,
    ),
    (
        "no utf-8",
        b"x\xff\n"
        b"foo \xff\n"
        b"pkt \xff\n"
        b"poll",
        """\
line 1: fault 6 BadUtf8 word 1
line 2: fault 1 UnknownWord word 1
line 3: fault 6 BadUtf8 word 2
idle
""",
        3,
    ),
    (
        "forty digits",
        """\
pkt 1234567890123456789012345678901234567890
pkt 0000000000000000000000000000000000000064
poll
""",
        """\
line 1: fault 4 OutOfRange word 2
sent 1 64
""",
        1,
    ),
    (
        "ranges",
        """\
at 4611686018427387904
at 4611686018427387905
pkt 0
pkt 65536
poll 0
poll 100001
""",
        """\
line 2: fault 4 OutOfRange word 2
line 3: fault 4 OutOfRange word 2
line 4: fault 4 OutOfRange word 2
line 5: fault 4 OutOfRange word 2
line 6: fault 4 OutOfRange word 2
""",
        5,
    ),
    (
        "a faulty add leaves no root",
        """\
tc qdisc add dev eth0 root pfifo limit x
tc qdisc add dev eth0 root root pfifo
tc qdisc add dev eth0 root netem
tc qdisc add dev eth0 root
tc qdisc add dev eth0 root handle ffff: pfifo
tc qdisc show
""",
        """\
line 1: fault 3 BadNumber word 9
line 2: fault 5 Twice word 7
line 3: fault 1 UnknownWord word 7
line 4: fault 2 Missing word 7
line 5: fault 4 OutOfRange word 8
qdisc pfifo 0: root limit 1000p
""",
        5,
    ),
]

SHORT_PACKETS = """\
pkt 100
pkt 101
pkt 50
poll 2
tc -s qdisc show
"""

SHORT_PACKETS_REPORT = """\
sent 1 100
idle
qdisc pfifo 0: root limit 1p
 arrived 2p 150b sent 1p 100b refused 1p 50b dropped 0p 0b queued 0p 0b
"""

PACKETS_THAT_STAY_REPORT = """\
qdisc pfifo 1: root limit 100000p
 arrived 65537p 65537b sent 0p 0b refused 0p 0b dropped 0p 0b queued 65537p 65537b
"""


class Runs(ProgramTest):
    def assert_reports(self, rows):
        for name, script, report, lines in rows:
            with self.subTest(name):
                self.assert_answers("qtree play", script, int(lines > 0), report, not_done(lines) if lines else "")

    def test_scripts_and_their_reports(self):
        self.assert_reports(SCRIPTS)

    def test_faults_and_their_words(self):
        self.assert_reports(FAULTS)

    def test_settings_of_the_device(self):
        line = "qtree play --mtu 100 --txqueuelen 1 --seed 7 --record 0"
        self.assert_answers(line, SHORT_PACKETS, 0, SHORT_PACKETS_REPORT, "")

    def test_long_lines_and_long_reports(self):
        """A line of one word of 1 MiB, which is a fault, one with a number as long, and 100,000 polls."""
        zeros = "0" * 1_048_576
        script = f"{zeros}x\npkt {zeros}9\npoll 100000\n"
        report = "line 1: fault 1 UnknownWord word 1\nsent 1 9\n" + "idle\n" * 99_999
        self.assert_answers("qtree play", script, 1, report, not_done(1))

    def test_more_packets_than_16_bits_count_stay_queued(self):
        root = "tc qdisc add dev eth0 root handle 1: pfifo limit 100000\n"
        script = root + "pkt 1\n" * 65_537 + "tc -s qdisc show\n"
        self.assert_answers("qtree play", script, 0, PACKETS_THAT_STAY_REPORT, "")
