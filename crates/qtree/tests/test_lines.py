"""What lines of standard input come to before the senders of a drive run."""
from program import ProgramTest, as_bytes, not_done

# One sender with one packet, and what it comes to.
DRIVE = "qtree drive --senders 1 --count 1 --len 100 --ring 1"

ONE = """\
settled 1p 100b
arrived 1p 100b
given up 0
"""

# Lines, of which one is not done, each with what is reported of it.
FAULTS = [
    ("pkt 100", "line 1: fault 1 UnknownWord word 1\n"),
    # Each is a fault at another word where a script is played.
    ("pkt", "line 1: fault 1 UnknownWord word 1\n"),
    ("poll x", "line 1: fault 1 UnknownWord word 1\n"),
    ("\t at 5 5", "line 1: fault 1 UnknownWord word 1\n"),
    ("reap", "line 1: fault 1 UnknownWord word 1\n"),
    ("totals", "line 1: fault 1 UnknownWord word 1\n"),
    ("frame 60 00", "line 1: fault 1 UnknownWord word 1\n"),
    ("TC qdisc show", "line 1: fault 1 UnknownWord word 1\n"),
    (b"x\xff", "line 1: fault 6 BadUtf8 word 1\n"),
    (b"pkt \xff", "line 1: fault 1 UnknownWord word 1\n"),
    ("tc", "line 1: fault 2 Missing word 2\n"),
    (b"tc \xff", "line 1: fault 6 BadUtf8 word 2\n"),
    ("tc qdisc add dev eth0 root pfifo limit x", "line 1: fault 3 BadNumber word 9\n"),
    (
        "\n# all but the last are blank\n \t\r\ntc class add dev eth0 parent 1: classid 1:1 drr",
        "line 4: refused 12 NoQdisc\n",
    ),
]

# A root that takes no packet, without a newline at its end.
SHOWN = """\
# a root that holds nothing
tc qdisc add dev eth0 root handle 1: pfifo limit 0

tc qdisc show
tc -s qdisc show dev eth0"""

SHOWN_REPORT = """\
qdisc pfifo 1: root limit 0p
qdisc pfifo 1: root limit 0p
 arrived 0p 0b sent 0p 0b refused 0p 0b dropped 0p 0b queued 0p 0b
"""


class Lines(ProgramTest):
    def test_lines_that_are_not_those_of_tc(self):
        for lines, told in FAULTS:
            with self.subTest(as_bytes(lines)):
                self.assert_answers(DRIVE, lines, 1, told + ONE, not_done(1))

    def test_lines_of_tc_before_the_senders_run(self):
        self.assert_answers(DRIVE, SHOWN, 0, SHOWN_REPORT + ONE, "")
