"""Drives that go on until nothing goes any more, at times that are computed by hand."""
import re

from program import ProgramTest

# A byte of tokens a second, and no more than 100 at first: so that a turn sends a packet of 1000 bytes, a drive would have to take
# 900,000,000 turns.
SLOW = """\
tc qdisc add dev eth0 root handle 1: tbf rate 8 burst 100 limit 10000
tc qdisc change dev eth0 root handle 1: tbf rate 8 burst 1514 limit 10000
"""

SLOW_REPORT = """\
settled 3p 3000b
arrived 3p 3000b
given up 0
drained 3p 3000b at 2900000000000
device arrived 3p 3000b sent 3p 3000b refused 0p 0b dropped 0p 0b queued 0p 0b
qdisc tbf 1: root rate 8bit burst 1514b limit 10000b
 arrived 3p 3000b sent 3p 3000b refused 0p 0b dropped 0p 0b queued 0p 0b
qdisc bfifo 0: parent 1:1 limit 10000b
 arrived 3p 3000b sent 3p 3000b refused 0p 0b dropped 0p 0b queued 0p 0b
"""

# The report where nobody asks for what waits, without the qdiscs and with them.
WAITING_REPORT = """\
settled 3p 3000b
arrived 3p 3000b
given up 0
"""

WAITING_REPORT_SHOWN = """\
settled 3p 3000b
arrived 3p 3000b
given up 0
device arrived 3p 3000b sent 0p 0b refused 0p 0b dropped 0p 0b queued 3p 3000b
qdisc tbf 1: root rate 8bit burst 1514b limit 10000b
 arrived 3p 3000b sent 0p 0b refused 0p 0b dropped 0p 0b queued 3p 3000b
qdisc bfifo 0: parent 1:1 limit 10000b
 arrived 3p 3000b sent 0p 0b refused 0p 0b dropped 0p 0b queued 3p 3000b
"""

# Tokens as slow over a prio, whose second band, that of priority 0, is an fq_codel.
SLOW_FLOWS = """\
tc qdisc add dev eth0 root handle 1: tbf rate 8 burst 100 limit 10000
tc qdisc change dev eth0 root handle 1: tbf rate 8 burst 1514 limit 10000
tc qdisc add dev eth0 parent 1:1 handle 2: prio
tc qdisc add dev eth0 parent 2:2 handle 3: fq_codel
"""

SLOW_FLOWS_REPORT = """\
settled 6p 6000b
arrived 6p 6000b
given up 0
drained 5p 5000b at 4900000000000
"""

# A bit of tokens a second, and 1 byte at first. Up to the latest time, 2^62 ns, it brings enough for 8796 packets of 65535 bytes, the last
# at 8796 * 65535 * 8 - 8 seconds, and not for a further one.
SLOWEST = """\
tc qdisc add dev eth0 root handle 1: tbf rate 1 burst 1 limit 4294967295
tc qdisc change dev eth0 root handle 1: tbf rate 1 burst 65535 limit 4294967295
"""

SLOWEST_REPORT = """\
settled 8800p 576708000b
arrived 8800p 576708000b
given up 0
drained 8796p 576445860b at 4611566872000000000
device arrived 8800p 576708000b sent 8796p 576445860b refused 0p 0b dropped 0p 0b queued 4p 262140b
qdisc tbf 1: root rate 1bit burst 65535b limit 4294967295b
 arrived 8800p 576708000b sent 8796p 576445860b refused 0p 0b dropped 0p 0b queued 4p 262140b
qdisc bfifo 0: parent 1:1 limit 4294967295b
 arrived 8800p 576708000b sent 8796p 576445860b refused 0p 0b dropped 0p 0b queued 4p 262140b
"""

# Reports that end in a clock, which differs from run to run. So does in the second how many of the packets have waited for the drain.
REFUSED_REPORT = """\
settled 6p 600b
arrived 6p 600b
given up 0
drained 0p 0b at ([0-9]+)
"""

THREE_REPORT = """\
settled 3p 300b
arrived 3p 300b
given up 0
drained (?:0p 0b|1p 100b|2p 200b|3p 300b) at ([0-9]+)
"""

# So many drives are tried, and as many more as it takes until a clock is no number of milliseconds, up to so many.
FEWEST_DRIVES, MOST_DRIVES = 8, 64


def drained(mtu, senders, count, length):
    """A command line: senders with a ring of 16 places, their packets and the length of each, over a device that is drained at the end."""
    device = f"--mtu {mtu} --txqueuelen 1000 --seed 0 --record 0"
    return f"qtree drive --senders {senders} --count {count} --len {length} --ring 16 --until-idle {device}"


class Drained(ProgramTest):
    def assert_clock(self, line, script, form):
        """A run whose report has this form; the clock at its end."""
        status, output, errors = self.answer(line, script)
        row = f"{line}, with the script {script!r}"
        found = re.fullmatch(form, output.decode())
        self.assertTrue(found, f"{row}: the report was to have the form\n{form}\nand is\n{output!r}")
        self.assert_is(row, (status, output, errors), (0, output, b""))
        return int(found[1])

    def test_what_waits_for_tokens_goes_as_they_come(self):
        """The first packet lacks 900 bytes, which come in 900 s, and each other one 1000."""
        self.assert_answers(drained(1514, 1, 3, 1000) + " --show", SLOW, 0, SLOW_REPORT, "")

    def test_what_codel_drops_is_not_drained(self):
        """Of six packets the third is dropped.

        Packet 1 is in hand before the drain begins, and goes at 900 s. Then packet 2 is tested, which is the first to be late, and goes at
        1900 s. An interval later packet 3 is dropped, with 3000 bytes behind it, and 4 is sent. Behind 5 and 6 there is less than an mtu.
        """
        self.assert_answers(drained(1514, 1, 6, 1000), SLOW_FLOWS, 0, SLOW_FLOWS_REPORT, "")

    def test_what_waits_stays_where_nobody_asks(self):
        line = "qtree drive --senders 1 --count 3 --len 1000 --ring 16"
        self.assert_answers(line, SLOW, 0, WAITING_REPORT, "")
        self.assert_answers(line + " --show", SLOW, 0, WAITING_REPORT_SHOWN, "")

    def test_what_never_goes_by_waiting_stays(self):
        self.assert_answers(drained(65535, 1, 8800, 65535) + " --show", SLOWEST, 0, SLOWEST_REPORT, "")

    def test_what_is_refused_is_not_drained(self):
        self.assert_clock(drained(1514, 2, 3, 100), "tc qdisc add dev eth0 root pfifo limit 0\n", REFUSED_REPORT)

    def test_the_clock_of_a_drive_is_that_of_its_turns(self):
        """A drive begins at 0 and takes a turn each microsecond.

        So the clock at its end is a number of microseconds, below a second, and not each time a number of milliseconds.
        """
        ends = []
        while len(ends) < FEWEST_DRIVES or (len(ends) < MOST_DRIVES and not any(end % 1_000_000 for end in ends)):
            ends.append(self.assert_clock(drained(1514, 1, 3, 100), "", THREE_REPORT))
        self.assertFalse(any(end % 1000 for end in ends), f"not each clock is a number of microseconds: {ends}")
        self.assertLess(max(ends), 1_000_000_000, "a clock of a second or more")
        self.assertTrue(any(end % 1_000_000 for end in ends), f"each clock is a number of milliseconds: {ends}")
