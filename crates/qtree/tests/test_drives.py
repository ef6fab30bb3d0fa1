"""What drives come to."""
from program import ProgramTest


def drive(senders, count, length, ring):
    """A command line: the senders of a load, the packets of each, their length and the places of a ring."""
    return f"qtree drive --senders {senders} --count {count} --len {length} --ring {ring}"


# Loads, with what is reported.
LOADS = [
    (drive(64, 0, 1, 1), "settled 0p 0b\narrived 0p 0b\ngiven up 0\n"),
    (drive(1, 1000, 1, 1), "settled 1000p 1000b\narrived 1000p 1000b\ngiven up 0\n"),
    (drive(64, 20, 1, 1), "settled 1280p 1280b\narrived 1280p 1280b\ngiven up 0\n"),
    # As many as a sender may have.
    (drive(1, 1_000_000, 1, 65536), "settled 1000000p 1000000b\narrived 1000000p 1000000b\ngiven up 0\n"),
    # Packets longer than the mtu arrive and are refused.
    (drive(2, 3, 65535, 65536), "settled 6p 393210b\narrived 6p 393210b\ngiven up 0\n"),
]

# A tree whose filter no packet of a load matches: all of them are refused, and settled all the same.
REFUSING = """\
tc qdisc add dev eth0 root handle 1: drr
tc class add dev eth0 parent 1: classid 1:1 drr
tc qdisc add dev eth0 parent 1:1 handle 10: fq_codel
tc filter add dev eth0 parent 1: prio 1 flower src_port 1 classid 1:1
"""

REFUSING_REPORT = """\
settled 4000p 400000b
arrived 4000p 400000b
given up 0
device arrived 4000p 400000b sent 0p 0b refused 4000p 400000b dropped 0p 0b queued 0p 0b
qdisc drr 1: root
 arrived 4000p 400000b sent 0p 0b refused 4000p 400000b dropped 0p 0b queued 0p 0b
qdisc fq_codel 10: parent 1:1 limit 10240p flows 1024 quantum 1514 target 5000000ns interval 100000000ns ecn drop_batch 1
 arrived 0p 0b sent 0p 0b refused 0p 0b dropped 0p 0b queued 0p 0b marked 0p 0b
"""

LONGER_THAN_THE_MTU_REPORT = """\
settled 2p 3030b
arrived 2p 3030b
given up 0
device arrived 2p 3030b sent 0p 0b refused 2p 3030b dropped 0p 0b queued 0p 0b
qdisc pfifo 0: root limit 1000p
 arrived 0p 0b sent 0p 0b refused 0p 0b dropped 0p 0b queued 0p 0b
"""


class Drives(ProgramTest):
    def test_four_senders_over_the_first_root(self):
        self.assert_answers(drive(4, 16, 100, 16), "", 0, "settled 64p 6400b\narrived 64p 6400b\ngiven up 0\n", "")

    def test_loads_that_are_empty_or_longer_than_their_ring(self):
        for line, report in LOADS:
            with self.subTest(line):
                self.assert_answers(line, "", 0, report, "")

    def test_every_packet_refused_and_the_qdiscs_shown(self):
        self.assert_answers(drive(4, 1000, 100, 16) + " --show", REFUSING, 0, REFUSING_REPORT, "")

    def test_packets_longer_than_the_mtu_are_seen_at_the_device(self):
        self.assert_answers(drive(1, 2, 1515, 1) + " --show", "", 0, LONGER_THAN_THE_MTU_REPORT, "")
