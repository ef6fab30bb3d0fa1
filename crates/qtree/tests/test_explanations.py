"""What --explain says of lines that were not done, or do what their writer may not want."""
from program import ProgramTest, not_done

# A script of lines with faults.
FAULTS = """\
tc qdisc add dev eth0 root pfifo limt 5
tc qdisc add dev eth0 root tbf rate 1mbit burst 10kb
tc qdisc add dev eth0 root fq_codel ce_threshold 5ms
tc qdisc add dev eth0 root pfifo limit x
tc qdisc add dev eth0 root prio bands 17
tc qdisc add dev eth0 root root pfifo
tc qdisc add dev eth0 root pfifo dev eth0
tc qdisc add root pfifo
pol 3
poll 3 3
pkt
tc qdisc add dev eth0 root prio bands 2 priomap 0 1 2 0 0 0 0 0 0 0 0 0 0 0 0 0
tc filter add dev eth0 parent 1: pref 1 prio 2 flower classid 1:1
tc qdisc replace dev eth0 root pfifo
"""

FAULTS_REPORT = """\
line 1: fault 1 UnknownWord word 8
line 2: fault 2 Missing word 12
line 3: fault 1 UnknownWord word 8
line 4: fault 3 BadNumber word 9
line 5: fault 4 OutOfRange word 9
line 6: fault 5 Twice word 7
line 7: fault 1 UnknownWord word 8
line 8: fault 2 Missing word 6
line 9: fault 1 UnknownWord word 1
line 10: fault 1 UnknownWord word 3
line 11: fault 2 Missing word 2
line 12: fault 4 OutOfRange word 13
line 13: fault 5 Twice word 10
line 14: fault 1 UnknownWord word 3
"""

FAULTS_EXPLAINED = """\
line 1: tc qdisc add dev eth0 root pfifo limt 5
                                         ^^^^
  limt is no option of pfifo; did you mean limit?
line 2: tc qdisc add dev eth0 root tbf rate 1mbit burst 10kb
                                                             ^
  a tbf needs limit or latency.
line 3: tc qdisc add dev eth0 root fq_codel ce_threshold 5ms
                                            ^^^^^^^^^^^^
  tc has ce_threshold, qtree does not.
line 4: tc qdisc add dev eth0 root pfifo limit x
                                               ^
  x is no value of limit, which takes decimal digits alone.
line 5: tc qdisc add dev eth0 root prio bands 17
                                              ^^
  17 is out of range: bands takes 2 to 16.
line 6: tc qdisc add dev eth0 root root pfifo
                                   ^^^^
  root was given before.
line 7: tc qdisc add dev eth0 root pfifo dev eth0
                                         ^^^
  dev has to stand before pfifo.
line 8: tc qdisc add root pfifo
                                ^
  tc qdisc add needs dev.
line 9: pol 3
        ^^^
  pol begins no line; words are not shortened: write poll.
line 10: poll 3 3
                ^
  3 is one word too many: the line is whole before it.
line 11: pkt
             ^
  pkt needs a value: decimal digits alone.
line 12: tc qdisc add dev eth0 root prio bands 2 priomap 0 1 2 0 0 0 0 0 0 0 0 0 0 0 0 0
                                                             ^
  2 is out of range: priomap takes bands below the number of bands.
line 13: tc filter add dev eth0 parent 1: pref 1 prio 2 flower classid 1:1
                                                 ^^^^
  prio stands beside pref, and a line has one of them.
line 14: tc qdisc replace dev eth0 root pfifo
                  ^^^^^^^
  tc has replace, qtree does not: use change, or del and add.
"""

# Lines with words of tc's, words that are shortened or mistyped, values with other units, and comments behind a command.
MEANT = """\
tc qd add dev eth0 root pfifo
tc qdisc add dev eth0 root pfifo lmiit 5
tc class replace dev eth0 parent 1: classid 1:1 drr
tc filter replace dev eth0 parent 1: prio 1 flower classid 1:1
tc filter add dev eth0 parent 1: prio 1 handle 1 fw classid 1:1
tc filter add dev eth0 parent 1: prio 1 handle 1 flower classid 1:1
tc qdisc add dev eth0 root tbf rate 1mbi burst 10kb latency 5ms
tc qdisc add dev eth0 root tbf rate 1mbit burst 10kib latency 5ms
tc qdisc add dev eth0 root fq_codel target 5min
tc qdisc add dev eth0 root fq_codel target 1000000001
poll # three times
pkt 100 # a packet
tc -stats qdisc show
polll
"""

MEANT_REPORT = """\
line 1: fault 1 UnknownWord word 2
line 2: fault 1 UnknownWord word 8
line 3: fault 1 UnknownWord word 3
line 4: fault 1 UnknownWord word 3
line 5: fault 1 UnknownWord word 10
line 6: fault 1 UnknownWord word 10
line 7: fault 3 BadNumber word 9
line 8: fault 3 BadNumber word 11
line 9: fault 3 BadNumber word 9
line 10: fault 4 OutOfRange word 9
line 11: fault 3 BadNumber word 2
line 12: fault 1 UnknownWord word 3
line 13: fault 1 UnknownWord word 2
line 14: fault 1 UnknownWord word 1
"""

# A backslash at an end joins two lines.
MEANT_EXPLAINED = """\
line 1: tc qd add dev eth0 root pfifo
           ^^
  qd is no object of tc; words are not shortened: write qdisc.
line 2: tc qdisc add dev eth0 root pfifo lmiit 5
                                         ^^^^^
  lmiit is no option of pfifo; did you mean limit?
line 3: tc class replace dev eth0 parent 1: classid 1:1 drr
                 ^^^^^^^
  tc has replace, qtree does not: use change, or del and add.
line 4: tc filter replace dev eth0 parent 1: prio 1 flower classid 1:1
                  ^^^^^^^
  tc has replace, qtree does not: use del and add.
line 5: tc filter add dev eth0 parent 1: prio 1 handle 1 fw classid 1:1
                                                ^^^^^^
  tc has the filter fw, qtree does not; the handle is one of its words. Use flower.
line 6: tc filter add dev eth0 parent 1: prio 1 handle 1 flower classid 1:1
                                                ^^^^^^
  tc has handle, qtree does not.
line 7: tc qdisc add dev eth0 root tbf rate 1mbi burst 10kb latency 5ms
                                            ^^^^
  1mbi is no value of rate, which takes a rate, as 10mbit or 1mbps; \
its units are bit, kbit, mbit, gbit and tbit of bits a second, bps, kbps, mbps, gbps and tbps of bytes a second, and without one it is bits a second.
line 8: tc qdisc add dev eth0 root tbf rate 1mbit burst 10kib latency 5ms
                                                        ^^^^^
  10kib is no value of burst, which takes a size, as 1500 or 10kb; \
its units are b, k, kb, m, mb, g and gb of bytes, kbit, mbit and gbit of bits, and without one it is bytes.
line 9: tc qdisc add dev eth0 root fq_codel target 5min
                                                   ^^^^
  5min is no value of target, which takes a time, as 5ms or 100us; \
its units are us, usec, usecs, ms, msec, msecs, s, sec and secs, and without one it is microseconds.
line 10: tc qdisc add dev eth0 root fq_codel target 1000000001
                                                    ^^^^^^^^^^
  1000000001 is out of range: target takes 0 to 1000s; \
its units are us, usec, usecs, ms, msec, msecs, s, sec and secs, and without one it is microseconds.
line 11: poll # three times
              ^
  a comment needs a line of its own, which begins with #.
line 12: pkt 100 # a packet
                 ^
  a comment needs a line of its own, which begins with #.
line 13: tc -stats qdisc show
            ^^^^^^
  tc has -stats, qtree does not: use -s.
line 14: polll
         ^^^^^
  polll begins no line; did you mean poll?
"""

# Lines that are done, and do what their writer may not want.
REMARKED = """\
tc qdisc add dev eth0 root handle 1: tbf rate 1mbit burst 1000 latency 50ms
tc qdisc change handle 1: dev eth1 tbf rate 1mbit buffer 1513 latency 50ms
tc qdisc change handle 1: dev eth0 tbf rate 1mbit burst 1514 latency 50ms
tc qdisc add dev eth1 root pfifo
"""

REMARKED_REPORT = """\
line 4: refused 11 Exists
"""

REMARKED_EXPLAINED = """\
line 1: tc qdisc add dev eth0 root handle 1: tbf rate 1mbit burst 1000 latency 50ms
                                                                  ^^^^
  the burst is below the mtu of 1514 bytes: each packet longer than the burst is lost. Give a burst of the mtu or more.
line 2: tc qdisc change handle 1: dev eth1 tbf rate 1mbit buffer 1513 latency 50ms
                                                                 ^^^^
  the burst is below the mtu of 1514 bytes: each packet longer than the burst is lost. Give a burst of the mtu or more.
line 2: tc qdisc change handle 1: dev eth1 tbf rate 1mbit buffer 1513 latency 50ms
                                      ^^^^
  a line before this one has another name. A script has one device, and each line is for it, whatever name it has.
line 4: tc qdisc add dev eth1 root pfifo
                              ^^^^
  a qdisc was added there before. Change it by tc qdisc change, or remove it by tc qdisc del first.
"""

# Comments that name devices, and lines that name one, also where the name begins as a comment does.
COMMENTED = """\
# tc qdisc del dev eth9 root
 \t#dev eth8
tc qdisc add dev #eth0 root handle 1: drr
# dev eth7
tc class add dev #eth0 parent 1: classid 1:1 drr quantum 1514
tc qdisc add dev eth1 parent 1:1 pfifo
"""

COMMENTED_EXPLAINED = """\
line 6: tc qdisc add dev eth1 parent 1:1 pfifo
                         ^^^^
  a line before this one has another name. A script has one device, and each line is for it, whatever name it has.
"""

# A line that is done, with a burst below an mtu of 100 bytes.
SMALL = """\
tc qdisc add dev eth0 root tbf rate 1mbit burst 99 latency 50ms"""

SMALL_EXPLAINED = """\
line 1: tc qdisc add dev eth0 root tbf rate 1mbit burst 99 latency 50ms
                                                        ^^
  the burst is below the mtu of 100 bytes: each packet longer than the burst is lost. Give a burst of the mtu or more.
"""

# A drive of lines, of which two are not done.
DRIVEN = """\
tc qdisc add dev eth0 root pfifo
poll
tc qdisc add dev eth0 root pfifo
"""

DRIVEN_REPORT = """\
line 2: fault 1 UnknownWord word 1
line 3: refused 11 Exists
settled 0p 0b
arrived 0p 0b
given up 0
"""

DRIVEN_EXPLAINED = """\
line 2: poll
        ^^^^
  poll sets up no device; qtree drive reads lines of tc, blank ones and comments alone.
line 3: tc qdisc add dev eth0 root pfifo
                              ^^^^
  a qdisc was added there before. Change it by tc qdisc change, or remove it by tc qdisc del first.
"""

# Commands that are refused.
REFUSED = """\
tc qdisc add dev parent root handle 1: prio
tc qdisc add dev parent parent 5:1 handle 1: tbf rate 1mbit burst 10kb limit 5
tc qdisc add dev parent root handle 2: pfifo
tc class add dev eth0 parent 1: classid 1:9 drr
tc filter del dev eth0 parent 1: prio 3
"""

REFUSED_REPORT = """\
line 2: refused 10 NoParent
line 3: refused 11 Exists
line 4: refused 17 CannotChange
line 5: refused 21 NoFilter
"""

REFUSED_EXPLAINED = """\
line 2: tc qdisc add dev parent parent 5:1 handle 1: tbf rate 1mbit burst 10kb limit 5
                                       ^^^
  no qdisc has the major number of this parent. Add that qdisc first; tc qdisc show lists those that are there.
line 3: tc qdisc add dev parent root handle 2: pfifo
                                ^^^^
  a qdisc was added there before. Change it by tc qdisc change, or remove it by tc qdisc del first.
line 4: tc class add dev eth0 parent 1: classid 1:9 drr
                                                ^^^
  the classes of a prio or a tbf come with it. Those of a drr alone can be added, changed and removed.
line 5: tc filter del dev eth0 parent 1: prio 3
                                              ^
  no filter of the qdisc has this prio. tc filter show lists those that are there.
"""

# Two names of the device, of which one begins as the other.
ALIKE = """\
tc qdisc add dev eth10 root pfifo
tc qdisc change dev eth1 root pfifo limit 5
"""

ALIKE_EXPLAINED = """\
line 2: tc qdisc change dev eth1 root pfifo limit 5
                            ^^^^
  a line before this one has another name. A script has one device, and each line is for it, whatever name it has.
"""

# What is explained of a line that names a qdisc that is not there.
ABSENT = """\
^^^^
  no qdisc that was added has this place and this handle. tc qdisc show lists them; one of handle 0 came by itself, and add replaces it.
"""


# Words with bytes that are no text, or that no reader of a terminal wants to get, and what is said of them.
NO_TEXT = b"tc\tqdisc \xff\x1b[2J\r\ncaf\xc3\xa9\xe2\x80\xae x"

NO_TEXT_REPORT = """\
line 1: fault 6 BadUtf8 word 3
line 2: fault 1 UnknownWord word 1
"""

NO_TEXT_EXPLAINED = r"""line 1: tc\x09qdisc \xff\x1b[2J
                    ^^^^^^^^^^^
  the word is not UTF-8.
line 2: café\xe2\x80\xae x
        ^^^^^^^^^^^^^^^^
  café\xe2\x80\xae begins no line; a line begins with at, pkt, frame, poll, reap, totals or tc.
"""

EXPLAIN = "qtree play --explain"

DRIVE = "qtree drive --senders 1 --count 0 --len 1 --ring 1"


class Explanations(ProgramTest):
    def test_faults_are_explained(self):
        self.assert_answers(EXPLAIN, FAULTS, 1, FAULTS_REPORT, FAULTS_EXPLAINED)
        self.assert_answers("qtree play", FAULTS, 1, FAULTS_REPORT, not_done(14))

    def test_what_was_meant_is_named(self):
        self.assert_answers(EXPLAIN, MEANT, 1, MEANT_REPORT, MEANT_EXPLAINED)

    def test_lines_that_were_done_are_remarked_upon(self):
        self.assert_answers(EXPLAIN, REMARKED, 1, REMARKED_REPORT, REMARKED_EXPLAINED)
        self.assert_answers("qtree play", REMARKED, 1, REMARKED_REPORT, not_done(1))

    def test_comments_name_no_device(self):
        self.assert_answers(EXPLAIN, COMMENTED, 0, "", COMMENTED_EXPLAINED)

    def test_lines_of_a_clean_report_are_remarked_upon(self):
        self.assert_answers("qtree play --explain --mtu 100", SMALL, 0, "", SMALL_EXPLAINED)
        self.assert_answers("qtree play --mtu 100", SMALL, 0, "", "")
        self.assert_answers("qtree play --explain --mtu 99", SMALL, 0, "", "")
        report = "settled 0p 0b\narrived 0p 0b\ngiven up 0\n"
        self.assert_answers(f"{DRIVE} --explain --mtu 100", SMALL, 0, report, SMALL_EXPLAINED)

    def test_lines_of_a_drive_are_explained(self):
        self.assert_answers(DRIVE, DRIVEN, 1, DRIVEN_REPORT, not_done(2))
        self.assert_answers(f"{DRIVE} --explain", DRIVEN, 1, DRIVEN_REPORT, DRIVEN_EXPLAINED)

    def test_refusals_are_explained(self):
        self.assert_answers(EXPLAIN, REFUSED, 1, REFUSED_REPORT, REFUSED_EXPLAINED)

    def test_a_name_that_begins_as_another_is_another(self):
        self.assert_answers(EXPLAIN, ALIKE, 0, "", ALIKE_EXPLAINED)

    def test_each_of_many_refusals_is_explained(self):
        """However many lines are refused, each is explained."""
        script = "tc qdisc del dev eth0 root\n" * 100
        report, told = "", ""
        for number in range(1, 101):
            report += f"line {number}: refused 12 NoQdisc\n"
            place = f"line {number}: tc qdisc del dev eth0 "
            told += f"{place}root\n{' ' * len(place)}{ABSENT}"
        self.assert_answers(EXPLAIN, script, 1, report, told)

    def test_bytes_that_are_no_text(self):
        self.assert_answers(EXPLAIN, NO_TEXT, 1, NO_TEXT_REPORT, NO_TEXT_EXPLAINED)

    def test_long_lines_are_cut(self):
        """Of a line of 605 bytes, of which the first 300 are blanks, those around the word are told."""
        script = " " * 300 + "pol 3" + "3" * 300
        told = f"line 1: ...{' ' * 98}pol 3{'3' * 97}...\n{' ' * 109}^^^\n  pol begins no line; words are not shortened: write poll.\n"
        self.assert_answers(EXPLAIN, script, 1, "line 1: fault 1 UnknownWord word 1\n", told)

    def test_lines_that_were_done_are_not_explained(self):
        self.assert_answers(EXPLAIN, "# a comment\n\npkt 100\npoll\n", 0, "sent 1 100\n", "")
