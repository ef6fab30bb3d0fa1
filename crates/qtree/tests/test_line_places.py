"""One long line of each kind, and how it is answered where it ends before one of its words, or has another word in its place.

The answers are what the grammar gives: q_worked_examples has the same lines, with their answers computed from it.
"""
from typing import NamedTuple

from program import as_bytes
from reading import READ, LineTest, bad_number, bad_utf8, missing, out_of_range, twice, unknown_word


class Long(NamedTuple):
    """A line, and the letters of its answers where it ends before a word, and where that word is `x`, a number of twenty digits, or the
    word before the last again."""

    line: str
    ends: str
    no_word: str
    large: str
    again: str


LONG_LINES = [
    Long(
        line="tc qdisc add dev eth0 root handle 1: pfifo limit 5",
        ends=".MMMMMMMM.M.",
        no_word="UUUUmUUBUUBU",
        large="UUUUOUUOUUOU",
        again=".UUUmTUBTUBT",
    ),
    Long(
        line="tc qdisc add dev eth0 parent 1:1 handle 2: bfifo limit 5kb",
        ends=".MMMMMMMMM.M.",
        no_word="UUUUmUBUBUUBU",
        large="UUUUOUBUOUUOU",
        again=".UUUmTBTOTUBT",
    ),
    Long(
        line="tc qdisc add dev eth0 root handle 1: prio bands 4 priomap 0 1 2 3 0 1 2 3 0 1 2 3 0 1 2 3",
        ends=".MMMMMMMM.M.MMMMMMMMMMMMMMMM.",
        no_word="UUUUmUUBUUBUBBBBBBBBBBBBBBBBU",
        large="UUUUOUUOUUOUOOOOOOOOOOOOOOOOU",
        again=".UUUmTUBTUBTOBmmmmmmmmmmmmm.U",
    ),
    Long(
        line="tc qdisc change dev eth0 root handle 1: tbf rate 1mbit burst 10kb latency 70ms",
        ends=".MMMMMMMMMMMMMM.",
        no_word="UUUUmUUBUUBUBUBU",
        large="UUUUOUUOUUOUOUOU",
        again=".UUUmTUBTUBTmTBT",
    ),
    Long(
        line="tc qdisc add dev eth0 root handle 1: drr",
        ends=".MMMMMMMM.",
        no_word="UUUUmUUBUU",
        large="UUUUOUUOUU",
        again=".UUUmTUBTU",
    ),
    Long(
        line="tc qdisc add dev eth0 root fq_codel limit 1 flows 2 quantum 3 target 4 interval 5 noecn drop_batch 6",
        ends=".MMMMMM.M.M.M.M.M..M.",
        no_word="UUUUmUUUBUBUBUBUBUUBU",
        large="UUUUOUUUOUOUOUOUOUUOU",
        again=".UUUmTUUBT.T.T.T.TUBT",
    ),
    Long(
        line="tc qdisc del dev eth0 root handle 1: prio",
        ends=".MMMMM.M..",
        no_word="UUUUmUUBUU",
        large="UUUUOUUOUU",
        again=".UUUmTUBTU",
    ),
    Long(
        line="tc class add dev eth0 parent 1: classid 1:1 drr quantum 5",
        ends=".MMMMMMMMM.M.",
        no_word="UUUUmUBUBUUBU",
        large="UUUUOUOUBUUOU",
        again=".UUUmTBTBTUBT",
    ),
    Long(
        line="tc filter add dev eth0 parent 1: prio 1 protocol ip flower ip_proto udp "
        "src_ip 1.2.3.4/8 dst_ip 5.6.7.8 src_port 1 dst_port 2 classid 1:1",
        ends=".MMMMMMMMMMMMMMMMMMMMMMM.",
        no_word="UUUUmUBUBUUUUBUBUBUBUBUBU",
        large="UUUUOUOUOUUUUOUBUBUOUOUBU",
        again=".UUUmTBTBTUTUBTBTmTBTmTBT",
    ),
    Long(
        line="tc -s qdisc show dev eth0",
        ends=".MMM.M.",
        no_word="UUUUU.U",
        large="UUUUUOU",
        again=".UUUU.T",
    ),
    Long(
        line="pkt 100 hash 1 prio 2 ip_proto 6 src_ip ::1 dst_ip ::2 src_port 3 dst_port 4 ecn 1",
        ends=".M.M.M.M.M.M.M.M.M.",
        no_word="UBUBUBUBUBUBUBUBUBU",
        large="UOUOUOUOUBUBUOUOUOU",
        again=".BU.T.T.TBT.TBT.TOT",
    ),
    Long(
        line="frame 60 45",
        ends=".MM.",
        no_word="UBBU",
        large="UO.U",
        again=".BBU",
    ),
    Long(
        line="poll 5",
        ends="...",
        no_word="UBU",
        large="UOU",
        again=".BU",
    ),
]


def letter(word, answer):
    """A letter for the answer to a line that goes wrong at a word: `.` where it is read, `m` where the word behind it is missing."""
    letters = {
        READ: ".",
        unknown_word(word): "U",
        bad_number(word): "B",
        out_of_range(word): "O",
        twice(word): "T",
        bad_utf8(word): "8",
        missing(word): "M",
        missing(word + 1): "m",
    }
    return letters.get(answer, "?")


def last_but_one(words):
    """The word before the last, or the only one, or none."""
    return words[max(len(words) - 2, 0)] if words else ""


class LinePlaces(LineTest):
    def assert_letters(self, behind, letters_of):
        """The answers to each long line where its first words, none to all of them, have one more behind them: what `behind` makes of
        them. They are the letters that `letters_of` has of the line."""
        for long in LONG_LINES:
            words = long.line.split(" ")
            fronts = [words[:count] for count in range(len(words) + 1)]
            lines = [as_bytes("".join(f"{word} " for word in front)) + as_bytes(behind(front)) for front in fronts]
            answers = self.answers_to(lines)
            with self.subTest(long.line):
                self.assertEqual("".join(letter(word, answer) for word, answer in enumerate(answers, 1)), letters_of(long))

    def test_lines_that_end(self):
        self.assert_letters(lambda front: "", lambda long: long.ends)

    def test_words_that_are_none(self):
        self.assert_letters(lambda front: "x", lambda long: long.no_word)

    def test_large_numbers(self):
        self.assert_letters(lambda front: "99999999999999999999", lambda long: long.large)

    def test_words_again(self):
        self.assert_letters(last_but_one, lambda long: long.again)

    def test_bytes_that_are_no_utf8(self):
        """Such a word is the fault wherever it is."""
        self.assert_letters(lambda front: b"\xff", lambda long: "8" * len(long.ends))
