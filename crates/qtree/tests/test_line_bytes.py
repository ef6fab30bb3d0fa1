"""Lines of any bytes, numbers of any length, and what is reported of each fault."""
from program import not_done
from reading import READ, LineTest, bad_number, bad_utf8, missing, out_of_range, unknown_word

# A line with each fault, and its text.
TEXTS = [
    ("x", "fault 1 UnknownWord word 1"),
    ("tc", "fault 2 Missing word 2"),
    ("tc qdisc add dev e root pfifo limit x", "fault 3 BadNumber word 9"),
    ("tc qdisc add dev e root prio priomap 0 16 0 16 0 16 0 16 0 16 0 16 0 16 0 16 bands 16", "fault 4 OutOfRange word 10"),
    ("tc qdisc add dev e dev f root pfifo", "fault 5 Twice word 6"),
    (b"pkt \xff", "fault 6 BadUtf8 word 2"),
]


class LineBytes(LineTest):
    def test_frames_that_are_not_read(self):
        self.assert_read(
            "",
            [
                (b"frame", missing(2)),
                (b"frame 60", missing(3)),
                (b"frame 0 45", out_of_range(2)),
                (b"frame 65536 45", out_of_range(2)),
                (b"frame x 45", bad_number(2)),
                (b"frame 60 4", bad_number(3)),
                (b"frame 60 450", bad_number(3)),
                (b"frame 60 4g", bad_number(3)),
                (b"frame 60 0x45", bad_number(3)),
                (b"frame 60 45:00", bad_number(3)),
                (b"frame 60 45 00", unknown_word(4)),
                (b"frame 60 \xff\xff", bad_utf8(3)),
            ],
        )

    def test_words_of_any_bytes(self):
        self.assert_read(
            "",
            [
                (b"\0", unknown_word(1)),
                (b"pkt 1\0", bad_number(2)),
                (b"pkt\x0b1", unknown_word(1)),
                (b"p\xc3\xa9", unknown_word(1)),
                (b"pkt 1234567890123456789012345678901234567890", out_of_range(2)),
                (b"pkt 123456789012345678901234567890123456789x", bad_number(2)),
                (b"pkt 18446744073709551616", out_of_range(2)),
                (b"pkt 0000000000000000000000000000000000000007", READ),
            ],
        )

    def test_texts_of_faults(self):
        for line, text in TEXTS:
            with self.subTest(line):
                self.assert_answers("qtree play", line, 1, f"line 1: {text}\n", not_done(1))
