"""What the tests over tables of lines share: how each line of a table is read when the program plays it."""
import re

from program import ProgramTest, as_bytes

# A failure is traced to the line of a test, and not further into this module.
__unittest = True

# What is reported of a line that is not read. A line that is read may be refused, and then has another report.
FAULT = re.compile(rb"^line ([0-9]+): (fault .*)$", re.MULTILINE)

# The answer to a line that is read.
READ = None


def unknown_word(word):
    return f"fault 1 UnknownWord word {word}"


def missing(word):
    return f"fault 2 Missing word {word}"


def bad_number(word):
    return f"fault 3 BadNumber word {word}"


def out_of_range(word):
    return f"fault 4 OutOfRange word {word}"


def twice(word):
    return f"fault 5 Twice word {word}"


def bad_utf8(word):
    return f"fault 6 BadUtf8 word {word}"


class LineTest(ProgramTest):
    """A test over lines, of which each is read by itself, whatever comes of it on the device that those before it made."""

    def answers_to(self, lines):
        """The fault that is reported of each line, or READ."""
        played = self.answer("qtree play", b"".join(as_bytes(line) + b"\n" for line in lines))
        faults = {int(number): fault.decode() for number, fault in FAULT.findall(played.output)}
        # With these statuses the report is whole, so that a line of which it says nothing was read.
        self.assertIn(played.status, (0, 1), played.errors)
        self.assertLessEqual(max(faults, default=0), len(lines))
        return [faults.get(number, READ) for number in range(1, len(lines) + 1)]

    def assert_read(self, front, rows):
        """Each line, behind the same front, is read, or has the fault beside it."""
        lines = [as_bytes(front) + as_bytes(rest) for rest, _ in rows]
        for line, got, (_, wanted) in zip(lines, self.answers_to(lines), rows, strict=True):
            with self.subTest(line):
                self.assertEqual(got, wanted)
