"""What the program says on standard error of closed streams, a full disk, files and a terminal."""
import os

from program import TWO_OF_THREE, TWO_OF_THREE_REPORT, Answer, ProgramTest, as_bytes

# Command lines that read standard input.
READING = [
    "qtree play",
    "qtree drive --senders 1 --count 1 --len 1 --ring 1",
]

TOLD_OF_INPUT = "qtree: the script cannot be read: standard input is closed\n"

# Command lines, each with what is told where standard output is closed.
TOLD_OF_OUTPUT = [
    ("qtree play", "qtree: the report cannot be written: standard output is closed\n"),
    ("qtree --help", "qtree: help cannot be written: standard output is closed\n"),
]

TOLD_OF_A_FULL_DISK = "qtree: the report cannot be written: No space left on device\n"

# Command lines, each with what is told of the file that it names.
TOLD_OF_FILES = [
    ("qtree play no/such.qtree", "qtree: no/such.qtree: the script cannot be read: No such file or directory\n"),
    ("qtree play /", "qtree: /: the script cannot be read: Is a directory\n"),
]

# Command lines whose script is that of standard input by its sign.
BY_SIGN = [
    "qtree play -",
    "qtree play --mtu 1514 -",
    "qtree play - --mtu 1514",
]

PROMPT = "qtree: standard input is a terminal: it is read to its end (control-D) before a line is run\n"


def failed(told):
    """A run that came to nothing, of which this is told."""
    return Answer(2, b"", as_bytes(told))


class Messages(ProgramTest):
    def test_closed_input(self):
        for line in READING:
            with self.subTest(line):
                self.assert_is(line, self.answer_without(0, line), failed(TOLD_OF_INPUT))

    def test_closed_output(self):
        for line, told in TOLD_OF_OUTPUT:
            with self.subTest(line):
                self.assert_is(line, self.answer_without(1, line, TWO_OF_THREE), failed(told))

    def test_full_disk(self):
        with open("/dev/full", "wb") as full:
            answered = self.answer("qtree play", TWO_OF_THREE, stdout=full)
        self.assert_is("qtree play to a full disk", answered, failed(TOLD_OF_A_FULL_DISK))

    def test_script_of_a_file(self):
        """The file is played, and standard input is not."""
        with open(os.path.join(self.folder, "script_of_a_file.qtree"), "wb") as file:
            file.write(as_bytes(TWO_OF_THREE))
        self.assert_answers("qtree play script_of_a_file.qtree", "poll", 0, TWO_OF_THREE_REPORT, "")

    def test_script_of_standard_input_by_its_sign(self):
        for line in BY_SIGN:
            with self.subTest(line):
                self.assert_answers(line, TWO_OF_THREE, 0, TWO_OF_THREE_REPORT, "")

    def test_files_that_cannot_be_read(self):
        for line, told in TOLD_OF_FILES:
            with self.subTest(line):
                self.assert_answers(line, "poll", 2, "", told)

    def test_terminal_is_told_before_it_is_read(self):
        """What a terminal is told comes before a line is typed, and not again; a pipe is told nothing."""
        told, answered = self.answer_at_terminal("qtree play", TWO_OF_THREE)
        self.assertEqual(told, as_bytes(PROMPT), "what a terminal is told before a line is typed")
        self.assert_is("qtree play at a terminal", answered, Answer(0, as_bytes(TWO_OF_THREE_REPORT), b""))
        self.assert_answers("qtree play", TWO_OF_THREE, 0, TWO_OF_THREE_REPORT, "")
