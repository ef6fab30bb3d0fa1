"""What the program answers to a command line: its status, and what it writes where."""
from program import TWO_OF_THREE, TWO_OF_THREE_REPORT, ProgramTest, not_done

# Command lines and scripts: each with the status, standard output and standard error.
ANSWERS = [
    ("qtree play", TWO_OF_THREE, 0, TWO_OF_THREE_REPORT, ""),
    (
        "qtree play",
        "pkt 0\npoll",
        1,
        "line 1: fault 4 OutOfRange word 2\nidle\n",
        not_done(1),
    ),
    # A device that takes no packet of 100 bytes is shown as any other.
    (
        "qtree play --mtu 99",
        "tc qdisc show",
        0,
        "qdisc pfifo 0: root limit 1000p\n",
        "",
    ),
]

# Standard input of a drive of four senders with 16 packets each: with the status, standard output and standard error.
DRIVES = [
    (
        "",
        0,
        "settled 64p 6400b\narrived 64p 6400b\ngiven up 0\n",
        "",
    ),
    (
        "tc qdisc del dev eth0 root",
        1,
        "line 1: refused 12 NoQdisc\nsettled 64p 6400b\narrived 64p 6400b\ngiven up 0\n",
        not_done(1),
    ),
]

# Command lines that are turned down, each with the line of standard error.
TURNED_DOWN = """\
qtree drive
    qtree: the following required arguments were not provided: --senders <N> --count <N> --len <N> --ring <N>; try 'qtree drive --help'
qtree
    qtree: no command is named; try 'qtree --help'
qtree --loud
    qtree: unexpected argument '--loud'; try 'qtree --help'
qtree --loud play
    qtree: unexpected argument '--loud'; try 'qtree --help'
qtree played
    qtree: unrecognized subcommand 'played'; try 'qtree --help'
qtree help played
    qtree: unrecognized subcommand 'played'; try 'qtree --help'
qtree play --loud
    qtree: unexpected argument '--loud'; try 'qtree play --help'
qtree play script script
    qtree: unexpected argument 'script'; try 'qtree play --help'
qtree play --explain=1
    qtree: unexpected value '1' for '--explain' found; no more were expected; try 'qtree play --help'
qtree play --explain --explain
    qtree: the argument '--explain' cannot be used multiple times; try 'qtree play --help'
qtree drive --explain
    qtree: the following required arguments were not provided: --senders <N> --count <N> --len <N> --ring <N>; try 'qtree drive --help'
qtree play --mtu 0
    qtree: invalid value '0' for '--mtu <N>': 0 is not in 1..=65535; try 'qtree play --help'
qtree play --mtu 65536
    qtree: invalid value '65536' for '--mtu <N>': 65536 is not in 1..=65535; try 'qtree play --help'
qtree play --mtu
    qtree: a value is required for '--mtu <N>' but none was supplied; try 'qtree play --help'
qtree play --mtu 1 --mtu 2
    qtree: the argument '--mtu <N>' cannot be used multiple times; try 'qtree play --help'
qtree play --txqueuelen -1
    qtree: unexpected argument '-1'; try 'qtree play --help'
qtree play --seed 4294967296
    qtree: invalid value '4294967296' for '--seed <N>': 4294967296 is not in 0..=4294967295; try 'qtree play --help'
qtree play --record 1000001
    qtree: invalid value '1000001' for '--record <N>': 1000001 is not in 0..=1000000; try 'qtree play --help'
qtree play --record 1k
    qtree: invalid value '1k' for '--record <N>': invalid digit found in string; try 'qtree play --help'
"""

# The same of numbers past their bounds, and of options that are missing, are given twice, or belong to the other command.
PAST_THEIR_BOUNDS = """\
qtree drive
    qtree: the following required arguments were not provided: --senders <N> --count <N> --len <N> --ring <N>; try 'qtree drive --help'
qtree drive --count 1 --len 1 --ring 1
    qtree: the following required arguments were not provided: --senders <N>; try 'qtree drive --help'
qtree drive --senders 1 --len 1 --ring 1
    qtree: the following required arguments were not provided: --count <N>; try 'qtree drive --help'
qtree drive --senders 1 --count 1 --ring 1
    qtree: the following required arguments were not provided: --len <N>; try 'qtree drive --help'
qtree drive --senders 1 --count 1 --len 1
    qtree: the following required arguments were not provided: --ring <N>; try 'qtree drive --help'
qtree drive --senders 0 --count 1 --len 1 --ring 1
    qtree: invalid value '0' for '--senders <N>': 0 is not in 1..=64; try 'qtree drive --help'
qtree drive --senders 65 --count 1 --len 1 --ring 1
    qtree: invalid value '65' for '--senders <N>': 65 is not in 1..=64; try 'qtree drive --help'
qtree drive --senders 257 --count 1 --len 1 --ring 1
    qtree: invalid value '257' for '--senders <N>': 257 is not in 1..=64; try 'qtree drive --help'
qtree drive --senders 1 --count -1 --len 1 --ring 1
    qtree: unexpected argument '-1'; try 'qtree drive --help'
qtree drive --senders 1 --count 1000001 --len 1 --ring 1
    qtree: invalid value '1000001' for '--count <N>': 1000001 is not in 0..=1000000; try 'qtree drive --help'
qtree drive --senders 1 --count 1 --len 0 --ring 1
    qtree: invalid value '0' for '--len <N>': 0 is not in 1..=65535; try 'qtree drive --help'
qtree drive --senders 1 --count 1 --len 65536 --ring 1
    qtree: invalid value '65536' for '--len <N>': 65536 is not in 1..=65535; try 'qtree drive --help'
qtree drive --senders 1 --count 1 --len 1 --ring 0
    qtree: invalid value '0' for '--ring <N>': 0 is not in 1..=65536; try 'qtree drive --help'
qtree drive --senders 1 --count 1 --len 1 --ring 65537
    qtree: invalid value '65537' for '--ring <N>': 65537 is not in 1..=65536; try 'qtree drive --help'
qtree drive --senders 1 --senders 1 --count 1 --len 1 --ring 1
    qtree: the argument '--senders <N>' cannot be used multiple times; try 'qtree drive --help'
qtree drive --show --show --senders 1 --count 1 --len 1 --ring 1
    qtree: the argument '--show' cannot be used multiple times; try 'qtree drive --help'
qtree drive --explain --explain --senders 1 --count 1 --len 1 --ring 1
    qtree: the argument '--explain' cannot be used multiple times; try 'qtree drive --help'
qtree drive --show=1 --senders 1 --count 1 --len 1 --ring 1
    qtree: unexpected value '1' for '--show' found; no more were expected; try 'qtree drive --help'
qtree drive --until-idle --until-idle --senders 1 --count 1 --len 1 --ring 1
    qtree: the argument '--until-idle' cannot be used multiple times; try 'qtree drive --help'
qtree drive --until-idle=1 --senders 1 --count 1 --len 1 --ring 1
    qtree: unexpected value '1' for '--until-idle' found; no more were expected; try 'qtree drive --help'
qtree drive --senders 1 --count 1 --len 1 --ring 1 --mtu 0
    qtree: invalid value '0' for '--mtu <N>': 0 is not in 1..=65535; try 'qtree drive --help'
qtree drive --senders 1 --count 1 --len 1 --ring 1 --record 1000001
    qtree: invalid value '1000001' for '--record <N>': 1000001 is not in 0..=1000000; try 'qtree drive --help'
qtree play --senders 1
    qtree: unexpected argument '--senders'; try 'qtree play --help'
qtree play --show
    qtree: unexpected argument '--show'; try 'qtree play --help'
qtree play --until-idle
    qtree: unexpected argument '--until-idle'; try 'qtree play --help'
"""

# Words that would end a line, or that a terminal would not show, and one that is cut: each with the line of standard error.
HOSTILE_WORDS = [
    ("qtree play --a\nb", "unexpected argument '--a b'"),
    ("qtree play --a\n\nb", "unexpected argument '--a"),
    ("qtree play --mtu \x1b[1m\a", "invalid value '?[1m?' for '--mtu <N>': invalid digit found in string"),
    (f"qtree play --{700 * 'a'}", f"unexpected argument '--{479 * 'a'}..."),
]


class CommandLines(ProgramTest):
    def assert_turned_down(self, rows):
        """Nothing is on standard output, and standard error has this line."""
        lines = rows.splitlines()
        for line, told in zip(lines[::2], lines[1::2]):
            with self.subTest(line):
                self.assert_answers(line, "", 2, "", f"{told.strip()}\n")

    def test_scripts_and_their_statuses(self):
        for line, script, status, report, told in ANSWERS:
            with self.subTest(line):
                self.assert_answers(line, script, status, report, told)

    def test_options_of_play_turned_down(self):
        self.assert_turned_down(TURNED_DOWN)

    def test_hostile_words_turned_down_in_one_line(self):
        for line, told in HOSTILE_WORDS:
            with self.subTest(line[:40]):
                self.assert_answers(line, "", 2, "", f"qtree: {told}; try 'qtree play --help'\n")

    def test_options_past_their_bounds(self):
        """A line that is whole is answered, and those that differ from it are not."""
        whole = "qtree drive --senders 1 --count 1 --len 1 --ring 1"
        self.assert_answers(whole, "", 0, "settled 1p 1b\narrived 1p 1b\ngiven up 0\n", "")
        self.assert_turned_down(PAST_THEIR_BOUNDS)

    def test_statuses_of_drives(self):
        line = "qtree drive --senders 4 --count 16 --len 100 --ring 16"
        for script, status, report, told in DRIVES:
            with self.subTest(script):
                self.assert_answers(line, script, status, report, told)
