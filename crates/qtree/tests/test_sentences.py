"""The sentence of --explain on each kind of fault and refusal, and the word under which its mark stands."""
from program import ProgramTest

ROOT = "tc qdisc add dev eth0 root"

# A line, the word that is marked, where it is not the place behind the line, and the sentence.
FAULTS = [
    (f"{ROOT} pri bands 3", "pri", "pri is no word of tc qdisc add; words are not shortened: write prio."),
    (f"{ROOT} handle 1: tbf rate 1mbit", "", "a tbf needs burst, buffer or maxburst, and limit or latency."),
    (f"{ROOT} tbf", "", "a tbf needs rate, and burst, buffer or maxburst, and limit or latency."),
    (f"{ROOT} tbf rate 1mbit ", "", "a tbf needs burst, buffer or maxburst, and limit or latency."),
    ("tc qdisc add dev eth0 tbf rate 1mbit burst 2kb limit 3", "", "tc qdisc add needs root or parent."),
    ("tc filter add dev eth0 flower", "", "tc filter add needs parent, and prio or pref; flower needs classid or flowid."),
    ("tc qdisc change dev eth0", "", "tc qdisc change needs root, parent or handle."),
    ("tc class change dev eth0 parent 1: classid 1:1", "", "tc class change needs drr behind these words."),
    ("tc class add dev eth0 parent 1: classid 1:1", "", "tc class add needs drr behind these words."),
    ("tc filter add dev eth0 parent 1: prio 1", "", "tc filter add needs flower behind these words."),
    ("tc qdisc add dev eth0 root", "", "tc qdisc add needs a kind behind these words: pfifo, bfifo, prio, tbf, drr or fq_codel."),
    (f"{ROOT} prio bands 2", "", "two bands need a priomap of 16 bands."),
    (f"{ROOT} handle ffff: pfifo", "ffff:", "ffff: is out of range: handle takes 1: to fffe:."),
    (f"{ROOT} prio bands 2 priomap x", "x", "x is no value of priomap, which takes 16 bands in decimal digits."),
    (f"{ROOT} fq_codel target 2000s", "2000s", "2000s is out of range: target takes 0 to 1000s."),
    (f"{ROOT} drr quantum 5", "quantum", "quantum is no option of drr; it has none."),
    (f"{ROOT} pfifo dev eth0", "dev", "dev has to stand before pfifo."),
    (f"{ROOT} tbf rate 1mbit burst 2kb buffer 2kb", "buffer", "buffer stands beside burst, and a line has one of them."),
    (f"{ROOT} tbf rate 1mbit burst 2kb burst 2kb", "burst", "burst was given before."),
    # One letter more, less or another, or two that changed places; a word of two letters may mean anything.
    ("rep", "rep", "rep begins no line; did you mean reap?"),
    ("tcc qdisc show", "tcc", "tcc begins no line; did you mean tc?"),
    ("ta 5", "ta", "ta begins no line; a line begins with at, pkt, frame, poll, reap, totals or tc."),
    (f"{ROOT} pfifo lim1tt 5", "lim1tt", "lim1tt is no option of pfifo; it has: limit."),
    (f"{ROOT} pfifo li12t 5", "li12t", "li12t is no option of pfifo; it has: limit."),
    (f"{ROOT} pfifo lxmyt 5", "lxmyt", "lxmyt is no option of pfifo; it has: limit."),
    # Of a word 40 bytes are repeated.
    (f"{ROOT} pfifo {'a' * 40}", "a" * 40, f"{'a' * 40} is no option of pfifo; it has: limit."),
    (f"{ROOT} pfifo {'a' * 41}", "a" * 41, f"{'a' * 40}.. is no option of pfifo; it has: limit."),
    # What tc has.
    (
        "tc filter add dev eth0 parent 1: prio 1 handle 1 protocol ip u32",
        "handle",
        "tc has the filter u32, qtree does not; the handle is one of its words. Use flower.",
    ),
    ("tc class replace dev eth0", "replace", "tc has replace, qtree does not: use change, or del and add."),
    ("tc filter change dev eth0", "change", "tc has change, qtree does not: use del and add."),
]

# Lines in turn, each with the word that is marked and the sentence if it is refused.
REFUSALS = [
    (f"{ROOT} handle 1: drr", None, ""),
    ("tc class add dev eth0 parent 1: classid 1:1 drr", None, ""),
    ("tc class add dev eth0 parent 1: classid 1:2 drr", None, ""),
    ("tc filter add dev eth0 parent 1: prio 1 flower classid 1:1", None, ""),
    (
        "tc class del dev eth0 parent 1: classid 1:1",
        "1:1",
        "a filter leads to this class. Remove the filter first by tc filter del.",
    ),
    (
        "tc class del dev eth0 parent 1: classid 1:7",
        "1:7",
        "the drr has no such class. tc class show lists those that are there.",
    ),
    (
        "tc filter add dev eth0 parent 1: prio 1 flower classid 1:7",
        "1:7",
        "the qdisc has no such class, or the class id has another major number. tc class show lists the classes.",
    ),
    (
        "tc filter add dev eth0 parent 9: prio 1 flower classid 9:2",
        "9:",
        "no qdisc has the handle of this parent. Add that qdisc first; tc qdisc show lists those that are there.",
    ),
    ("tc qdisc add dev eth0 parent 1:1 handle 2: tbf rate 1mbit burst 2000 latency 5ms", None, ""),
    (
        "tc qdisc change dev eth0 parent 1:1 handle 2: tbf rate 1mbit buffer 1000 latency 5ms",
        "1000",
        "the burst is below the mtu and below the burst that the tbf has. Give at least one of them.",
    ),
    *((f"tc qdisc add dev eth0 parent {it}:1 handle {it + 1}: prio", None, "") for it in range(2, 7)),
    (
        "tc qdisc add dev eth0 parent 7:1 handle 8: prio",
        "prio",
        "a qdisc would stand deeper than 8 below the device. Remove a level, or choose a parent further up.",
    ),
    ("tc filter add dev eth0 parent 3: prio 7 flower classid 3:3", None, ""),
    (
        "tc qdisc change dev eth0 parent 2:1 handle 3: prio bands 2 priomap 1 1 1 1 1 1 1 1 1 1 1 1 1 1 1 1",
        "2",
        "a filter leads to a band that would go. Remove the filter first by tc filter del.",
    ),
    (
        "tc filter del dev eth0 parent 3: prio 8",
        "8",
        "no filter of the qdisc has this prio. tc filter show lists those that are there.",
    ),
]

# Of a line of more than 200 bytes those around the word are shown, with dots where some are left out.
LONG = "x" * 250
CUT = f"line 1: {LONG[:200]}...\n        {'^' * 200}\n  {LONG[:40]}.. begins no line; a line begins with at, pkt, frame, poll, reap, totals or tc.\n"


def told(rows):
    """What is said of these lines: each with a mark below its last such word, or one place behind its last word."""
    lines = []
    for number, (line, word, sentence) in enumerate(rows, 1):
        if word is not None:
            line = line.rstrip()
            head = f"line {number}: "
            at = f" {line} ".rindex(f" {word} ") if word else len(line) + 1
            lines += [f"{head}{line}", " " * (len(head) + at) + "^" * max(len(word), 1), f"  {sentence}"]
    return "".join(f"{it}\n" for it in lines)


class Sentences(ProgramTest):
    def assert_told(self, rows):
        """All is told of the lines of these rows; the report has its own tests."""
        script = "".join(f"{line}\n" for line, *_ in rows)
        got = self.answer("qtree play --explain", script)
        self.assert_is("qtree play --explain", (got.status, b"", got.errors), (1, b"", told(rows).encode()))

    def test_sentences_on_faults(self):
        self.assert_told(FAULTS)

    def test_sentences_on_refusals(self):
        self.assert_told(REFUSALS)

    def test_long_word_is_cut(self):
        """Of a word of 250 bytes 200 are shown, and nothing else was left out."""
        self.assertEqual(self.answer("qtree play --explain", LONG).errors.decode(), CUT)

    def test_just_200_bytes_are_shown(self):
        for count, shown in ((167, f"{ROOT} pfifo {'a' * 167}"), (168, f"...{ROOT[1:]} pfifo {'a' * 168}")):
            got = self.answer("qtree play --explain", f"{ROOT} pfifo {'a' * count}")
            self.assertEqual(got.errors.decode().split("\n")[0], f"line 1: {shown}")

    def test_another_device_is_remarked_upon_each_time(self):
        script = f"{ROOT} prio\n" + "".join(f"tc qdisc change dev {it} root prio\n" for it in ("eth1", "eth1", "eth0", "eth2"))
        got = self.answer("qtree play --explain", script).errors.decode()
        self.assertEqual([it[:6] for it in got.split("\n")[::3]], ["line 2", "line 3", "line 5", ""])

    def test_comments_behind_blanks_name_no_device(self):
        script = f"  # dev eth7\n{ROOT} pfifo\n\t#\tdev eth8\n"
        self.assertEqual(self.answer("qtree play --explain", script).errors, b"")
