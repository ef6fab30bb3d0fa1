#!/usr/bin/env python3
"""Draws the pictures that explain a rule, as SVG on standard output.

    docs/pictures/explain.py NAME > docs/pictures/NAME.svg

NAME is codel_first_drop, codel_gaps, drr_round, held_packet or proofs_joined. Numbers are computed here, but for the counters of
held_packet, which are those of docs/pictures/held_packet.out, the report of the script beside it.
"""
import math
import pathlib
import re
import sys
from xml.sax.saxutils import escape

HERE = pathlib.Path(__file__).parent
BLUE, RED, GREEN, GREY, LIGHT = "#0072b2", "#d55e00", "#009e73", "#777777", "#e4e4e4"
STYLE = """
text{font:12px sans-serif;fill:#222}.title{font-size:15px;font-weight:bold}.small{font-size:11px}.note{font-size:11px;fill:#555}
.mono{font:12px monospace}path{fill:none;stroke-width:1.4}.thick{stroke-width:2.2}.dashed{stroke-dasharray:5 4}"""


class Drawing:
    def __init__(self, width, height, title):
        self.width, self.height = width, height
        self.made = [f'<rect width="{width}" height="{height}" fill="#fff"/>']
        self.text(20, 24, title, "title")

    def text(self, x, y, words, kind="", anchor="start", colour=None):
        style = f' style="fill:{colour}"' if colour else ""
        self.made.append(f'<text x="{x:g}" y="{y:g}" class="{kind}" text-anchor="{anchor}"{style}>{escape(words)}</text>')

    def path(self, colour, points, kind=""):
        steps = "L".join(f"{round(x, 1):g},{round(y, 1):g}" for x, y in points)
        self.made.append(f'<path class="{kind}" stroke="{colour}" d="M{steps}"/>')

    def dot(self, x, y, colour, size=4):
        self.made.append(f'<circle cx="{round(x, 1):g}" cy="{round(y, 1):g}" r="{size}" fill="{colour}"/>')

    def cross(self, x, y, colour, size=5):
        self.path(colour, [(x - size, y - size), (x + size, y + size)], "thick")
        self.path(colour, [(x - size, y + size), (x + size, y - size)], "thick")

    def box(self, x, y, width, height, fill="#fff", edge="#555"):
        self.made.append(f'<rect x="{x:g}" y="{y:g}" width="{width:g}" height="{height:g}" rx="4" fill="{fill}" stroke="{edge}"/>')

    def arrow(self, x, y, to_x, to_y, colour="#555", kind=""):
        self.path(colour, [(x, y), (to_x, to_y)], kind)
        angle = math.atan2(to_y - y, to_x - x)
        ends = [(to_x - 8 * math.cos(angle + it), to_y - 8 * math.sin(angle + it)) for it in (0.4, -0.4)]
        self.path(colour, [ends[0], (to_x, to_y), ends[1]])

    def span(self, x, to_x, y, words, colour):
        """A distance between two times, with its name above."""
        self.arrow(x + 1, y, to_x - 1, y, colour)
        self.arrow(to_x - 1, y, x + 1, y, colour)
        self.text((x + to_x) / 2, y - 5, words, "small", "middle", colour)

    def svg(self):
        head = f'<svg xmlns="http://www.w3.org/2000/svg" viewBox="0 0 {self.width} {self.height}" width="{self.width}" height="{self.height}">'
        return "\n".join([head, f"<style>{STYLE}</style>", *self.made, "</svg>"]) + "\n"


def exact_gap(interval, count):
    """The greatest d with d * d * count <= interval * interval."""
    return math.isqrt(interval * interval // count)


def linux_gaps(interval, last):
    """The gaps of codel_impl.h of Linux 6.1 in units of 1024 ns, in its own fixed-point numbers, for counts from 1 in order."""
    inverse, gaps = 0xFFFF, []
    for count in range(1, last + 1):
        if count > 1:
            wide = inverse << 16
            step = ((3 << 32) - count * (wide * wide >> 32)) >> 2
            inverse = (step * wide >> 31) >> 16 & 0xFFFF
        gaps.append((interval >> 10) * (inverse << 16) >> 32)
    return gaps


def codel_first_drop():
    """The worked example of docs/DISCIPLINES.md: all packets arrive at 0, so that the head's sojourn time is the time."""
    made = Drawing(800, 400, "CoDel: ten packets of 1000 bytes arrive at 0; target 5 ms, interval 100 ms")
    left, right, top, bottom, last = 70, 780, 60, 330, 360

    def x(ms):
        return left + (right - left) * ms / last

    def y(ms):
        return bottom - (bottom - top) * ms / last

    for ms in range(0, last + 1, 50):
        made.path(LIGHT, [(x(ms), top), (x(ms), bottom)])
        made.text(x(ms), bottom + 16, str(ms), "small", "middle")
        made.path(LIGHT, [(left, y(ms)), (right, y(ms))])
        made.text(left - 6, y(ms) + 4, str(ms), "small", "end")
    made.text((left + right) / 2, bottom + 34, "time, ms", "", "middle")
    made.text(20, top - 8, "sojourn time of the head, ms", "small")
    made.path(GREY, [(x(0), y(0)), (x(last), y(last))])
    made.path(GREEN, [(left, y(5)), (right, y(5))], "dashed")
    made.text(right, y(5) - 5, "target", "small", "end", GREEN)
    gaps = [exact_gap(100_000_000, it) / 1e6 for it in (1, 2, 3)]
    drops = [110, 110 + gaps[0], 110 + gaps[0] + gaps[1]]
    end = drops[2] + gaps[2]
    made.dot(x(10), y(10), BLUE)
    made.text(left + 6, y(190), "at 10 ms the first head is above target:", "small", "start", BLUE)
    made.text(left + 6, y(172), "first_above_time = 110 ms", "small", "start", BLUE)
    made.path(BLUE, [(x(10), y(10)), (x(10), y(165))], "dashed")
    made.span(x(10), x(110), y(75), "interval, 100 ms", BLUE)
    made.path(BLUE, [(x(110), y(0)), (x(110), y(110))], "dashed")
    for number, ms in enumerate(drops):
        made.cross(x(ms), y(ms), RED)
        made.text(x(ms) - 8, y(ms) - 8, f"drop {number + 1}", "small", "end", RED)
    made.span(x(drops[0]), x(drops[1]), y(40), "100 ms / √1", RED)
    made.span(x(drops[1]), x(drops[2]), y(40), "100 / √2 = 70.7", RED)
    made.span(x(drops[2]), x(end), y(40), "100 / √3 = 57.7", RED)
    for ms in drops[1:] + [end]:
        made.path(RED, [(x(ms), y(0)), (x(ms), y(ms))], "dashed")
    made.dot(x(end), y(end), BLUE)
    made.text(x(end) - 8, y(end) - 8, "one packet is left, at most an mtu: dropping ends", "small", "end", BLUE)
    made.text(20, 390, "Each packet that is sent or dropped was at the head at that time; a cross is a dropped one.", "note")
    return made


def codel_gaps():
    made = Drawing(800, 360, "The gap between two drops of CoDel, for an interval of 100 ms")
    left, right, top, bottom, last = 70, 780, 60, 300, 16

    def x(count):
        return left + 20 + (right - left - 40) * (count - 1) / (last - 1)

    def y(ms):
        return bottom - (bottom - top) * ms / 100

    for ms in range(0, 101, 20):
        made.path(LIGHT, [(left, y(ms)), (right, y(ms))])
        made.text(left - 6, y(ms) + 4, str(ms), "small", "end")
    for count in range(1, last + 1):
        made.text(x(count), bottom + 16, str(count), "small", "middle")
    made.text((left + right) / 2, bottom + 34, "count", "", "middle")
    made.text(20, top - 8, "gap, ms", "small")
    ours = [exact_gap(100_000_000, it) / 1e6 for it in range(1, last + 1)]
    theirs = [it * 1024 / 1e6 for it in linux_gaps(100_000_000, last)]
    for colour, gaps in ((BLUE, ours), (RED, theirs)):
        made.path(colour, [(x(it + 1), y(ms)) for it, ms in enumerate(gaps)])
        for it, ms in enumerate(gaps):
            made.dot(x(it + 1), y(ms), colour, 3.5)
    made.dot(420, 80, BLUE)
    made.text(430, 84, "here, and by the law: interval / √count")
    made.dot(420, 102, RED)
    made.text(430, 106, "Linux 6.1.192: one Newton step a drop")
    for count in (2, 3):
        made.text(x(count) + 7, y(ours[count - 1]) - 6, f"{ours[count - 1]:.1f}", "small", "start", BLUE)
        made.text(x(count), y(theirs[count - 1]) + 17, f"{theirs[count - 1]:.1f}", "small", "middle", RED)
    return made


def drr_round():
    """The worked example drr_grants_and_no_class of examples/README.md."""
    made = Drawing(800, 430, "One round of a drr: classes 1:1 and 1:2 with quanta of 1000 bytes")
    rows = [
        ("at first", [("1:1", 1000, (1500,)), ("1:2", 1000, (500, 500, 500))], "both classes are active, with a deficit of one quantum"),
        ("poll 1", [("1:2", 500, (500, 500)), ("1:1", 2000, (1500,))], "1:1 shows 1500 > 1000: one quantum more, to the end; 1:2 sends 500"),
        ("poll 2", [("1:2", 0, (500,)), ("1:1", 2000, (1500,))], "1:2 sends 500, and stays in front"),
        ("poll 3", [("1:2", 1000, (500,))], "1:2 shows 500 > 0: one quantum more, to the end; 1:1 sends 1500, is empty, leaves"),
        ("poll 4", [], "1:2 sends 500, is empty, leaves: no class is active"),
    ]
    made.text(20, 48, "The active list after each poll, front first; in each class its deficit, and the packets that wait there.", "note")
    for number, (when, classes, words) in enumerate(rows):
        y = 62 + 72 * number
        made.text(20, y + 30, when)
        x = 90
        for name, deficit, packets in classes:
            made.box(x, y, 190, 48)
            made.text(x + 8, y + 20, name, "mono")
            made.text(x + 8, y + 39, f"deficit {deficit}", "small", "start", BLUE)
            at = x + 86
            for length in packets:
                width = length / 50
                made.box(at, y + 11, width, 26, "#cde3f2", BLUE)
                made.text(at + width / 2, y + 28, str(length) if length > 1000 else "", "small", "middle")
                at += width + 4
            x += 202
        if not classes:
            made.text(90, y + 30, "(empty)", "note")
        made.text(90, y + 63, words, "small", "start", "#555")
    made.text(610, 92, "A box is a packet: narrow", "note")
    made.text(610, 107, "500 bytes, wide 1500", "note")
    return made


def held_packet():
    made = Drawing(800, 440, "A held packet: counters after the third poll of drr_over_tbf")
    report = (HERE / "held_packet.out").read_text()
    rows = re.findall(r"(?m)^qdisc (\w+) (\w+): (root|parent \S+).*\n arrived (.*)$", report)
    device = re.search(r"(?m)^device arrived (.*)$", report)[1]

    def node(x, y, name, counters, holds=False):
        numbers = dict(re.findall(r"(\w+) (\d+p)", f"arrived {counters}"))
        made.box(x, y, 220, 74, "#fff3e6" if holds else "#fff", RED if holds else "#555")
        made.text(x + 10, y + 19, name, "mono")
        made.text(x + 10, y + 38, f"arrived {numbers['arrived']}  sent {numbers['sent']}", "small")
        made.text(x + 10, y + 55, f"refused {numbers['refused']}  dropped {numbers['dropped']}  queued {numbers['queued']}", "small")

    (drr, tbf, bfifo, pfifo) = rows
    node(60, 46, "device", device)
    node(60, 150, f"{drr[0]} {drr[1]}:", drr[3])
    node(60, 254, f"{tbf[0]} {tbf[1]}:  (in class 1:1)", tbf[3], True)
    node(60, 356, f"{bfifo[0]}  (in class {tbf[1]}:1)", bfifo[3])
    node(430, 254, f"{pfifo[0]}  (in class 1:2)", pfifo[3])
    for y in (120, 224, 328):
        made.path("#555", [(170, y), (170, y + 30 if y < 300 else y + 28)])
    made.path("#555", [(280, 187), (540, 187), (540, 254)])
    made.box(290, 281, 80, 20, "#f6c79b", RED)
    made.text(330, 295, "packet 2", "small", "middle")
    notes = [
        (300, 60, "Packet 3 has just left, and packet 1 before it: sent 2."),
        (300, 76, "Packet 2 is still in the device: queued 1."),
        (300, 160, "The drr peeked at the tbf to learn the length 1000. The deficit"),
        (300, 176, "was 514, so 1:1 got a quantum and went behind 1:2."),
        (300, 346, "The tbf dequeued packet 2 to answer the peek, and holds it. Its tokens"),
        (300, 362, "are spent. It is queued at the tbf, the drr and the device."),
        (300, 386, "The bfifo has counted packet 2 as sent, and has nothing queued."),
        (300, 412, "At every node arrived = sent + refused + dropped + queued."),
    ]
    for x, y, words in notes:
        made.text(x, y, words, "small", "start", "#555")
    return made


def proofs_joined():
    made = Drawing(800, 400, "How the proofs join the bytes of a script and the bytes of its report")
    boxes = [("bytes of the script", 60), ("lines, or faults", 130), ("events: arrivals, polls, commands", 200), ("replies, losses and counters", 270), ("bytes of the report", 340)]
    joins = [
        ("read_line: a line has its meaning, or its leftmost fault", "q_line, q_words"),
        ("Report: what a line does at which time", "q_script_semantics, q_session"),
        ("step: each call of Device is one step of the model", "q_device, q_tree, q_fqcodel, q_codel, q_drr, q_bucket"),
        ("Text: each reply and row is written as LANGUAGE.md says", "q_show, q_script"),
    ]
    for words, y in boxes:
        made.box(40, y, 240, 34, "#eef5fa", BLUE)
        made.text(160, y + 22, words, "", "middle")
    for number, (words, crates) in enumerate(joins):
        y = boxes[number][1] + 34
        made.arrow(160, y, 160, y + 36)
        made.text(300, y + 14, words, "small")
        made.text(300, y + 30, crates, "note")
    made.path(GREEN, [(700, 60), (730, 60), (730, 374), (700, 374)], "thick")
    made.text(755, 217, "run of q_session: its clause report", "small", "middle", GREEN)
    made.made[-1] = made.made[-1].replace("<text ", '<text transform="rotate(90 755 217)" ')
    made.text(20, 48, "Each arrow is a contract that is proved for all inputs; the bracket is the theorem of qtree play, which joins them.", "note")
    return made


def main(words):
    drawings = {it.__name__: it for it in (codel_first_drop, codel_gaps, drr_round, held_packet, proofs_joined)}
    if len(words) != 1 or words[0] not in drawings:
        print(__doc__.strip(), file=sys.stderr)
        return 2
    sys.stdout.write(drawings[words[0]]().svg())
    return 0


if __name__ == "__main__":
    sys.exit(main(sys.argv[1:]))
