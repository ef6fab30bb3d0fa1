#!/usr/bin/env python3
"""Draws what examples/tunnel/run measured, as SVG: round-trip times, and the throughput of both customers.

    examples/tunnel/draw.py MEASURED.json FOLDER     writes tunnel_delays.svg and tunnel_shares.svg there
"""
import json
import math
import pathlib
import sys

WIDTH, HEIGHT, LEFT, RIGHT, TOP, BOTTOM = 800, 400, 64, 784, 110, 350
CAUSES = ("TooLong", "NoClass", "OverLimit", "CoDel", "FatFlow", "Purged")
COLOURS = ("#d55e00", "#0072b2", "#009e73", "#cc79a7")
PALE = "stroke-width:7;stroke-opacity:0.3"
# What the tunnel's drr promises each customer: the part of its quantum (3000 and 1500) of the 20 Mbit/s. Of a packet of 1500 bytes TCP
# carries 1448.
PROMISED = {"drr of two fq_codels": [20 * part * 1448 / 1500 for part in (2 / 3, 1 / 3)]}
STYLE = """
text{font:11px sans-serif;fill:#222}.title{font-size:15px;font-weight:bold}.axis{font-size:12px}
polyline{fill:none;stroke-width:1.3}line{stroke:#e4e4e4}.key{stroke-width:4}.wanted{stroke:#888;stroke-dasharray:4 3}"""


def text(x, y, words, more=""):
    return f'<text x="{x:.1f}" y="{y:.1f}" {more}>{words}</text>'


def line(x, y, to_x, to_y, more=""):
    return f'<line x1="{x:.1f}" y1="{y:.1f}" x2="{to_x:.1f}" y2="{to_y:.1f}" {more}/>'


def curve(colour, points):
    return f'<polyline stroke="{colour}" points="' + " ".join(f"{x:.1f},{y:.1f}" for x, y in points) + '"/>'


def legend(entries):
    """A line of a colour and a name for each entry, below the title."""
    made = []
    for number, (colour, words) in enumerate(entries):
        y = 40 + 16 * number
        made += [line(LEFT, y, LEFT + 12, y, f'class="key" style="stroke:{colour}"'), text(LEFT + 18, y + 4, words)]
    return made


def cross(x, y, colour):
    style = f'style="stroke:{colour};stroke-width:1.6"'
    return line(x - 4, y - 4, x + 4, y + 4, style) + line(x - 4, y + 4, x + 4, y - 4, style)


def losses_of(one):
    """How many frames were lost by each cause, in the direction of the downloads."""
    totals = one["totals"][0]
    return ", ".join(f"{totals[it]} lost by {it}" for it in CAUSES if totals.get(it)) or "none lost"


def seconds_axis(left, right, last):
    made = []
    step = next(it for it in (1, 2, 5, 10, 20, 60, 120) if last / it <= 6 or it == 120)
    for at in range(0, round(last) + 1, step):
        x = left + (right - left) * at / last
        made += [line(x, TOP, x, BOTTOM), text(x, BOTTOM + 16, at, 'text-anchor="middle"')]
    return made


def written(path, title, axis, made):
    head = f'<svg xmlns="http://www.w3.org/2000/svg" viewBox="0 0 {WIDTH} {HEIGHT}" width="{WIDTH}" height="{HEIGHT}">'
    middle = (TOP + BOTTOM) / 2
    around = [
        f'<rect width="{WIDTH}" height="{HEIGHT}" fill="#fff"/>',
        text(LEFT, 22, title, 'class="title"'),
        text((LEFT + RIGHT) / 2, BOTTOM + 38, "time, s", 'class="axis" text-anchor="middle"'),
        f'<text class="axis" transform="translate(18,{middle}) rotate(-90)" text-anchor="middle">{axis}</text>',
    ]
    path.write_text("\n".join([head, f"<style>{STYLE}</style>", *around, *made, "</svg>"]) + "\n")


def delays(found, path, title, says):
    """On a scale of powers of ten, as one curve is a thousand times as high as the others; a cross at the top is a ping without an answer.
    says is what the legend says of each besides."""
    last = max(at for it in found for at, _ in it["pings"])
    least = math.log10(0.9 * min(ms for it in found for _, ms in it["pings"]))
    most = math.ceil(math.log10(max(ms for it in found for _, ms in it["pings"])))

    def y(ms):
        return BOTTOM - (BOTTOM - TOP) * (math.log10(ms) - least) / (most - least)

    made = seconds_axis(LEFT, RIGHT, last)
    for power in range(math.ceil(least), most + 1):
        made += [line(LEFT, y(10**power), RIGHT, y(10**power)), text(LEFT - 6, y(10**power) + 4, f"{10.0**power:g}", 'text-anchor="end"')]
    entries = []
    for colour, one in zip(COLOURS, found):
        made.append(curve(colour, ((LEFT + (RIGHT - LEFT) * at / last, y(ms)) for at, ms in one["pings"])))
        made += [cross(LEFT + (RIGHT - LEFT) * at / last, TOP + 6, colour) for at in one["unanswered_at"]]
        times = sorted(ms for _, ms in one["pings"])
        median = times[len(times) // 2]
        unanswered = f", {len(one['unanswered_at'])} pings unanswered (crosses)" if one["unanswered_at"] else ""
        entries.append((colour, f"{one['name']}: median {median:.{0 if median >= 10 else 1}f} ms{unanswered}; {says(one)}"))
    written(path, title, "round-trip time, ms, on a logarithmic scale", made + legend(entries))


def shares(found, path):
    """A panel for each discipline, with a curve for each customer."""
    most = 5 * math.ceil(max(rate for it in found for rates in it["rates"] for rate in rates) / 5)
    width = (RIGHT - LEFT - 24 * (len(found) - 1)) / len(found)

    def y(rate):
        return BOTTOM - (BOTTOM - TOP) * rate / most

    made = []
    for number, one in enumerate(found):
        left = LEFT + number * (width + 24)
        last = max(map(len, one["rates"]))
        made += seconds_axis(left, left + width, last)
        for rate in range(0, most + 1, 5):
            made.append(line(left, y(rate), left + width, y(rate)))
            made += [text(LEFT - 6, y(rate) + 4, rate, 'text-anchor="end"')] if number == 0 else []
        for colour, rates in zip(COLOURS, one["rates"]):
            made.append(curve(colour, ((left + width * (at + 0.5) / last, y(rate)) for at, rate in enumerate(rates))))
        for colour, rate in zip(COLOURS, PROMISED.get(one["name"], ())):
            made.append(line(left, y(rate), left + width, y(rate), f'style="stroke:{colour};{PALE}"'))
        first, second = (sum(it) / len(it) for it in one["rates"])
        made.append(text(left + width / 2, TOP - 6, f"{one['name']}: {first / second:.2f} to 1", 'text-anchor="middle"'))
    entries = [(COLOURS[0], "first customer"), (COLOURS[1], "second customer")]
    told = "pale: what drr promises, 2/3 and 1/3 of the rate, which without headers are 12.87 and 6.44 Mbit/s"
    pale = [line(LEFT, 72, LEFT + 12, 72, f'style="stroke:#888;{PALE}"'), text(LEFT + 18, 76, told)]
    title = "Two customers with two TCP downloads each, in a tunnel of 20 Mbit/s"
    written(path, title, "throughput, Mbit/s", made + legend(entries) + pale)


def draw(found, folder):
    delays(found, folder / "tunnel_delays.svg", "Pings beside four TCP downloads through a tunnel of 20 Mbit/s", losses_of)
    shares(found, folder / "tunnel_shares.svg")


if __name__ == "__main__":
    if len(sys.argv) != 3:
        sys.exit(__doc__)
    draw(json.loads(pathlib.Path(sys.argv[1]).read_text()), pathlib.Path(sys.argv[2]))
