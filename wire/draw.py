#!/usr/bin/env python3
"""Draws what wire/measure found: the times of pings by rate, the kernel's and qtree-wire's.

    wire/draw.py MEASURED.json FILE.svg
"""
import json
import math
import pathlib
import sys

WIDTH, HEIGHT, LEFT, RIGHT, TOP, BOTTOM = 800, 400, 64, 784, 110, 350
COLOURS = {"kernel": "#d55e00", "packet": "#0072b2", "xdp": "#009e73", "packet, -w 200": "#56b4e9", "xdp, -w 200": "#8fd175"}
STYLE = "text{font:11px sans-serif;fill:#222}.title{font-size:15px;font-weight:bold}.axis{font-size:12px}line{stroke:#e4e4e4}"


def text(x, y, words, more=""):
    return f'<text x="{x:.1f}" y="{y:.1f}" {more}>{words}</text>'


def height(ms, most):
    """Where a time is, on an axis whose steps are tenfold from 0.01 ms on."""
    return BOTTOM - (BOTTOM - TOP) * (math.log10(max(ms, 0.01)) + 2) / (math.log10(most) + 2)


def axis(most):
    made = []
    for power in range(-2, round(math.log10(most)) + 1):
        y = height(10**power, most)
        made += [f'<line x1="{LEFT}" y1="{y:.1f}" x2="{RIGHT}" y2="{y:.1f}"/>']
        made += [text(LEFT - 6, y + 4, f"{10.0**power:g}", 'text-anchor="end"')]
    return made


def bars(found, most):
    """A bar from the median to the 99th percentile, with a tick at the 95th, for each rate and each way."""
    made, rates = [], list(dict.fromkeys(it["rate"] for it in found["pings"]))
    wide = (RIGHT - LEFT) / len(rates)
    for it in found["pings"]:
        middle, colour = LEFT + wide * (rates.index(it["rate"]) + 0.5), COLOURS[it["name"]]
        beside = [each["name"] for each in found["pings"] if each["rate"] == it["rate"]]
        x = middle + 34 * (beside.index(it["name"]) - (len(beside) - 1) / 2)
        low, tick, high = (height(ms, most) for ms in it["times"])
        size = f'width="20" height="{max(low - high, 1):.1f}"'
        made += [f'<rect x="{x - 10:.1f}" y="{high:.1f}" {size} fill="{colour}" fill-opacity="0.45"/>']
        for y, stroke in ((low, 3), (tick, 1.5)):
            style = f'style="stroke:{colour};stroke-width:{stroke}"'
            made += [f'<line x1="{x - 14:.1f}" y1="{y:.1f}" x2="{x + 14:.1f}" y2="{y:.1f}" {style}/>']
        made += [text(x, low + 14, f"{it['times'][0]:.3g}", 'text-anchor="middle"')]
    for number, rate in enumerate(rates):
        words = f"{rate} Mbit/s" if rate else "no limit"
        made += [text(LEFT + wide * (number + 0.5), BOTTOM + 30, words, 'text-anchor="middle" class="axis"')]
    return made


def draw(found, path):
    most = 10 ** math.ceil(math.log10(max(max(it["times"]) for it in found["pings"])))
    names = {"kernel": f"the kernel's htb and {found['leaf'].split()[0]}"}
    made = [text(LEFT, 24, "Pings beside four TCP connections each way, ms: median to 99th percentile", 'class="title"')]
    for number, (name, colour) in enumerate(COLOURS.items()):
        x, y = LEFT + 260 * (number // 3), 36 + 18 * (number % 3)
        words = names.get(name, f"qtree-wire -i {name.replace(',', '')}")
        made += [f'<rect x="{x}" y="{y}" width="12" height="10" fill="{colour}"/>', text(x + 18, y + 9, words)]
    head = f'<svg xmlns="http://www.w3.org/2000/svg" width="{WIDTH}" height="{HEIGHT}" viewBox="0 0 {WIDTH} {HEIGHT}">'
    ground = f'<rect width="{WIDTH}" height="{HEIGHT}" fill="#fff"/>'
    body = [head, f"<style>{STYLE}</style>", ground, *made, *axis(most), *bars(found, most), "</svg>", ""]
    pathlib.Path(path).write_text("\n".join(body), encoding="utf-8")


if __name__ == "__main__":
    draw(json.loads(pathlib.Path(sys.argv[1]).read_text(encoding="utf-8")), sys.argv[2])
