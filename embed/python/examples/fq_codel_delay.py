#!/usr/bin/env python3
"""Draws how long packets wait below a tbf of 10 Mbit/s, in a pfifo and in an fq_codel: a bulk flow at 1.5 times the rate, and voice.

    examples/fq_codel_delay.py [FILE.svg]    by default fq_codel_delay.svg

It needs neither numpy nor matplotlib. Where the package is not installed, PYTHONPATH names its folder."""
import math
import random
import sys

import qtree

# %% Seven seconds of a bulk flow, whose packets come at random, and ten of voice: 200 bytes each 20 ms.
SECOND = 10**9
chance = random.Random(1)
bulk = [(chance.randrange(SECOND, 8 * SECOND), "bulk") for _ in range(7 * 1250)]
voice = [(at, "voice") for at in range(0, 10 * SECOND, SECOND // 50)]
times, kinds = zip(*sorted(bulk + voice))
ports, lengths = {"bulk": 5001, "voice": 5060}, {"bulk": 1500, "voice": 200}
packets = qtree.packets(len(times), family=4, proto=17, src_low=0x0a000001, dst_low=0x0a000002, dport=9,
                        sport=[ports[it] for it in kinds], len=[lengths[it] for it in kinds])

# %% The same packets through both trees, each by one call of C.
TBF = "tc qdisc add dev w root handle 1: tbf rate 10mbit burst 3100 latency 1s\n"
leaves = ("pfifo limit 300", "fq_codel")
results = {leaf: qtree.simulate(f"{TBF}tc qdisc add dev w parent 1:1 handle 2: {leaf}", packets, times) for leaf in leaves}


def delays(leaf, kind):
    """When each packet of a kind arrived, and how long it waited, in s and ms: those that were sent."""
    each = zip(times, results[leaf].at, results[leaf].code, kinds)
    return [(at / SECOND, (int(sent) - at) / 1e6) for at, sent, code, it in each if code == qtree.SENT and it == kind]


for leaf in results:
    for kind in ports:
        waits = sorted(ms for _, ms in delays(leaf, kind))
        print(f"{leaf:16} {kind:6} sent {len(waits):5} of {kinds.count(kind):5}, waited ms: median {waits[len(waits) // 2]:7.2f}, "
              f"99 % {waits[len(waits) * 99 // 100]:7.2f}, most {waits[-1]:7.2f}")

# %% A panel for each tree. The scale of the delay is logarithmic, from 0.01 to 10000 ms.
WIDE, HIGH, LEFT = 900, 260, 70
COLOURS = {"bulk": "#c0504d", "voice": "#1f5fa8"}


def across(seconds):
    return LEFT + seconds * (WIDE - LEFT - 20) / 10


def down(milliseconds, panel):
    part = (math.log10(max(milliseconds, 0.01)) + 2) / 6
    return 40 + panel * HIGH + (1 - part) * (HIGH - 70)


def panel_of(leaf, panel):
    lines = [f'<text x="{LEFT}" y="{28 + panel * HIGH}" font-size="15">{leaf} below a tbf of 10 Mbit/s: delay in ms</text>']
    for ms in (0.01, 0.1, 1, 10, 100, 1000, 10000):
        y = down(ms, panel)
        lines.append(f'<path d="M{LEFT} {y:.1f}H{WIDE - 20}" stroke="#ddd"/>')
        lines.append(f'<text x="{LEFT - 8}" y="{y + 4:.1f}" text-anchor="end">{ms:g}</text>')
    for kind, colour in COLOURS.items():
        dots = "".join(f"M{across(at):.1f} {down(ms, panel):.1f}h0" for at, ms in delays(leaf, kind))
        lines.append(f'<path d="{dots}" stroke="{colour}" stroke-width="2.5" stroke-linecap="round" fill="none"/>')
    return lines


drawn = [f'<svg xmlns="http://www.w3.org/2000/svg" viewBox="0 0 {WIDE} {2 * HIGH + 30}" font-family="sans-serif" font-size="12">',
         f'<rect width="{WIDE}" height="{2 * HIGH + 30}" fill="white"/>']
for number, leaf in enumerate(results):
    drawn += panel_of(leaf, number)
drawn += [f'<text x="{across(it):.1f}" y="{2 * HIGH + 8}" text-anchor="middle">{it} s</text>' for it in range(0, 11, 2)]
drawn += [f'<text x="{WIDE - 150 + 70 * it}" y="28" fill="{COLOURS[kind]}" font-size="15">{kind}</text>' for it, kind in enumerate(COLOURS)]
path = sys.argv[1] if len(sys.argv) > 1 else "fq_codel_delay.svg"
with open(path, "w", encoding="utf-8") as file:
    file.write("\n".join([*drawn, "</svg>", ""]))
print(path)
