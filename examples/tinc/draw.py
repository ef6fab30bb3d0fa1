#!/usr/bin/env python3
"""Draws what examples/tinc/run measured, as SVG: round-trip times of pings.

    examples/tinc/draw.py MEASURED.json FOLDER     writes tinc_delays.svg there
"""
import importlib.util
import json
import pathlib
import sys

sys.dont_write_bytecode = True
_found = importlib.util.spec_from_file_location("tunnel_draw", pathlib.Path(__file__).resolve().parents[1] / "tunnel/draw.py")
tunnel = importlib.util.module_from_spec(_found)
_found.loader.exec_module(tunnel)


def says(one):
    return f"{one['rate']:.1f} Mbit/s; lost: {one['lost']}"


def draw(found, folder):
    tunnel.delays(found, folder / "tinc_delays.svg", "Pings beside four TCP flows through tinc over 20 Mbit/s", says)


if __name__ == "__main__":
    if len(sys.argv) != 3:
        sys.exit(__doc__)
    draw(json.loads(pathlib.Path(sys.argv[1]).read_text()), pathlib.Path(sys.argv[2]))
