#!/usr/bin/env python3
"""Writes the script of docs/pictures/overload.svg on standard output: ten seconds of a link that gets 1.2 times its rate.

    docs/pictures/overload.py > overload.script

The link has 1 Mbit/s, so that a packet of 1000 bytes takes it 8 ms: it polls every 8 ms. Flow 0 sends 145 packets a second,
evenly and whatever is lost; flow 1 sends 5. Losses are reaped after each poll. Nothing is random.
"""
SECOND = 1_000_000_000
LENGTH = 1000
STEP = LENGTH * 8 * SECOND // 1_000_000
SECONDS = 10
RATES = (145, 5)


def events():
    """Each time with its lines; at the same time packets come before the poll."""
    for flow, rate in enumerate(RATES):
        for number in range(SECONDS * rate):
            yield (2 * number + 1) * SECOND // (2 * rate), 0, f"pkt {LENGTH} hash {flow}"
    for number in range(SECONDS * SECOND // STEP):
        yield number * STEP, 1, "poll\nreap"


def main():
    print("tc qdisc add dev wan root handle 1: fq_codel noecn")
    at = 0
    for time, _, lines in sorted(events()):
        if time != at:
            print(f"at {time}")
            at = time
        print(lines)
    print("totals")


if __name__ == "__main__":
    main()
