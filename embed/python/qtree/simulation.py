"""Packets that arrive at their own times, followed by one call of C."""
from __future__ import annotations

import ctypes
from typing import NamedTuple, Optional

from ._library import MOMENT_MAX, batch
from .codes import DONE, LATER, check
from .device import Device
from .records import Array, Fate, Packet, Records, made, numpy, taken

SENT, QUEUED = DONE, LATER


class Simulated(NamedTuple):
    """What became of each packet, in the order in which they arrived."""
    at: Array  # when it was sent or lost; MOMENT_MAX, or the given end, if it is still queued
    code: Array  # SENT, QUEUED, or the number of a Cause
    ecn: Array  # its ECN codepoint when it was sent: 3 if it was marked
    counters: str  # the text of `tc -s qdisc show` at the end


def simulate(tree: str, packets: Records, times: Records, *, rate: int = 0, end: Optional[int] = None, mtu: int = 1514) -> Simulated:
    """Lets each packet arrive at its time, and sends each as soon as the tree and the link allow it.

    tree     a file of lines of tc
    packets  an array that `packets` made, or a list of Packet; number is not used, and buf is the program's own
    times    when each packet arrives, in nanoseconds: none before that before it
    rate     the rate of the link in bits a second, for a tree without a tbf at its root; 0 is a link that takes each packet at once
    end      after this time nothing is sent; without it, it goes on until nothing is due
    mtu      the length of the longest packet that is taken

    Packets that arrive at the time at which one is due arrive before it is sent. Raises SetUpError if a line of the tree cannot be carried
    out, QtreeError if a packet is out of its range, or comes before the one before it, and ValueError unless there are as many
    packets as times."""
    given, packet_at, count = taken(Packet, packets)
    moments, moment_at, moment_count = taken(ctypes.c_uint64, times)
    if count != moment_count:
        raise ValueError(f"there are {count} packets and {moment_count} times")
    if not 0 <= rate < 1 << 64 or (end is not None and not 0 <= end <= MOMENT_MAX):
        raise ValueError(f"the rate {rate} or the end {end} is out of its range")
    fates, fate_at = made(Fate, count)
    done = ctypes.c_size_t()
    with Device(tree, mtu=mtu) as device:
        check(batch.qtree_batch_simulate(device.handle, packet_at, moment_at, count, rate, MOMENT_MAX if end is None else end, fate_at,
                                         ctypes.byref(done)), done.value)
        counters = device.show()
    del given, moments  # whose memory the call has read
    if numpy is not None:
        return Simulated(fates["at"].copy(), fates["code"].copy(), fates["ecn"].copy(), counters)
    return Simulated([it.at for it in fates], [it.code for it in fates], [it.ecn for it in fates], counters)
