"""A packet scheduler with the behaviour of Linux traffic control, over the shared library of qtree for C.

A tree of queueing disciplines (pfifo, bfifo, prio, tbf, drr and fq_codel) is set up by lines of tc. `simulate` lets packets arrive at their
own times, and says when each of them was sent, or why it was lost. A `Device` is one scheduler, for a program that makes the calls itself.

Times are in nanoseconds. Where numpy is installed, arrays of it go in and come out; elsewhere lists do.
"""
from .codes import Cause, LineError, QtreeError, SetUpError
from .device import Counters, Delay, Departure, Device, Report, Service, Turned
from .records import Frame, Lost, Packet, Sent, packets
from .simulation import QUEUED, SENT, Simulated, simulate
from ._library import MOMENT_MAX, version

__all__ = [
    "MOMENT_MAX", "QUEUED", "SENT", "Cause", "Counters", "Delay", "Departure", "Device", "Frame", "LineError", "Lost", "Packet",
    "QtreeError", "Report", "Sent", "Service", "SetUpError", "Simulated", "Turned", "packets", "simulate", "version",
]
