"""A device, for a program that makes each call itself."""
from __future__ import annotations

import ctypes
from types import TracebackType
from typing import Any, List, NamedTuple, Optional, Tuple, Type

from ._library import batch, name_of, qtree, written
from .codes import CLOSED, DONE, FAULTY, IDLE, LATER, NOTHING, OUT_OF_RANGE, UNDONE, LineError, QtreeError, SetUpError, arrived, check
from .records import Array, CountOf, Frame, Loss, Lost, Packet, Records, Row, Sent, listed, made, taken

_u8, _u16, _u32, _u64, _size = ctypes.c_uint8, ctypes.c_uint16, ctypes.c_uint32, ctypes.c_uint64, ctypes.c_size_t
NEVER = (1 << 64) - 1
VIEWS = ("qdiscs", "counters", "classes", "filters")


class _Handle(ctypes.Structure):
    _fields_ = [("at", ctypes.c_void_p), ("state", _u64)]


class _Settings(ctypes.Structure):
    _fields_ = [("txqueuelen", _u32), ("recorder", _u32), ("mtu", _u16)]


class _Fault(ctypes.Structure):
    _fields_ = [("word", _size), ("number", _u32)]


class _Report(ctypes.Structure):
    _fields_ = [(it, _u64) for it in ("lines", "added", "changed", "deleted")] + [("undone", _size)]


class _Undone(ctypes.Structure):
    _fields_ = [("fault", _Fault), ("line", _u64), ("code", _u32)]


class _Turned(ctypes.Structure):
    _fields_ = [("sent", _size), ("lost", _size), ("again", _u64)]


class Report(NamedTuple):
    """What a set-up did."""
    lines: int
    added: int
    changed: int
    deleted: int


class Turned(NamedTuple):
    """What a turn did."""
    sent: Array  # of Sent
    lost: Array  # of Lost
    again: Optional[int]  # when to take the next turn, if no packet arrives before; None if there is nothing to wait for


class Counters(NamedTuple):
    """The counters of a place, each in packets and bytes. What arrived is what was sent, refused or dropped, or is queued."""
    arrived: Tuple[int, int]
    sent: Tuple[int, int]
    refused: Tuple[int, int]
    dropped: Tuple[int, int]
    queued: Tuple[int, int]
    marked: Tuple[int, int]


class Service(NamedTuple):
    """What a class of a drr is promised while something is queued in it, whatever comes to the other classes."""
    link: int  # the rate of the tbf at the root, in bits a second; 0 if a drr is at the root, as rate is
    rate: int  # the class's share of that rate, rounded down at each drr on the way
    part: int  # the class's share of a billion bytes, in bytes, rounded down so too
    slack: int  # the most bytes that the class can fall short of its share
    late: Optional[int]  # by how many nanoseconds polls may be late; None if they may come at any time


class Delay(NamedTuple):
    """How long a packet waits at most in a pfifo or bfifo."""
    bytes: int  # the device sends no more bytes until the packet has left, including its own
    ns: Optional[int]  # None without a tbf at the root
    late: Optional[int]  # by how many nanoseconds polls may be late for this to hold


class Departure(NamedTuple):
    """By when a packet has left a pfifo or bfifo."""
    bytes: int
    at: Optional[int]  # counted from the device's last event; None without a tbf at the root
    late: Optional[int]


def _place(name: str) -> Tuple[int, int, int]:
    if name in ("top", "root"):
        return int(name == "root"), 0, 0
    try:
        major, minor = (int(it, 16) for it in name.split(":"))
        if not (0 < major < 0xffff and 0 < minor <= 0xffff):
            raise ValueError
    except ValueError:
        raise ValueError(f"{name!r} is no place: it is top, root, or a class such as 1:10, in hexadecimal digits as in tc") from None
    return 2, major, minor


def _time(number: int) -> Optional[int]:
    return None if number == NEVER else number


class Device:
    """One scheduler. Only one thread at a time uses it. It is closed at the end of a `with`, by `close`, or when it is collected."""

    def __init__(self, tree: str = "", *, mtu: int = 1514, txqueuelen: int = 1000, recorder: int = 0, now: int = 0) -> None:
        self.handle = ctypes.pointer(_Handle())
        self._moment, self._count = _u64(), _size()
        settings = _Settings(txqueuelen, recorder, mtu)
        if (settings.txqueuelen, settings.recorder, settings.mtu) != (txqueuelen, recorder, mtu):
            raise QtreeError(OUT_OF_RANGE)
        check(qtree.qtree_open(self.handle, ctypes.byref(settings)))
        if tree:
            try:
                self.set_up(tree, now)
            except QtreeError:
                self.close()
                raise

    def __enter__(self) -> Device:
        return self

    def __exit__(self, kind: Optional[Type[BaseException]], error: Optional[BaseException], trace: Optional[TracebackType]) -> None:
        self.close()

    def __del__(self) -> None:
        if hasattr(self, "handle"):
            self.close()

    def close(self) -> None:
        """Frees the device. Packets that are queued, and losses that wait, are discarded."""
        qtree.qtree_close(self.handle)

    def run(self, line: str, now: int = 0) -> None:
        """Carries out one line of tc that changes the tree, or raises LineError."""
        text, fault = line.encode(), _Fault()
        code = qtree.qtree_command(self.handle, text, len(text), _moment(now), ctypes.byref(fault))
        if code in (OUT_OF_RANGE, CLOSED):
            raise QtreeError(code)
        if code != DONE:
            raise _line_error(text, 1, code, fault)

    def set_up(self, tree: str, now: int = 0) -> Report:
        """Makes the tree what a whole file of tc lines says, even while packets are queued, or raises SetUpError and changes nothing."""
        text, report, undone = tree.encode(), _Report(), (_Undone * 100)()
        code = qtree.qtree_set_up(self.handle, text, len(text), _moment(now), ctypes.byref(report), undone, len(undone))
        if code == UNDONE:
            lines = text.split(b"\n")
            wrong = [_line_error(lines[it.line - 1], it.line, it.code, it.fault) for it in undone[:min(report.undone, 100)]]
            raise SetUpError(wrong, report.undone)
        check(code)
        return Report(report.lines, report.added, report.changed, report.deleted)

    def arrive(self, packet: Packet, now: int) -> int:
        """Lets a packet arrive. Returns Cause.KEPT if it is queued, or why it is lost."""
        return arrived(qtree.qtree_arrive(self.handle, ctypes.byref(packet), _moment(now)))

    def arrive_many(self, packets: Records, now: int) -> Array:
        """Lets packets arrive in order, all at the same time. Returns the number of a Cause for each. If one is out of its range,
        QtreeError says how many arrived before it."""
        array, address, count = taken(Packet, packets)
        causes, causes_at = made(_u8, count)
        done = ctypes.byref(self._count)
        check(qtree.qtree_arrive_many(self.handle, address, count, causes_at, count, done, _moment(now)), self._count.value)
        del array
        return listed(causes, count)

    def arrive_frames(self, block: Any, frames: Records, now: int, *, seed: int = 0) -> Array:
        """Lets packets arrive whose bytes are in one block (bytes, or an array of numpy), as arrive_many does."""
        array, address, count = taken(Frame, frames)
        causes, causes_at = made(_u8, count)
        view, block_at, size = taken(_u8, block if not isinstance(block, bytes) else (_u8 * len(block)).from_buffer_copy(block))
        done = ctypes.byref(self._count)
        code = batch.qtree_batch_frames(self.handle, block_at, size, address, count, seed, _moment(now), causes_at, done)
        check(code, self._count.value)
        del array, view
        return listed(causes, count)

    def poll(self, now: int) -> Optional[Sent]:
        """Takes the packet whose turn it is; None if there is none that may go at this time."""
        sent = Sent()
        code = qtree.qtree_poll_buf(self.handle, _moment(now), ctypes.byref(sent))
        if code in (IDLE, LATER):
            return None
        check(code)
        return sent

    def turn(self, now: int, room: int = 64) -> Turned:
        """Polls while a packet is due, room of them at most, and reaps as many losses at most. If again is not after now, there may be more
        to send or to reap: take another turn."""
        sent, sent_at = made(Sent, room)
        lost, lost_at = made(Lost, room)
        turned = _Turned()
        check(qtree.qtree_turn(self.handle, _moment(now), sent_at, room, lost_at, room, ctypes.byref(turned)))
        again = min(turned.again, now) if room > 0 and turned.lost == room else turned.again
        return Turned(listed(sent, turned.sent), listed(lost, turned.lost), _time(again))

    def ready_at(self) -> Optional[int]:
        """The time before which no poll gives a packet; None if none ever will, as long as no packet arrives and no command comes."""
        code = qtree.qtree_ready_at(self.handle, ctypes.byref(self._moment))
        if code == NOTHING:
            return None
        check(code)
        return self._moment.value

    def reap(self) -> Optional[Lost]:
        """The oldest loss that was not handed out yet."""
        loss = Loss()
        code = qtree.qtree_reap(self.handle, ctypes.byref(loss))
        if code == NOTHING:
            return None
        check(code)
        return Lost(loss.packet.number, loss.packet.port, loss.packet.buf, loss.cause)

    def counters(self, place: str = "top") -> Counters:
        """The counters of a place: top is the device itself, root the qdisc at its root, and 1:10 the qdisc in that class. Raises
        QtreeError if there is no such place."""
        row = Row()
        check(qtree.qtree_stats(self.handle, *_place(place), ctypes.byref(row)))

        def both(it: CountOf) -> Tuple[int, int]:
            return it.packets, it.bytes

        return Counters(both(row.arrived), both(row.sent), both(row.refused), both(row.dropped), both(row.queued), both(row.marked))

    def oldest(self, place: str = "top") -> Optional[int]:
        """When the packet arrived that has been queued in a place for the longest; None if nothing is queued there."""
        found = self._answer(qtree.qtree_oldest, 1, place)
        return found[0] if found else None

    def most_packets(self) -> int:
        """How many packets can be queued at most, as long as no command changes the device."""
        check(qtree.qtree_most_packets(self.handle, ctypes.byref(self._moment)))
        return self._moment.value

    def service(self, place: str) -> Optional[Service]:
        """What the class of a drr in a place is promised; None if nothing is."""
        late, promise = self._answer(qtree.qtree_lateness, 1, place), self._answer(qtree.qtree_service, 4, place)
        return Service(promise[0], promise[1], promise[2], promise[3], _time(late[0])) if late and promise else None

    def worst(self, place: str) -> Optional[Delay]:
        """How long a packet waits at most in the pfifo or bfifo in a place; None if nothing is promised."""
        found = self._answer(qtree.qtree_worst, 3, place)
        return Delay(found[0], _time(found[1]), _time(found[2])) if found else None

    def latest(self, place: str, length: int) -> Optional[Departure]:
        """By when a packet of this length has left that is to arrive next in the pfifo or bfifo in a place; with a length of 0, by when the
        one has left that was queued there last. None if nothing is promised."""
        if not 0 <= length <= 65535:
            raise QtreeError(OUT_OF_RANGE)
        found = self._answer(qtree.qtree_latest, 3, place, length)
        return Departure(found[0], _time(found[1]), _time(found[2])) if found else None

    def _answer(self, function: Any, numbers: int, place: str, *more: int) -> List[int]:
        """So many numbers about a place, or none."""
        found = (_u64 * numbers)()
        code = function(self.handle, *_place(place), *more, ctypes.byref(found))
        if code == NOTHING:
            return []
        check(code)
        return list(found)

    def show(self, view: str = "counters") -> str:
        """A text about the tree, such as tc shows: qdiscs, counters, classes or filters."""
        if view not in VIEWS:
            raise ValueError(f"{view!r} is none of {', '.join(VIEWS)}")
        code, text = written(qtree.qtree_show, self.handle, VIEWS.index(view))
        check(code)
        return text or ""

    def recorded_script(self) -> str:
        """The script of the events that the recorder has; qtree-play does with it what the device did."""
        code, text = written(qtree.qtree_recorded_script, self.handle)
        check(code)
        return text or ""


def _moment(now: int) -> int:
    """ctypes would cut a time that has more than 64 bits."""
    if not 0 <= now <= NEVER:
        raise QtreeError(OUT_OF_RANGE)
    return now


def _line_error(line: bytes, number: int, code: int, fault: Any) -> LineError:
    _, text = written(qtree.qtree_explain, line, len(line), number, code, ctypes.byref(fault))
    if code == FAULTY:
        return LineError(code, number, text or "", name_of(1, fault.number), fault.word)
    return LineError(code, number, text or "")
