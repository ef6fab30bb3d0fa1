"""The structs of the library as ctypes has them, and arrays of them."""
from __future__ import annotations

import ctypes
from typing import Any, Dict, Iterable, Sequence, Tuple, Type, Union

from ._library import batch, qtree
from .codes import check

numpy: Any = None
try:
    import numpy as _numpy
    numpy = _numpy
except ImportError:
    pass

_u8, _u16, _u32, _u64, _size = ctypes.c_uint8, ctypes.c_uint16, ctypes.c_uint32, ctypes.c_uint64, ctypes.c_size_t


class _Shown(ctypes.Structure):
    def __repr__(self) -> str:
        fields = ", ".join(f"{name}={value}" for name, *_ in self._fields_ if (value := getattr(self, name)))
        return f"{type(self).__name__}({fields})"

    def __eq__(self, other: object) -> bool:
        return type(self) is type(other) and all(getattr(self, it[0]) == getattr(other, it[0]) for it in self._fields_)

    __hash__ = None  # type: ignore[assignment]


class Packet(_Shown):
    """A packet: Packet(len=1500, buf=7, family=4, ..). A field that is not named is 0."""
    _fields_ = [
        ("src_high", _u64), ("src_low", _u64), ("dst_high", _u64), ("dst_low", _u64), ("number", _u64), ("port", _u32), ("buf", _u32),
        ("hash", _u32), ("len", _u16), ("sport", _u16), ("dport", _u16), ("proto", _u8), ("family", _u8), ("prio", _u8), ("ecn", _u8),
    ]

    def read_head(self, frame: bytes, seed: int = 0) -> None:
        """Fills in the fields that an IP header has, and the hash of the flow. number, port, buf and len stay as they are."""
        qtree.qtree_read_head(frame, len(frame), seed, ctypes.byref(self))

    def set_hash(self, seed: int = 0) -> None:
        """Computes the hash, by which an fq_codel chooses the flow, from family, proto, addresses and ports."""
        check(qtree.qtree_hash(seed, ctypes.byref(self)))


class Sent(_Shown):
    """A packet that a poll gave."""
    _fields_ = [("number", _u64), ("port", _u32), ("buf", _u32), ("len", _u16), ("ecn", _u8)]


class Lost(_Shown):
    """A lost packet."""
    _fields_ = [("number", _u64), ("port", _u32), ("buf", _u32), ("cause", _u32)]


class Frame(_Shown):
    """Where a packet's bytes are in a block of bytes: count of them, from the IP header at offset on. len is what qdiscs count."""
    _fields_ = [("number", _u64), ("offset", _u64), ("buf", _u32), ("count", _u16), ("len", _u16)]


class Fate(_Shown):
    """What became of a packet."""
    _fields_ = [("at", _u64), ("code", _u32), ("ecn", _u8)]


class Loss(_Shown):
    _fields_ = [("packet", Packet), ("cause", _u32)]


class CountOf(_Shown):
    _fields_ = [("packets", _u64), ("bytes", _u64)]


class Row(_Shown):
    _fields_ = [(it, CountOf) for it in ("arrived", "sent", "refused", "dropped", "queued", "marked")]


# The library says the sizes of its structs.
for _number, _type in ((2, Packet), (3, Loss), (4, Row), (7, CountOf), (11, Sent)):
    assert qtree.qtree_size_of(_number) == ctypes.sizeof(_type), f"{_type.__name__} has another size in the library"

Array = Any  # an array of numpy, an array of ctypes, or a list
Records = Union[Array, Sequence[_Shown]]


def made(kind: Type[Any], count: int) -> Tuple[Array, int]:
    """An array of count records that are 0, and its address."""
    if numpy is not None:
        array = numpy.zeros(count, kind)
        return array, array.ctypes.data
    plain = (kind * count)()
    return plain, ctypes.addressof(plain)


def taken(kind: Type[Any], records: Records) -> Tuple[Array, int, int]:
    """Records as an array in one piece, its address, and how many there are. What is an array already is not copied."""
    if numpy is not None and isinstance(records, numpy.ndarray):
        wanted = numpy.dtype(kind)
        if wanted.fields is not None and records.dtype != wanted:
            raise TypeError(f"an array of {records.dtype} is none of {kind.__name__}: qtree.packets makes one")
        if records.ndim != 1 or (wanted.fields is None and records.dtype.kind not in "iu"):
            raise TypeError(f"an array of {records.ndim} dimensions of {records.dtype} was given, and one of whole numbers is needed")
        if records.dtype.kind == "i" and records.size and records.min() < 0:
            raise ValueError("a number is negative")
        array = numpy.ascontiguousarray(records, wanted)
        return array, array.ctypes.data, len(array)
    if isinstance(records, ctypes.Array) and records._type_ is kind:
        return records, ctypes.addressof(records), len(records)
    plain = (kind * len(records))(*(_checked(kind, it) for it in records))
    return plain, ctypes.addressof(plain), len(plain)


def _checked(kind: Type[Any], record: Any) -> Any:
    """ctypes cuts a number that is too large without a word."""
    if issubclass(kind, ctypes.Structure):
        return record
    number = int(record)
    if not 0 <= number < 1 << 8 * ctypes.sizeof(kind):
        raise ValueError(f"{number} is out of its range")
    return number


def listed(array: Array, count: int) -> Array:
    """The first so many records: an array of numpy, or a list."""
    return array[:count] if numpy is None or not isinstance(array, numpy.ndarray) else array[:count].copy()


def packets(count: int, *, seed: int = 0, **fields: Union[int, Iterable[int]]) -> Array:
    """An array of count packets. Each field is a number, or has one for each packet; len is 1500 if it is not named.

    If hash is not named, it is computed from the other fields with this seed."""
    array, address = made(Packet, count)
    wanted: Dict[str, Union[int, Iterable[int]]] = {"len": 1500}
    wanted.update(fields)
    for name, value in wanted.items():
        if name not in (it[0] for it in Packet._fields_):
            raise TypeError(f"a packet has no field {name}")
        if numpy is not None:
            array[name] = value
        else:
            each = [value] * count if isinstance(value, int) else list(value)
            for packet, it in zip(array, each):
                setattr(packet, name, it)
    if "hash" not in fields:
        done = _size()
        check(batch.qtree_batch_hash(address, count, seed, ctypes.byref(done)))
    return array
