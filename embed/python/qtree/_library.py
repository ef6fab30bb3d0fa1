"""The shared libraries, and what their functions take."""
from __future__ import annotations

import ctypes
import glob
import os
from typing import Optional, Tuple

MOMENT_MAX = 1 << 62
MAJOR, MINOR = 1, 3
NAME = f"libqtree.so.{MAJOR}"
HERE = os.path.dirname(os.path.realpath(__file__))
# Where the libraries are from here: beside a folder python in which this was installed, in the repository, and in packages.
BESIDE = ("../../lib", "../../c/build", "../../build", "../../..")


def _found() -> str:
    """The library that QTREE_LIBRARY names, one near this file, or one that the system finds by its name."""
    named = os.environ.get("QTREE_LIBRARY")
    if named:
        return os.path.realpath(named)
    if HERE.endswith("/python/qtree"):
        for folder in BESIDE:
            for path in sorted(glob.glob(os.path.join(HERE, folder, NAME + "*"))):
                return os.path.realpath(path)
    return NAME


def _load() -> Tuple[ctypes.CDLL, ctypes.CDLL]:
    path = _found()
    # The second library takes the first one by its soname, wherever that lies.
    folder, name = os.path.split(path)
    both = (path, os.path.join(folder, name.replace("libqtree.so", "libqtree-batch.so")))
    try:
        return ctypes.CDLL(both[0], mode=ctypes.RTLD_GLOBAL), ctypes.CDLL(both[1])
    except OSError as error:
        raise ImportError(f"the shared library of qtree is not found ({error}): `make -C embed/c install` installs it, or QTREE_LIBRARY "
                          "names libqtree.so, with libqtree-batch beside it") from None


qtree, batch = _load()
_p, _u16, _u32, _u64, _size = ctypes.c_void_p, ctypes.c_uint16, ctypes.c_uint32, ctypes.c_uint64, ctypes.c_size_t
_place = [_p, _u32, _u16, _u16]

_FUNCTIONS = {
    "open": [_p, _p],
    "close": [_p],
    "command": [_p, ctypes.c_char_p, _size, _u64, _p],
    "set_up": [_p, ctypes.c_char_p, _size, _u64, _p, _p, _size],
    "explain": [ctypes.c_char_p, _size, _u64, _u32, _p, _p, _size, _p],
    "arrive": [_p, _p, _u64],
    "arrive_many": [_p, _p, _size, _p, _size, _p, _u64],
    "poll_buf": [_p, _u64, _p],
    "ready_at": [_p, _p],
    "reap": [_p, _p],
    "turn": [_p, _u64, _p, _size, _p, _size, _p],
    "most_packets": [_p, _p],
    "stats": [*_place, _p],
    "oldest": [*_place, _p],
    "service": [*_place, _p],
    "lateness": [*_place, _p],
    "worst": [*_place, _p],
    "latest": [*_place, _u16, _p],
    "show": [_p, _u32, _p, _size, _p],
    "recorded_script": [_p, _p, _size, _p],
    "read_head": [ctypes.c_char_p, _size, _u32, _p],
    "hash": [_u32, _p],
    "name_of": [_u32, _u32, _p, _size, _p],
    "size_of": [_u32],
    "version": [],
}
_BATCH = {
    "frames": [_p, _p, _size, _p, _size, _u32, _u64, _p, _p],
    "hash": [_p, _size, _u32, _p],
    "simulate": [_p, _p, _p, _size, _u64, _u64, _p, _p],
    "sentence": [_u32],
}
for _name, _arguments in _FUNCTIONS.items():
    _function = getattr(qtree, "qtree_" + _name)
    _function.argtypes = _arguments
    _function.restype = {"close": None, "size_of": _size}.get(_name, _u32)
for _name, _arguments in _BATCH.items():
    _function = getattr(batch, "qtree_batch_" + _name)
    _function.argtypes = _arguments
    _function.restype = ctypes.c_char_p if _name == "sentence" else _u32


def version() -> Tuple[int, int]:
    """The major and the minor number of the library."""
    number: int = qtree.qtree_version()
    return number >> 16, number & 0xffff


if version()[0] != MAJOR or version()[1] < MINOR:
    raise ImportError(f"the shared library of qtree has the version {version()[0]}.{version()[1]}, and this package needs {MAJOR}.{MINOR}")


def name_of(what: int, number: int) -> str:
    """The name of a code (0) or of a fault (1)."""
    text, needed = ctypes.create_string_buffer(64), _size()
    qtree.qtree_name_of(what, number, text, len(text), ctypes.byref(needed))
    return text.raw[:needed.value].decode()


def written(function: "ctypes._NamedFuncPointer", *arguments: object) -> Tuple[int, Optional[str]]:
    """Calls a function that writes a text, with as much room as it needs: its code, and the text if that is 0."""
    room, needed = 4096, _size()
    while True:
        text = ctypes.create_string_buffer(room)
        code: int = function(*arguments, text, room, ctypes.byref(needed))
        if code != 43 or needed.value <= room:  # QTREE_ROOM
            return code, text.raw[:needed.value].decode() if code == 0 else None
        room = needed.value
