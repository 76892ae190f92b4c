"""The functions of libvezhnake.so, as vezhnake.h declares them."""
from __future__ import annotations

import ctypes
import errno
import os
import struct
from functools import cache
from pathlib import Path

OK, NO_MEMORY, ALREADY_OPEN, NOT_OPEN, SMALL_BUFFER, BAD_COMMAND, NOT_TOML = 0, 11, 14, 15, 16, 19, 20
NO_CODE = 2**32 - 1
STAGES = 5
SYNC = 2**64 - 1
HEADER = struct.Struct("<QQ")


class Handle(ctypes.Structure):
    _fields_ = [("session", ctypes.c_void_p), ("is_open", ctypes.c_bool)]


class Batch(ctypes.Structure):
    _fields_ = [("answers", ctypes.c_size_t), ("calls", ctypes.c_size_t)]


class RawCommand(ctypes.Structure):
    _fields_ = [
        ("kind", ctypes.c_uint32), ("register", ctypes.c_uint8), ("sent", ctypes.c_uint8 * 4), ("number", ctypes.c_uint64),
        ("words", ctypes.c_uint64 * 4),
    ]


class RawReply(ctypes.Structure):
    _fields_ = [("kind", ctypes.c_uint32), ("code", ctypes.c_uint32), ("first", ctypes.c_uint64), ("second", ctypes.c_uint64)]


class RawPage(ctypes.Structure):
    _fields_ = [("words", ctypes.c_uint64 * 512)]


class RawCapability(ctypes.Structure):
    _fields_ = [
        ("kind", ctypes.c_uint8), ("access", ctypes.c_uint8), ("height", ctypes.c_uint8), ("key", ctypes.c_uint16), ("object", ctypes.c_uint64),
    ]


class RawObject(ctypes.Structure):
    _fields_ = [
        ("kind", ctypes.c_uint32), ("state", ctypes.c_uint16), ("key", ctypes.c_uint16), ("owner", ctypes.c_uint64), ("annex", ctypes.c_uint64),
        ("words", ctypes.c_uint64 * 4), ("limit", ctypes.c_uint64), ("used", ctypes.c_uint64), ("space", RawCapability),
        ("slots", RawCapability * 32),
    ]


class RawRange(ctypes.Structure):
    _fields_ = [("first", ctypes.c_uint64), ("count", ctypes.c_uint64)]


class RawInfo(ctypes.Structure):
    _fields_ = [
        *((name, ctypes.c_uint64) for name in (
            "layout", "nodes", "pages", "log", "sectors", "generation", "age", "entries", "free", "page_objects", "node_objects", "processes",
            "banks", "ranges_count",
        )),
        ("ranges", RawRange * 8),
    ]


def find() -> str:
    """The path of the shared object: VEZHNAKE_LIBRARY, the file beside this module, or the repository's."""
    here = Path(__file__).resolve().parent
    named = os.environ.get("VEZHNAKE_LIBRARY")
    for path in [named] if named else [here / "libvezhnake.so", here.parent.parent / "out" / "libvezhnake.so"]:
        if os.path.exists(path):
            return str(path)
    raise OSError(errno.ENOENT, "libvezhnake.so is missing: install this package by pip, run tools/library, or set VEZHNAKE_LIBRARY", named)


@cache
def library() -> ctypes.CDLL:
    """The library, with the types of its functions. It is loaded once."""
    loaded = ctypes.CDLL(find())
    data, size, buffer = ctypes.c_char_p, ctypes.c_size_t, ctypes.c_void_p
    handle, result, batch = ctypes.POINTER(Handle), ctypes.POINTER(ctypes.c_size_t), ctypes.POINTER(Batch)
    command, reply = ctypes.POINTER(RawCommand), ctypes.POINTER(RawReply)
    types = {
        "open": (data, size, ctypes.c_uint64, handle),
        "step": (handle, data, size, buffer, size, result),
        "answer": (handle, buffer, size, result),
        "calls": (handle, buffer, size, result),
        "close": (handle,),
        "serve": (handle, command, size, reply, size, result),
        "save": (handle, reply, size, result),
        "page": (handle, ctypes.c_uint64, ctypes.POINTER(RawPage), reply),
        "show": (handle, ctypes.c_uint64, ctypes.POINTER(RawObject), reply),
        "build": (data, size, buffer, size, result),
        "check": (data, size, ctypes.POINTER(RawInfo)),
        "describe": (data, size, buffer, size, result),
        "explain": (data, size, buffer, size, result),
        "explain_text": (data, size, buffer, size, result),
        "run": (data, size, ctypes.c_uint64, data, size, buffer, size, buffer, size, batch),
    }
    for name, arguments in types.items():
        call = getattr(loaded, f"vezhnake_{name}")
        call.argtypes, call.restype = arguments, ctypes.c_uint32
    return loaded


def decode_calls(data: bytes) -> list[tuple[int, bytes] | None]:
    """The device calls in these bytes: None for a sync, and otherwise the byte where a write begins and what it writes."""
    place = 0
    calls: list[tuple[int, bytes] | None] = []
    while place < len(data):
        byte, length = HEADER.unpack_from(data, place)
        place += HEADER.size
        calls.append(None if byte == SYNC else (byte, data[place : place + length]))
        place += length
    return calls
