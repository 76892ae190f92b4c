"""Images as bytes: built from descriptions, checked, described, explained. No file is touched."""
from __future__ import annotations

import ctypes
from dataclasses import dataclass
from typing import Callable

from .errors import status_error
from .library import OK, SMALL_BUFFER, RawInfo, library
from .storage import Bytes


@dataclass(frozen=True)
class Info:
    """What an image has, as `eros info` prints it."""

    layout: int
    nodes: int
    pages: int
    log: int
    sectors: int
    generation: int
    age: int
    entries: int
    free: int
    page_objects: int
    node_objects: int
    processes: int
    banks: int
    ranges: tuple[tuple[int, int], ...]
    """The home ranges: the first number, and how many."""


def _copied(call: Callable[..., int], data: bytes, size: int) -> bytes:
    """What a call of the library copies to a buffer, which has `size` bytes at first."""
    length = ctypes.c_size_t()
    while True:
        buffer = ctypes.create_string_buffer(size)
        status = call(data, len(data), buffer, size, length)
        if status == OK:
            return ctypes.string_at(buffer, length.value)
        if status != SMALL_BUFFER:
            raise status_error(status)
        size = length.value


def _bytes(data: Bytes) -> bytes:
    return bytes(memoryview(data))


def build(description: str) -> bytes:
    """The image of a description, which is a text in TOML. Raises BadDescription with the number of `eros build`."""
    return _copied(library().vezhnake_build, description.encode(), 0)


def check(image: Bytes) -> Info:
    """What an image has, if it can be opened. Raises BadImage, or BadArgument for bytes that are no whole number of sectors."""
    data, raw = _bytes(image), RawInfo()
    status = library().vezhnake_check(data, len(data), raw)
    if status != OK:
        raise status_error(status)
    ranges = tuple((it.first, it.count) for it in raw.ranges[: raw.ranges_count])
    return Info(**{name: getattr(raw, name) for name, _ in RawInfo._fields_[:-2]}, ranges=ranges)


def describe(image: Bytes) -> str:
    """The description of all that an image saves. Raises what `check` does."""
    return _copied(library().vezhnake_describe, _bytes(image), 1 << 16).decode()


def explain(source: str | Bytes) -> str:
    """`ok`, or where a description (a text) or an image (bytes) breaks which rule, and what is wrong there."""
    if isinstance(source, str):
        return _copied(library().vezhnake_explain_text, source.encode(), 1 << 10).decode()
    return _copied(library().vezhnake_explain, _bytes(source), 1 << 10).decode()
