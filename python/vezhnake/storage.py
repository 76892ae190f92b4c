"""What holds an image: a file or a block device, or memory."""
from __future__ import annotations

import errno
import fcntl
import os
from typing import Protocol, Union

Bytes = Union[bytes, bytearray, memoryview]
SECTOR = 512
# An image has at least the sectors of the superblock and the headers, and at most 64 MiB. Its superblock says at this byte how many it has.
LEAST, MOST, TOTAL = 5, 131072, 56


class Storage(Protocol):
    """What a machine needs. Any exception closes the machine."""

    def read(self) -> Bytes:
        """The whole image."""

    def write(self, byte: int, data: bytes) -> int | None:
        """Writes all the bytes from this byte on. Another number than their length, if one is returned, is an error."""

    def sync(self) -> None:
        """Makes all earlier writes durable."""

    def close(self) -> None:
        """Gives the image free for other programs."""


class FileStorage:
    """An image at the start of a file or a block device, which is locked while it is open. Each method raises OSError with the path."""

    def __init__(self, path: str | os.PathLike[str]) -> None:
        self.path = os.fspath(path)
        self.file = os.open(self.path, os.O_RDWR | os.O_CLOEXEC)
        try:
            fcntl.flock(self.file, fcntl.LOCK_EX | fcntl.LOCK_NB)
            os.fsync(self.file)
        except BlockingIOError as error:
            os.close(self.file)
            raise BlockingIOError(error.errno, "another program uses the image", self.path) from None
        except OSError as error:
            os.close(self.file)
            raise self._named(error) from None

    def _named(self, error: OSError) -> OSError:
        """The same error with the path."""
        return OSError(error.errno, error.strerror, self.path)

    def _extend(self, image: bytearray, sectors: int) -> None:
        """Reads on until the image has this many sectors."""
        while len(image) < sectors * SECTOR:
            piece = os.pread(self.file, sectors * SECTOR - len(image), len(image))
            if not piece:
                raise OSError(errno.EIO, "the file became shorter")
            image += piece

    def read(self) -> bytes:
        """The sectors of the image. The file may be longer: what follows the image is not read."""
        image = bytearray()
        try:
            # The end, because the size that fstat reports is 0 for a block device.
            sectors = os.lseek(self.file, 0, os.SEEK_END) // SECTOR
            self._extend(image, min(sectors, LEAST))
            total = int.from_bytes(image[TOTAL : TOTAL + 8], "little")
            self._extend(image, min(sectors, MOST, max(LEAST, total)))
        except OSError as error:
            raise self._named(error) from None
        return bytes(image)

    def write(self, byte: int, data: bytes) -> int:
        """Writes all the bytes from this byte on, and returns their number."""
        rest = memoryview(data)
        try:
            while rest:
                done = os.pwrite(self.file, rest, byte)
                byte, rest = byte + done, rest[done:]
        except OSError as error:
            raise self._named(error) from None
        return len(data)

    def sync(self) -> None:
        """Makes all earlier writes durable."""
        try:
            # macOS has no fdatasync.
            getattr(os, "fdatasync", os.fsync)(self.file)
        except OSError as error:
            raise self._named(error) from None

    def close(self) -> None:
        """Closes the file, which gives the lock back."""
        os.close(self.file)


class MemoryStorage:
    """An image in memory: `image` is a bytearray."""

    def __init__(self, image: Bytes) -> None:
        self.image = bytearray(image)

    def read(self) -> bytes:
        return bytes(self.image)

    def write(self, byte: int, data: bytes) -> int:
        self.image[byte : byte + len(data)] = data
        return len(data)

    def sync(self) -> None:
        pass

    def close(self) -> None:
        pass
