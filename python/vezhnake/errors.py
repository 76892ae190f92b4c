"""The exceptions of vezhnake. A file that can't be opened, read or locked raises OSError, with its path."""
from __future__ import annotations

from enum import IntEnum

STATUSES = {
    1: "bad image 1: fewer sectors than the superblock says", 2: "bad image 2: not a superblock", 3: "bad image 3: bad geometry",
    4: "bad image 4: no checkpoint is committed", 5: "bad image 5: damaged header", 6: "bad image 6: damaged directory",
    7: "bad image 7: damaged frame", 8: "bad image 8: bad capability", 9: "bad image 9: bad process", 10: "bad image 10: bad bank",
    11: "memory ran out", 12: "the image isn't a whole number of sectors, or is over 64 MiB", 13: "the cache is neither 0 nor 8 to 8192",
    14: "the machine is open already", 15: "the machine is closed", 16: "the buffer is too small", 17: "the calls are no longer kept",
    18: "memory ran out while the image was opened",
    19: "a number or a register is out of range", 20: "bad description: the text is no UTF-8, or no TOML",
    21: "bad description 1: not a description's table", 22: "bad description 2: no image has these limits",
    23: "bad description 3: a bad number", 24: "bad description 4: a bad field", 25: "bad description 5: a bad target",
    26: "bad description 6: a bad owner",
}


class Code(IntEnum):
    """The result code of an order."""

    SUCCESS = 0
    NO_ORDER = 1
    NO_ACCESS = 2
    BAD_INDEX = 3
    BAD_CAPABILITY = 4
    LIMIT = 5
    NO_FREE_NUMBER = 6
    TOO_DEEP = 7
    VOID_CAPABILITY = 8
    NOT_FROM_THIS_BANK = 9
    PRIME_BANK = 10


class Error(Exception):
    """The base of the other exceptions."""


class StatusError(Error):
    """The library returned a status other than 0: `status`."""

    def __init__(self, status: int) -> None:
        super().__init__(STATUSES.get(status, f"status {status}"))
        self.status = status


class BadImage(StatusError):
    """The image is refused. `status` is the reason, 1 to 10."""


class BadDescription(StatusError, ValueError):
    """The description is refused. `number` is the reason of `eros build`, 1 to 6, or 0 if the text isn't TOML."""

    @property
    def number(self) -> int:
        return self.status - 20


class BadArgument(StatusError, ValueError):
    """The size of the image, or of the cache, is out of range."""


class NoMemory(StatusError, MemoryError):
    """Memory ran out. The machine is closed."""


class Closed(StatusError):
    """The machine is closed: by `close`, or because an earlier call failed."""


class BadCommand(StatusError, ValueError):
    """A register is not below 32, or a number not below 2^64. The command was not served."""


class StorageError(Error):
    """The storage raised an exception, which is the cause, and the machine is closed. Open it again from what the storage holds."""


class OrderRefused(Error):
    """A kernel object replied with a result code other than 0: `code`. `values` are the other words of the reply."""

    def __init__(self, code: int, values: tuple[int, ...]) -> None:
        self.code, self.values = (Code(code) if code in iter(Code) else code), values
        super().__init__(f"result code {code}: {Code(code).name.lower().replace('_', ' ')}" if code in iter(Code) else f"result code {code}")


class Refused(Error):
    """The machine refused a command, and nothing changed. `answer` is what it answered, and `values` are the numbers of the answer."""

    def __init__(self, answer: str, line: str = "") -> None:
        super().__init__(f"{answer}, to: {line}" if line else answer)
        self.answer, self.line = answer, line
        self.values = tuple(int(it) for it in answer.split() if it.isdecimal())


class BadLine(Refused):
    """The line is no command."""


class NoProcess(Refused):
    """The object is no process."""


class NotRunning(Refused):
    """The process isn't running."""


class Stalled(Refused):
    """The process to be started isn't available."""


class MemoryFault(Refused):
    """The address is not in the address space, or can't be written. `values` has the reason, 1 to 5."""


class LogFull(Refused):
    """More objects would be written since the last checkpoint than the log can hold."""


class Worn(Refused):
    """The age is 2^62."""


class CheckpointRunning(Refused):
    """A frozen state is not committed yet."""


class MigrationPending(Refused):
    """The last checkpoint is not home: call `migrate`."""


class NotStable(Refused):
    """`stabilize` has yet to reach some frozen objects. `values` has their number."""


class NoCheckpoint(Refused):
    """There is no frozen state."""


class BadNumber(Refused):
    """No object has this number."""


class NotJournaled(Refused):
    """The object is not a page, or no page is saved at this number. `values` has the reason, 1 or 2."""


class Down(Refused):
    """The device failed, now or before. Close the machine, and open it again."""


class CommandNoMemory(Refused):
    """Memory ran out at a `show` or `restart`."""


REFUSALS: dict[str, type[Refused]] = {
    "bad line": BadLine, "no process": NoProcess, "not running": NotRunning, "stalled": Stalled, "memory fault": MemoryFault,
    "log full": LogFull, "worn": Worn, "checkpoint running": CheckpointRunning, "migration pending": MigrationPending,
    "not stable": NotStable, "no checkpoint": NoCheckpoint, "bad number": BadNumber, "not journaled": NotJournaled, "down": Down,
    "fault": Down, "no memory": CommandNoMemory,
}


def status_error(status: int) -> StatusError:
    """The exception for a status other than 0."""
    if status <= 10:
        return BadImage(status)
    if 20 <= status <= 26:
        return BadDescription(status)
    kinds = {11: NoMemory, 12: BadArgument, 13: BadArgument, 15: Closed, 17: Closed, 18: NoMemory, 19: BadCommand}
    return kinds.get(status, StatusError)(status)


def refusal(answer: str, line: str) -> Refused:
    """The exception for an answer that refuses a line."""
    words = " ".join(it for it in answer.split() if not it.isdecimal())
    return REFUSALS.get(words, Refused)(answer, line)
