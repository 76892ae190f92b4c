"""Commands and answers as numbers."""
from __future__ import annotations

from enum import IntEnum
from typing import NamedTuple, Sequence

from .errors import BadCommand, Code, Refused, refusal
from .library import BAD_COMMAND, NO_CODE, RawCapability, RawCommand, RawObject, RawReply

# All objects that there are to stabilize or to migrate.
ALL = 2**64 - 1


class Operation(IntEnum):
    """What an invocation does to the process that makes it."""

    CALL = 0
    RETURN = 1
    SEND = 2


LOAD, STORE, EVICT, CHECKPOINT, STABILIZE, COMMIT, MIGRATE, JOURNAL, RESTART, CUT = range(3, 13)
# The names of the kinds of commands, and how many numbers follow the name.
COMMANDS = (
    ("call", 10), ("return", 10), ("send", 10), ("load", 2), ("store", 3), ("evict", 1), ("checkpoint", 0), ("stabilize", 1), ("commit", 0),
    ("migrate", 1), ("journal", 1), ("restart", 0), ("cut", 0),
)
SHOWN, REFUSED = 8, 32
# The words of the kinds of answers, and how many numbers follow them.
ANSWERS = {
    0: ("done", 0), 1: ("value", 1), 2: ("memory fault", 1), 3: ("frozen", 1), 4: ("left", 1), 5: ("committed", 1), 6: ("journaled", 1),
    7: ("at", 2), 32: ("down", 0), 33: ("no process", 0), 34: ("not running", 0), 35: ("worn", 0), 36: ("stalled", 0), 37: ("log full", 0),
    38: ("checkpoint running", 0), 39: ("migration pending", 0), 40: ("not stable", 1), 41: ("no checkpoint", 0), 42: ("no memory", 0),
    43: ("fault", 0), 44: ("bad number", 0), 45: ("not journaled", 1),
}
MEMORY_FAULT = 2
OBJECTS = ("free", "page", "node", "process", "annex", "bank")
STATES = ("available", "running", "waiting")
CAPABILITIES = ("void", "number", "page", "node", "space", "process", "start", "resume", "bank", "discrim")


class Reply(NamedTuple):
    """What a command gave. `kind` is the answer's first word. `code` is the result code, or None if no kernel object replied. `values` are
    the other words of a kernel object's reply, or the numbers of the answer."""

    kind: str
    code: int | None
    values: tuple[int, ...]


class Invocation(NamedTuple):
    """A process invokes the capability in a register: it sends up to four words, and the capabilities in up to four registers."""

    process: int
    register: int
    words: tuple[int, ...] = ()
    sent: tuple[int, ...] = ()
    operation: Operation = Operation.CALL


class Capability(NamedTuple):
    """A capability. `object` is the object that it names, or the value of a number."""

    kind: str
    object: int
    access: int
    height: int
    key: int


class Object(NamedTuple):
    """An object. `slots` are those of a node, or the registers of a process or an annex. What its kind doesn't have is 0 or void."""

    kind: str
    owner: int
    state: str
    key: int
    annex: int
    words: tuple[int, ...]
    limit: int
    used: int
    space: Capability
    slots: tuple[Capability, ...]


def checked(number: int, most: int = ALL) -> int:
    """A number from 0 to `most`. Raises BadCommand."""
    if not 0 <= number <= most:
        raise BadCommand(BAD_COMMAND)
    return number


def _four(numbers: Sequence[int], most: int = ALL) -> tuple[int, ...]:
    """These numbers, each at most `most`, and zeros. Raises BadCommand."""
    return (*(checked(it, most) for it in numbers), *(0,) * (4 - len(numbers)))


def numbered(kind: int, number: int = 0, *words: int) -> RawCommand:
    """A command that isn't an invocation. Raises BadCommand."""
    return RawCommand(kind, 0, (0,) * 4, checked(number), _four(words))


def invocation(it: Invocation) -> RawCommand:
    """An invocation. Raises BadCommand, or ValueError if there are too many words or registers."""
    if len(it.words) > 4 or len(it.sent) > 4:
        raise ValueError("an invocation sends at most four words and four capabilities")
    return RawCommand(Operation(it.operation), checked(it.register, 31), _four(it.sent, 31), checked(it.process), _four(it.words))


def line_of(command: RawCommand) -> str:
    """The line that spells a command."""
    name, count = COMMANDS[command.kind]
    numbers = [command.number, command.register, *command.words, *command.sent] if count == 10 else [command.number, *command.words]
    return " ".join(str(it) for it in (name, *numbers[:count]))


def answer_of(reply: RawReply) -> str:
    """The answer's words and numbers, as `eros run` writes them."""
    words, count = ANSWERS[reply.kind]
    return " ".join(str(it) for it in (words, *(reply.first, reply.second)[:count]))


def result(command: RawCommand, reply: RawReply) -> Reply | Refused:
    """The reply to a command, or the exception that says why it was refused."""
    answer = answer_of(reply)
    if reply.kind == MEMORY_FAULT or reply.kind >= REFUSED:
        return refusal(answer, line_of(command))
    code = None if reply.code == NO_CODE else (Code(reply.code) if reply.code in iter(Code) else reply.code)
    words, count = ANSWERS[reply.kind]
    return Reply(words, code, (reply.first, reply.second)[:count])


def _capability(raw: RawCapability) -> Capability:
    return Capability(CAPABILITIES[raw.kind], raw.object, raw.access, raw.height, raw.key)


def object_of(raw: RawObject) -> Object:
    """An object of its numbers."""
    return Object(
        OBJECTS[raw.kind], raw.owner, STATES[raw.state], raw.key, raw.annex, tuple(raw.words), raw.limit, raw.used, _capability(raw.space),
        tuple(_capability(it) for it in raw.slots),
    )
