"""Vezhnake in a Python program: a persistent machine of objects in an image file.

    import vezhnake
    with vezhnake.open("world.image") as machine:
        machine.call(1, 6, 2, 3, 99)
        machine.save()

`machine` has the calls, `images` builds, checks, describes and explains images, `commands` has numbers, `storage` and `sql` what holds an image, `errors` the exceptions. It needs only the
standard library and libvezhnake.so. It looks for that file at VEZHNAKE_LIBRARY, beside this module, and in the repository's out/.
"""
from .commands import ALL, Capability, Invocation, Object, Operation, Reply
from .errors import (
    BadArgument, BadCommand, BadDescription, BadImage, BadLine, BadNumber, CheckpointRunning, Closed, Code, CommandNoMemory, Down, Error, LogFull,
    MemoryFault, MigrationPending, NoCheckpoint, NoMemory, NoProcess, NotJournaled, NotRunning, NotStable, OrderRefused, Refused, Stalled,
    StatusError, StorageError, Worn,
)
from .images import Info, build, check, describe, explain
from .library import ALREADY_OPEN, NO_MEMORY, NOT_OPEN, OK, SMALL_BUFFER, decode_calls, library
from .machine import Answer, Machine, open, run
from .sql import SqlStorage
from .storage import FileStorage, MemoryStorage, Storage

__version__ = "1.0.0"
__all__ = [
    "ALL", "ALREADY_OPEN", "Answer", "BadArgument", "BadCommand", "BadDescription", "BadImage", "BadLine", "BadNumber", "Capability", "CheckpointRunning",
    "Closed", "Code", "CommandNoMemory", "Down", "Error", "FileStorage", "Info", "Invocation", "LogFull", "Machine", "MemoryFault", "MemoryStorage",
    "MigrationPending", "NOT_OPEN", "NO_MEMORY", "NoCheckpoint", "NoMemory", "NoProcess", "NotJournaled", "NotRunning", "NotStable", "OK",
    "Object", "Operation", "OrderRefused", "Refused", "Reply", "SMALL_BUFFER", "SqlStorage", "Stalled", "StatusError", "Storage",
    "StorageError", "Worn", "build", "check", "decode_calls", "describe", "explain", "library", "open", "run",
]
