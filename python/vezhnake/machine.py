"""A machine over storage, and its commands."""
from __future__ import annotations

import ctypes
import errno
import os
import threading
import weakref
from types import TracebackType
from typing import Iterable, Sequence, Union

from .commands import (
    ALL, CHECKPOINT, COMMIT, EVICT, JOURNAL, LOAD, MIGRATE, OBJECTS, RESTART, SHOWN, STABILIZE, STORE, Invocation, Object, Operation, Reply,
    answer_of, checked, invocation, numbered, object_of, result,
)
from .errors import OrderRefused, Refused, StorageError, refusal, status_error
from .library import (
    BAD_COMMAND, OK, SMALL_BUFFER, STAGES, Batch, Handle, RawCommand, RawObject, RawPage, RawReply, decode_calls, library,
)
from .storage import Bytes, FileStorage, Storage

# The answers to a command that isn't refused.
KINDS = ("done", "value", "frozen", "left", "committed", "journaled", "at")
Text = Union[str, Bytes]


class Answer(str):
    """The answer to one line, without its last newline. It is empty for a comment or an empty line."""

    @property
    def words(self) -> list[int | str]:
        """Its words; numbers are `int`."""
        return [int(it) if it.isdecimal() else it for it in self.split()]

    @property
    def number(self) -> int | None:
        """Its last word if that is a number, as in `value 7` or `committed 3`. Otherwise None."""
        last = self.words[-1:]
        return last[0] if last and isinstance(last[0], int) else None


def _bytes(data: Text) -> bytes:
    """A text or a buffer as bytes."""
    return data.encode() if isinstance(data, str) else bytes(memoryview(data))


def _check(status: int) -> None:
    if status != OK:
        raise status_error(status)


def _close(handle: Handle, storage: Storage) -> None:
    """Closes a handle and its storage."""
    library().vezhnake_close(handle)
    storage.close()


class Machine:
    """A machine over storage: any object with `read`, `write`, `sync` and `close`. `cache` is the most objects in memory, 8 to 8192, or 0
    for all.

    A method returns once the storage has carried out the device calls. If the storage raises an exception, the machine is closed: open it
    again from what the storage holds. Threads may share a machine: one call runs after another. A machine that is no longer used is closed.
    """

    def __init__(self, storage: Storage, cache: int = 0) -> None:
        self.storage, self._handle, self._size = storage, Handle(), ctypes.c_size_t()
        self._buffer, self._lock = ctypes.create_string_buffer(1 << 16), threading.RLock()
        image = _bytes(storage.read())
        _check(library().vezhnake_open(image, len(image), cache, self._handle))
        self._closing = weakref.finalize(self, _close, self._handle, storage)

    def __enter__(self) -> Machine:
        return self

    def __exit__(self, kind: type[BaseException] | None, error: BaseException | None, trace: TracebackType | None) -> None:
        self.close()

    def close(self) -> None:
        """Closes the machine and its storage. What was not saved is lost."""
        with self._lock:
            self._closing()

    def run(self, text: Text) -> bytes:
        """Runs the lines of a text, and returns the answers as `eros run` writes them. No answer raises an exception."""
        text = _bytes(text)
        with self._lock:
            answers = self._fetch(library().vezhnake_answer, library().vezhnake_step, text, len(text))
            self._perform()
            return answers

    def step(self, line: Text) -> Answer:
        """Runs one line, and returns its answer. No answer raises an exception."""
        return Answer(self.run(line).decode().removesuffix("\n"))

    def command(self, line: str) -> Reply:
        """Runs one line whose answer is one line. Raises Refused if it is refused."""
        return self._reply(line, self.step(line))

    def invoke(self, process: int, register: int, *words: int, sent: Sequence[int] = (), operation: Operation = Operation.CALL) -> Reply:
        """The process invokes the capability in its register. It sends up to four words, and the capabilities in up to four registers. The
        code is None if no kernel object replied. Raises Refused, and OrderRefused for a result code other than 0."""
        reply = self._one(invocation(Invocation(process, register, words, tuple(sent), operation)))
        if reply.code:
            raise OrderRefused(reply.code, ())
        return reply

    def invoke_all(self, invocations: Iterable[Invocation]) -> list[Reply | Refused]:
        """Makes invocations, one after another, in one call of the library. Returns the reply to each, or why it was refused: neither a
        refusal nor a result code raises an exception."""
        commands = [invocation(it) for it in invocations]
        return [result(*it) for it in zip(commands, self._serve(commands))]

    def call(self, process: int, register: int, *words: int, sent: Sequence[int] = ()) -> Reply:
        """The process calls the capability in its register, as `invoke`, and gets the reply: `values` are its words after the code, also in
        OrderRefused. After a call of another process the code is None, and there are no values."""
        with self._lock:
            reply = self._one(invocation(Invocation(process, register, words, tuple(sent))))
            if reply.code is None:
                return reply
            values = self.object(process).words[1:]
        if reply.code:
            raise OrderRefused(reply.code, values)
        return Reply(reply.kind, reply.code, values)

    def send(self, process: int, register: int, *words: int, sent: Sequence[int] = ()) -> Reply:
        """The process invokes the capability in its register, as `invoke`, and goes on."""
        return self.invoke(process, register, *words, sent=sent, operation=Operation.SEND)

    def return_(self, process: int, register: int, *words: int, sent: Sequence[int] = ()) -> Reply:
        """The process invokes the capability in its register, as `invoke`, and becomes available."""
        return self.invoke(process, register, *words, sent=sent, operation=Operation.RETURN)

    def load(self, process: int, address: int) -> int:
        """The word at an address of the process. Raises MemoryFault."""
        return self._one(numbered(LOAD, process, address)).values[0]

    def store(self, process: int, address: int, value: int) -> None:
        """Writes the word at an address of the process. Raises MemoryFault."""
        self._one(numbered(STORE, process, address, value))

    def evict(self, number: int) -> None:
        """Requests that an object leave the cache."""
        self._one(numbered(EVICT, number))

    def show(self, number: int) -> Answer:
        """The lines of an object. The last line is `end`."""
        line = f"show {number}"
        answer = self.step(line)
        if not answer.endswith("\nend"):
            raise refusal(answer, line)
        return answer

    def object(self, number: int) -> Object:
        """An object. Raises BadNumber."""
        raw = RawObject()
        self._shown(library().vezhnake_show, number, raw)
        return object_of(raw)

    def page(self, number: int) -> list[int]:
        """The 512 words of a page. Raises Refused if the object is no page."""
        raw = RawPage()
        kind = OBJECTS[self._shown(library().vezhnake_page, number, raw).second]
        if kind != "page":
            raise Refused(f"{kind} {number}", f"page {number}")
        return list(raw.words)

    def save(self) -> int:
        """Saves the state in one step, and returns the generation: migrates what an earlier run left, freezes, stabilizes, commits and
        migrates. Raises Refused at the first of these that is refused."""
        replies = (RawReply * STAGES)()
        stages = [numbered(it, ALL) for it in (MIGRATE, CHECKPOINT, STABILIZE, COMMIT, MIGRATE)]
        with self._lock:
            self._check(library().vezhnake_save(self._handle, replies, STAGES, self._size))
            served = self._size.value
            self._perform()
        self._raised(result(stages[served - 1], replies[served - 1]))
        return replies[STAGES - 2].first

    def checkpoint(self) -> int:
        """Freezes the state, and returns how many objects were written since the last checkpoint."""
        return self._one(numbered(CHECKPOINT)).values[0]

    def stabilize(self, count: int = ALL) -> int:
        """Writes up to this many frozen objects to the log, and returns how many are left."""
        return self._one(numbered(STABILIZE, count)).values[0]

    def commit(self) -> int:
        """Makes the frozen state the saved one, and returns its generation."""
        return self._one(numbered(COMMIT)).values[0]

    def migrate(self, count: int = ALL) -> int:
        """Copies up to this many saved objects from the log to their homes, and returns how many are left."""
        return self._one(numbered(MIGRATE, count)).values[0]

    def journal(self, number: int) -> int:
        """Saves the present words of one page, and returns the generation."""
        return self._one(numbered(JOURNAL, number)).values[0]

    def restart(self) -> tuple[int, int]:
        """Goes back to the saved state, and returns the generation and the age."""
        generation, age = self._one(numbered(RESTART)).values
        return generation, age

    def calls(self) -> list[tuple[int, bytes] | None]:
        """The device calls that were not returned yet. The caller carries them out; `run` does so itself."""
        return decode_calls(self._fetch(library().vezhnake_calls, library().vezhnake_calls))

    @staticmethod
    def _reply(line: str, answer: str) -> Reply:
        """An answer as a reply. Raises Refused."""
        kind, *numbers = answer.split() or [""]
        if kind not in KINDS:
            raise refusal(answer, line)
        return Reply(kind, None, tuple(int(it) for it in numbers))

    @staticmethod
    def _raised(reply: Reply | Refused) -> Reply:
        """A reply. Raises a refusal."""
        if isinstance(reply, Refused):
            raise reply
        return reply

    def _one(self, command: RawCommand) -> Reply:
        """Serves a command. Raises Refused."""
        return self._raised(result(command, self._serve([command])[0]))

    def _serve(self, commands: Sequence[RawCommand]) -> Sequence[RawReply]:
        """Serves commands, and returns the numbers of their answers."""
        count = len(commands)
        array, replies = (RawCommand * count)(*commands), (RawReply * count)()
        with self._lock:
            status = library().vezhnake_serve(self._handle, array, count, replies, count, self._size)
            if status != BAD_COMMAND:
                self._check(status)
            self._perform()
        if status != OK:
            raise status_error(status)
        return replies

    def _shown(self, call, number: int, into: RawPage | RawObject) -> RawReply:  # type: ignore[no-untyped-def]
        """Shows an object into a structure, and returns the reply. Raises Refused."""
        reply, line = RawReply(), f"show {number}"
        with self._lock:
            self._check(call(self._handle, checked(number), into, reply))
            self._perform()
        if reply.kind != SHOWN:
            raise refusal(answer_of(reply), line)
        return reply

    def _check(self, status: int) -> None:
        """Closes the machine and raises the error of a status other than OK."""
        if status != OK:
            self._give_up()
            raise status_error(status)

    def _perform(self) -> None:
        """Carries out the device calls. If the storage fails, closes the machine and raises StorageError."""
        try:
            self._carry_out()
        except BaseException as error:
            self._give_up()
            if isinstance(error, Exception):
                raise StorageError(f"the storage failed: {error}") from error
            raise

    def _carry_out(self) -> None:
        """Carries out the device calls on the storage."""
        for call in self.calls():
            if call is None:
                self.storage.sync()
                continue
            byte, data = call
            done = self.storage.write(byte, data)
            if done is not None and done != len(data):
                raise OSError(errno.EIO, f"{done} of {len(data)} bytes were written")

    def _give_up(self) -> None:
        """Closes the machine after a failure, which is reported in place of another one here."""
        try:
            self._closing()
        except Exception:  # noqa: S110
            pass

    def _fetch(self, again, call, *arguments) -> bytes:  # type: ignore[no-untyped-def]
        """The bytes that a call copies out. If the buffer is too small, it grows, and `again` copies them."""
        with self._lock:
            status = call(self._handle, *arguments, self._buffer, len(self._buffer), self._size)
            if status == SMALL_BUFFER:
                self._buffer = ctypes.create_string_buffer(self._size.value)
                status = again(self._handle, self._buffer, len(self._buffer), self._size)
            self._check(status)
            return ctypes.string_at(self._buffer, self._size.value)


def open(path: str | os.PathLike[str], cache: int = 0) -> Machine:  # noqa: A001
    """The machine in an image file, which stays locked until the machine is closed."""
    storage = FileStorage(path)
    try:
        return Machine(storage, cache)
    except BaseException:
        storage.close()
        raise


def run(image: Bytes, script: Text, cache: int = 0) -> tuple[bytes, list[tuple[int, bytes] | None]]:
    """Runs a script over an image in memory. Returns the answers and the device calls."""
    image, script, sizes = _bytes(image), _bytes(script), Batch(1 << 16, 1 << 16)
    while True:
        answers, calls = ctypes.create_string_buffer(sizes.answers), ctypes.create_string_buffer(sizes.calls)
        status = library().vezhnake_run(
            image, len(image), cache, script, len(script), answers, len(answers), calls, len(calls), sizes
        )
        if status != SMALL_BUFFER:
            break
        sizes = Batch(max(sizes.answers, len(answers)), max(sizes.calls, len(calls)))
    _check(status)
    return ctypes.string_at(answers, sizes.answers), decode_calls(ctypes.string_at(calls, sizes.calls))
