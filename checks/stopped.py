"""A plain machine, for `checks/stops`. From the answers to a script, and the output of `show` for each object, it derives what is saved
after each line. It has no device: what was shown at a checkpoint is frozen, and a commit saves it.
"""
import re
from collections import namedtuple
from dataclasses import dataclass, field

from cases import need
from common import Answers, command_of

# What is saved: the numbers of `eros check`, and what `show` prints of each object.
Saved = namedtuple("Saved", "generation age entries shown")
# After these lines each object is shown: it is frozen, journaled or opened then.
LOOKED = (b"checkpoint", b"journal", b"restart", b"cut")
INVOKING = (b"call", b"return", b"send")


def numbers_in(said):
    return [int(it) for it in re.findall(rb"\d+", said)]


@dataclass
class Machine:
    """What is saved, and what is frozen."""

    saved: Saved
    age: int
    left: int
    frozen: Saved = None
    # What is saved after each line; and what a stop in the line may leave, if it isn't what was saved before.
    after: list = field(default_factory=list)
    beside: list = field(default_factory=list)

    def freeze(self, said, shown):
        self.age += 1
        self.frozen = Saved(self.saved.generation + 1, self.age, numbers_in(said)[0], shown)

    def commit(self, said):
        need(numbers_in(said) == [self.frozen.generation], f"{said!r} isn't the next generation")
        self.saved, self.left, self.frozen = self.frozen, self.frozen.entries, None

    def migrate(self, count, said):
        self.left -= min(count, self.left)
        need(numbers_in(said) == [self.left], f"{said!r} isn't {self.left}")
        if not self.left:
            self.saved = self.saved._replace(entries=0)

    def journal(self, number, said, shown):
        self.age += 1
        old, now = self.saved.shown[number].split(b"\n"), shown[number].split(b"\n")
        self.saved = Saved(self.saved.generation + 2, self.saved.age + 1, 1, {**self.saved.shown, number: b"\n".join([old[0], *now[1:]])})
        self.left = 1
        need(numbers_in(said) == [self.saved.generation], f"{said!r} isn't the generation after the next")

    def rise(self, said, shown):
        need(said == at(self.saved), f"{said!r} was opened, and {at(self.saved)!r} was saved")
        need(shown == self.saved.shown, "what is shown isn't what was saved")
        self.age, self.left, self.frozen = self.saved.age, self.saved.entries, None

    def take(self, line, said, shown):
        """Takes a line with its answer, and what was shown after it if it is one of LOOKED."""
        before, name = self.saved, command_of(line)
        if name in INVOKING and said == b"done\n":
            self.age += 1
        elif said.startswith(b"frozen "):
            self.freeze(said, shown)
        elif said.startswith(b"committed "):
            self.commit(said)
        elif said.startswith(b"journaled "):
            self.journal(int(line.split()[1]), said, shown)
        elif name == b"migrate":
            self.migrate(int(line.split()[1]), said)
        elif name in (b"restart", b"cut"):
            self.rise(said, shown)
        self.after.append(self.saved)
        self.beside.append(self.saved if self.saved != before else None)


def at(saved):
    return b"at %d %d\n" % (saved.generation, saved.age)


def shows(count):
    """The lines that show each of `count` objects."""
    return [b"show %d" % it for it in range(count)]


def take_shown(answers, count):
    return {number: answers.take(line) for number, line in enumerate(shows(count))}


def looked_at(lines, count):
    """The script with `show` of each object after each line of LOOKED."""
    return [it for line in lines for it in [line, *(shows(count) if command_of(line) in LOOKED else [])]]


def machine_of(lines, first, printed):
    """The machine after a script, and the answers to its lines. The script began at `first`. `printed` are the answers to it and to the
    lines that `looked_at` adds."""
    machine, answers, given = Machine(first, first.age, first.entries), Answers(printed), []
    for line in lines:
        said = answers.take(line)
        need(said is not None, f"{line!r} was answered {answers.lines[answers.at - 1]!r}")
        shown = take_shown(answers, len(first.shown)) if command_of(line) in LOOKED else None
        machine.take(line, said, shown)
        given.append(said)
    need(answers.is_at_end(), f"after the last line came {answers.lines[answers.at]!r}")
    return machine, given

