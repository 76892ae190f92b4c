"""What the checks in Python share: the programs, and a reader of scripts and answers by docs/SCRIPTS.md."""
import os
import re
import subprocess
import sys
from functools import cache
from pathlib import Path

ROOT = Path(__file__).resolve().parent.parent
EXAMPLES = ROOT / "examples"
MOST, WORDS = 256, 2**64
# The outcomes of a power cut over a device that stops.
OUTCOMES = "keep", "drop", "0", "1", "255"
# The kinds of capabilities by tag, and the texts of their accesses.
CAPABILITIES = "void number page node space process start resume bank discrim".split()
ACCESSES = {0: "", 1: " ro", 3: " weak"}

# The words after a command's name: n is a number, r a register.
INVOCATION = "nrnnnnrrrr"
FORMS = {
    b"call": INVOCATION, b"return": INVOCATION, b"send": INVOCATION, b"load": "nn", b"store": "nnn", b"show": "n", b"evict": "n",
    b"checkpoint": "", b"stabilize": "n", b"commit": "", b"migrate": "n", b"journal": "n", b"restart": "", b"cut": "",
}
NUMBER = rb"(0|[1-9][0-9]*)"
CAP = rb"(number N|page N(?: ro| weak)?|node N(?: ro| weak)?|space N [1-4](?: ro| weak)?|process N|start N N|resume N|bank N|discrim)"
FIRST = rb"""free N|page N owner N|node N owner N|annex N owner N|bank N owner N limit N used N
|process N owner N annex N (?:available|running|waiting) key N words N N N N space (?:void|CAP)"""


def opening(version):
    """The outcomes that leave the gate of a header open if its last sync fails. By version 3 a gate of ones has another number."""
    return ("keep",) if version == 3 else ("keep", "1")


def pattern(text):
    return re.compile(text.replace(b"\n", b"").replace(b"CAP", CAP).replace(b" N", b" " + NUMBER))


SHOWN, MORE = pattern(FIRST), pattern(rb"word N N|slot N CAP|register N CAP")
INVOKED = pattern(rb"done|no process|not running|worn|stalled|log full")
# The answers that a command may get, if memory suffices and no device fails.
ANSWERS = {
    b"call": INVOKED, b"return": INVOKED, b"send": INVOKED,
    b"load": pattern(rb"value N|memory fault [1-4]|no process|not running"),
    b"store": pattern(rb"done|memory fault [1-5]|no process|not running|log full"),
    b"show": re.compile(rb"bad number"), b"evict": re.compile(rb"done|bad number"),
    b"checkpoint": pattern(rb"frozen N|worn|checkpoint running|migration pending"),
    b"stabilize": pattern(rb"left N|no checkpoint"), b"commit": pattern(rb"committed N|not stable N|no checkpoint"),
    b"journal": pattern(rb"journaled N|worn|checkpoint running|migration pending|bad number|not journaled [12]"),
    b"migrate": pattern(rb"left N"), b"restart": pattern(rb"at N N"), b"cut": pattern(rb"at N N"),
}


@cache
def program():
    """The program that is tried."""
    if "EROS" in os.environ:
        return Path(os.environ["EROS"]).resolve()
    return Path(subprocess.run([ROOT / "tools" / "program"], stdout=subprocess.PIPE, text=True, check=True).stdout.strip())


@cache
def stopper():
    """The program that runs scripts over devices that stop."""
    if "STOPPER" in os.environ:
        return Path(os.environ["STOPPER"]).resolve()
    sys.path.append(str(ROOT / "tools"))
    from crates import closure

    made = ROOT / "crates" / "stop_tests" / "out" / "stop_tests"
    parts = [ROOT / "crates" / crate / it for crate in closure(["stop_tests"]) for it in ("src", "specs", "proofs")]
    sources = [ROOT / "crates.txt", *(file for part in parts for file in part.rglob("*") if file.is_file())]
    if not made.exists() or any(it.stat().st_mtime > made.stat().st_mtime for it in sources):
        subprocess.run([ROOT / "tools" / "build", "stop_tests"], check=True)
        made.touch()
    return made


def joined(*words):
    """A line of a script."""
    return " ".join(map(str, words)).encode()


def cap_text(cap):
    """A capability that checks/reader.py read, as `show` prints it."""
    kind = CAPABILITIES[cap.tag]
    number = "" if kind in ("void", "discrim") else f" {cap.number}"
    more = f" {cap.height}" if kind == "space" else f" {cap.key}" if kind == "start" else ""
    return f"{kind}{number}{more}{ACCESSES[cap.access]}"


def is_word(word, form):
    plain = word.isdigit() and (word == b"0" or word[:1] != b"0")
    return plain and int(word) < (WORDS if form == "n" else 32)


def command_of(line):
    """The name of a line's command; b"" if the line is bad, and None if it is skipped."""
    if len(line) > MOST:
        return b""
    if not line or line[:1] == b"#":
        return None
    name, *words = line.split(b" ")
    form = FORMS.get(name)
    fits = form is not None and len(form) == len(words) and all(map(is_word, words, form))
    return name if fits else b""


def lines_of(script):
    """The lines of a script. The rest after the last newline is a line if it isn't empty."""
    *lines, rest = script.split(b"\n")
    return [*lines, rest] if rest else lines


class Answers:
    """Takes the answers from the output, one for each line."""

    def __init__(self, printed):
        self.lines, self.at = printed.split(b"\n"), 0

    def is_at_end(self):
        return self.at == len(self.lines) - 1 and not self.lines[-1]

    def take(self, line):
        """The answer to a line: b"" if the line is skipped, None if the output has no answer to it."""
        name = command_of(line)
        if name is None:
            return b""
        begin, said = self.at, self.lines[self.at]
        if begin == len(self.lines) - 1:
            return None
        self.at += 1
        if name == b"":
            return said + b"\n" if said == b"bad line" else None
        if name == b"show" and SHOWN.fullmatch(said):
            while MORE.fullmatch(self.lines[self.at]):
                self.at += 1
            if self.lines[self.at] != b"end":
                return None
            self.at += 1
        elif not ANSWERS[name].fullmatch(said):
            return None
        return b"\n".join(self.lines[begin : self.at]) + b"\n"


def answers_to(lines, printed):
    """The answers to lines, and what is wrong with them or None."""
    answers, given = Answers(printed), []
    for number, line in enumerate(lines):
        answer = answers.take(line)
        if answer is None:
            return given, f"line {number + 1}, {line[:60]!r}, was answered {answers.lines[max(0, answers.at - 1)][:60]!r}"
        given.append(answer)
    return given, None if answers.is_at_end() else f"after the last line came {answers.lines[answers.at][:60]!r}"
