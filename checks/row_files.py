"""Reads the rows of checks/rows, and runs them over an image. The head of `checks/try-rows` says how they look."""
import os
import shutil
import subprocess
import sys

from common import EXAMPLES, ROOT

ROWS, SECTOR = ROOT / "checks" / "rows", 512
ROW, IMAGE, BYTES = b"# Row: ", b"# Image: ", b"# Bytes: "
# The lines that name bytes of the image; and the lines that end a run, and change or read the image.
PLACED = (b"# Poke: ", b"# Length: ", BYTES)
ENDS = (*PLACED, b"# Check", b"# Again", b"# Fresh")
# The number of device calls that the next line makes: with all objects in memory, and with a cache of 8. `checks/stops` tries it.
CALLS, CACHED = b"# Calls: ", b"# Cached: "
# A key of a description, which stands before its tables.
LAYOUT = b"layout = "


def rows_of(file):
    """The beginning of each row, and the rows by name, as lines with their ends."""
    begin, rows = [], {}
    lines = begin
    for line in file.read_bytes().splitlines(keepends=True):
        if line.startswith(ROW):
            name = line[len(ROW) :].decode().strip()
            if name in rows:
                sys.exit(f"{file.name}: two rows are named {name}")
            lines = rows[name] = []
        else:
            lines.append(line)
    return begin, rows or {"": []}


def names_places(lines):
    """Whether lines name bytes of an image. Their places differ between the versions of the layout."""
    return any(it.startswith((*PLACED, LAYOUT)) for it in lines)


def calls_of(lines):
    """The number of device calls of each line of a run, by line number, with all objects in memory. If some lines have such a number, the
    others make none."""
    said = {number: int(it[len(CALLS) :]) for number, it in enumerate(lines, 1) if it.startswith(CALLS)}
    return said and {number: said.get(number, 0) for number in range(len(lines))}


def cached_calls_of(lines):
    """The same with a cache of 8, for the lines that have such a number."""
    return {number: int(it[len(CACHED) :]) for number, it in enumerate(lines, 1) if it.startswith(CACHED)}


def image_names(lines):
    """The names of the descriptions in the lines `# Image: ..`."""
    return [it[len(IMAGE) :].decode().strip() for it in lines if it.startswith(IMAGE)]


def description_named(file, name):
    """The description of a name in a file of scripts."""
    found = [it for it in (ROWS / name, EXAMPLES / name) if it.is_file()]
    if not found:
        sys.exit(f"{file.name}: there is no description {name}")
    return found[0]


def description_of(file, begin):
    """The description of the image that the rows of a file run over."""
    names = image_names(begin)
    if len(names) != 1:
        sys.exit(f"{file.name}: it needs one line '# Image: ..' before its rows")
    return description_named(file, names[0])


def printed(*words):
    """The output of the program, and the line of its fault. Any other end adds its status."""
    ran = subprocess.run([str(it) for it in words], stdin=subprocess.DEVNULL, capture_output=True, timeout=120)
    is_usual = ran.returncode == 0 and not ran.stderr or ran.returncode == 1 and ran.stderr
    return ran.stdout + ran.stderr + (b"" if is_usual else b"ended in %d\n" % ran.returncode)


def bytes_at(file, line):
    """The bytes of an image that a line `# Bytes: ..` names, as a line of numbers."""
    sector, place, count = (int(it) for it in line[len(BYTES) :].split())
    start = SECTOR * sector + place
    return b"%s\n" % " ".join(str(it) for it in file.read_bytes()[start : start + count]).encode()


class Image:
    """The image that a row runs over."""

    def __init__(self, program, store, built, file):
        self.program, self.store, self.built, self.file = program, store, built, file
        shutil.copyfile(built, file)

    def run(self, script):
        """The answers to a script, which changes the image. A script of comments isn't run."""
        if all(it.startswith(b"#") for it in script):
            return b""
        file = self.file.with_suffix(".eros")
        file.write_bytes(b"".join(script))
        return printed(self.program, "run", *self.store, self.file, file)

    def go_on(self, line):
        """Carries out a line that ends a run. Returns what is printed."""
        word, _, rest = line.partition(b": ")
        numbers = [int(it) for it in rest.split()]
        if word == b"# Poke":
            with open(self.file, "r+b") as it:
                it.seek(SECTOR * numbers[0] + numbers[1])
                it.write(bytes(numbers[2:]))
        elif word == b"# Length":
            os.truncate(self.file, numbers[0])
        elif word == b"# Bytes":
            return bytes_at(self.file, line)
        elif word.startswith(b"# Fresh"):
            shutil.copyfile(self.built, self.file)
        elif word.startswith(b"# Check"):
            return printed(self.program, "check", self.file)
        return b""

    def take(self, lines):
        """The output of all runs of a row."""
        said, script = b"", []
        for line in lines:
            if line.startswith(ENDS):
                said, script = said + self.run(script) + self.go_on(line), []
            else:
                script.append(line)
        return said + self.run(script)
