"""What the checks that try the program on many images share: a case with files of its own, and a run of all cases."""
import os
import sys
import tempfile
import time
from concurrent.futures import ThreadPoolExecutor
from pathlib import Path

from chance_worlds import AGE, commits
from common import EXAMPLES, program
from row_files import ROWS, SECTOR, printed


class Wrong(Exception):
    """Something differs from what it must be."""


def need(holds, what):
    if not holds:
        raise Wrong(what)


class Case:
    """The program, and files of one name in a folder."""

    def __init__(self, path, folder, name):
        self.path, self.place = path, str(Path(folder) / name)

    def file(self, end):
        return Path(f"{self.place}.{end}")

    def build(self, text, end="image"):
        """Builds the image of a description."""
        described, image = self.file(f"{end}.toml"), self.file(end)
        described.write_bytes(text)
        answer = printed(self.path, "build", described, image)
        need(answer.startswith(b"built "), f"a description isn't built: {answer!r}")
        return image

    def run(self, image, lines, store=()):
        """What the program prints for a script."""
        script = self.file("eros")
        script.write_bytes(b"".join(it + b"\n" for it in lines))
        return printed(self.path, "run", *store, image, script)

    def commit(self, image, world):
        """Runs a script with commits. An image at the greatest age has no checkpoint in it."""
        answers = self.run(image, commits(world)).splitlines()
        need(not any(it.startswith(b"eros: ") for it in answers), f"a script with commits ends with {answers[-1:]}")
        is_worn = world.document.get("age", 0) >= AGE - 1 and b"worn" in answers
        need(is_worn or any(it.startswith(b"committed ") for it in answers), f"a script commits nothing: {answers[-3:]}")

    def check(self, image):
        return printed(self.path, "check", image)

    def read(self, image, *words):
        """What a command that only reads prints. It must not change the image."""
        before = image.read_bytes()
        text = printed(self.path, *words)
        need(image.read_bytes() == before, f"an image was changed by eros {words[0]}")
        return text

    def spoil(self, image, chance):
        """Changes a bit of the image. Returns what `eros check` prints then."""
        data = bytearray(image.read_bytes())
        data[chance.randrange(40 * SECTOR)] ^= 1 << chance.randrange(8)
        image.write_bytes(data)
        return self.check(image)

    def remove(self):
        for it in Path(self.place).parent.glob(f"{Path(self.place).name}.*"):
            it.unlink()


def descriptions():
    """The names and texts of the descriptions of the examples and of checks/rows, by both versions of the layout."""
    files = [*EXAMPLES.glob("*.toml"), *(it for it in ROWS.glob("*.toml") if not it.with_suffix(".answers").exists())]
    for file in sorted(files):
        text = file.read_bytes()
        yield file.name, text
        if b"layout = " not in text:
            yield f"{file.name} by version 2", b"layout = 2\n" + text


def main(name, tries, count, case=Case):
    """Tries all cases: `tries(count, seed)` yields the name of each and a call on it. The command line's words may give another count
    and a seed. Prints what is wrong, and ends the program with the status."""
    numbers, path = [int(it) for it in sys.argv[1:]], program()
    count, seed = [*numbers, *(count, 1)[len(numbers) :]][:2]
    passed, failed, began = 0, 0, time.monotonic()
    folder = tempfile.TemporaryDirectory(dir="/dev/shm" if os.access("/dev/shm", os.W_OK) else None)

    def one(number, title, call):
        its = case(path, folder.name, f"case-{number}")
        try:
            call(its)
        except Wrong as wrong:
            return f"{title}: {wrong}"
        finally:
            its.remove()
        return None

    with folder, ThreadPoolExecutor(min(4, os.cpu_count())) as pool:
        for wrong in pool.map(lambda it: one(it[0], *it[1]), enumerate(tries(count, seed))):
            passed, failed = passed + (not wrong), failed + bool(wrong)
            if wrong and failed <= 10:
                print(wrong[:1000], flush=True)
    print(f"{(passed + failed) / (time.monotonic() - began):.0f} cases a second")
    print(f"{name}: {passed} passed, {failed} failed")
    sys.exit(failed != 0)
