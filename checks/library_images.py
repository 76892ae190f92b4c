"""What checks/library tries of images as bytes: the library builds, checks, describes and explains what the program does, byte for byte and
reason for reason, and touches no file."""
import subprocess
import sys

from cases import need
from chance_worlds import World, text_of
from changes import by_chance
from common import EXAMPLES, ROOT
from library_python import raises
from reader import read
from row_files import ROWS, SECTOR

sys.path.insert(0, str(ROOT / "python"))
import vezhnake  # noqa: E402

WORLDS, CHANGES = 60, 400
# The lines of `eros info`, and the fields of Info.
NAMES = {"page": "page_objects", "node": "node_objects", "process": "processes", "bank": "banks"}


def reason_of(call, kind):
    """What a call gives, or the number for which it is refused."""
    try:
        return call()
    except kind as error:
        return error.status


def info_text(info):
    """The lines of `eros info`, from the fields."""
    lines = [f"{name} {getattr(info, name)}" for name in ("layout", "nodes", "pages", "log")]
    lines += [f"range {first} {count}" for first, count in info.ranges]
    lines += [f"{name} {getattr(info, name)}" for name in ("sectors", "generation", "age", "entries", "free")]
    return "\n".join([*lines, *(f"{name} {getattr(info, field)}" for name, field in NAMES.items())]) + "\n"


def lines_of(*words):
    """What the program prints, on standard output or standard error."""
    done = subprocess.run([str(it) for it in words], stdin=subprocess.DEVNULL, capture_output=True, timeout=60)
    return (done.stdout + done.stderr).decode()


def try_description(eros, text, folder):
    """The image of a description, or None if it is refused."""
    file, image = folder / "described.toml", folder / "described.image"
    file.write_bytes(text)
    image.unlink(missing_ok=True)
    line = lines_of(eros, "build", "--new", file, image)
    built = reason_of(lambda: vezhnake.build(text.decode()), vezhnake.BadDescription)
    if isinstance(built, bytes):
        need(line == f"built {len(built) // SECTOR} sectors\n" and image.read_bytes() == built, f"another image than the program's: {line}")
    else:
        wanted = "eros: bad description" + (f" {built - 20}" if built > 20 else "") + "\n"
        need(line == wanted, f"the program says {line!r}, the library {built}")
    need(lines_of(eros, "explain", file) == vezhnake.explain(text.decode()) + "\n", f"another explanation: {vezhnake.explain(text.decode())}")
    return built if isinstance(built, bytes) else None


def try_image(eros, data, folder):
    """Whether an image is accepted."""
    file = folder / "read.image"
    file.write_bytes(data)
    line, found = lines_of(eros, "check", file), reason_of(lambda: vezhnake.check(data), vezhnake.BadImage)
    # The program takes a file without a byte of zero for a description.
    if 0 in data:
        need(lines_of(eros, "explain", file) == vezhnake.explain(data) + "\n", f"another explanation: {vezhnake.explain(data)}")
    if not isinstance(found, vezhnake.Info):
        need(line == f"eros: bad image {found}\n", f"the program says {line!r}, the library {found}")
        need(reason_of(lambda: vezhnake.describe(data), vezhnake.BadImage) == found, "another reason not to describe")
        return False
    need(line == f"ok generation {found.generation} age {found.age} entries {found.entries}\n", f"{line!r}, and {found}")
    need(lines_of(eros, "info", file) == info_text(found), f"another info: {info_text(found)}")
    need(lines_of(eros, "describe", file) == vezhnake.describe(data), "another description")
    return True


def try_cpp(program, text, folder):
    """The same in C++."""
    file = folder / "cpp.toml"
    file.write_bytes(text)
    wanted = vezhnake.explain(text.decode()) + "\n"
    built = reason_of(lambda: vezhnake.build(text.decode()), vezhnake.BadDescription)
    if isinstance(built, bytes):
        changed = bytes([built[0] ^ 1, *built[1:]])
        wanted += f"{vezhnake.check(built).sectors} ok\n{vezhnake.describe(built)}{vezhnake.explain(changed)}\n2\n"
    else:
        wanted += f"{built}\n"
    need(lines_of(program, file) == wanted, "another answer in C++")


def try_images(eros, folder, chance, in_cpp):
    """Descriptions of rows and examples, and random ones with random mistakes; their images after a save, and with random changes."""
    texts = [file.read_bytes() for part in (ROWS, EXAMPLES) for file in sorted(part.rglob("*.toml"))]
    texts += [text_of(World(chance).document) for _ in range(WORLDS)]
    images, refused = [], 0
    for text in texts:
        built = try_description(eros, text, folder)
        if built:
            images.append(built)
        # A mistake: a piece of the text is lost, or doubled.
        place, length = chance.randrange(len(text)), chance.randrange(1, 20)
        try_cpp(in_cpp, text, folder)
        for wrong in (text[:place] + text[place + length :], text[: place + length] + text[place:]):
            try_cpp(in_cpp, wrong, folder)
            refused += try_description(eros, wrong, folder) is None
    need(refused > 50, f"only {refused} descriptions were refused")
    accepted = 0
    for number in range(CHANGES):
        storage = vezhnake.MemoryStorage(chance.choice(images))
        with vezhnake.Machine(storage) as machine:
            if number % 2:
                machine.run("checkpoint\nstabilize 4096\ncommit\n")
        data = storage.read()
        need(try_image(eros, data, folder), "an image that was saved is refused")
        changed = by_chance([(data, read(data))], chance.random(), number)[0] if number % 4 else data[: SECTOR * chance.randrange(len(data) // SECTOR)]
        accepted += try_image(eros, changed[: len(changed) // SECTOR * SECTOR], folder)
    need(0 < accepted < CHANGES, f"{accepted} of {CHANGES} changed images are accepted")
    raises(vezhnake.BadArgument, "half a sector", lambda: vezhnake.check(data[:-256]))
    raises(vezhnake.BadArgument, "over 64 MiB", lambda: vezhnake.explain(bytes((64 << 20) + 512)))
    print(f"{len(texts)} descriptions and {refused} bad ones, {2 * CHANGES} images: the library builds, checks, describes and explains as the program")
