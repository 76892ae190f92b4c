"""What checks/library tries of typed calls: random scripts as text and as typed calls, in C, Rust and Python. The answers and the images are
the same. Each object is the same as its lines."""
import os
import shutil
import subprocess
import sys
from pathlib import Path

from cases import need
from chance_scripts import DESCRIPTION, some
from common import ROOT

sys.path.insert(0, str(ROOT / "python"))
import vezhnake  # noqa: E402

SCRIPTS, LINES = 300, 60
COMMANDS = {
    "load": "load", "store": "store", "evict": "evict", "checkpoint": "checkpoint", "stabilize": "stabilize", "commit": "commit",
    "migrate": "migrate", "journal": "journal", "restart": "restart",
}
ARGUMENTS = {"load": 2, "store": 3, "evict": 1, "checkpoint": 0, "stabilize": 1, "commit": 0, "migrate": 1, "journal": 1, "restart": 0}
WORDS = {
    "load": "value", "store": "done", "evict": "done", "checkpoint": "frozen", "stabilize": "left", "commit": "committed",
    "migrate": "left", "journal": "journaled", "restart": "at",
}
INVOCATIONS = {"call": vezhnake.Operation.CALL, "return": vezhnake.Operation.RETURN, "send": vezhnake.Operation.SEND}
ACCESS = {0: "", 1: " ro", 3: " weak"}


def capability_text(it):
    numbers = {"void": (), "discrim": (), "space": (it.object, it.height), "start": (it.object, it.key)}.get(it.kind, (it.object,))
    return " ".join(str(word) for word in (it.kind, *numbers)) + (ACCESS[it.access] if it.kind in ("page", "node", "space") else "")


def object_text(machine, number):
    """The lines of an object, from its fields."""
    it = machine.object(number)
    if it.kind == "free":
        return f"free {number}\nend\n"
    first = [it.kind, number, "owner", it.owner]
    if it.kind == "process":
        first += ["annex", it.annex, it.state, "key", it.key, "words", *it.words, "space", capability_text(it.space)]
    if it.kind == "bank":
        first += ["limit", it.limit, "used", it.used]
    lines = [" ".join(map(str, first))]
    if it.kind == "page":
        lines += [f"word {place} {word}" for place, word in enumerate(machine.page(number)) if word]
    name = "slot" if it.kind == "node" else "register"
    lines += [f"{name} {place} {capability_text(slot)}" for place, slot in enumerate(it.slots) if slot.kind != "void"]
    return "\n".join([*lines, "end"]) + "\n"


def numbers_in(words):
    """The numbers that words are, or None. Only the one spelling of a number counts."""
    return [int(it) for it in words] if all(it.isdecimal() and str(int(it)) == it for it in words) else None


def typed(machine, line):
    """The text that a line is answered, by a typed call where there is one."""
    name, *words = line.split(" ")
    numbers = numbers_in(words)
    try:
        if numbers is not None and name in INVOCATIONS and len(numbers) == 10:
            process, register, *rest = numbers
            reply = machine.invoke_all([vezhnake.Invocation(process, register, tuple(rest[:4]), tuple(rest[4:]), INVOCATIONS[name])])[0]
            if isinstance(reply, vezhnake.Refused):
                raise reply
            return f"{reply.kind}\n"
        if numbers is not None and name in COMMANDS and len(numbers) == ARGUMENTS[name]:
            gave = getattr(machine, name)(*numbers)
            values = gave if isinstance(gave, tuple) else () if gave is None else (gave,)
            return " ".join(str(it) for it in (WORDS[name], *values)) + "\n"
        if numbers is not None and name == "show" and len(numbers) == 1:
            return object_text(machine, *numbers)
    except vezhnake.Refused as refused:
        return f"{refused.answer}\n"
    return machine.run(line + "\n").decode()


def by_python(image, script, cache):
    storage = vezhnake.MemoryStorage(image)
    with vezhnake.Machine(storage, cache) as machine:
        return "".join(typed(machine, line.decode()) for line in script).encode(), storage.read()


def by_program(program, image, script, file):
    """What a program prints that runs a script on an image file, and the file after it."""
    file.write_bytes(image)
    done = subprocess.run([str(it) for it in program], input=b"".join(it + b"\n" for it in script), capture_output=True, timeout=60)
    need(done.returncode == 0, f"{program[0].name} ended with status {done.returncode}: {done.stderr.decode()[-500:]}")
    return done.stdout, file.read_bytes()


def by_rust(folder, archive):
    """The crate's example that runs a script by typed calls, or None where there is no cargo."""
    if shutil.which("cargo") is None:
        print("skipped: typed calls in Rust, because cargo is not here")
        return None
    libraries = folder / "libraries"
    libraries.mkdir()
    shutil.copy(archive, libraries / "libvezhnake.a")
    where = {**os.environ, "VEZHNAKE_LIB_DIR": str(libraries), "CARGO_TARGET_DIR": str(folder / "cargo-typed")}
    words = ["cargo", "build", "--offline", "--locked", "--quiet", "--example", "lines"]
    subprocess.run(words, cwd=ROOT / "bindings" / "rust", env=where, check=True)
    return folder / "cargo-typed" / "debug" / "examples" / "lines"


def try_saves(image):
    """A save stops at the first stage that is refused, and names it. An invalid command changes nothing."""
    with vezhnake.Machine(vezhnake.MemoryStorage(image)) as machine:
        first = machine.page(40)
        machine.checkpoint()
        try:
            machine.save()
        except vezhnake.CheckpointRunning as refused:
            need(refused.line == "checkpoint", f"a save is refused at {refused.line}")
        machine.stabilize()
        machine.commit()
        need(machine.save() == 2 and machine.save() == 3, "two saves in turn fail")
        before = machine.run("show 1\nshow 2\n")
        made = [vezhnake.Invocation(1, 6, (2, 0, 5)), vezhnake.Invocation(16, 6), vezhnake.Invocation(1, 6, (1, 512))]
        done, refused, no_order = machine.invoke_all(made)
        codes = done.code == 0 and no_order.code is vezhnake.Code.BAD_INDEX
        need(codes and isinstance(refused, vezhnake.NoProcess), "a batch answers otherwise")
        need(machine.page(40) == [5, *first[1:]] and machine.run("show 1\nshow 2\n") != before, "a batch changes nothing")
        before = machine.run("show 1\nshow 40\n")
        for wrong in ((1, 32), (1, 6, 2**64), (2**64, 6), (-1, 6)):
            try:
                machine.send(*wrong)
            except vezhnake.BadCommand as error:
                need(error.status == 19, f"{wrong} has the status {error.status}")
            else:
                need(False, f"the invocation {wrong} is made")
        need(machine.run("show 1\nshow 40\n") == before, "a command that is none changes something")


def try_typed(eros, archive, folder, chance, compiled):
    """Runs random scripts as text and by typed calls."""
    description, built, file = folder / "typed.toml", folder / "typed.image", folder / "typed-copy.image"
    description.write_text(DESCRIPTION)
    subprocess.run([eros, "build", description, built], check=True, stdout=subprocess.DEVNULL)
    image = built.read_bytes()
    try_saves(image)
    in_c, in_rust = compiled(folder / "typed", "-O2", Path(ROOT / "checks" / "typed.c"), archive), by_rust(folder, archive)
    for number in range(SCRIPTS):
        script, cache = some(chance, LINES, 40), (0, 8)[number % 2]
        storage = vezhnake.MemoryStorage(image)
        with vezhnake.Machine(storage, cache) as machine:
            wanted = (machine.run(b"".join(it + b"\n" for it in script)), storage.read())
        for name, found in (
            ("Python", lambda: by_python(image, script, cache)), ("C", lambda: by_program((in_c, file, cache), image, script, file)),
            ("Rust", lambda: by_program((in_rust, file), image, script, file) if in_rust and not cache else wanted),
        ):
            need(found() == wanted, f"script {number}, in {name} with a cache of {cache}: another answer or image")
    print(f"{SCRIPTS} random scripts answer and leave the same by typed calls in C, {'Rust, ' if in_rust else ''}Python, and as text")
