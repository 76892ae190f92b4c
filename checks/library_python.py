"""What checks/library tries of the Python module: its errors, and what it does where a storage, a thread or a program misbehaves."""
import errno
import gc
import os
import subprocess
import sys
import threading
import time
from pathlib import Path

from cases import Wrong, need
from common import EXAMPLES, ROOT

sys.path.insert(0, str(ROOT / "python"))
import vezhnake  # noqa: E402

KILLS = 100


def kill(words, image, chance, times=KILLS, after=lambda number: None):
    """Kills a counter at random moments and starts it again. Returns the last count."""
    last, environment = None, {**os.environ, "PYTHONPATH": str(ROOT / "python")}
    for number in range(times):
        with subprocess.Popen([*words, image, "100000000"], stdout=subprocess.PIPE, env=environment) as counter:
            first = counter.stdout.readline()
            time.sleep(chance.random() * 0.05)
            counter.kill()
            counts = [int(it) for it in (first + counter.stdout.read()).split(b"\n")[:-1]]
        need(counts, f"{words[-1]} counts nothing")
        need(last is None or last < counts[0] <= last + 2, f"{words[-1]}: after kill {number} it continues with {counts[0]} after {last}")
        need(counts == [*range(counts[0], counts[0] + len(counts))], f"{words[-1]} leaves out a count: {counts}")
        last = counts[-1]
        after(number)
    return last


def raises(kind, what, run):
    """The exception of this kind that a call raises."""
    try:
        gave = run()
    except Exception as error:
        need(type(error) is kind, f"{what} raises {error!r}")
        return error
    raise Wrong(f"{what} raises nothing, and gives {gave!r}")


class Faulty(vezhnake.MemoryStorage):
    """An image in memory. One write raises an exception, or is short. After that `close` raises too."""

    def __init__(self, image, writes, is_short):
        super().__init__(image)
        self.writes, self.is_short = writes, is_short

    def write(self, byte, data):
        self.writes -= 1
        if self.writes == 0 and not self.is_short:
            raise OSError(errno.ENOSPC, "the disk is full")
        if self.writes == 0:
            return super().write(byte, data[:100])
        return super().write(byte, data)

    def close(self):
        if self.writes <= 0:
            raise OSError(errno.EIO, "the first error is another one")


def count_in(image):
    """The count that an image saves."""
    with vezhnake.Machine(vezhnake.MemoryStorage(image)) as machine:
        return machine.page(16)[0]


def try_storages(image):
    """Each write of a save fails, or is short. The machine is closed, and the image has the old count or the new one."""
    for is_short in (False, True):
        left, writes = set(), 0
        while True:
            writes += 1
            storage = Faulty(image, writes, is_short)
            machine = vezhnake.Machine(storage)
            machine.call(1, 6, 2, 0, 7)
            try:
                machine.save()
            except vezhnake.StorageError as error:
                need(error.__cause__.errno == (errno.EIO if is_short else errno.ENOSPC), f"another error than the first: {error.__cause__!r}")
                need("another one" not in str(error), "the error of close hides the first")
            else:
                break
            raises(vezhnake.Closed, "a machine whose storage failed", lambda: machine.page(16))
            left.add(count_in(storage.image))
        need(writes > 5 and left == {0, 7}, f"{writes} faulty writes left the counts {left}")


def try_lock(path):
    """A second opening names the file. A machine that is forgotten gives its lock back."""
    first = vezhnake.open(path)
    error = raises(BlockingIOError, "a second opening", lambda: vezhnake.open(path))
    need(error.filename == str(path) and error.strerror == "another program uses the image", f"a second opening reports {error}")
    del first
    gc.collect()
    with vezhnake.open(path) as machine:
        need(machine.page(16)[0] == 0, "an image can't be opened again")
    for wrong, kind in ((path.parent, IsADirectoryError), (path.parent / "none", FileNotFoundError), (Path("/dev/null"), OSError)):
        error = raises(kind, f"opening {wrong}", lambda: vezhnake.open(wrong))
        need(error.filename == str(wrong), f"the error {error} has no path")


def try_threads(image):
    """Eight threads on one machine: no call fails, and no count is lost."""
    machine, failed = vezhnake.Machine(vezhnake.MemoryStorage(image)), []

    def work(word):
        try:
            for count in range(1, 41):
                machine.call(1, 6, 2, word, count)
                need(machine.page(16)[word] == count, "a thread reads another count")
                if count % 10 == 0:
                    machine.save()
        except Exception as error:
            failed.append(error)

    threads = [threading.Thread(target=work, args=(it,)) for it in range(8)]
    for thread in threads:
        thread.start()
    for thread in threads:
        thread.join()
    need(not failed, f"a thread fails: {failed[:1]}")
    need(machine.page(16)[:9] == [40] * 8 + [0], "a thread's count is lost")
    machine.close()


def try_buffers_of_bytes(image):
    """Images and scripts may be any bytes, and scripts text too."""
    for kind in (bytes, bytearray, memoryview):
        class Storage(vezhnake.MemoryStorage):
            def read(self):
                return kind(bytes(self.image))

        with vezhnake.Machine(Storage(image)) as machine:
            need(machine.step(kind(b"show 16")) == "page 16 owner 0\nend", f"{kind.__name__} is another script")
        need(vezhnake.run(kind(image), kind(b"show 16"))[0] == b"page 16 owner 0\nend\n", f"{kind.__name__} is another image")
    need(vezhnake.run(image, "show 16")[0] == b"page 16 owner 0\nend\n", "a text is another script")
    raises(TypeError, "an image that is a number", lambda: vezhnake.run(5, "show 16"))


def try_errors(image):
    """Each kind of refusal has its exception. `step` raises none of them."""
    machine = vezhnake.Machine(vezhnake.MemoryStorage(image))
    refused = raises(vezhnake.OrderRefused, "a read of word 512", lambda: machine.call(1, 6, 1, 512))
    need(refused.code is vezhnake.Code.BAD_INDEX, f"a read of word 512 has the code {refused.code!r}")
    need(machine.call(1, 6, 2, 3, 99) == ("done", 0, (0, 0, 0)) and machine.call(1, 6, 1, 3).values == (99, 0, 0), "a word is another one")
    raises(vezhnake.NoCheckpoint, "a commit of nothing", machine.commit)
    raises(vezhnake.BadLine, "a typing error", lambda: machine.command("sohw 16"))
    raises(vezhnake.BadCommand, "register 32", lambda: machine.call(1, 32))
    raises(vezhnake.NoProcess, "a call by a page", lambda: machine.send(16, 6))
    raises(vezhnake.BadNumber, "a number without an object", lambda: machine.page(99999))
    raises(vezhnake.Refused, "the page of a process", lambda: machine.page(1))
    need(raises(vezhnake.MemoryFault, "a load without a space", lambda: machine.load(1, 0)).values == (1,), "a memory fault has another reason")
    raises(ValueError, "five words", lambda: machine.call(1, 6, 1, 2, 3, 4, 5))
    machine.checkpoint()
    need(raises(vezhnake.NotStable, "a commit before stabilize", machine.commit).values == (3,), "another number of frozen objects")
    raises(vezhnake.CheckpointRunning, "a save in a checkpoint", machine.save)
    need((machine.stabilize(), machine.commit()) == (0, 1), "a checkpoint isn't committed")
    raises(vezhnake.MigrationPending, "a checkpoint before migrate", machine.checkpoint)
    need([machine.step(it) for it in ("sohw 16", "commit", "checkpoint")] == ["bad line", "no checkpoint", "migration pending"], "step raises")
    need((machine.save(), machine.save()) == (2, 3) and machine.page(16)[3] == 99, "two saves in turn fail")
    need(machine.restart()[0] == 3 and machine.page(16)[3] == 99, "a restart goes elsewhere")
    machine.close()
    machine.close()
    need(raises(vezhnake.Closed, "a closed machine", machine.save).status == vezhnake.NOT_OPEN, "a closed machine has another status")
    need(raises(vezhnake.BadImage, "an empty image", lambda: vezhnake.run(b"", "")).status == 1, "an empty image has another reason")
    raises(vezhnake.BadArgument, "a cache of 7", lambda: vezhnake.run(image, "", 7))


def try_block_device(path):
    """A block device has no size in its metadata. Returns why it can't be tried here, or None."""
    done = subprocess.run(["losetup", "--find", "--show", path], capture_output=True, text=True) if os.geteuid() == 0 else None
    if done is None or done.returncode:
        return "no loop device can be made here"
    device = done.stdout.strip()
    try:
        for count in (5, 6):
            with vezhnake.open(device) as machine:
                need(machine.page(16)[0] in (0, count - 1), "a block device has another count")
                machine.call(1, 6, 2, 0, count)
                machine.save()
    finally:
        subprocess.run(["losetup", "--detach", device], check=True)
    need(count_in(path.read_bytes()) == 6, "a save isn't on the block device")
    return None


def try_longer_file(path):
    """An image at the start of a file over 64 MiB: what follows is neither read nor written. If the superblock says too much, at most 64 MiB
    are read."""
    image, longer = path.read_bytes(), 65 << 20
    with path.open("r+b") as file:
        file.truncate(longer)
        file.seek(len(image))
        file.write(b"another")
    storage = vezhnake.FileStorage(path)
    need(storage.read() == image, "what follows an image is read with it")
    with vezhnake.Machine(storage) as machine:
        machine.call(1, 6, 2, 0, 5)
        machine.save()
    with path.open("rb") as file:
        need(count_in(file.read(len(image))) == 5, "a save isn't at the start of a longer file")
        need(file.read() == b"another".ljust(longer - len(image), b"\0"), "what follows an image is written")
    for total, length in ((2**64 - 1, 64 << 20), (2**63, 64 << 20), (131073, 64 << 20), (6, 3072), (0, 2560)):
        with path.open("r+b") as file:
            file.seek(56)
            file.write(total.to_bytes(8, "little"))
        storage = vezhnake.FileStorage(path)
        need(len(storage.read()) == length, f"of {total} sectors {len(storage.read())} bytes are read")
        storage.close()
    for length in (0, 1, 511, 512, 2559, 2560, len(image) - 1):
        path.write_bytes(image[:length])
        need(raises(vezhnake.BadImage, f"the first {length} bytes", lambda: vezhnake.open(path)).status == 1, f"{length} bytes are no small image")


def usage_of(*words):
    """What a counter with wrong arguments prints."""
    done = subprocess.run([str(it) for it in words], stdin=subprocess.DEVNULL, capture_output=True, text=True, timeout=60, env={
        **os.environ, "PYTHONPATH": str(ROOT / "python")})
    need(done.returncode == 1 and done.stderr.count("\n") == 1 and not done.stdout, f"{words} prints {done.stderr!r}")
    return done.stderr


def try_usage(counter, image):
    """Wrong arguments of a counter give its usage, and a missing image one line."""
    for words in ((), (image,), (image, "many"), (image, "1", "2")):
        need("usage: " in usage_of(*counter, *words), f"{counter[-1]} has no usage for {words}")
    need("usage: " not in usage_of(*counter, image.parent / "none", "1"), f"{counter[-1]} takes a missing image for wrong arguments")


def try_two_counters(counter, path):
    """Two counters at once: one is refused, and no count is lost."""
    environment = {**os.environ, "PYTHONPATH": str(ROOT / "python")}
    words = [*map(str, counter), str(path), "100000000"]
    with subprocess.Popen(words, stdout=subprocess.PIPE, env=environment, text=True) as first:
        counts = [first.stdout.readline()]
        need("another program uses the image" in usage_of(*counter, path, "1"), f"two {counter[-1]} run at once")
        first.kill()
        counts += first.stdout.readlines()
    last = max(int(it) for it in counts if it.endswith("\n"))
    need(count_in(path.read_bytes()) in (last, last + 1), f"{counter[-1]} lost a count")


def try_longer_counter(counter, path):
    """A counter counts on in an image at the start of a longer file, which stays as long."""
    before, longer = count_in(path.read_bytes()), 65 << 20
    os.truncate(path, longer)
    environment = {**os.environ, "PYTHONPATH": str(ROOT / "python")}
    printed = subprocess.run([*map(str, counter), str(path), "1"], stdout=subprocess.PIPE, env=environment, text=True, timeout=60).stdout
    need(printed == f"{before + 1}\n" and path.stat().st_size == longer, f"{counter[-1]} prints {printed!r} over a longer file")


def letters_in(path):
    """The numbers of the letters that wait, how many were sent, and how many were read."""
    with vezhnake.open(path) as machine:
        pages = [int(it.split()[-1]) for it in machine.show(9).splitlines() if " page " in it]
        return sorted(machine.page(it)[0] for it in pages), machine.page(20)[0], machine.page(21)[0]


def try_post_office(eros, folder, chance, words=(sys.executable, EXAMPLES / "post-office" / "office.py")):
    """Kills the post office of these words a hundred times. No letter is lost or doubled: those that wait have the numbers between the
    read and the sent ones, or one more where a client hasn't handled its answer yet."""
    image, name = folder / f"{words[-1].stem}.image", words[-1].name
    subprocess.run([eros, "build", EXAMPLES / "post-office" / "post.toml", image], check=True, stdout=subprocess.DEVNULL)
    environment = {**os.environ, "PYTHONPATH": str(ROOT / "python")}
    last = {b"sent": 0, b"read": 0}
    for number in range(KILLS):
        with subprocess.Popen([*words, image, "100000000"], stdout=subprocess.PIPE, env=environment) as running:
            first = running.stdout.readline()
            time.sleep(chance.random() * 0.05)
            running.kill()
            lines = (first + running.stdout.read()).split(b"\n")[:-1]
        need(lines, f"{name} prints nothing")
        for what in last:
            counts = [int(line.split()[1]) for line in lines if line.startswith(what)]
            follow = not counts or counts[0] in (last[what] + 1, last[what] + 2) and counts == [*range(counts[0], counts[0] + len(counts))]
            need(follow, f"after kill {number} and {last[what]} {what.decode()}: {counts}")
            last[what] = max([last[what], *counts])
        waiting, sent, read = letters_in(image)
        last = {b"sent": sent, b"read": read}
        begin = waiting[0] if waiting else sent + 1
        whole = waiting == [*range(begin, begin + len(waiting))] and begin - read in (1, 2) and begin + len(waiting) - 1 - sent in (0, 1)
        need(whole if waiting else abs(sent - read) <= 1, f"after kill {number} the letters {waiting} wait, with {sent} sent and {read} read")
    need(last[b"read"] > 10, f"only {last[b'read']} letters were read")
    print(f"{name} was killed {KILLS} times: {last[b'sent']} letters sent, {last[b'read']} read, none lost or doubled")


def try_module(folder, image):
    """Tries all of the module, and prints what it skipped."""
    try_storages(image)
    try_threads(image)
    try_buffers_of_bytes(image)
    try_errors(image)
    for name, trying in (("lock", try_lock), ("longer", try_longer_file), ("block", try_block_device)):
        path = folder / f"{name}.image"
        path.write_bytes(image)
        skipped = trying(path)
        if skipped:
            print(f"skipped: a block device, because {skipped}")
    print("the module raises what its storage, its threads and the machine refuse, and loses nothing")
