"""Runs on a disk that becomes full, and in a file with a limit: a run answers `fault`, and `down` from then on. Once there is room again,
the image opens at the last commit."""
import resource
import subprocess
from collections import Counter

from common import answers_to
from wide_images import loads, wide

PAGES, STEP, LOG = 256, 16, 288
LOADS = loads(PAGES)


class Skipped(Exception):
    """A part can't be tried here."""


def grown(rounds):
    """The lines of rounds. Round R writes R into the first 16 * R pages and makes a checkpoint."""
    return [
        it.encode() for number in rounds
        for it in [*(f"store 1 {512 * page} {number}" for page in range(STEP * number)), "checkpoint", "stabilize 999", "commit", "migrate 999"]
    ]


def loads_at(generation):
    return "".join(f"value {generation if page < STEP * generation else 0}\n" for page in range(PAGES))


def wrong_after(eros, image, lines, answers):
    """What is wrong with a run that ended in a fault, and with its image once there is room."""
    answers = answers.decode().splitlines()
    fault = answers.index("fault") if "fault" in answers else None
    if fault is None or len(answers) != len(lines) or set(answers[fault + 1 :]) - {"down"}:
        return [f"no fault, or something behind it: {Counter(it.split()[0] for it in answers)}"]
    _, wrong = answers_to(lines[:fault], "".join(f"{it}\n" for it in answers[:fault]).encode())
    last = [int(it.split()[1]) for it in answers if it.startswith("committed ")][-1:]
    if wrong or not last:
        return [wrong or "the fault came before the first commit"]
    checked = subprocess.run([eros, "check", image], capture_output=True, text=True)
    words = (checked.stdout + checked.stderr).split()
    generation = int(words[2]) if words[:2] == ["ok", "generation"] else None
    allowed = (last[0], last[0] + 1) if lines[fault] == b"commit" else (last[0],)
    if generation not in allowed:
        return [f"after generation {last[0]} and a fault in {lines[fault]!r} check printed {checked.stdout}{checked.stderr}"]
    loaded = subprocess.run([eros, "run", image, "-"], input=LOADS, capture_output=True, text=True).stdout
    print(f"a fault in {lines[fault].decode()!r}, line {fault + 1} of {len(lines)}, after generation {last[0]}")
    return [] if loaded == loads_at(generation) else [f"the pages of generation {generation} hold other words"]


def wide_image(eros, folder):
    """A sparse image."""
    built, image = folder / "wide.built", folder / "wide.image"
    (folder / "wide.toml").write_text(wide(16, PAGES, LOG))
    subprocess.run([eros, "build", folder / "wide.toml", built], stdout=subprocess.PIPE, check=True)
    subprocess.run(["cp", "--sparse=always", built, image], check=True)
    return image


def try_full_disk(eros, folder):
    """What is wrong with a sparse image of 4 MB in a file system of 2 MB, which then gets room."""
    image, lines = wide_image(eros, folder), grown(range(1, 17))
    (folder / "script").write_bytes(b"\n".join(lines))
    (folder / "small").mkdir()
    steps = """cd "$1" && mount -t tmpfs -o size=2m none small && cp --sparse=always wide.image small/image && touch mounted || exit
        "$2" run small/image script > answers 2> errors; mount -o remount,size=64m small && cp small/image left"""
    ran = subprocess.run(["unshare", "-rm", "bash", "-c", steps, "full", folder, eros], stderr=subprocess.PIPE, text=True)
    if not (folder / "mounted").exists():
        raise Skipped(f"nothing can be mounted here: {ran.stderr.strip()}")
    errors = (folder / "errors").read_text()
    return [errors] if errors else wrong_after(eros, folder / "left", lines, (folder / "answers").read_bytes())


def try_short_file(eros, folder):
    """What is wrong with a file whose limit lies in the middle of the second log half. The first checkpoint is in the other half."""
    image = wide_image(eros, folder)
    first, lines = grown([1]), grown(range(2, 5))
    subprocess.run([eros, "run", image, "-"], input=b"\n".join(first), stdout=subprocess.PIPE, check=True)
    most = image.stat().st_size - 512 * 9 * LOG // 2

    def limit():
        resource.setrlimit(resource.RLIMIT_FSIZE, (most, most))

    # The output goes through a pipe. A write past the limit fails with an error, because the signal is ignored.
    ran = subprocess.run([eros, "run", image, "-"], input=b"\n".join(lines), stdout=subprocess.PIPE, preexec_fn=limit, restore_signals=False)
    return wrong_after(eros, image, lines, ran.stdout)
