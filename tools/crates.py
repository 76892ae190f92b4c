"""The repository's crates, and copies of some of them in another folder, where `rt ci` proves them from nothing."""
import shutil
import subprocess
import sys
from functools import cache
from pathlib import Path

ROOT = Path(__file__).resolve().parent.parent


@cache
def kit():
    """The folder of the kit."""
    return Path(subprocess.run(["rt", "doc"], capture_output=True, text=True, check=True).stdout.strip()).parent


def named():
    """The repository's crates, each with the libraries that it names. A line may have more words before the colon than the name."""
    lines = [it.partition("#")[0].partition(":") for it in (ROOT / "crates.txt").read_text().splitlines()]
    return {name.split()[0]: below.split() for name, colon, below in lines if colon}


def libraries():
    """The repository's crates, each with the crates of the repository that it names."""
    crates = named()
    return {name: [it for it in below if it in crates] for name, below in crates.items()}


def rlib(folder, name):
    """Where a folder has the library that `rt ci` made of a crate."""
    return folder / "crates" / name / "out" / "rlib" / f"{name}.rlib"


def refuse_unknown(names, crates):
    """Ends the program if one of the names isn't a crate's."""
    unknown = [it for it in names if it not in crates]
    if unknown:
        sys.exit(f"{Path(sys.argv[0]).name}: no crate {', '.join(unknown)}")


def closure(names):
    """These crates and those below them, lowest first, each with those that it names."""
    all_crates, found = libraries(), {}

    def add(name):
        for it in all_crates[name]:
            if it not in found:
                add(it)
        found[name] = all_crates[name]

    for name in names:
        if name not in found:
            add(name)
    return found


def copy_to(folder, names, parts, root=ROOT):
    """Copies these crates from a root to a folder: their files, and the folders in `parts`."""
    folder = Path(folder)
    for name in names:
        own = root / "crates" / name
        for part in own.iterdir():
            if part.is_dir() and part.name in parts:
                shutil.copytree(part, folder / "crates" / name / part.name)
            elif part.is_file():
                (folder / "crates" / name).mkdir(parents=True, exist_ok=True)
                shutil.copy(part, folder / "crates" / name)
    lines = (root / "crates.txt").read_text().splitlines(keepends=True)
    (folder / "crates.txt").write_text("".join(it for it in lines if (it.partition(":")[0].split() or [""])[0] in names))
    shutil.copy(root / "HANDLES", folder)
