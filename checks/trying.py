"""Tries edits that change the body of one function each: checks that function with the edit, over the proved libraries below its crate and
what a check of the crate's functions without edits proved."""
import os
import re
import shutil
import subprocess
import tempfile
from concurrent.futures import ThreadPoolExecutor, as_completed
from pathlib import Path

from crates import ROOT, closure, copy_to, rlib
from edit_files import applied
from progress import run
from proving import processors
from rattle import rattle

# The most bytes that a check of one function takes.
MEMORY = 1_500_000_000
PARTS = ("src", "specs", "proofs")
REFUSED = "refused"
# What the prover says where a proof file names what an edit took away, or where it can't read a text.
LACKS = r"has no field|is not in scope|has no `|was not admitted|is no name"


def most_at_once():
    """How many checks run at once: RT_JOBS, as for `rt ci`, or one for each processor, or fewer if memory doesn't allow for that."""
    given = os.environ.get("RT_JOBS", "")
    if given.isdigit():
        return max(1, int(given))
    return processors(MEMORY)


def are_proved(crates):
    """Whether `rt ci` or `rt check` proved these libraries here since their sources changed."""
    folders = [ROOT / "crates" / it / part for it in crates for part in PARTS]
    changed = max(it.stat().st_mtime for it in [ROOT / "crates.txt", *(file for folder in folders for file in folder.rglob("*"))])
    return all(rlib(ROOT, it).exists() and rlib(ROOT, it).stat().st_mtime > changed for it in crates)


def proved_libraries(crates, folder):
    """The folder where `rt ci` proved the libraries below these crates: the repository, or else `folder`."""
    below = sorted({it for crate in crates for it in closure([crate]) if it != crate})
    if are_proved(below):
        return ROOT
    copy_to(folder, below, (*PARTS, "data"))
    run(["rt", "ci"], folder)
    return folder


def check(crate, folder, libraries, functions, kept, jobs):
    """Checks functions of a crate whose sources lie in a folder, and those that they call, and returns the status and the lines printed.
    Takes from `kept` what earlier checks proved, and adds to it."""
    more = [word for it in functions for word in ("--only", it)]
    how = {"stdin": subprocess.DEVNULL, "stdout": subprocess.PIPE, "stderr": subprocess.STDOUT, "text": True, "errors": "replace"}
    words = rattle("check", crate, libraries, "src/lib.rt", *more, "--jobs", jobs, "--incremental", kept)
    ran = subprocess.run(words, cwd=folder, **how)
    return ran.returncode, ran.stdout.splitlines()


def control(crate, libraries, functions, kept, jobs):
    """The functions that are proved without edits. Those that `rattle` doesn't know by their name are left out."""
    left = sorted(functions)
    while left:
        _, said = check(crate, ROOT / "crates" / crate, libraries, left, kept, jobs)
        unknown = [it for it in left if any(line.startswith("rattle: error: ") and f"`{it}`" in line for line in said)]
        if not unknown:
            break
        left = [it for it in left if it not in unknown]
    proved = [line.removesuffix(": proved") for line in said if line.startswith("fn ") and line.endswith(": proved")] if left else []
    return {it for it in left if any(line.endswith(f"::{it}") for line in proved)}


def copy_kept(one, other):
    """Copies a file of what is proved, by a link if it is a proof: a check replaces such a file, and changes none."""
    return os.link(one, other) if one.endswith(".oantt") else shutil.copy2(one, other)


def outcome(status, said):
    """What a check of an edited function shows, or None if it isn't refused."""
    if status != 1:
        return None
    if not said[-1].startswith("only="):
        return f"BAD EDIT: it can't be compiled: {next((it for it in said if 'error' in it), said[0])}"
    told = [it for it in said if re.match(r"(note: )?\S+:\d+:\d+: ", it)]
    unread = [it for it in told if re.match(r"(\./)?(src|specs)/\S+ error: ", it) and re.search(LACKS, it)]
    if unread or told and all(re.search(LACKS, it) for it in told):
        return f"BAD EDIT: a name is gone: {(unread or told)[0]}"
    return REFUSED


def try_one(edit, function, libraries, kept):
    """What the try of an edit of a function shows, or None if the function isn't refused."""
    crate = edit.parent.name
    with tempfile.TemporaryDirectory() as name:
        folder = Path(name)
        for part in PARTS:
            if (ROOT / "crates" / crate / part).is_dir():
                shutil.copytree(ROOT / "crates" / crate / part, folder / part)
        for file, text in applied(edit, folder)[0].items():
            (folder / file).write_text(text)
        shutil.copytree(kept, folder / "kept", copy_function=copy_kept)
        return outcome(*check(crate, folder, libraries, [function], folder / "kept", 1))


def tried(functions, scratch):
    """Tries edits, given with the function that each changes, and yields each with what its try shows. Leaves out an edit if its function
    isn't proved without it, or isn't refused with it."""
    own = {}
    for edit, function in functions.items():
        own.setdefault(edit.parent.name, {})[edit] = function
    libraries, most = proved_libraries(own, scratch / "below"), most_at_once()
    with ThreadPoolExecutor(most) as pool:
        jobs = max(1, most // max(1, len(own)))
        controls = {pool.submit(control, crate, libraries, {*found.values()}, scratch / crate, jobs): crate for crate, found in own.items()}
        tries = {}
        for it in as_completed(controls):
            crate = controls[it]
            for edit, function in own[crate].items():
                if function in it.result():
                    tries[pool.submit(try_one, edit, function, libraries, scratch / crate)] = edit
        for it in as_completed(tries):
            if it.result():
                yield tries[it], it.result()
