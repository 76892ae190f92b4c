"""Proves crates from nothing, side by side. One `rt ci` over all of them often gives a crate of the longest chain one processor while others
are idle. Here each crate gets an `rt ci` of its own, which takes the crates below it from what earlier ones kept on the machine. The
edits that must be refused run on processors that the proofs leave idle."""
import os
import shutil
import subprocess
import sys
from concurrent.futures import FIRST_COMPLETED, ThreadPoolExecutor, wait
from pathlib import Path

from crates import ROOT, closure, copy_to, rlib
from progress import run

# The most bytes that a proof takes for each processor that it runs on.
MEMORY = 3_000_000_000
# What it takes to load the crates below one, in lines of code.
LOADING = 500


def processors(memory=MEMORY):
    """How many processors there are, or fewer if there isn't this memory for each of them."""
    whole = os.sysconf("SC_PAGE_SIZE") * os.sysconf("SC_PHYS_PAGES")
    return max(1, min(len(os.sched_getaffinity(0)), whole // memory))


def lay_out(folder, crates):
    """Formats the copied sources, because `rt ci` refuses others."""
    with ThreadPoolExecutor() as pool:
        for ran in pool.map(lambda name: subprocess.run(["rt", "fmt"], cwd=folder / "crates" / name, capture_output=True, text=True), crates):
            if ran.returncode:
                print(ran.stdout + ran.stderr, file=sys.stderr)
                sys.exit(1)


def lines(name):
    """How long the proof of a crate takes, in lines of code."""
    return LOADING + sum(it.read_bytes().count(b"\n") for it in (ROOT / "crates" / name / "src").rglob("*.rt"))


def chains(crates):
    """For each crate, the lines of the longest chain of crates that begins with it and ends at the top."""
    chain = dict.fromkeys(crates, 0)
    for name in reversed(crates):
        chain[name] += lines(name)
        for it in crates[name]:
            chain[it] = max(chain[it], chain[name])
    return chain


class NothingKept(Exception):
    """An `rt ci` proved a crate again that an earlier one had proved."""


class Proving:
    """The proofs of some crates, lowest first, each with those that it names, whose sources lie in a folder. The edits of some crates are
    tried once these are proved."""

    def __init__(self, folder, crates, progress, edited=()):
        self.folder, self.crates, self.progress = folder, [*crates], progress
        self.below, self.chain = crates, chains(crates)
        self.left, self.edited = sorted(crates, key=lambda it: -self.chain[it]), [*edited]
        self.proved, self.running, self.free = set(), {}, processors()
        # How many processors an `rt ci` gives to a crate that is proved alone.
        self.most = max(1, min(4, self.free // 2))

    def copy(self, kind, name):
        """Copies a crate and those below it to a folder of their own."""
        folder = self.folder / kind / name
        copy_to(folder, closure([name]), ("src", "specs", "proofs", "data"), self.folder / "sources")
        return folder

    def prove(self, name, share):
        """Proves one crate over those below it on its share of the processors, and moves its library to the folder of all libraries."""
        folder, proved = self.copy("proofs", name), []

        def take(line):
            words = line.split()
            if words[:1] == ["rt:"] and words[2:] == ["proved"]:
                proved.append(words[1])
            self.progress.read(line)

        run(["rt", "ci"], folder, take, {**os.environ, "RT_JOBS": "1"} if share == 1 else None)
        if any(it != name for it in proved):
            raise NothingKept(name)
        made, to = rlib(folder, name), rlib(self.folder / "libraries", name)
        if made.exists():
            to.parent.mkdir(parents=True)
            shutil.move(made, to)
        shutil.rmtree(folder)

    def refuse(self, name):
        """Tries the edits of one crate. What was refused is kept for the whole gate, which reports it."""
        folder = self.copy("edits", name)
        shutil.copytree(ROOT / "crates" / name / "must-fail", folder / "crates" / name / "must-fail")
        subprocess.run(["nice", "-n", "19", "rt", "ci"], cwd=folder, capture_output=True, env={**os.environ, "RT_JOBS": "1"})
        shutil.rmtree(folder)

    def begin_proofs(self, pool):
        """Begins the proofs for which a processor is free, those of the longest chains first. A crate gets more than one processor if it
        begins the longest chain that is left, or if no other crate needs them."""
        longest = max((self.chain[it] for it in self.crates if it not in self.proved), default=0)
        ready = [it for it in self.left if self.proved.issuperset(self.below[it])]
        for others, name in zip(reversed(range(len(ready))), ready):
            if not self.free:
                break
            has_most = self.free >= self.most and (self.chain[name] == longest or self.free >= others + self.most)
            share = self.most if has_most else 1
            self.left.remove(name)
            self.free -= share
            self.running[pool.submit(self.prove, name, share)] = name, share

    def begin_edits(self, pool):
        """Begins edits where a processor is free. Proofs go first."""
        trying = sum(not share for _, share in self.running.values())
        for name in [it for it in self.edited if it in self.proved][: max(0, self.free - trying)]:
            self.edited.remove(name)
            self.running[pool.submit(self.refuse, name)] = name, 0

    def all(self):
        """Proves all crates, and returns the folder with their libraries."""
        with ThreadPoolExecutor(len(self.crates)) as pool:
            while self.left or self.edited or self.running:
                self.begin_proofs(pool)
                self.begin_edits(pool)
                for ended in wait(self.running, return_when=FIRST_COMPLETED).done:
                    name, share = self.running.pop(ended)
                    ended.result()
                    self.free += share
                    if share:
                        self.proved.add(name)
        return self.folder / "libraries"


def prove_side_by_side(folder, crates, progress, edited=()):
    """Proves these crates, lowest first, in a folder, tries the edits of some, and returns a folder with their libraries. Raises
    `NothingKept` early if `rt ci` keeps nothing."""
    sources = Path(folder) / "sources"
    copy_to(sources, crates, ("src", "specs", "proofs", "data"))
    lay_out(sources, crates)
    return Proving(Path(folder), crates, progress, edited).all()


def prove(folder, crates, progress):
    """Proves these crates, lowest first, in a folder, and returns a folder with their libraries. If `rt ci` keeps nothing, one run proves
    them all."""
    try:
        return prove_side_by_side(folder, crates, progress)
    except NothingKept:
        run(["rt", "ci"], Path(folder) / "sources", progress.read)
        return Path(folder) / "sources"
