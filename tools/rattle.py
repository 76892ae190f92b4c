"""Calls of the kit's `rattle` over the libraries that `rt ci` made of the crates below."""
import os

from crates import ROOT, closure, kit, named, rlib
from progress import run


def rattle(command, crate, folder, source, *more):
    """The words that call `rattle` for a crate with this root file. The folder has the libraries below it."""
    where = kit()
    below = [it for it in closure([crate]) if it != crate]
    libraries = {it: rlib(folder, it) if it in below else where / "rlibs" / f"{it}.rlib" for it in ["std", *named()[crate]]}
    words = [where / "bin" / "rattle", command, "--crate-name", crate, source]
    words += [word for it, library in libraries.items() for word in ("--extern", f"{it}={library}")]
    words += [word for it in [where / "rlibs", *(rlib(folder, it).parent for it in below)] for word in ("-L", f"dependency={it}")]
    words += ["--antt-project", where / "rattle" / "logic" / "antt-project.json", "--logic-built", where / "logic_built"]
    return [str(it) for it in [*words, *more]]


def compile_over(folder, crate, source, made, *more):
    """Proves a crate over the libraries that a folder has, and compiles it into a file."""
    more = "--jobs", len(os.sched_getaffinity(0)), "--toolchain", kit() / "toolchain", "-o", made, *more
    run(rattle("build", crate, folder, source, *more), ROOT / "crates" / crate)


def link_program(made, program):
    """Links a compiled program with the kit's C functions."""
    where = kit()
    words = [where / "bin" / "rattle-link", "--target", "x86_64-unknown-linux-gnu", "--toolchain", where / "toolchain", "-o", program, made]
    run([str(it) for it in [*words, where / "c" / "libos_c.a", where / "c" / "liblibc_c.a"]], made.parent)
