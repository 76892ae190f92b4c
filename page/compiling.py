"""Compiles a proved crate to WebAssembly. `rattle` proves the crate and makes its LLVM module for 64-bit ARM, which has the sizes and
alignments of 64-bit WebAssembly. The module gets the triple of the latter, and is compiled and linked with a heap."""
import os
import re
import shutil
import subprocess
import sys
from pathlib import Path

from lowering import lowered

HERE = Path(__file__).resolve().parent
sys.path.insert(0, str(HERE.parent / "tools"))
from crates import ROOT, kit  # noqa: E402
from progress import run  # noqa: E402
from rattle import rattle  # noqa: E402

MADE_FOR, TRIPLE = "aarch64-unknown-linux-gnu", "wasm64-unknown-unknown"
# Flags by which `rattle` avoids what clang is known to compile wrongly.
SAFE = """-mllvm -no-trap-after-noreturn -mllvm -trap-unreachable -mllvm -disable-machine-licm -mllvm -disable-postra-machine-licm
    -mllvm -sink-common-insts=false""".split()
# The one operation of a processor in these modules: sums of neighbours, over two vectors.
OPERATION = "@llvm.aarch64.neon.addp.v16i8"
EVEN, ODD = (", ".join(f"i32 {it}" for it in range(first, 32, 2)) for first in (0, 1))
SAME_OPERATION = f"""
define internal <16 x i8> @rattle_addp(<16 x i8> %a, <16 x i8> %b) {{
  %e = shufflevector <16 x i8> %a, <16 x i8> %b, <16 x i32> <{EVEN}>
  %o = shufflevector <16 x i8> %a, <16 x i8> %b, <16 x i32> <{ODD}>
  %r = add <16 x i8> %e, %o
  ret <16 x i8> %r
}}
"""
# In place of the toolchain's clang: keeps the module, and stops there.
KEEPER = """#!/bin/sh
cp module.bc "{kept}"
exit 1
"""


def clang():
    return kit() / "toolchain" / "bin" / "clang"


def keeper(folder, kept):
    """A toolchain that keeps the module in a file."""
    made = folder / "toolchain"
    shutil.rmtree(made, ignore_errors=True)
    (made / "bin").mkdir(parents=True)
    whole = kit() / "toolchain"
    for it in [*whole.iterdir(), *(whole / "bin").iterdir()]:
        if it.name not in ("bin", "clang"):
            (made / it.relative_to(whole)).symlink_to(it)
    (made / "bin" / "clang").write_text(KEEPER.format(kept=kept))
    (made / "bin" / "clang").chmod(0o755)
    return made


def module_of(libraries, crate, source, folder, *more):
    """Proves a crate over the libraries that a folder has, and returns its LLVM module as text."""
    kept = folder / f"{crate}.bc"
    how = "--target", MADE_FOR, "--toolchain", keeper(folder, kept), "--jobs", len(os.sched_getaffinity(0)), "-o", folder / "none"
    words = rattle("build", crate, libraries, source, *how, *more)
    said = subprocess.run(words, cwd=ROOT / "crates" / crate, stdin=subprocess.DEVNULL, stdout=subprocess.PIPE, stderr=subprocess.STDOUT, text=True)
    if not kept.exists():
        sys.exit(said.stdout)
    text = folder / f"{crate}.ll"
    # The module has the version of the kit's clang, whose warning that the triple differs says nothing new.
    run([clang(), "-w", "-x", "ir", kept, "-S", "-emit-llvm", "-Xclang", "-disable-llvm-passes", "-o", text], folder)
    return text.read_text()


def layout(folder):
    """The data layout of the target, as clang has it."""
    (folder / "none.c").write_text("int none;\n")
    run([clang(), f"--target={TRIPLE}", "-S", "-emit-llvm", "none.c", "-o", "none.ll"], folder)
    return re.search(r"^target datalayout.*$", (folder / "none.ll").read_text(), re.M)[0]


def retargeted(module, layout):
    """The same module for another target. Refuses a module with other operations of a processor than the known one."""
    module = re.sub(r"^target datalayout.*$", lambda _: layout, module, flags=re.M)
    module = re.sub(r"^target triple.*$", f'target triple = "{TRIPLE}"', module, flags=re.M)
    module = re.sub(r'"(?:target-(?:cpu|features)|tune-cpu)"="[^"]*"', "", module)
    if OPERATION in module:
        module = re.sub(rf"^declare .*{re.escape(OPERATION)}.*$", "", module, flags=re.M)
        module = module.replace(OPERATION, "@rattle_addp") + SAME_OPERATION
    others = sorted(set(re.findall(r'@llvm\.(?:aarch64|x86)[\w.]*|\basm (?:\w+ )*"[^"]+"', module)))
    if others:
        sys.exit(f"page: the module has operations of a processor: {', '.join(others)}")
    return module


def compiled(libraries, crate, source, folder, *more):
    """The object of a crate for 64-bit WebAssembly."""
    module, made = folder / f"{crate}.wasm64.ll", folder / f"{crate}.o"
    module.write_text(retargeted(module_of(libraries, crate, source, folder, *more), layout(folder)))
    run([clang(), f"--target={TRIPLE}", "-O3", *SAFE, "-x", "ir", "-c", module, "-o", made], folder)
    return made


def linked(made, folder, exports, parts, more=()):
    """The WebAssembly module, with 32-bit addresses, of an object and these C files. `more` has more words for the linker."""
    objects = [made]
    for part in parts:
        objects.append(folder / f"{part}.o")
        flags = "-O2 -Wall -Wextra -Werror -fno-builtin -ffreestanding -nostdinc -mbulk-memory".split()
        run([clang(), f"--target={TRIPLE}", *flags, "-c", HERE / part, "-o", objects[-1]], folder)
    linker = folder / "wasm-ld"
    if not linker.exists():
        linker.symlink_to(clang())
    words = "-mwasm64 --no-entry -z stack-size=1048576 --stack-first --gc-sections --strip-all".split()
    run([linker, *words, *more, *(f"--export={it}" for it in exports), *objects, "-o", folder / "linked.wasm"], folder)
    return lowered((folder / "linked.wasm").read_bytes())
