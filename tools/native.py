"""Compiles and links what is proved for a processor, by the kit's clang and linker alone: the archive and the shared object of the library, and
the program. The same bytes come out on each machine. They need a C library, but no glibc newer than 2.17."""
import re
import subprocess
import tempfile
from pathlib import Path

from crates import ROOT, closure, kit, rlib
from rattle import compile_over

NAME, CRATE = "vezhnake", "vezhnake_c"
HERE = ROOT / "tools" / "native"
MEMORY = ("malloc", "realloc", "free", "memcpy", "memmove", "memset", "memcmp")
SYSTEM = (
    "__errno_location", "__libc_start_main", "__sysv_signal", "__write", "close", "fchmod", "fdatasync", "flock", "fsync", "ftruncate", "isatty",
    "lseek", "open", "pread", "pwrite", "read", "signal", "strlen", "syscall", "unlink", "write", "fcntl", "abort", "memchr",
)
# Functions of the C library, by the version of glibc that first had them, on x86-64 and on other processors.
VERSIONS = {"GLIBC_2.2.5": (*MEMORY, *SYSTEM), "GLIBC_2.3.4": ("__xpg_strerror_r",)}
SINCE = {"x86_64": VERSIONS, "aarch64": {"GLIBC_2.17": tuple(it for names in VERSIONS.values() for it in names)}}
LOADERS = {"x86_64": "/lib64/ld-linux-x86-64.so.2", "aarch64": "/lib/ld-linux-aarch64.so.1"}
PROCESSORS = tuple(LOADERS)


def target(processor):
    return f"{processor}-unknown-linux-gnu"


def tool(name, *words, folder=None):
    """Runs a program of the kit's toolchain."""
    subprocess.run([str(it) for it in (kit() / "toolchain" / "bin" / name, *words)], cwd=folder, check=True, stdin=subprocess.DEVNULL)


def of_c(processor, source, made, *flags):
    """Compiles a file of tools/native."""
    words = ["-O2", "-fPIC", "-ffreestanding", "-fno-ident", "-fno-stack-protector", "-Wall", "-Wextra", "-Werror"]
    tool("clang", f"--target={target(processor)}", *words, *flags, "-c", HERE / source, "-o", made)
    return made


def stub(processor, folder):
    """A shared object with the names and versions of C functions and no code, to link against."""
    source, versions, made = folder / "libc.c", folder / "versions", folder / "libc.so.6"
    since = SINCE[processor]
    source.write_text("".join(f"void {it}(void) {{}}\n" for names in since.values() for it in names))
    versions.write_text("".join(f"{version} {{ global: {'; '.join(names)}; }};\n" for version, names in since.items()))
    tool("clang", f"--target={target(processor)}", "-fPIC", "-ffreestanding", "-fno-builtin", "-w", "-c", source, "-o", folder / "libc.o")
    tool("ld.lld", "-shared", f"-soname={made.name}", f"--version-script={versions}", "-o", made, folder / "libc.o")
    return made


def functions_of_kit(processor, folder, has_arguments):
    """The objects with the kit's C functions: the kit's own for x86-64, or else those of tools/native."""
    if processor != "x86_64":
        files = ["kit.c", "arguments.c"] if has_arguments else ["kit.c"]
        return [of_c(processor, it, folder / f"{Path(it).stem}.pic.o") for it in files]
    for name in ["liblibc_c.a", "libos_c.a"] if has_arguments else ["liblibc_c.a"]:
        tool("llvm-ar", "x", kit() / "c" / name, folder=folder)
    # The other files of libos_c.a call functions that older C libraries lack.
    names = ["heap.pic.o", "args.pic.o", "errno.pic.o"] if has_arguments else ["heap.pic.o"]
    return [folder / it for it in names]


def compiled(processor, folder, crate, source, made, *more):
    """Proves a crate over the libraries of a folder, and compiles it. What it checked is kept for the next processor."""
    kept = ROOT / "out" / "shipped" / crate
    kept.mkdir(parents=True, exist_ok=True)
    compile_over(folder, crate, source, made, "--incremental", kept, "--target", target(processor), *more)
    return made


def version_of_header():
    return re.search(r'VEZHNAKE_VERSION "(.*)"', (ROOT / "include" / f"{NAME}.h").read_text())[1]


def add_functions(processor, archive):
    """Adds the kit's C functions, and the version, to the archive of the library."""
    with tempfile.TemporaryDirectory() as name:
        folder = Path(name)
        version = of_c(processor, "version.c", folder / "version.pic.o", f'-DVERSION="{version_of_header()}"')
        tool("llvm-ar", "rcsD", archive, *functions_of_kit(processor, folder, False), version)


def link_shared(processor, archive, made):
    """Links the shared object, which exports the functions of the library alone."""
    with tempfile.TemporaryDirectory() as name:
        folder = Path(name)
        exports = folder / "exports"
        exports.write_text(f"{{ global: {NAME}_*; local: *; }};\n")
        words = ["-shared", "-z", "defs", "-z", "relro", "-z", "now", "--hash-style=both", "--build-id=none", "--gc-sections", "--strip-all"]
        words += [f"-soname=lib{NAME}.so.1", f"--version-script={exports}", "--whole-archive", archive, "--no-whole-archive"]
        tool("ld.lld", *words, stub(processor, folder), "-o", made)


def link_program(processor, compiled, made):
    """Links the program, which begins in tools/native/start.c."""
    with tempfile.TemporaryDirectory() as name:
        folder = Path(name)
        objects = [of_c(processor, "start.c", folder / "start.o"), compiled, *functions_of_kit(processor, folder, True)]
        words = ["-pie", f"--dynamic-linker={LOADERS[processor]}", "-z", "defs", "-z", "relro", "-z", "now", "--hash-style=both", "--build-id=none"]
        tool("ld.lld", *words, "--eh-frame-hdr", "--gc-sections", "--strip-all", *objects, stub(processor, folder), "-o", made)


def library(processor, libraries, archive, shared):
    """Makes the archive and the shared object of the library over the libraries that a folder has."""
    compiled(processor, libraries, CRATE, "src/lib.rt", archive, "--links", f"{CRATE}=", "--crate-type", "staticlib")
    add_functions(processor, archive)
    link_shared(processor, archive, shared)


def program(processor, libraries, made):
    """Makes the program over the libraries that a folder has."""
    with tempfile.TemporaryDirectory() as name:
        link_program(processor, compiled(processor, libraries, "runner", "src/main.rt", Path(name) / "runner.o"), made)


def are_proved(crates, since=0):
    """Whether the repository has the proved libraries of these crates, and all are newer."""
    return all(rlib(ROOT, it).exists() and rlib(ROOT, it).stat().st_mtime > since for it in crates)


def below(crate):
    """The crates below one, lowest first, each with those that it names."""
    return {it: named for it, named in closure([crate]).items() if it != crate}
