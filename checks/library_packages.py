"""What checks/library tries of the packages: for Python, C, C++ and Rust, each made of dist/ by one command, without `rt`."""
import os
import platform
import re
import shutil
import subprocess
import sys
from pathlib import Path

from cases import need
from common import EXAMPLES, ROOT
from library_python import try_post_office

sys.path.append(str(ROOT / "tools"))
import shipped  # noqa: E402

EMBED = EXAMPLES / "embed"
# A program that saves. It prints the generation, and the word that it found.
SAVES = """
import sys, vezhnake
with vezhnake.open(sys.argv[1]) as machine:
    word = machine.page(16)[3]
    machine.call(1, 6, 2, 3, word + 99)
    print(machine.save(), word)
"""
# The newest glibc that the files of dist/ may need.
GLIBC = (2, 17)


def bare():
    """An environment in which `rt` isn't on the path, and no library is named."""
    folders = [it for it in os.environ["PATH"].split(":") if not (Path(it) / "rt").exists()]
    kept = {it: value for it, value in os.environ.items() if not it.startswith(("VEZHNAKE", "PYTHONPATH", "EROS"))}
    return {**kept, "PATH": ":".join(folders)}


def done(*words, **how):
    """What a command prints. It must succeed."""
    ran = subprocess.run(
        [str(it) for it in words], stdin=subprocess.DEVNULL, stdout=subprocess.PIPE, stderr=subprocess.PIPE, text=True, timeout=900,
        **{"env": bare(), **how},
    )
    need(ran.returncode == 0, f"{' '.join(map(str, words))[:200]}: {(ran.stdout + ran.stderr)[-2000:]}")
    return ran.stdout


def skipped(what, why):
    print(f"skipped: {what}, because {why}")


def try_pip(folder, image):
    """`pip install ./python` in an empty environment, offline. A program saves at each of two runs. Two wheels are the same."""
    made = subprocess.run([sys.executable, "-m", "venv", folder / "venv"], capture_output=True)
    if made.returncode:
        return skipped("pip", "this Python makes no environments")
    programs = folder / "venv" / "bin"
    done(programs / "pip", "install", "--no-index", "--disable-pip-version-check", ROOT / "python", cwd=folder)
    copy = shutil.copy(image, folder / "pip.image")
    found = [done(programs / "python", "-c", SAVES, copy, cwd=folder) for _ in range(2)]
    need(found == ["1 0\n", "2 99\n"], f"two runs of a program print {found}")
    eros = done(programs / "eros", "--version").splitlines()[0]
    version = done(programs / "python", "-c", "import vezhnake; print(vezhnake.__version__)", cwd=folder)
    need(eros == f"eros {version.strip()}", f"the module has the version {version}, and the program {eros}")
    need(list(folder.glob("venv/lib/python*/site-packages/vezhnake/py.typed")), "the module is installed without its types")
    wheels = []
    for number in range(2):
        to = folder / f"wheel{number}"
        done(programs / "pip", "wheel", "--no-index", "--disable-pip-version-check", "--wheel-dir", to, ROOT / "python", cwd=folder)
        wheels.append([it.read_bytes() for it in to.glob("*.whl")])
    need(wheels[0] == wheels[1] and len(wheels[0]) == 1, "two wheels differ")
    print(f"pip installs {version.strip()} offline, a program saves twice, and two wheels are the same")


def counts(counter, image, library=""):
    """Counts twice from the start of an image."""
    where = {**bare(), "LD_LIBRARY_PATH": str(library)}
    found = [done(counter, image, "2", env=where) for _ in range(2)]
    need(found == ["1\n2\n", "3\n4\n"], f"{counter.name} prints {found}")


def try_c(folder, image):
    """`tools/install`, then programs in C and C++ by pkg-config, and by CMake."""
    prefix = folder / "prefix"
    done(ROOT / "tools" / "install", prefix)
    if shutil.which("pkg-config") is None:
        return skipped("pkg-config", "it is not here")
    words = {**bare(), "PKG_CONFIG_PATH": f"{prefix}/lib/pkgconfig"}
    flags = done("pkg-config", "--cflags", "--libs", "vezhnake >= 1.0", env=words).split()
    for compiler, source in (("cc", "counter.c"), ("c++", "counter.cpp")):
        if shutil.which(compiler) is None:
            skipped(compiler, "it is not here")
            continue
        made = folder / f"{compiler}-counter"
        done(compiler, EMBED / source, *flags, "-o", made)
        counts(made, shutil.copy(image, folder / "c.image"), prefix / "lib")
        static = [f"{prefix}/lib/libvezhnake.a" if it == "-lvezhnake" else it for it in flags]
        done(compiler, EMBED / source, *static, "-o", made)
        counts(made, shutil.copy(image, folder / "c.image"))
    version = re.search(r'VEZHNAKE_VERSION "(.*)"', (prefix / "include" / "vezhnake.h").read_text())[1]
    need(done("pkg-config", "--modversion", "vezhnake", env=words).strip() == version, "pkg-config has another version than the header")
    need(done(prefix / "bin" / "eros", "--version").startswith(f"eros {version}\n"), "the program has another version than the header")
    print("programs in C and C++ are made by pkg-config, and count on")
    if shutil.which("cmake") is None:
        return skipped("CMake", "it is not here")
    project = folder / "cmake"
    project.mkdir()
    (project / "CMakeLists.txt").write_text(
        "cmake_minimum_required(VERSION 3.13)\nproject(counter C CXX)\nset(CMAKE_CXX_STANDARD 17)\nfind_package(vezhnake 1.0 REQUIRED)\n"
        + "".join(f"add_executable({it}-counter {EMBED}/counter.cpp)\ntarget_link_libraries({it}-counter vezhnake::{it})\n" for it in ("vezhnake", "static"))
    )
    done("cmake", "-S", project, "-B", project / "made", f"-DCMAKE_PREFIX_PATH={prefix}")
    done("cmake", "--build", project / "made")
    for it in ("vezhnake", "static"):
        counts(project / "made" / f"{it}-counter", shutil.copy(image, folder / "c.image"))
    print("CMake finds the library, shared and static")


def try_cargo(folder, image, eros, chance):
    """`cargo test` in bindings/rust, and kills of its post office. Its example image is the one that the program builds."""
    if shutil.which("cargo") is None:
        return skipped("cargo", "it is not here")
    crate, where = ROOT / "bindings" / "rust", {**bare(), "CARGO_TARGET_DIR": str(folder / "cargo")}
    said = done("cargo", "test", "--offline", "--locked", cwd=crate, env=where)
    passed = sum(int(it) for it in re.findall(r"test result: ok\. (\d+) passed", said))
    need(passed >= 10, f"cargo runs only {passed} tests")
    sectors, data = image.read_bytes(), (crate / "src" / "example.sectors").read_bytes()
    zeros = bytearray(len(sectors))
    for place in range(0, len(data), 516):
        number = int.from_bytes(data[place : place + 4], "little") * 512
        zeros[number : number + 512] = data[place + 4 : place + 516]
    need(bytes(zeros) == sectors, "the example image of the crate is another one than the program builds")
    print(f"cargo test: {passed} passed")
    done("cargo", "build", "--offline", "--locked", "--release", "--example", "post_office", cwd=crate, env=where)
    try_post_office(eros, folder, chance, [folder / "cargo" / "release" / "examples" / "post_office"])


def try_glibc():
    """The files of dist/ need no newer C library."""
    names = [it.removeprefix("file ") for it in shipped.manifest() if it.startswith("file ")]
    for name in names:
        data = shipped.unpacked(name)
        need(data is not None, f"{name} of dist/ is missing or damaged")
        versions = [(int(one), int(other)) for one, other in re.findall(rb"GLIBC_(\d+)\.(\d+)", data)]
        need(max(versions, default=GLIBC) <= GLIBC, f"{name} needs glibc {max(versions, default=GLIBC)}")
    need(f"libvezhnake-{platform.machine()}.so" in names, "dist/ has no library for this processor")
    print(f"{len(names)} files of dist/ need no glibc newer than 2.17")


def try_other_processor(folder):
    """Rows by the program for aarch64, under qemu."""
    data, root = shipped.unpacked("eros-aarch64"), Path("/usr/aarch64-linux-gnu")
    if data is None or shutil.which("qemu-aarch64") is None or not (root / "lib" / "libc.so.6").exists():
        return skipped("aarch64", "dist/ has no program for it" if data is None else "qemu-user or libc6-arm64-cross is not here")
    (folder / "eros-aarch64").write_bytes(data)
    (folder / "eros-aarch64").chmod(0o755)
    emulated = folder / "emulated"
    emulated.write_text(f'#!/bin/sh\nexec qemu-aarch64 -L {root} "{folder}/eros-aarch64" "$@"\n')
    emulated.chmod(0o755)
    for word in ("pages", "banks", "refusals"):
        said = done(ROOT / "checks" / "try-rows", word, env={**os.environ, "EROS": str(emulated)})
    print(f"the program for aarch64, under qemu: {said.splitlines()[-1]}")
    return None


def try_packages(folder, image, eros, chance):
    """Makes all packages, and tries them."""
    try_glibc()
    try_pip(folder, image)
    try_c(folder, image)
    try_cargo(folder, image, eros, chance)
    try_other_processor(folder)
