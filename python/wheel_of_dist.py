"""Makes the wheel: the module, and the library and the program of dist/ for this processor. A build backend (PEP 517) of the standard library
alone, so `pip install ./python` needs no network and no compiler. The same bytes come out each time. VEZHNAKE_DIST names another folder
in place of dist/."""
import base64
import hashlib
import lzma
import os
import platform
import re
import sys
import zipfile
from pathlib import Path

HERE = Path(__file__).resolve().parent
# The parts of dist/ by processor. They need the functions of glibc 2.17.
PARTS = {
    "x86_64": ("libvezhnake-x86_64.so", "eros", "manylinux_2_17_x86_64.manylinux2014_x86_64"),
    "aarch64": ("libvezhnake-aarch64.so", "eros-aarch64", "manylinux_2_17_aarch64.manylinux2014_aarch64"),
}


def said(key):
    """A text or a list of pyproject.toml. The module that reads all of TOML is newer than Python 3.9."""
    line = re.search(rf"^{key} = (.*)$", (HERE / "pyproject.toml").read_text(), re.MULTILINE)[1]
    return re.findall(r'"([^"]*)"', line)


def metadata():
    (name,), (version,), (summary,), (python,), (licence,) = map(said, ("name", "version", "description", "requires-python", "license"))
    lines = ["Metadata-Version: 2.4", f"Name: {name}", f"Version: {version}", f"Summary: {summary}", f"Requires-Python: {python}"]
    lines += [f"License-Expression: {licence}", *[f"Classifier: {it}" for it in said("classifiers")]]
    return "\n".join([*lines, "Description-Content-Type: text/markdown", "", (HERE / "README.md").read_text()])


def part(name):
    """A file of dist/, unpacked and compared with the manifest."""
    folder = Path(os.environ.get("VEZHNAKE_DIST", HERE.parent / "dist"))
    data = lzma.decompress((folder / f"{name}.xz").read_bytes())
    if f"file {name} {hashlib.sha256(data).hexdigest()}" not in (folder / "manifest").read_text().splitlines():
        raise SystemExit(f"vezhnake: dist/{name}.xz is damaged")
    return data


def contents():
    """The paths in the wheel, what is there, and the tag."""
    processor = platform.machine()
    if sys.platform != "linux" or processor not in PARTS:
        raise SystemExit(f"vezhnake: dist/ has no library for {platform.system()} on {processor}")
    (name,), (version,) = said("name"), said("version")
    library, program, platforms = PARTS[processor]
    info = f"{name}-{version}.dist-info"
    files = {f"{name}/{it.name}": it.read_bytes() for it in sorted((HERE / name).iterdir()) if it.suffix == ".py" or it.name == "py.typed"}
    files[f"{name}/libvezhnake.so"] = part(library)
    files[f"{name}-{version}.data/scripts/eros"] = part(program)
    licences = [it for it in sorted(HERE.parent.glob("LICENSE-*")) if it.is_file()]
    files.update({f"{info}/licenses/{it.name}": it.read_bytes() for it in licences})
    files[f"{info}/METADATA"] = metadata().encode()
    tags = "".join(f"Tag: py3-none-{it}\n" for it in platforms.split("."))
    files[f"{info}/WHEEL"] = f"Wheel-Version: 1.0\nGenerator: wheel_of_dist\nRoot-Is-Purelib: false\n{tags}".encode()
    return files, f"{info}/RECORD", f"{name}-{version}-py3-none-{platforms}.whl"


def build_wheel(wheel_directory, config_settings=None, metadata_directory=None):
    """Writes the wheel into a folder, and returns its name."""
    files, record, wheel = contents()
    rows = [(it, base64.urlsafe_b64encode(hashlib.sha256(data).digest()).rstrip(b"=").decode(), len(data)) for it, data in files.items()]
    files[record] = "".join([*(f"{it},sha256={digest},{size}\n" for it, digest, size in rows), f"{record},,\n"]).encode()
    with zipfile.ZipFile(Path(wheel_directory) / wheel, "w", zipfile.ZIP_DEFLATED, compresslevel=9) as into:
        for path, data in files.items():
            entry = zipfile.ZipInfo(path, (1980, 1, 1, 0, 0, 0))
            entry.compress_type = zipfile.ZIP_DEFLATED
            entry.external_attr = (0o100755 if path.endswith(("/eros", ".so")) else 0o100644) << 16
            into.writestr(entry, data)
    return wheel


def build_sdist(sdist_directory, config_settings=None):
    raise SystemExit("vezhnake: the repository is the source")
