"""The files of dist/, their manifest, and the sources that they are made of.

A line of the manifest is a word and a value. `program` and `sources` are of eros.xz, for tools/program. `library` is the checksum of the
library's sources. Each `file NAME` has a checksum: that of the file, unpacked if dist/ has NAME.xz.
"""
import hashlib
import lzma

from crates import ROOT, closure

DIST = ROOT / "dist"


def sum_of(data):
    return hashlib.sha256(data).hexdigest()


def lines_of(text):
    """The values of a manifest, by the words before them."""
    lines = [it.split(" ", 2 if it.startswith("file ") else 1) for it in text.splitlines() if " " in it]
    return {" ".join(words[:-1]): words[-1] for words in lines}


def manifest():
    """The values of the manifest of dist/. Empty if there is none."""
    path = DIST / "manifest"
    return lines_of(path.read_text()) if path.exists() else {}


def library_sources():
    """The checksum of all that the library is made of."""
    folders = [ROOT / "crates" / it / part for it in closure(["vezhnake_c"]) for part in ("src", "specs", "proofs")]
    files = [file for folder in [*folders, ROOT / "tools" / "native"] for file in folder.rglob("*") if file.is_file()]
    lines = [f"{sum_of(it.read_bytes())} {it.relative_to(ROOT)}\n" for it in sorted([ROOT / "crates.txt", ROOT / "include" / "vezhnake.h", *files])]
    return sum_of("".join(lines).encode())


def unpacked(name):
    """A file of dist/, or None if it isn't there or is damaged."""
    packed = DIST / f"{name}.xz"
    try:
        data = lzma.decompress(packed.read_bytes()) if packed.exists() else (DIST / name).read_bytes()
    except (OSError, lzma.LZMAError):
        return None
    return data if sum_of(data) == manifest().get(f"file {name}") else None


def write(name, data, is_plain):
    """Writes a file of dist/, and packs it unless it is plain. The same bytes are packed in the same way."""
    DIST.mkdir(exist_ok=True)
    if is_plain:
        (DIST / name).write_bytes(data)
    else:
        (DIST / f"{name}.xz").write_bytes(lzma.compress(data, preset=9 | lzma.PRESET_EXTREME))
