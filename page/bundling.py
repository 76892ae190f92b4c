"""Puts the modules of WebAssembly, the worlds of the examples and the files of this folder into one page."""
import base64
import json
import re
import zlib
from pathlib import Path

HERE = Path(__file__).resolve().parent
EXAMPLES = HERE.parent / "examples"
FIRST = "first-steps"
# The files of the page, each after those that it imports from.
FILES = """markup machine objects layout picture image power session program script_view machine_view disk_view power_view description_view
    lesson main""".split()
IMPORT = re.compile(r'^import \{[^}]*\} from "\./(\w+)\.mjs";\n', re.M)
NO_SCRIPT = "# This world has no script: write lines of your own.\n"


def script():
    """The files as one module."""
    parts, seen = [], set()
    for name in FILES:
        text = (HERE / f"{name}.mjs").read_text()
        for imported in IMPORT.findall(text):
            if imported not in seen:
                raise SystemExit(f"page: {name}.mjs stands before {imported}.mjs, which it imports")
        seen.add(name)
        parts.append(re.sub(r"^export ", "", IMPORT.sub("", text), flags=re.M))
    return "\n".join(parts)


def packed(data):
    return base64.b64encode(zlib.compress(data, 9)).decode()


def worlds():
    """The worlds: each script with its description, and each description without a script. The first steps come first."""
    named = {}
    for file in EXAMPLES.glob("*.eros"):
        description = re.search(r"^# Image: (\S+)$", file.read_text(), re.M)[1]
        named[file.stem] = (description, file.read_text())
    used = {description for description, _ in named.values()}
    named |= {it.stem: (it.name, NO_SCRIPT) for it in EXAMPLES.glob("*.toml") if it.name not in used}
    order = sorted(named, key=lambda it: (it != FIRST, it))
    return [{"name": it, "description": (EXAMPLES / named[it][0]).read_text(), "script": named[it][1]} for it in order]


def page(kernel, program):
    """The page over these two modules."""
    assets = {"kernel": packed(kernel), "program": packed(program), "worlds": worlds()}
    parts = {"/*STYLE*/": (HERE / "style.css").read_text(), "/*ASSETS*/": json.dumps(assets).replace("<", "\\u003c"), "/*MODULES*/": script()}
    text = (HERE / "index.html").read_text()
    for place, part in parts.items():
        before, after = text.split(place)
        text = before + part + after
    return text.encode()
