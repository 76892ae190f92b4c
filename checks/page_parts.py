"""What checks/page tries: mistakes in a description, the steps of the exercises, a world of 40 objects; and two measures of what it shows."""
import random
import re

# Mistakes in examples/two-processes.toml: the old and the new text, and a text whose last line is the line of the
# mistake, or None.
BROKEN = [
    ("log = 16", "logs = 16", "logs = 16"),
    ("log = 16", "log = 15", "log = 15"),
    ("root = 3", "root = 1", "root = 1"),
    ('[2, "bank 0"]', '[2, "bank 00"]', "bank 00"),
    ('[2, "bank 0"]', '[2, "bank 3"]', "bank 3"),
    ("limit = 1000", "limit = 3", "limit = 3"),
    ("nodes = 16", "nodes =", "nodes ="),
    ('"available"', '"asleep"', "asleep"),
    ("annex = 4", "anex = 4", "anex = 4"),
    ("[[process]]", "[[proces]]", "[[proces]]"),
    ("pages = 8\n", "", None),
]
STEP_ALL = "vezhnake.run();"
OWN = "vezhnake.runOwn({!r});"
SLIDE = """const it = document.getElementById("after"); for (let at = 0; at <= Number(it.max); at++) { it.value = at; it.oninput(); }"""
# The actions that do each exercise.
EXERCISES = [
    [STEP_ALL, OWN.format("call 1 6 2 0 7 0 0 0 0 0")],
    [STEP_ALL, OWN.format("call 1 28 1 0 0 0 0 0 0 0"), OWN.format("call 1 28 2 0 9 0 0 0 0 0")],
    [STEP_ALL, OWN.format("call 1 10 6 0 0 0 0 0 0 0")],
    [STEP_ALL, SLIDE],
    [STEP_ALL, "vezhnake.view.select(3); await vezhnake.view.markReach();"],
]
# Colours of the style that lie on one another, as text and ground.
TEXTS = [("ink", "back"), ("ink", "panel"), ("ink", "button"), ("ink", "accent-back"), ("muted", "panel"), ("muted", "back"), ("accent", "panel"),
    ("accent", "accent-back"), ("good", "panel"), ("bad", "panel"), ("panel", "focus"), *(("ink", it) for it in ("process", "node", "page", "bank")),
    *(("muted", it) for it in ("process", "node", "page"))]
LEAST_CONTRAST = 4.5


def large_world(seed):
    """A description of a world of 40 objects, five banks of them nested, at random."""
    chance = random.Random(seed)
    banks, roots = {0: 0, 20: 0, 21: 20, 22: 0, 23: 21}, range(1, 15, 2)
    nodes, pages = range(30, 42), range(48, 64)

    def capability():
        access = chance.choice(("", "", " ro", " weak"))
        texts = [f"page {chance.choice(pages)}{access}", f"page {chance.choice(pages)}", f"node {chance.choice(nodes)}{access}"]
        texts += [f"process {chance.choice(roots)}", f"start {chance.choice(roots)} {chance.randrange(9)}", f"bank {chance.choice([*banks])}", "number 7"]
        return chance.choice(texts)

    def places(least, most, count):
        return ", ".join(f'[{it}, "{capability()}"]' for it in sorted(chance.sample(range(least, most), count)))

    text = "nodes = 48\npages = 16\nlog = 16\n"
    text += "".join(f"[[bank]]\nnumber = {it}\nowner = {owner}\nlimit = {1000 if it == 0 else 60}\n" for it, owner in banks.items())
    for it in roots:
        text += f'[[process]]\nroot = {it}\nannex = {it + 1}\nowner = {chance.choice([*banks])}\nstate = "running"\n'
        text += f"registers = [{places(1, 28, chance.randrange(5))}]\n"
    text += "".join(f"[[node]]\nnumber = {it}\nowner = {chance.choice([*banks])}\nslots = [{places(0, 32, chance.randrange(5))}]\n" for it in nodes)
    return text + "".join(f"[[page]]\nnumber = {it}\nowner = {chance.choice([*banks])}\nwords = [[0, {chance.randrange(9)}]]\n" for it in pages)


def overlap(a, b):
    """Whether two rectangles have a common inner point."""
    return a["x"] < b["x"] + b["width"] and b["x"] < a["x"] + a["width"] and a["y"] < b["y"] + b["height"] and b["y"] < a["y"] + a["height"]


def share(a, b):
    """Whether two lines of one direction share more than a point. Those that leave one row of a box may."""
    thin = "width" if a["width"] == 0 else "height"
    is_one_row = thin == "height" and (a["x"] == b["x"] or a["x"] + a["width"] == b["x"] + b["width"])
    return b[thin] == 0 and not is_one_row and overlap(a | {thin: 0.01}, b | {thin: 0.01})


def crossings(layout):
    """What is wrong with a layout: a line through a box, lines of two nets or boxes that overlap, or a box in the frames of other banks than
    its own; or None."""
    boxes, owners = layout["boxes"], {it["number"]: it["owner"] for it in layout["boxes"]}
    lines = [(net, {"x": min(x1, x2), "y": min(y1, y2), "width": abs(x1 - x2), "height": abs(y1 - y2)}) for net, x1, y1, x2, y2 in layout["segments"]]
    for _, line in lines:
        through = [it["number"] for it in boxes if overlap(line | {it: line[it] or 0.01 for it in ("width", "height")}, it)]
        if through:
            return f"a line crosses box {through[0]}"
    for at, (net, a) in enumerate(lines):
        for other, b in lines[:at]:
            if net != other and share(a, b):
                return f"lines of nets {net} and {other} overlap"
    for at, a in enumerate(boxes):
        over = [b["number"] for b in boxes[:at] if overlap(a, b)]
        if over:
            return f"boxes {a['number']} and {over[0]} overlap"
    return misplaced(boxes, owners, layout["frames"])


def misplaced(boxes, owners, frames):
    """A box that lies in the frames of other banks than its own, or None."""
    for it in boxes:
        if it["kind"] == "bank":
            continue
        around, owner = set(), it["owner"]
        while owner not in around:
            around.add(owner)
            owner = owners[owner]
        inside = {frame["bank"] for frame in frames if overlap(frame, it)}
        if inside != around:
            return f"box {it['number']} lies in the frames of {sorted(inside)}, its banks are {sorted(around)}"
    return None


def luminance(colour):
    parts = [int(colour[it : it + 2], 16) / 255 for it in (1, 3, 5)]
    linear = [it / 12.92 if it <= 0.04045 else ((it + 0.055) / 1.055) ** 2.4 for it in parts]
    return 0.2126 * linear[0] + 0.7152 * linear[1] + 0.0722 * linear[2]


def low_contrast(style):
    """The pairs of text and ground whose contrast is too low, in the light and in the dark theme."""
    found = []
    for theme, block in zip(("light", "dark"), re.findall(r":root \{(.*?)\}", style, re.S)):
        colours = dict(re.findall(r"--([\w-]+): (#[0-9a-f]{6});", block))
        for text, ground in TEXTS:
            high, low = sorted((luminance(colours[text]), luminance(colours[ground])), reverse=True)
            if (high + 0.05) / (low + 0.05) < LEAST_CONTRAST:
                found.append(f"{theme}: {text} on {ground} has {(high + 0.05) / (low + 0.05):.2f}")
    return found
