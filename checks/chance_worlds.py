"""Random descriptions, and scripts over them."""
from common import WORDS, joined

GREAT, AGE = 2**63, 2**62
ALL = b"99999"
COMMITTED = [b"checkpoint", b"stabilize " + ALL, b"commit"]


class World:
    """A random description: its document, and the numbers of its objects by kind."""

    def __init__(self, chance):
        self.chance = chance
        self.size = {"nodes": chance.randrange(16, 48), "pages": chance.randrange(1, 24), "log": chance.randrange(16, 64)}
        nodes, total = self.size["nodes"], self.size["nodes"] + self.size["pages"]
        free = chance.sample(range(1, nodes), nodes - 1)
        take = lambda most: [free.pop() for _ in range(chance.randrange(most))]
        self.banks, self.nodes = [0, *take(5)], take(7)
        self.processes = [(free.pop(), free.pop()) for _ in range(min(chance.randrange(1, 4), len(free) // 2))]
        self.pages = chance.sample(range(nodes, total), chance.randrange(min(8, total - nodes + 1)))
        self.states = {root: chance.choice(("available", "running", "running", "waiting")) for root, _ in self.processes}
        self.document = {**self.size, **self.of_image(), **self.tables()}

    def of_image(self):
        """Some of the optional keys of the whole image."""
        keys = {"layout": self.chance.choice((1, 2)), "age": self.chance.choice((0, 1, 5, 2**40, AGE - 1, AGE)), "ranges": self.ranges()}
        return {key: value for key, value in keys.items() if self.chance.random() < 0.7}

    def ranges(self):
        nodes, pages = self.size["nodes"], self.size["pages"]
        cuts = {0, nodes, nodes + pages, *self.chance.sample(range(1, nodes + pages), self.chance.randrange(7))}
        edges = sorted(cuts)
        return [[one, two - one] for one, two in zip(edges, edges[1:])]

    def number(self):
        """A word. From 2^63 on it is written as a text."""
        number = self.chance.choice((0, 1, 2, 511, GREAT - 1, GREAT, WORDS - 1, self.chance.randrange(WORDS)))
        return f"number {number}" if number >= GREAT else number

    def capability(self):
        one = self.chance.choice
        access = one(("", "", " ro", " weak"))
        waiting = [root for root, state in self.states.items() if state == "waiting"]
        root = one(self.processes)[0]
        kinds = ["void", "discrim", f"number {self.chance.randrange(WORDS)}", f"process {root}", f"start {root} {one((0, 1, 65535))}", f"bank {one(self.banks)}"]
        kinds += [f"page {one(self.pages)}{access}"] * 3 if self.pages else []
        kinds += [f"node {one(self.nodes)}{access}"] * 2 + [f"space {one(self.nodes)} {one((1, 2, 3, 4))}{access}"] if self.nodes else []
        kinds += [f"resume {one(waiting)}"] * 2 if waiting else []
        return one(kinds)

    def space(self):
        text = self.capability()
        return text if text.split()[0] in ("void", "page", "space") else "void"

    def held(self, first):
        """Some slots, in any order."""
        return [[it, self.capability()] for it in self.chance.sample(range(first, 32), self.chance.randrange(32 - first))]

    def process(self, root, annex):
        row = {"root": root, "annex": annex, "owner": self.owner(), "state": self.states[root]}
        more = {"key": self.chance.choice((0, 7, 65535)), "words": [self.number() for _ in range(4)], "space": self.space(), "registers": self.held(1)}
        return row | {key: value for key, value in more.items() if self.chance.random() < 0.8}

    def owner(self):
        return self.chance.choice(self.banks)

    def tables(self):
        """The tables of all objects, each kind in random order. Each bank is owned by one before it in `banks`."""
        limit = lambda: self.chance.choice((1000, GREAT - 1, f"number {GREAT}", f"number {WORDS - 1}"))
        words = lambda: [[it, self.number()] for it in self.chance.sample(range(512), self.chance.randrange(12))]
        owners = [self.banks[self.chance.randrange(max(1, it))] for it in range(len(self.banks))]
        tables = {
            "bank": [{"number": it, "owner": owner, "limit": limit()} for it, owner in zip(self.banks, owners)],
            "process": [self.process(*it) for it in self.processes],
            "node": [{"number": it, "owner": self.owner(), "slots": self.held(0)} for it in self.nodes],
            "page": [{"number": it, "owner": self.owner(), "words": words()} for it in self.pages],
        }
        for rows in tables.values():
            self.chance.shuffle(rows)
        return {key: rows for key, rows in tables.items() if rows}


def value_text(value):
    return f"[{', '.join(map(value_text, value))}]" if isinstance(value, list) else f'"{value}"' if isinstance(value, str) else str(value)


def text_of(document):
    """A description as TOML."""
    of_table = lambda table: "".join(f"{key} = {value_text(value)}\n" for key, value in table.items())
    tables = {key: rows for key, rows in document.items() if isinstance(rows, list) and rows and isinstance(rows[0], dict)}
    head = of_table({key: value for key, value in document.items() if key not in tables})
    return (head + "".join(f"\n[[{key}]]\n{of_table(row)}" for key, rows in tables.items() for row in rows)).encode()


# ---- the text of a description

def sorted_slots(slots):
    return sorted([place, text] for place, text in slots if text != "void")


def sorted_words(words):
    return sorted(([place, word] for place, word in words if word != 0), key=lambda it: it[0])


def described_row(row):
    """The row of an object as `describe` prints it: in the manual's order, without defaults."""
    numbers = {key: row[key] for key in ("number", "root", "annex", "owner", "limit") if key in row}
    state = {"state": row["state"]} if "state" in row else {}
    if "root" in row:
        more = {"key": row.get("key", 0), "words": row.get("words", [0] * 4), "space": row.get("space", "void"), "registers": sorted_slots(row.get("registers", []))}
    else:
        more = {"slots": sorted_slots(row.get("slots", [])), "words": sorted_words(row.get("words", []))}
    return {**numbers, **state, **{key: value for key, value in more.items() if value not in (0, "void", [], [0] * 4)}}


def described_document(document):
    """A document as `describe` prints it: in the manual's order, without defaults."""
    nodes, pages = document["nodes"], document["pages"]
    default = {"layout": 1, "age": 0, "ranges": [[0, nodes], [nodes, pages]]}
    head = {key: document[key] for key in ("nodes", "pages", "log")} | {key: document[key] for key in default if document.get(key, default[key]) != default[key]}
    first = lambda row: next(iter(row.values()))
    rows = {key: sorted(map(described_row, document.get(key, [])), key=first) for key in ("bank", "process", "node", "page")}
    return head | {key: value for key, value in rows.items() if value}


# ---- scripts

def acts(world, count):
    """`count` commands other than those of checkpoints. Most are invocations by the processes."""
    chance, total = world.chance, world.size["nodes"] + world.size["pages"]
    held = {row["root"]: [place for place, _ in row.get("registers", [])] for row in world.document["process"]}
    roots = [root for root, state in world.states.items() if state == "running"] or [*held]
    for _ in range(count):
        root = chance.choice((*roots, *roots, *roots, chance.choice(world.processes)[0], chance.randrange(total + 1)))
        register = lambda: chance.choice((*held.get(root, ()), 28, 28, 31, chance.randrange(32)))
        kind = chance.randrange(10)
        if kind == 0:
            yield joined("load", root, chance.choice((0, 511, 512, 16384)))
        elif kind == 1:
            yield joined("store", root, chance.choice((0, 3, 511, 512, 16384)), chance.randrange(WORDS))
        elif kind == 2:
            yield joined(chance.choice(("show", "evict")), chance.randrange(total + 1))
        elif kind == 3:
            yield joined("send", root, chance.choice((1, *range(20, 28))), 2, chance.randrange(32), 0, 0, register(), 0, 0, 0)
        else:
            words = [chance.randrange(11), chance.choice((0, 1, 2, 3, 5, 31)), chance.choice((0, 1, 2**63, chance.randrange(WORDS))), 0]
            yield joined(chance.choice(("call", "call", "send", "return")), root, register(), *words, *(chance.choice((0, register())) for _ in range(4)))


def commits(world):
    """A script with commits, and at times with a journal or a cut. Its last commands aren't committed."""
    chance, pages = world.chance, world.pages or [world.size["nodes"]]
    lines = []
    for _ in range(chance.randrange(1, 5)):
        lines += [*acts(world, chance.randrange(30)), b"migrate " + ALL, *COMMITTED]
        if chance.random() < 0.3:
            lines += [b"migrate " + ALL, joined("journal", chance.choice(pages))]
        if chance.random() < 0.3:
            lines += [joined("migrate", chance.randrange(9)), b"cut"]
    return [*lines, *acts(world, chance.randrange(5))]
