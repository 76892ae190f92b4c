"""What processes can ever change or read, by a description."""

PULLING = ("process", "start", "resume", "bank")


class Objects:
    """The objects of a description, by number: how `show` begins each, its owner, and what it holds."""

    def __init__(self, document):
        self.total = document["nodes"] + document["pages"]
        self.first, self.owner, self.held, self.annex, self.kind, self.rest = {}, {}, {}, {}, {}, {}
        for kind in ("bank", "node", "page"):
            for row in document.get(kind, []):
                more = f" limit {str(row['limit']).removeprefix('number ')}" if kind == "bank" else ""
                self.add(kind, row["number"], row["owner"], more, row)
                self.held[row["number"]] = [("slot", *it) for it in row.get("slots", [])]
        for row in document.get("process", []):
            root, annex = row["root"], row["annex"]
            self.add("process", root, row["owner"], f" annex {annex}", row)
            self.add("annex", annex, row["owner"], "", {"registers": row.get("registers", [])})
            self.annex[root] = annex
            self.held[annex] = [("register", *it) for it in row.get("registers", [])]
            self.held[root] = [("space", None, row["space"])] if "space" in row else []

    def add(self, kind, number, owner, more, row):
        self.first[number] = f"{kind} {number} owner {owner}{more}"
        self.owner[number], self.kind[number] = owner, kind
        self.rest[number] = {key: value for key, value in row.items() if key not in ("slots", "registers", "space")}

    def steps(self, number, trusted=(), reads=False):
        """The objects that an object can change, or read, in one step, each with the step's line. No step starts a trusted process."""
        name = f"{self.kind[number]} {number}"
        if self.kind[number] == "bank":
            yield from ((it, f"{name} owns {self.kind[it]} {it}") for it, owner in self.owner.items() if owner == number)
        if self.kind[number] == "process":
            yield self.annex[number], f"{name} has annex {self.annex[number]}"
        for holder in (number, self.annex.get(number, number))[: 1 + (number in self.annex)]:
            for place, index, text in self.held[holder]:
                target = conveyed(text, trusted, reads)
                if target is not None:
                    yield target, f"{name}, space: {text}" if place == "space" else f"{name}, {place} {index}: {text}"

    def pulls(self, number):
        """The lines of the capabilities of a member that name another process or another bank."""
        holder = self.annex.get(number, number)
        if self.kind[number] in ("process", "node"):
            for place, index, text in sorted(self.held[holder], key=lambda it: it[1]):
                if text.split()[0] in PULLING and int(text.split()[1]) != number:
                    yield f"{self.kind[number]} {number}, {place} {index}: {text}"

    def free(self):
        return {it for it in range(self.total) if it not in self.kind}


def conveyed(text, trusted, reads):
    """The object that the holder of a capability can change, or with `reads` read. None if the capability starts a trusted process."""
    kind, *words = text.split()
    if kind in ("void", "number", "discrim") or (words[-1] == "weak" and not reads) or (kind == "start" and int(words[0]) in trusted):
        return None
    return int(words[0])


def least_closed(objects, processes, trusted=(), reads=False):
    """The least set closed but for trusted processes, as a fixed point over all objects. With `reads` it is closed for reading."""
    inside = set(processes)
    while True:
        more = inside | {it for number in inside for it, _ in objects.steps(number, trusted, reads)}
        if more == inside:
            return inside
        inside = more
