"""Descriptions for other sizes, for `checks/describe`: by docs/MANUAL.md, and without the program."""
import re

PAGE = re.compile(r"\bpage ([0-9]+)")
LIMITS = {"nodes": (16, 4096), "pages": (1, 4096), "log": (16, 4096)}


class Sizes:
    """The old and the new sizes of an image."""

    def __init__(self, document, options):
        self.old = {key: document[key] for key in LIMITS}
        self.new = self.old | options

    def moved(self, number):
        """The new number of an object."""
        return number if number < self.old["nodes"] else number - self.old["nodes"] + self.new["nodes"]

    def text(self, text):
        """A text with the new numbers of its pages."""
        return PAGE.sub(lambda found: f"page {self.moved(int(found[1]))}", text)

    def fault(self, document):
        """The fault that the program prints, if any."""
        if not all(least <= self.new[key] <= most for key, (least, most) in LIMITS.items()):
            return "no image has these sizes"
        nodes = [row[key] for kind in ("bank", "process", "node") for row in document.get(kind, []) for key in ("number", "root", "annex") if key in row]
        if max(nodes) >= self.new["nodes"]:
            return "too few nodes"
        pages = [self.moved(row["number"]) for row in document.get("page", [])]
        return "too few pages" if pages and max(pages) >= self.new["nodes"] + self.new["pages"] else None

    def document(self, document):
        """A description for the new sizes."""
        same = all(self.old[key] == self.new[key] for key in ("nodes", "pages"))
        head = {key: value for key, value in document.items() if key not in ("bank", "process", "node", "page") and (same or key != "ranges")}
        rows = {key: [self.row(key, row) for row in document[key]] for key in ("bank", "process", "node", "page") if key in document}
        return head | self.new | rows

    def row(self, kind, row):
        slots = lambda held: [[place, self.text(text)] for place, text in held]
        row = row | {key: slots(row[key]) for key in ("registers", "slots") if key in row}
        row = row | ({"space": self.text(row["space"])} if "space" in row else {})
        return row | ({"number": self.moved(row["number"])} if kind == "page" else {})

    def shown(self, lines):
        """The output of `show` over the old image, as the new one prints it."""
        return [self.free(self.text(line)) for line in lines]

    def free(self, line):
        words = line.split()
        return f"free {self.moved(int(words[1]))}" if words[:1] == ["free"] else line

    def script(self, lines):
        """A script with the new numbers of its objects."""
        return [self.command(line) for line in lines]

    def command(self, line):
        words = line.split()
        named = len(words) == 2 and words[0] in ("show", "evict", "journal") and re.fullmatch("0|[1-9][0-9]*", words[1])
        return f"{words[0]} {self.moved(int(words[1]))}" if named else line

    def numbers(self):
        """The pairs of old and new numbers that both images have."""
        nodes = [(it, it) for it in range(min(self.old["nodes"], self.new["nodes"]))]
        pages = [(self.old["nodes"] + it, self.new["nodes"] + it) for it in range(min(self.old["pages"], self.new["pages"]))]
        return nodes + pages
