"""The public functions of Rattle sources, each with its comment, its signature and its clauses."""
import re

FUNCTION = re.compile(r"( *)(pub )?(?:final |unsafe )*fn (\w+)")
BLOCK = re.compile(r"(pub )?(?:unsafe )?(trait|impl)\b(.*)")
CLAUSE = re.compile(r"\s*(requires|ensures)\b")


def owner_of(line):
    """The trait or type of a block, and whether its functions are public without `pub`."""
    found = BLOCK.match(line)
    if not found:
        return None
    what = re.sub(r"<[^<>]*(?:<[^<>]*>[^<>]*)*>", "", found[3]).split(" where ")[0].strip(" {")
    return what, found[2] == "trait" or " for " in what


def comment_above(lines, at):
    """The lines of the comment of a function that begins at a line."""
    start = at
    while start and re.match(r" *(///|#\[)", lines[start - 1]):
        start -= 1
    return [it.strip()[3:].strip() for it in lines[start:at] if it.strip().startswith("///")]


def functions(text):
    """The public functions of a file, by the type or trait and the name, each with its comment, its signature and its clauses."""
    lines, found, owner = text.splitlines(), {}, ("", False)
    for at, line in enumerate(lines):
        block, head = owner_of(line), FUNCTION.match(line)
        if block:
            owner = block
        elif line == "}":
            owner = ("", False)
        if not head or not (head[2] or owner[1]):
            continue
        part, end = [], at
        while True:
            text = lines[end]
            is_body = end > at and text == head[1] + "{"
            if not is_body:
                part.append(text)
            if is_body or text.rstrip().endswith(";") or (text.rstrip().endswith("{") and not CLAUSE.match(text)) or text.rstrip().endswith("{}"):
                break
            end += 1
        pieces = re.split(r"\s+(?=(?:requires|ensures)\b)", " ".join(" ".join(part).split()))
        name = f"{owner[0]}.{head[3]}".strip(".")
        found[name] = comment_above(lines, at), pieces[0].rstrip(" {;"), [it.rstrip(" ;") for it in pieces[1:]]
    return found
