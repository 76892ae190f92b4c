"""The files of edits: what an edit changes, and the function whose body that is."""
import re
from pathlib import Path

HEAD = re.compile(r"( *)(?:pub(?:\(\w+\))? )?(?:const )?(?:unsafe )?(?:extern \"C\" )?fn (\w+)")
# The words before the name of a type or trait, with the parameters of an `impl`.
OWNER = re.compile(r"(?:pub(?:\(\w+\))? )?(?:unsafe )?(impl|trait)(?:<(?:[^<>]|<[^<>]*>)*>)? ")


class BadEdit(Exception):
    """Why an edit can't be applied."""


def crate_of(edit):
    """The crate that an edit changes. Its name is that of the edit's folder, except for edits of the gate."""
    return edit.parent.name if edit.parent.name != "must-fail" else edit.parent.parent.name


def changes(edit):
    """The changes of an edit: a file, its old text and the new one each."""
    file = old = None
    for line in edit.read_text().splitlines():
        mark, _, text = line.partition(":")
        match mark:
            case "file":
                file = text.strip()
            case "old":
                old = text.removeprefix(" ")
            case "new":
                yield file, old, text.removeprefix(" ")


def applied(edit, own):
    """The texts of the files that an edit of the crate in the folder `own` changes, and the lines that it changes, both by file."""
    texts, lines = {}, {}
    for file, old, new in changes(edit):
        if not (own / file).is_file():
            raise BadEdit(f"there is no {file}")
        text = texts.get(file) or (own / file).read_text()
        if text.count(old) != 1:
            raise BadEdit(f"{file} has {text.count(old)} times: {old}")
        lines.setdefault(file, []).append(text[: text.index(old)].count("\n"))
        texts[file] = text.replace(old, new)
    return texts, lines


def words(text):
    """The words of a type, without lifetimes and the modules before a name."""
    return re.findall(r"(?:\w+::)*(\w+)", re.sub(r"'\w+", "", text))


def owner_name(head):
    """How `rattle` names the module of a trait or an `impl`, by its first line: `Log`, `Content+Cap`, `RefusalFromAllocError`. A type
    parameter has one letter."""
    kind, rest = OWNER.match(head)[1], re.split(r" where | ?\{", OWNER.sub("", head, count=1))[0]
    trait, _, of = rest.rpartition(" for ")
    if trait:
        return "".join(it for it in words(of) + words(trait) if len(it) > 1)
    name, *arguments = words(of)
    return "+".join([name, *arguments]) if kind == "impl" and any(len(it) > 1 for it in arguments) else name


def function_at(file, lines, at):
    """The function whose body has a line of a formatted source, as `rattle check --only` finds it, or None."""
    top, head = next(((it, found) for it in range(at, -1, -1) if (found := HEAD.match(lines[it]))), (0, None))
    if not head:
        return None
    margin, name = head.groups()
    begins = [it for it in lines[top:at] if it == margin + "{" or it.startswith((head[0], margin + ")")) and it.endswith("{")]
    if not begins or margin + "}" in lines[top:at]:
        return None
    if not margin:
        module = [it for it in Path(file).with_suffix("").parts[1:] if it not in ("lib", "main", "mod")]
        return "::".join([*module, name])
    owner = next((it for it in reversed(lines[:top]) if re.match(r"\w", it)), "")
    return f"{owner_name(owner)}::{name}" if OWNER.match(owner) else None


def only_function(edit, own):
    """The function of a crate whose body is all that an edit changes, or None."""
    lines, found = applied(edit, own)[1], set()
    for file, changed in lines.items():
        source = (own / file).read_text().splitlines()
        found |= {function_at(file, source, it) if file.startswith("src/") else None for it in changed}
    return found.pop() if len(found) == 1 else None
