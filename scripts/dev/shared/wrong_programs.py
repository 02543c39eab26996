"""The edits of a crate, which are wrong programs, and which functions they change."""
import pathlib
import re

import crates
from prelude import TOP

HEAD = re.compile(
    r"(?m)^( *)(?:pub(?:\([^)]*\))? )?(?:const )?"
    r"(?:fn (\w+)|(?:impl(?:<[^>]*>)?|>) (?:(\w+)[^ {]* for )?(\w+))"
)


def edits_of(name):
    """The edits of a crate, those of the gate first."""
    folders = (crates.folder(name) / "must-fail", TOP / "edits" / name)
    return [edit for folder in folders for edit in sorted(folder.glob("*.edit"))]


def function_at(path, text, place):
    """The name of the function that has this place of a file, as the prover takes it.

    A method's begins with its type, whose module may be another one.
    """
    modules = [it for it in path[len("src/"):-len(".rt")].split("/") if it not in ("lib", "main")]
    function = owner = None
    for head in HEAD.finditer(text, 0, place):
        is_inner = bool(head[1])
        if head[2]:
            function, owner = head[2], owner if is_inner else None
        elif not is_inner:
            function, owner = None, head[4] + (head[3] or "")
    return "::".join(it for it in [*([owner] if owner else modules), function] if it)


def is_body(text, place):
    """Whether this place of a file is in the body of a function, behind its contract."""
    heads = [it for it in HEAD.finditer(text, 0, place) if it[2]]
    if not heads:
        return False
    head = heads[-1]
    opens = re.compile(rf"(?m)^{head[1]}(?:\S.*)?\{{$").search(text, head.start())
    closes = re.compile(rf"(?m)^{head[1]}\}}$").search(text, head.end())
    return bool(opens and closes) and opens.start() < place < closes.start()


def is_in_body(folder, edit):
    """Whether an edit changes nothing but bodies of functions."""
    return all(path.startswith("src/") and is_body(text, place)
               for path, text, place in changed_places(folder, edit))


def changed_places(folder, edit):
    """The file and the place of each text that an edit changes, in a crate's folder."""
    path, text = None, None
    for line in edit.read_text().split("\n"):
        if line.startswith("file: "):
            path = line[6:].strip()
            text = pathlib.Path(folder, path).read_text()
        elif line.startswith("old: "):
            yield path, text, text.index(line[5:])


def functions_of(folder, edit):
    """The paths of the functions that an edit changes, or none if it changes something else."""
    places = list(changed_places(folder, edit))
    if any(not path.startswith("src/") for path, _, _ in places):
        return []
    return [function_at(*place) for place in places]
