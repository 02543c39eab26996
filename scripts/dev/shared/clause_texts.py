"""Contracts and specs as texts: which calls a program makes, and what they state."""
import collections
import functools
import re

import contracts
import crates

IMPORT = re.compile(
    r"^(?:ghost )?use Rattle\.(\w+)\.specs\.([\w.]+?)(?:\.\{([^}]*)\}| as (\w+));?$", re.M | re.S)
ITEM = re.compile(r"^(?:(abbrev|unfoldable)(?: pub)? (\w+) : |(?:pub )?(record|data) (\w+))", re.M)
FIELD = re.compile(r"^  (?:pub )?(\w+) :", re.M)
WORD = re.compile(r"[^\W\d][\w']*(?:\.[^\W\d][\w']*)*")
COMMENT = re.compile(r"^\s*(?:--|//+) ?(.*)$")

# A call of a program: its crate, its name, its comment, its clauses and the names in their texts.
Call = collections.namedtuple("Call", "crate name said clauses names")
# A clause of a contract or a field of a record: its kind, its name, its comment and its text.
Clause = collections.namedtuple("Clause", "kind name said text")
# A record, which has fields, or a law, which has a text alone.
Statement = collections.namedtuple("Statement", "said clauses text names")


def imported(text):
    """The names that a text imports from specs, each with its crate, module and name there."""
    found = {}
    for crate, module, names, alias in IMPORT.findall(text):
        for name in names.split(",") if names else []:
            there, _, here = name.strip().partition(" as ")
            found[here or there] = (crate, module, there)
        if alias:
            found[alias] = (crate, module, "")
    return found


def comment_above(text, place):
    """The lines of comment that end right above a place of a text, as one line."""
    lines = []
    for line in reversed(text[:place].split("\n")[:-1]):
        found = COMMENT.match(line)
        if not found:
            break
        lines.insert(0, found[1].strip())
    return cell(" ".join(lines))


def cell(text):
    return " ".join(text.split()).replace("|", "\\|")


def is_value(text, names):
    """Whether a field is a value that the others speak of, by the type that it has."""
    return re.fullmatch(r"[\w ]+", text) is not None and all(
        word == "ℕ" or word in names for word in text.split())


class Module:
    """A file of specs: its statements by their names."""

    def __init__(self, crate, name):
        file = crates.folder(crate) / "specs" / (name.replace(".", "/") + ".antt")
        self.crate, self.name = crate, name
        self.text = file.read_text() if file.exists() else ""
        self.heads = {it[2] or it[4]: it for it in ITEM.finditer(self.text)}
        self.names = imported(self.text)
        self.names |= {it: (crate, name, it) for it in self.heads}

    def block(self, head):
        """The text of an item, up to the next empty line."""
        return self.text[head.start():].partition("\n\n")[0]

    def is_statement(self, name):
        """Whether a name stands for a sentence, and not for a value or a type of values."""
        if name not in self.heads:
            return False
        head = self.heads[name]
        block = self.block(head)
        if head[3]:
            kinds = re.findall(r"[({][\w' ]+ : ([^(){}]*)", block.partition(": Type 0 where")[0])
            return ": Type 0 where" in block and any(not it.startswith("Type") for it in kinds)
        signature, _, body = block[head.end() - head.start():].partition(f"\n{name}")
        arguments = signature.strip().removesuffix("Type 0")
        return arguments != signature.strip() and bool(arguments.strip(" →\n") or "≡" in body)

    def statement(self, name):
        head = self.heads[name]
        said, block = comment_above(self.text, head.start()), self.block(head)
        text = re.sub(r"(?m)^\s*--.*$", "", block)
        if head[3] != "record":
            return Statement(said, (), text, self.names)
        fields, at = [], list(FIELD.finditer(block))
        for number, it in enumerate(at):
            end = at[number + 1].start() if number + 1 < len(at) else len(block)
            stated = re.sub(r"(?m)^\s*--.*$", "", block[it.end():end])
            fields.append(Clause("field", it[1], comment_above(block, it.start()),
                                 " ".join(stated.split())))
        return Statement(said, tuple(fields), text, self.names)


class Specs:
    """All files of specs, read as they are asked for."""

    def __init__(self):
        self.crates = crates.read()

    @functools.cache
    def module(self, crate, name):
        return Module(crate, name)

    def of(self, key):
        return self.module(*key[:2]).statement(key[2])

    def named_in(self, text, names):
        """The items of specs that a text names, in their order, each once."""
        found = {}
        for word in WORD.findall(text):
            first, _, rest = word.partition(".")
            crate, module, there = names.get(first, ("", "", ""))
            key = (crate, module, there or rest.partition(".")[0])
            if crate in self.crates and key[2] in self.module(crate, module).heads:
                found[key] = None
        return list(found)

    def stated_in(self, text, names):
        """Those of them that are statements."""
        return [it for it in self.named_in(text, names) if self.module(*it[:2]).is_statement(it[2])]

    @functools.cache
    def named_by(self, key):
        """The items that an item names."""
        it = self.of(key)
        return [one for one in self.named_in(it.text, it.names) if one != key]

    def stated_by(self, key):
        """The statements that a statement names."""
        it = self.of(key)
        return [one for one in self.stated_in(it.text, it.names) if one != key]

    def crates_with(self):
        """The crates that have a statement of a name."""
        found = collections.defaultdict(set)
        for crate in self.crates:
            folder = crates.folder(crate) / "specs"
            for file in sorted(folder.rglob("*.antt")):
                parts = file.relative_to(folder).with_suffix("").parts
                module = self.module(crate, ".".join(parts))
                for name in module.heads:
                    if module.is_statement(name):
                        found[name].add(crate)
        return found


def clauses_of(text, at):
    """The clauses of the function whose words begin here: kind, name, comment, text."""
    depth = 0
    while at < len(text):
        found = contracts.NEXT.match(text, at) if not depth else None
        if found and found[1]:
            end = contracts.past(text, found.end())
            place = text.index(found[1], found.start())
            yield Clause(found[1], found[2], comment_above(text, text.rindex("\n", 0, place) + 1),
                         contracts.plain(text[found.end() + 1:end - 1]))
            at = end
        elif text.startswith("//", at):
            at = text.index("\n", at)
        elif not depth and text[at] in "{;":
            break
        else:
            depth += {"(": 1, "[": 1, ")": -1, "]": -1}.get(text[at], 0)
            at += 1


def named_at(path, text, place, specs):
    """What is promised by the contract of the function that has this place of a file."""
    above = [it for it in contracts.FUNCTION.finditer(text) if it.start() <= place]
    if not path.startswith("src/") or not above:
        return set()
    names = imported(text)
    return {key for it in clauses_of(text, above[-1].end()) if it.kind == "ensures"
            for key in specs.named_in(it.text, names)}


def first_paragraph(comment):
    return cell(comment.partition("///\n")[0].replace("///", " "))


def called_by(program):
    """The functions of this repository's crates that a program's `main` calls, with the crates."""
    text = (crates.folder(program) / "src/main.rt").read_text()
    uses = crates.read()
    for crate, names in re.findall(r"^use (\w+)::(\{[^}]*\}|\w+);", text, re.M):
        for name in re.findall(r"\b[a-z]\w*", names) if crate in uses else []:
            if re.search(rf"\b{name}\(", text):
                yield crate, name


def call_of(crate, name):
    """A public function of a crate, outside of all types, or none."""
    for file in sorted((crates.folder(crate) / "src").rglob("*.rt")):
        text = file.read_text()
        found = re.search(rf"^((?:///.*\n)*)(?:#\[.*\]\n)*pub fn {name}\b", text, re.M)
        if found:
            clauses = tuple(clauses_of(text, found.end()))
            return Call(crate, name, first_paragraph(found[1]), clauses, imported(text))
    return None
