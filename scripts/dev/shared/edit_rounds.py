"""Edits of a crate that are tried together, in one copy of it, if they change different functions."""
import re
import tempfile

from wrong_programs import function_at, functions_of, is_in_body

# What comes of an edit, in the words of the table.
REFUSED = "refused"
BY_NAMES = "refused only by names"
AT_LIMIT = "refused at a limit"
LET_THROUGH = "let through"
NOT_COMPILED = "does not compile"
NOT_TRIED = "not tried"
WELL = (REFUSED, BY_NAMES, AT_LIMIT)

# What the prover says of a function; at a place of a file; and in a proof by hand of a name in it.
OF_FUNCTION = re.compile(r"fn (\S+): (.*)")
AT_PLACE = re.compile(r"(?:note: |\./)*(\S+):(\d+):\d+: (.*)")
OF_NAMES = re.compile(r"has no field|is not in scope|has no `|was not admitted")
OF_COMPILER = re.compile(r"\berror\[[\w-]+\]")
ANSWERS = re.compile(r"proofs/(.*)/(?:Answers|Invariants|Proof)\.antt")


def is_of(name, path):
    """Whether the prover's name of a function is that of a path."""
    return f"::{name}".endswith(f"::{path}")


def place_of(told):
    """How a place of a file and what is said of it are shown."""
    return f"at {told[1]}:{told[2]}: {told[3][:100]}"


def places_in(lines):
    """The places of files at which the prover has an error or a goal, or at which it has a word."""
    told = [it for it in map(AT_PLACE.match, lines) if it]
    return [it for it in told if it[3].startswith("error") or it[0].startswith("note: ")] or told


def where_refused(told):
    """Whether it is refused only by names, and where."""
    by_names = [it for it in told if it[1].startswith("proofs/") and OF_NAMES.search(it[3])]
    if told and len(by_names) == len(told):
        return BY_NAMES, f"ONLY BY NAMES in {told[0][1]}: {told[0][3][:100]}"
    first = next((it for it in told if it not in by_names), None)
    return REFUSED, place_of(first) if first else "with no place"


class Round:
    """Some edits of a crate in one copy of it, and what the prover says of that."""

    def __init__(self, rt, crate, check):
        self.rt, self.crate, self.check = rt, crate, check
        self.edits, self.paths, self.texts = [], {}, {}

    def with_edit(self, edit):
        """The changed texts if the edit joins the others, or none if they do not fit together."""
        with tempfile.NamedTemporaryFile("w", suffix=".edit", encoding="utf-8") as both:
            both.write("\n".join(it.read_text() for it in [*self.edits, edit]))
            both.flush()
            return self.rt.read_edit(both.name, self.crate.folder)[0]

    def take(self, edit):
        """Takes an edit, unless it changes a function or a line that another one changes."""
        paths = functions_of(self.crate.folder, edit)
        texts = {} if self.changes(paths) else self.with_edit(edit)
        if texts:
            self.edits.append(edit)
            self.paths[edit], self.texts = paths, texts

    def changes(self, paths):
        """Whether one of these functions is changed."""
        return any(it in paths for its in self.paths.values() for it in its)

    def told_of(self, told, edit):
        """What is said at places of the functions that the edit changes."""
        def is_its(it):
            path, line = it[1], int(it[2])
            hand = ANSWERS.fullmatch(path)
            if hand:
                name = hand[1].replace("/", "::")
            elif path.startswith("src/"):
                name = self.function_in(path, line)
            return (hand or path.startswith("src/")) and any(
                is_of(name, of) for of in self.paths[edit])

        return [it for it in told if is_its(it)]

    def function_in(self, path, line):
        """The function that has this line of a file of the copy."""
        text = self.texts.get(path)
        if text is None:
            with open(f"{self.crate.folder}/{path}", encoding="utf-8") as it:
                text = it.read()
        place = sum(len(it) + 1 for it in text.split("\n")[:line])
        return function_at(path, text, max(0, place - 1))

    def run(self):
        """What comes of each edit, with what to say, as far as this round tells."""
        ran = self.check(self.rt, self.crate, self.texts,
                         [path for its in self.paths.values() for path in its])
        lines = (ran.stdout + ran.stderr).rstrip("\n").split("\n")
        told = places_in(lines)
        bad = [it for it in told
               if OF_COMPILER.search(it[0]) or self.rt.unread(it[0], self.texts)]
        if bad:
            its = {edit: self.told_of(bad, edit) for edit in self.edits}
            return {edit: (NOT_COMPILED, place_of(it[0])) for edit, it in its.items() if it}
        if ran.returncode not in (0, 1, 3) or self.rt.rtlib.STALE.search(ran.stdout):
            return {}
        functions = [it for it in map(OF_FUNCTION.match, lines) if it]
        return {edit: what for edit in self.edits
                if (what := self.verdict(edit, functions, told))}

    def verdict(self, edit, functions, told):
        """What comes of an edit, or none if a function waits for another one's proof."""
        said = [it[2] for it in functions if any(is_of(it[1], of) for of in self.paths[edit])]
        # (the contracts of others are taken whether they are proved or not)
        if any(it == "not proved" or "`search` did not prove" in it for it in said):
            return where_refused(self.told_of(told, edit))
        if said and all(it == "proved" for it in said):
            return LET_THROUGH, "its function is proved"
        return None


def in_rounds(rt, crate, edits, check, alone):
    """What comes of each edit, with what to say: of those of a round as soon as it is over.

    An edit is tried again in a later round if its function calls one that is not proved in this
    one. One that changes more than bodies of functions, one that is not refused in its round, and
    one that no round decides are tried alone.
    """
    waiting = [it for it in edits if is_in_body(crate.folder, it)]
    rest = [it for it in edits if it not in waiting]
    while waiting:
        now = Round(rt, crate, check)
        for edit in waiting:
            now.take(edit)
        found = now.run() if now.edits else {}
        for edit, (word, said) in found.items():
            if word == LET_THROUGH or word == BY_NAMES and "was not admitted" in said:
                # (the whole crate may refuse it; what was not admitted may be another edit's)
                yield edit, *alone(rt, crate, edit)
            else:
                yield edit, word, f"{crate.name}/{edit.name}: {word}, {said}"
        if not found:
            rest.append((now.edits or waiting)[0])
        waiting = [it for it in waiting if it not in found and it not in rest]
    for edit in rest:
        yield edit, *alone(rt, crate, edit)
