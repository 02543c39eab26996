"""The crates of crates.txt, and what each stands on."""
from prelude import TOP


def read():
    """What each crate stands on with nothing between, of this repository's."""
    uses = {}
    for line in (TOP / "crates.txt").read_text().splitlines():
        head, colon, below = line.partition("#")[0].partition(":")
        if colon:
            uses[head.split()[0]] = below.split()
    return {name: [one for one in below if one in uses] for name, below in uses.items()}


def all_below(uses):
    """Everything that each crate stands on, whatever lies between."""
    below = {}

    def visit(name):
        if name not in below:
            below[name] = set()
            for one in uses[name]:
                below[name] |= {one} | visit(one)
        return below[name]

    for name in uses:
        visit(name)
    return below


def folder(name):
    return TOP / "crates" / name


def is_program(name):
    return (folder(name) / "src/main.rt").exists()
