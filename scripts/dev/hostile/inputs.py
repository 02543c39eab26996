"""The files that the commands of the cases name."""
import pathlib
import random
import shutil

import prelude

BLOCK = 1 << 20
ENGINE_LOOP = "while read -r line; do case $line in %s quit) exit ;; esac; done\n"
# a CECP and a UCI engine that say much before a move
FEATURES = 'feature ping=1 setboard=1 usermove=1 analyze=1 myname="Thinks" done=1'
THINKS = ENGINE_LOOP % (f"protover*) echo '{FEATURES}' ;;"
                        " go) yes '1 20 1 20 e7e5' | head -n 5000; echo move e7e5 ;;")
TALKS = ENGINE_LOOP % ("uci) echo uciok ;;"
                       " go*) yes 'info depth 1' | head -n 100000; echo bestmove e7e5 ;;")
# a program that makes one of its streams one that does not block
UNBLOCKED = ("#!/usr/bin/env python3\nimport os, sys\n"
             "os.set_blocking(int(sys.argv[1]), False)\n")


def blocks(size, make):
    made = 0
    while made < size:
        block = make()
        made += len(block)
        yield block


def options(default):
    """A session in which an engine has 300 options with this default."""
    lines = ["x protover 2"]
    lines += [f"u option name Option{n:03} type string default {default}" for n in range(1, 301)]
    return "\n".join([*lines, "u uciok", ""]).encode()


def mark(draw):
    text = draw.choice([b"x ", b"u "]) + draw.randbytes(draw.randrange(40))
    return text.replace(b"\n", b" ") + b"\n"


def files():
    draw = random.Random(1)
    letters = b"v" * 65536
    knights = "".join(f"x usermove {move}\n" for move in "g1f3 g8f6 f3g1 f6g8".split())
    return {
        "letters": blocks(64 << 20, lambda: b"a" * BLOCK),
        "nuls": blocks(64 << 20, lambda: bytes(BLOCK)),
        "noise": blocks(64 << 20, lambda: draw.randbytes(BLOCK)),
        "marks": blocks(16 << 20, lambda: mark(draw)),
        "longest": blocks(64 << 20, lambda: draw.choice([b"x ", b"u "]) + letters + b"\n"),
        "overlong": [b"x v" + letters],
        "options": [options("v")],
        "wide": [options("v" * 255)],
        "plies": [b"u uciok\nu readyok\nx force\n", knights.encode() * 3000,
                  b"x usermove g1f3\nx go\n"],
        "pings": [f"x ping {n}\n".encode() for n in range(5000)],
        "noprogram": [b"\0\1\2\3"],
        "thinks": [THINKS.encode()],
        "talks": [TALKS.encode()],
        "unblocked": [UNBLOCKED.encode()],
    }


def prepare(folder, programs):
    """Fills a folder with the files, and its folder bin with the programs."""
    folder = pathlib.Path(folder)
    for name, content in files().items():
        with open(folder / name, "wb") as file:
            file.writelines(content)
    for name in ("noprogram", "unblocked"):
        (folder / name).chmod(0o755)
    for name in ("folder", "bin"):
        (folder / name).mkdir()
    for name in ("toy", "old"):
        shutil.copy(prelude.TOP / f"samples/{name}.engine", folder / name)
    for name, path in programs.items():
        (folder / "bin" / name).symlink_to(path)
