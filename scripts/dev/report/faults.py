"""Engines that do wrong: their faults in a page and in the table, and their matches.

The numbers of lines are counted by hand in the scripts of version 2 that `replay` writes for the
sessions here.
"""
from basics import ask, is_quiet, page_of, say, table_of, wants

BOOT = "u id name {}\nu uciok\nu readyok\n"
# two illegal moves, words of either peer that are none of the bridge's, and an end after `quit`
ILLEGAL = BOOT.format("Wrong") + """u tellusererror Illegal move by engine
x tellusererror Engine ended
x usermove e2e4
u bestmove e7e4
x new
u readyok
x usermove d2d4
u bestmove (none)
x quit
u.
"""
# an engine that ends while it thinks, and one that is lost before the list of features is written
ENDED = BOOT.format("Ended") + "x usermove e2e4\nu.\nx quit\n"
LOST = "u id name Lost\nx protover 2\nu?\nx quit\n"
RIGHT = BOOT.format("Right") + "x usermove e2e4\nu bestmove e7e5\nx quit\nu.\n"
# the engine of a reviver ends and is started again, of which no bridge tells
REVIVED = "x uci\nu uciok\nu!\nu uciok\nx quit\nu.\n"

TEXTS = {"illegal": ["illegal move, line 22", "illegal move, line 36"],
         "ended": ["engine ended, line 17"], "lost": ["engine ended, line 28"], "right": []}


def log_of(replay, session, *settings):
    """The log with a header that the bridge writes in a session."""
    script = ask(replay, "replay", *settings, data=session.encode()).stdout
    return ask(replay, "migrate", *settings, data=script).stdout


def logs_of(replay):
    """Logs of bridges, some of which tell of a fault of the engine."""
    sessions = {"illegal": ILLEGAL, "ended": ENDED, "lost": LOST, "right": RIGHT}
    return {name: log_of(replay, session) for name, session in sessions.items()}


WORDS = {"illegal move": "X tellusererror Illegal move by engine",
         "engine ended": "X tellusererror Engine ended"}


def check_links(page, name):
    """The links in a head have the texts that are wanted, and lead to the bridge's words."""
    links = page.js("[...document.querySelectorAll('#engine-faults a')].map(a => a.textContent)")
    wants(links == TEXTS[name], f"{name}: the head leads to {links}")
    for number, text in enumerate(links, 1):
        what, _, line = text.partition(", line ")
        page.js("choose(0)")
        page.click(f"#engine-faults a:nth-of-type({number})")
        wants(page.comes_to("chosen + 1", int(line)), f"{name}: {text} leads elsewhere")
        said = page.js("document.getElementById('raw').textContent")
        wants(said == WORDS[what], f"{name}: {text} leads to {said}")


def check_head(page, work, replay):
    """The head counts the engine's faults, if the log is a bridge's."""
    for name, content in logs_of(replay).items():
        log = work / f"{name}.log"
        log.write_bytes(content)
        page.open(page_of(log))
        is_quiet(page, log.name)
        count = page.js("document.getElementById('fault-count')?.textContent")
        wants(count == str(len(TEXTS[name])), f"{name}: the head counts {count} engine faults")
        check_links(page, name)
    log = work / "revived.log"
    log.write_bytes(ask(replay, "revive", "2", data=REVIVED.encode()).stdout)
    page.open(page_of(log))
    kind, count = page.js("[S.kind, document.querySelectorAll('#fault-count').length]")
    wants((kind, count) == ("reviver", 0), f"the log of a {kind} tells of engine faults")
    say(f"engine faults in the head, with links: {sum(map(len, TEXTS.values()))} in 5 logs")


# A MATCH of five games, in each of which one engine shows no move

# White answers Black's move with an illegal one; then Black is told White's moves.
FEN = "4k3/8/8/8/8/8/8/4K2R b K - 0 1"
WHITE = BOOT.format("One") + f"""x new
u readyok
x force
x setboard {FEN}
x usermove e8e7
x go
u bestmove e1e8
x result 0-1 {{White resigns}}
""" + "".join(f"""x new
u readyok
x go
u bestmove {move}
x result 1-0
""" for move in ("e2e4", "d2d4", "c2c4", "f2f4")) + "x quit\nu.\n"
# Black's first move is illegal; it thinks for too long; it ends while it thinks; it is gone.
BLACK = BOOT.format("Two") + f"""x new
u readyok
x force
x setboard {FEN}
x go
u bestmove e8e7
x result 0-1 {{White resigns}}
x new
u readyok
x usermove e2e4
u bestmove e7e4
x result 1-0
x new
u readyok
x usermove d2d4
x result 1-0
x new
u bestmove d7d5
u readyok
x usermove c2c4
u.
x result 1-0
x new
x usermove f2f4
x result 1-0
x quit
"""
# Both sides' moves are told to an engine that never is to move: it may have been of either side.
WATCHED = BOOT.format("None") + f"""x new
u readyok
x force
x setboard {FEN}
x usermove e8e7
x result 0-1
""" + "".join(f"""x new
u readyok
x force
x usermove {move}
x result 1-0
""" for move in ("e2e4", "d2d4", "c2c4", "f2f4")) + "x quit\nu.\n"


def check_match(page, work, replay):
    """A cross table has the match, whatever engine showed no move, and no log of others."""
    folder = work / "short games"
    folder.mkdir()
    # (in this order)
    for name, session in {"a": WATCHED, "b": WHITE, "c": BLACK, "d": BLACK}.items():
        (folder / f"{name}.log").write_bytes(log_of(replay, session, "ResignWhenGone=true"))
    rows = table_of(page, folder)
    sides = [[game.get("side") for game in row["summary"]["games"]] for row in rows]
    wants(sides == [[""] * 5, ["white"] * 5, ["black"] * 5, ["black"] * 5],
          f"the sides of engines that showed no move: {sides}")
    cross = page.js("[...document.querySelectorAll('#cells tr')]"
                    ".map(e => [...e.children].map(c => c.textContent))")
    wants(cross == [["", "One", "Two", "points"],
                    ["One", "–", "4 of 5 (+4 =0 −1)", "4 of 5"],
                    ["Two", "1 of 5 (+1 =0 −4)", "–", "1 of 5"]],
          f"the cross table of engines that showed no move: {cross}")
    say("a match in which an engine showed no move in each game: in the cross table")
