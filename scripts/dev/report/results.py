"""Results in the table: which logs are one match, what counts, and games that were lost on time.

What is wanted follows from the sessions here, which are written by hand.
"""
from basics import is_quiet, page_of, say, table_of, wants
from faults import BOOT, log_of
from tables import column_of, texts_in

# 1. e4 e5 2. Nf3 by either side, and how it ended, if its interface told so
MOVES = ("e2e4", "e7e5", "g1f3")
END = "x quit\nu.\n"


def game(name, side, told="", think="", moves=MOVES):
    """The session of one side of a game; `think` is what comes while it is asked for a fourth."""
    lines = [BOOT.format(name) + "x new\nu readyok\nx force\n"]
    for ply, move in enumerate(moves):
        if (ply % 2 == 0) == (side == "white"):
            lines.append(("x go\n" if ply < 2 else "") + f"u bestmove {move}\n")
        else:
            lines.append(f"x usermove {move}\n")
    return "".join(lines) + think + (f"x result {told}\n" if told else "")


# Black thinks about its second move when its flag falls, and answers too late.
FLAG = "1-0 {White wins on time}"
LATE = game("Slow", "black") + f"x result {FLAG}\nx force\nu bestmove b8c6\n" + END
# It answers in time for its bridge, which shows the move, and too late for its interface.
SHOWN = game("Late", "black") + f"u bestmove b8c6\nx result {FLAG}\n" + END
THREE = BOOT.format("Three") + "".join(
    f"x new\nu readyok\nx go\nu bestmove {move}\nx result {told}\n" for move, told in
    (("e2e4", "1-0 {Black resigns}"), ("d2d4", "0-1 {White resigns}"), ("c2c4", "1-0 {adjudged}"),
     ("b2b3", "*"))) + END
# (in a, the log of the other side is missing; its game is that of b)
LOGS = {"a/first": game("One", "white", "1-0 {Black resigns}") + END,
        "b/first": game("Three", "white") + END,
        "b/second": game("Four", "black", "0-1 {White resigns}") + END,
        "c/first": game("Fast", "white", FLAG) + END, "c/second": LATE,
        "d/first": game("Prompt", "white", FLAG) + END, "d/second": SHOWN, "many": THREE}

# A tournament with a folder for each engine: two give themselves the same, long name.
TWICE, OTHER = "A Long Name of an Engine 11.1", "Other"
GAMES = (("strong/1", TWICE, "other/1", OTHER, "1-0", "e2e4 e7e5 g1f3"),
         ("weak/1", TWICE, "other/2", OTHER, "0-1", "d2d4 d7d5 c2c4"),
         ("strong/2", TWICE, "weak/2", TWICE, "1-0", "c2c4 e7e5 b1c3"))
FOLDERS = {}
for WHITE_LOG, WHITE, BLACK_LOG, BLACK, RESULT, LINE in GAMES:
    FOLDERS[WHITE_LOG] = game(WHITE, "white", RESULT, moves=LINE.split()) + END
    FOLDERS[BLACK_LOG] = game(BLACK, "black", RESULT, moves=LINE.split()) + END


def folder_of(work, replay, name="results", logs=None):
    folder = work / name
    for name, session in (logs or LOGS).items():
        log = folder / f"{name}.log"
        log.parent.mkdir(parents=True, exist_ok=True)
        log.write_bytes(log_of(replay, session))
    return folder


def check_table(page, folder):
    """The partner of a log is that in its folder; a result counts that either log was told."""
    table_of(page, folder)
    cross = texts_in(page, "#cells tr")
    won, lost, none = "1 of 1 (+1 =0 −0)", "0 of 1 (+0 =0 −1)", "–"
    wants(cross == [["", "Three", "Four", "Fast", "Slow", "Prompt", "Late", "points"],
                    ["Three", none, lost, none, none, none, none, "0 of 1"],
                    ["Four", won, none, none, none, none, none, "1 of 1"],
                    ["Fast", none, none, none, won, none, none, "1 of 1"],
                    ["Slow", none, none, lost, none, none, none, "0 of 1"],
                    ["Prompt", none, none, none, none, none, won, "1 of 1"],
                    ["Late", none, none, none, none, lost, none, "0 of 1"]],
          f"the cross table of logs with equal moves: {cross}")
    plies = page.js("TABLE.games.map(game => game.plies)")
    wants(plies == [3, 3, 3, 3, 1, 1, 1, 1], f"the moves that both logs have: {plies}")
    facts = page.js("document.getElementById('facts').innerText.replace(/\\s+/g, ' ')")
    wants("games 8 " in facts and "lost on time 2 " in facts, f"the head of the table: {facts}")
    column = column_of(page, "results")
    found = {row[0]: row[column] for row in texts_in(page, "#logs tr")}
    wants(found == {"a/first.log": "1-0", "b/first.log": "*", "b/second.log": "0-1",
                    "c/first.log": "1-0", "c/second.log": "1-0",
                    "d/first.log": "1-0", "d/second.log": "1-0", "many.log": "1-0 × 2, 0-1, *"},
          f"the results of the logs: {found}")
    column = column_of(page, "lost on time")
    lost = {row[0]: row[column][:1] for row in texts_in(page, "#logs tr")}
    wants([it for it in lost if lost[it] != "0"] == ["c/second.log", "d/second.log"],
          f"lost on time: {lost}")


def check_forfeit(page, folder):
    """A game that was lost on time is named in its page, also beside the answer that came late."""
    page.open(page_of(folder / "c/second.log"))
    is_quiet(page, "a game lost on time")
    counts = page.js("['late-count', 'forfeit-count'].map(id => document.getElementById(id)"
                     ".textContent)")
    wants(counts == ["1", "1"], f"late, and lost on time: {counts}")
    late = page.js("document.querySelector('#late a').textContent")
    wants(late.endswith(", in a game lost on time"), f"the late answer: {late}")
    link = page.js("document.querySelector('#forfeits a').textContent")
    wants(link.startswith("game 1 (black), line "), f"the game that was lost on time: {link}")
    page.click("#forfeits a")
    wants(page.comes_to("document.getElementById('raw').textContent", f"x result {FLAG}"),
          "its link leads elsewhere")
    page.open(page_of(folder / "c/first.log"))
    wants(page.js("document.getElementById('forfeit-count').textContent") == "0",
          "the winner lost on time")


def check_folders(page, folder):
    """Engines of one name that have a folder each are two; no name covers the next cell."""
    table_of(page, folder)
    found = {row[0]: row[1:5] for row in texts_in(page, "#match-rows tr")}
    strong, weak = f"{TWICE} (strong)", f"{TWICE} (weak)"
    wants(found == {f"{OTHER} – {strong}": ["1", "0", "0", "1"],
                    f"{OTHER} – {weak}": ["1", "1", "0", "0"],
                    f"{strong} – {weak}": ["1", "1", "0", "0"]},
          f"a folder for each engine: the matches {found}")
    for width in (400, 1280):
        page.size(width)
        wide = page.js("[...document.querySelectorAll('#match-rows > tr > *, #cells > tr > *')]"
                       ".filter(e => e.scrollWidth > e.clientWidth).map(e => e.textContent)")
        wants(not wide, f"at a width of {width} these cover the next cell: {wide}")


def check_results(page, work, replay):
    folder = folder_of(work, replay)
    check_table(page, folder)
    check_forfeit(page, folder)
    check_folders(page, folder_of(work, replay, "folders", FOLDERS))
    say("results: of the partner in the folder, as told in either log, grouped, each game once; "
        "engines of one name with a folder each; "
        "a game lost on time beside its late answer")
