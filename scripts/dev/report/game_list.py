"""The games in a table: their list, PGN, openings, and the numbers of both engines in plots.

What is wanted is written by hand beside the session of each side.
"""
import re

from basics import ask, is_installed, is_quiet, page_of, say, table_of, wants
from faults import BOOT, log_of
from tables import texts_in

# 1. e4 e5 2. Qh5 Nc6 3. Bc4 Nf6 4. Qxf7#, then a game from a position, lost on time
MATE = ("e2e4", "e7e5", "d1h5", "b8c6", "f1c4", "g8f6", "h5f7")
FEN = "4k3/8/8/8/8/8/4P3/4K3 b - - 3 40"
# what each says of its own moves: the clock before it, in hundredths of a second, and its thinking
SAID = {"e2e4": (6000, "depth 5 score cp 30 time 100 nodes 200000 nps 1990000"),
        "e7e5": (5900, "depth 6 score cp -25 time 200 nodes 100000"),
        "d1h5": (5800, "depth 5 score mate 2 time 50 nodes 10"),
        "b8c6": (5700, "depth 6 score cp -10 time 0 nodes 9"),
        "f1c4": (5600, "string nothing"),
        "g8f6": (5500, "depth 6 score mate -1 time 20 nodes 10"),
        "h5f7": (5400, "depth 1 score cp 900 multipv 2"),
        "e8e7": (5300, "depth 2 score cp -150 time 10 nodes 20")}


def session(name, is_one):
    """One is White in the first game, and White in the second, too."""
    lines = [BOOT.format(name), "x new\nu readyok\nx force\n"]
    for ply, move in enumerate(MATE):
        lines.append(turn(move, (ply % 2 == 0) == is_one, ply < 2))
    lines.append("x result 1-0 {White mates}\nx new\nu readyok\nx force\n" f"x setboard {FEN}\n")
    lines.append("x usermove e8e7\nx go\n" if is_one else turn("e8e7", True, True))
    # (the one whose flag fell answers too late)
    lines.append("x result 0-1 {Black wins on time}\n" + ("u bestmove e2e4\n" if is_one else ""))
    return "".join(lines) + "x quit\nu.\n"


def turn(move, is_own, is_first):
    if not is_own:
        return f"x time {clock_of(move) + 7}\nx otim {clock_of(move)}\nx usermove {move}\n"
    clocks = f"x time {clock_of(move)}\nx otim {clock_of(move) - 3}\n"
    # (a move that answers another has its clocks before that one)
    return (clocks + "x go\n" if is_first else "") + f"u info {SAID[move][1]} pv {move}\n" \
        f"u bestmove {move}\n"


def clock_of(move):
    return SAID[move][0]


PGN = """[Event "?"]
[Site "?"]
[Date "????.??.??"]
[Round "1"]
[White "One \\\\ \\"1\\""]
[Black "Two"]
[Result "1-0"]

1. e4 e5 2. Qh5 Nc6 3. Bc4 Nf6 4. Qxf7# {White mates} 1-0

[Event "?"]
[Site "?"]
[Date "????.??.??"]
[Round "2"]
[White "One \\\\ \\"1\\""]
[Black "Two"]
[Result "0-1"]
[SetUp "1"]
[FEN "4k3/8/8/8/8/8/4P3/4K3 b - - 3 40"]
[Termination "time forfeit"]

40... Ke7 {Black wins on time} 0-1

"""
ONE = 'One \\ "1"'
GAMES = [["1", ONE, "Two", "1-0 {White mates}", "", "7",
          "1. e4 e5 2. Qh5 Nc6 3. Bc4 Nf6 4. Qxf7#"],
         ["2", ONE, "Two", "0-1 {Black wins on time}", f"{ONE} lost", "1", f"{FEN}: 40... Ke7"]]
OPENINGS = [["1. e4 e5 2. Qh5 Nc6 3. Bc4 Nf6 4. Qxf7#", "1", "1", "0", "0", "100.0 %"],
            [f"{FEN}: 40... Ke7", "1", "0", "0", "1", "0.0 %"]]
# from White's side, of each engine's own moves; a mate in N is N below 100,000
SCORES = [[30, None, 99998, None, None, None, None],
          [None, 25, None, 10, None, 99999, None]]


def check_list(page):
    # (behind the number of a game stand its buttons)
    rows = [[row[0].partition(" ")[0], *row[1:7]] for row in texts_in(page, "#game-rows tr")]
    wants(rows == GAMES, f"the list of games: {rows}")
    wants(texts_in(page, "#opening-rows tr") == OPENINGS,
          f"the openings: {texts_in(page, '#opening-rows tr')}")
    scores = page.js("TABLE.games[0].of.map(place => gameIn(place).scores)")
    wants(scores == SCORES, f"the scores of both engines: {scores}")
    page.js("document.querySelector('#game-rows tr').hidden = true")
    page.click("#cells a")
    shown = page.js("[...document.querySelectorAll('#game-rows tr')].filter(e => !e.hidden).length")
    wants(page.js("document.querySelector('#games details').open") and shown == 2,
          f"the cross table leads to {shown} games")
    page.js("[...document.querySelectorAll('#game-rows button')]"
            ".find(e => e.textContent === 'scores').click()")
    paths = page.js("[...document.querySelectorAll('#duel svg > path')]"
                    ".filter(e => e.getAttribute('d').includes('L')).length")
    names = page.js("document.querySelector('#duel .key').innerText.trim()")
    wants(paths == 2 and ONE in names and "Two" in names,
          f"both engines in a plot: {paths} lines, {names}")


def check_pgn(page, work, folder):
    """The text of the games, as a file that is saved, and read by another program."""
    text = page.js("pgnOfAll()")
    wants(text == PGN, f"the games as PGN: {text}")
    place = work / "saved"
    place.mkdir()
    page.ask_by(None, "Browser.setDownloadBehavior",
                {"behavior": "allow", "downloadPath": str(place)})
    page.js("document.querySelector('#games .tools .pgn').click()")
    saved = wait_for(page, place / "games.pgn")
    wants(saved == PGN.encode(), f"the file that is saved: {saved}")
    is_quiet(page, "games as PGN")
    page.open(page_of(folder / "one.log"))
    wants(page.js("pgnOfLog()") == PGN.replace('[Black "Two"]', '[Black "?"]'),
          f"the games of one log as PGN: {page.js('pgnOfLog()')}")
    if is_installed("pgn-extract"):
        ran = ask("pgn-extract", "-s", "-Wlalg", data=PGN.encode())
        moves = re.sub(rb"\[.*?\]\s|\{.*?\}|\d+\.+", b"", ran.stdout).split()
        wants(moves == [*(it.encode() for it in MATE[:-1]), b"h5f7#", b"1-0", b"e8e7", b"0-1"],
              f"pgn-extract reads {moves}")


def wait_for(page, path):
    """The bytes of a file, once it is there."""
    for _ in range(100):
        if path.exists():
            return path.read_bytes()
        page.js("new Promise(done => setTimeout(done, 50))")
    return None


def check_plots(page):
    """Clocks and nodes a second of One's moves, in the page of its log."""
    found = page.js("shownMoves.map(move => [move.clock, move.otherClock, move.speed])")
    # (its second move answers Black's first, with whose clocks it came)
    wants(found == [[6000, 5997, 1990000], [5907, 5900, 200], [5707, 5700, None],
                    [5507, 5500, None]], f"clocks and nodes a second: {found}")
    heads = page.js("[...document.querySelectorAll('#plots h2')].map(e => e.textContent)")
    for head in ("Nodes a second", "Clock left"):
        wants(any(it.startswith(head) for it in heads), f"no plot of {head}: {heads}")
    said = page.js("clockText(5907) + ' ' + clockText(600001) + ' ' + clockText(-1)")
    wants(said == "0:59.07 100:00.01 −0:00.01", f"clocks in words: {said}")


def check_games(page, work, replay):
    folder = work / "games"
    folder.mkdir()
    for log, name, is_one in (("one", ONE, True), ("two", "Two", False)):
        (folder / f"{log}.log").write_bytes(log_of(replay, session(name, is_one)))
    table_of(page, folder)
    check_list(page)
    check_pgn(page, work, folder)
    check_plots(page)
    say(f"games: {len(GAMES)} in the list, as PGN, their openings, scores of both engines, clocks "
        "and nodes a second")
