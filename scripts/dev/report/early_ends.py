"""Games that end early: an engine fails at its first move, in every way, and after every opening.

Each match is written by hand, as XBoard plays it, so what is wanted of it is known. Its second game
ends early; the others, the third one if the engine is there yet, are drawn.
"""
from basics import is_quiet, page_of, say, table_of, wants
from faults import BOOT, log_of
from tables import texts_in

FEN = "4k3/8/8/8/8/8/P7/4K3 b - - 0 1"
# what the interface sets up, who is on move then, and four moves from there: a drawn game has
# three, and the fourth is an answer that comes too late
OPENINGS = [("", "white", "e2e4 e7e5 g1f3 b8c6"),
            (f"x setboard {FEN}\n", "black", "e8d8 a2a3 d8c8 e1e2"),
            ("x usermove d2d4\nx usermove d7d5\n", "white", "c2c4 e7e6 b1c3 g8f6")]
DRAWN = "1/2-1/2 {Draw agreed}"
# what comes once the engine was asked, and whether it plays on; it loses on time in the first three
WAYS = {"is not ready": ("{result}u readyok\n", True),
        "thinks": ("{result}u bestmove {move}\n", True),
        "answers too late": ("u bestmove {move}\n{result}", True),
        "answers wrongly": ("u bestmove a1a1\n{result}", True),
        "ends": ("u.\n{result}", False), "has ended": ("{result}", False)}
ON_TIME = list(WAYS)[:3]
NAMES = {"white": "White", "black": "Black"}
OTHER = {"white": "black", "black": "white"}
# a game without a move, of whose second engine no log tells the side: its logs alone in a folder,
# with another one beside them, and with different results
TIME = "x new\nu readyok\nx force\n{}x result {} {{on time}}\nx quit\n"
ASKED = BOOT.format("Asked") + TIME.format("x go\n", "0-1")
NEVER = BOOT.format("Never asked") + TIME.format("", "0-1")
SINGLE = {"a/1": ASKED, "a/2": NEVER, "b/1": ASKED, "b/2": NEVER, "b/3": NEVER,
          "c/1": ASKED, "c/2": BOOT.format("Never asked") + TIME.format("", "1-0")}
SINGLE_GAMES = [["Asked", "Never asked", 2], ["Asked", "?", 1], ["?", "?", 1], ["?", "?", 1],
                ["Asked", "?", 1], ["?", "?", 1]]


class Match:
    """Two engines, of which the second one fails: at the first move of a game, or at the answer."""

    def __init__(self, number, opening, way, fails_first):
        self.right, self.early = f"Right {number}", f"Early {number}"
        self.set_up, self.first, self.moves = opening[0], opening[1], opening[2].split()
        self.way, self.fails_first = way, fails_first
        self.happens, self.goes_on = WAYS[way]
        self.side = self.first if fails_first else OTHER[self.first]
        winner = OTHER[self.side]
        reason = f"{NAMES[winner]} wins on time" if way in ON_TIME else "as it says itself"
        self.told = f"{'1-0' if winner == 'white' else '0-1'} {{{reason}}}"
        self.what = f"{self.early}, {self.side}, {way}, after {self.set_up.split()}"

    def moves_as(self, is_first, count):
        """So many moves, as one side is told of them or makes them."""
        lines = []
        for ply, move in enumerate(self.moves[:count]):
            is_own = (ply % 2 == 0) == is_first
            begins = "x go\n" if is_own and ply < 2 else ""
            lines.append(begins + f"u bestmove {move}\n" if is_own else f"x usermove {move}\n")
        return "".join(lines)

    def drawn_game(self, is_first):
        """A game in which both engines move, as one side has it."""
        late = "" if is_first else f"u bestmove {self.moves[3]}\n"
        return (f"x new\nu readyok\nx force\n{self.set_up}{self.moves_as(is_first, 3)}"
                f"x result {DRAWN}\n{late}")

    def session_of_right(self):
        """White in the first game, if White has the first move."""
        early = self.moves_as(True, 0 if self.fails_first else 1)
        return (self.drawn_game(True)
                + f"x new\nu readyok\nx force\n{self.set_up}{early}x result {self.told}\nx force\n"
                + (self.drawn_game(False) if self.goes_on else ""))

    def session_of_early(self):
        """Black in the first game; what its engine does in the second one stands in WAYS."""
        ply = 0 if self.fails_first else 1
        early = self.moves_as(False, ply) + "x go\n" + self.happens.format(
            move=self.moves[ply], result=f"x result {self.told}\nx force\n")
        gone = "u.\n" if self.way == "has ended" else ""
        ready = "" if gone or self.way == "is not ready" else "u readyok\n"
        return (f"{self.drawn_game(False)}{gone}x new\n{ready}x force\n{self.set_up}{early}"
                + (self.drawn_game(True) if self.goes_on else ""))

    def logs(self, replay):
        for name, session in ((self.right, self.session_of_right()),
                              (self.early, self.session_of_early())):
            yield log_of(replay, f"{BOOT.format(name)}{session}x quit\n", "ResignWhenGone=true",
                         "ResultReasons=true")

    def wanted(self):
        """White, Black, what was told, and the moves that both logs have."""
        given = self.set_up.count("usermove")
        sides = [(OTHER[self.first], DRAWN, 3), (self.side, self.told, 1 - self.fails_first),
                 (self.first, DRAWN, 3)]
        return [[*((self.early, self.right) if side == "white" else (self.right, self.early)),
                 told, given + plies] for side, told, plies in sides[:2 + self.goes_on]]


def matches():
    ways = [(opening, way, fails_first) for opening in OPENINGS for way in WAYS
            for fails_first in (True, False)]
    return [Match(number, *it) for number, it in enumerate(ways, 1)]


def check_match(match, games, row):
    """Each game is there once, with both players; the match has its row."""
    wants(games == match.wanted(), f"{match.what}: the games {games}, not {match.wanted()}")
    drawn, lost = (2, 1) if match.goes_on else (1, 1)
    on_time = "0 – 1" if match.way in ON_TIME else "0 – 0"
    found = row and [*row[1:6], row[10]]
    wanted = [str(drawn + lost), "1", str(drawn), "0", "0", on_time]
    wants(found == wanted, f"{match.what}: the row {found}, not {wanted}")


def check_early_ends(page, work, replay):
    folder, played = work / "early ends", matches()
    for number, match in enumerate(played, 1):
        place = folder / f"{number:02}"
        place.mkdir(parents=True)
        for name, log in zip("ab", match.logs(replay)):
            (place / f"{name}.log").write_bytes(log)
    rows = table_of(page, folder)
    unlawful = page.js("LOGS.filter(row => !isGood(row, 'check') || !isGood(row, 'talk'))"
                       ".map(row => row.log)")
    wants(len(rows) == 2 * len(played) and not unlawful, f"{len(rows)} logs, unlawful: {unlawful}")
    games = page.js("TABLE.games.map(game => [game.white, game.black, game.told, game.plies,"
                    " game.of.length])")
    found = {row[0]: row for row in texts_in(page, "#match-rows tr")}
    for match in played:
        own = [it[:4] for it in games if match.early in it[:2] and it[4] == 2]
        check_match(match, own, found.get(f"{match.right} – {match.early}"))
    wants(len(games) == sum(len(match.wanted()) for match in played),
          f"{len(games)} games in all early ends: {[it for it in games if it[4] != 2]}")
    lost = sum(match.way in ON_TIME for match in played)
    facts = page.js("document.getElementById('facts').innerText.replace(/\\s+/g, ' ')")
    wants(f"lost on time {lost} " in facts, f"{lost} games lost on time: {facts}")
    check_page(page, folder)
    check_single(page, work, replay)
    say(f"games that end early: {len(played)} matches, {len(games)} games, each once with both "
        "players")


def check_page(page, folder):
    """The page of an engine that lost on time before its first move tells the game and its side."""
    page.open(page_of(folder / "01/b.log"))
    is_quiet(page, "a game without a move")
    link = page.js("document.querySelector('#forfeits a')?.textContent")
    wants(link and link.startswith("game 2 (white), line "), f"a game without a move: {link}")
    text = page.js("document.querySelectorAll('#moves p')[1].textContent")
    wants(text == "Game 2, the engine is white: * (the interface: 0-1 {Black wins on time})",
          f"a game without a move in its page: {text}")


def check_single(page, work, replay):
    """A log that tells no side at all is of a match if it and its partner are alone in a folder."""
    folder = work / "single games"
    for name, session in SINGLE.items():
        log = folder / f"{name}.log"
        log.parent.mkdir(parents=True, exist_ok=True)
        log.write_bytes(log_of(replay, session))
    table_of(page, folder)
    found = page.js("TABLE.games.map(game => [game.white, game.black, game.of.length])")
    wants(found == SINGLE_GAMES, f"single games: {found}")
    row = texts_in(page, "#match-rows tr")
    wants([it[:5] for it in row] == [["Asked – Never asked", "1", "0", "0", "1"]],
          f"single games: the matches {row}")
    opening = texts_in(page, "#game-rows tr")[0][6]
    wants(opening == "no move", f"the opening of a game without a move: {opening}")
