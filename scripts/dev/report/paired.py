"""Matches in the table: with set openings that come twice, and without; their sequential test.

Each opening is a position that the interface sets, in which White has one move to make; the results
are told, so what is wanted is counted by hand.
"""
import elo_values
from basics import say, table_of, wants
from faults import BOOT, log_of
from tables import texts_in

FENS = [f"4k3/8/8/8/8/8/{file}/4K3 w - - 0 1" for file in ("P7", "1P6", "2P5", "3P4", "4P3", "5P2")]
# the same with the king elsewhere, so that the two games with it are no pair
OTHER = "4k3/8/8/8/8/8/5P2/3K4 w - - 0 1"
MOVES = ["a2a3", "b2b3", "c2c3", "d2d3", "e2e3", "f2f3"]
# two games an opening: what the engine New made of the one as White, and of the other as Black
PAIRS = [("1-0", "0-1"), ("1-0", "1/2-1/2"), ("1/2-1/2", "1/2-1/2"), ("1-0", "1-0"),
         ("0-1", "0-1"), ("1/2-1/2", "1-0")]
# in pairs: 2, 3/2, 1, 1, 1, 1/2; in games: +5 =4 -3
OF_PAIRS, OF_GAMES = [0, 1, 3, 1, 1], [3, 4, 5]
# New wins all
ALL_WON = [("1-0", "0-1")] * len(PAIRS)


def session(name, is_new, pairs):
    """A side of the twelve games: in the first of a pair New is White."""
    lines = [BOOT.format(name)]
    for fen, move, pair in zip(FENS, MOVES, pairs):
        for number, result in enumerate(pair):
            lines.append(f"x new\nu readyok\nx force\nx setboard {fen}\n")
            if (number == 0) == is_new:
                lines.append(f"x go\nu bestmove {move}\n")
            else:
                lines.append(f"x usermove {move}\n")
            lines.append(answer_of(is_new, number) + f"x result {result}\n")
    return "".join(lines) + "x quit\nu.\n"


def answer_of(is_new, number):
    """Black's answer, by its engine, which is to move, or told to the other one."""
    told, own = "x force\nx usermove e8d8\n", "x go\nu bestmove e8d8\n"
    return told if (number == 0) == is_new else own


def row_in(page):
    heads = texts_in(page, "#matches thead tr")[0]
    rows = texts_in(page, "#match-rows tr")
    wants(len(rows) == 1, f"{len(rows)} matches, not one")
    return dict(zip(heads, rows[0])) if rows else {}


def check_row(page, counts, counted, wanted):
    """The numbers of a row, and that they are the formulas' of these counts."""
    row, match = row_in(page), page.js("TABLE.matches[0]")
    for head, text in wanted.items():
        wants(row.get(head) == text, f"{counted}: {head}: {row.get(head)}, not {text}")
    elo = elo_values.elo
    difference, error = elo.elo_of(counts)
    found = [match["elo"], match["error"], match["superiority"], match["test"]["ratio"]]
    wants(found == [difference, error, elo.superiority(counts),
                    elo.likelihood_ratio(counts, 0, 50)], f"{counted}: {found}")


def check_all_won(page, folder, replay):
    """Pairs that all came to the same have no error; the superiority is that of games."""
    put_logs(folder, replay, ALL_WON)
    table_of(page, folder)
    # 12 / sqrt(12) is 3.46, where the normal distribution has 0.9997
    wanted = {"Elo difference": "+∞", "LOS": "100.0 %", "counted by": "pairs 0 0 0 0 6"}
    found = {head: row_in(page).get(head) for head in wanted}
    wants(found == wanted, f"a match in which all is won: {found}")
    superiority = page.js("TABLE.matches[0].superiority")
    wants(superiority and abs(superiority - 0.99973) < 1e-5,
          f"its superiority is {superiority}")


def put_logs(folder, replay, pairs):
    for name, is_new in (("New", True), ("Old", False)):
        (folder / f"{name}.log").write_bytes(log_of(replay, session(name, is_new, pairs)))


def check_matches(page, work, replay):
    folder = work / "paired"
    folder.mkdir()
    put_logs(folder, replay, PAIRS)
    table_of(page, folder, "--sprt", "0", "50", "--alpha", "0.1", "--beta", "0.2")
    wanted = {"match": "New – Old", "games": "12", "won": "5", "drawn": "4", "lost": "3",
              "no result": "0", "score": "7 of 12 (58.3 %)", "lost on time": "0 – 0"}
    # 7 of 12 is 400 log10(7 / 5); ln(0.2 / 0.9) and ln(0.8 / 0.1)
    check_row(page, OF_PAIRS, "in pairs", {**wanted, "counted by": "pairs " + " ".join(
        map(str, OF_PAIRS))})
    row = row_in(page)
    wants(row["Elo difference"].startswith("+58.5 ± "), f"the difference: {row['Elo difference']}")
    test = row["SPRT of 0 against 50"]
    wants(test.startswith("goes on: LLR ") and test.endswith("in (−1.50, +2.08)"),
          f"the sequential test: {test}")
    # without the last set position two games begin with their own moves: all are counted singly
    for log in folder.glob("*.log"):
        text = log.read_text().replace(f"x setboard {FENS[5]}\n", f"x setboard {OTHER}\n", 1)
        log.write_text(text)
    table_of(page, folder, "--sprt", "0", "50")
    check_row(page, OF_GAMES, "in games", {**wanted, "counted by": "games"})
    check_all_won(page, folder, replay)
    say("matches: in pairs of games with set openings, in games, with a sequential test")
