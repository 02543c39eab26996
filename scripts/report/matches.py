"""The matches of a folder: for two engines what their games say of them."""
import elo
from standings import is_whole, outcome

OUTCOMES = ("lost", "drawn", "won")


def pairs_of_games(games, moves_of, name):
    """Pairs of games with the same set opening and the sides changed, and what is left over."""
    waiting, pairs, count = {}, [], 0
    for game in games:
        start, moves = moves_of(game)
        opening = (start, *moves[:game["given"]])
        if opening == (None,):
            continue
        count += 1
        is_white = game["white"] == name
        others = waiting.setdefault((opening, not is_white), [])
        if others:
            pairs.append((others.pop(0), game))
        else:
            waiting.setdefault((opening, is_white), []).append(game)
    return pairs, count - 2 * len(pairs)


def counts_of_pairs(pairs, name):
    """How many pairs came to nothing, to half a point, and so on up to two."""
    counts = [0] * 5
    for pair in pairs:
        counts[sum(OUTCOMES.index(outcome(game, name)) for game in pair)] += 1
    return counts


def judgement(counts, games, test):
    """What the formulas say of these counts; pairs without a superiority have that of games."""
    difference, error = elo.elo_of(counts)
    superiority = elo.superiority(counts)
    if superiority is None:
        superiority = elo.superiority(games)
    found = {"elo": difference, "error": error, "superiority": superiority}
    return {**found, "test": elo.sequential_test(counts, **test)} if test else found


def match_of(names, games, moves_of, test):
    """The row of a match; its numbers are those of pairs if all its games but one are in pairs."""
    first = names[0]
    known = [it for it in games if outcome(it, first) != "open"]
    counts = [sum(outcome(it, first) == word for it in known) for word in OUTCOMES]
    pairs, left = pairs_of_games(known, moves_of, first)
    row = {"engines": names, "games": len(games), "counts": counts, "pairs": None,
           "lostOnTime": [sum(is_on_time(it, name) for it in games) for name in names]}
    if not known:
        return row
    row["score"] = elo.mean_of(counts)
    is_paired = pairs and 2 * len(pairs) + left == len(known) and left <= 1
    if is_paired:
        row["pairs"] = counts_of_pairs(pairs, first)
    return {**row, **judgement(row["pairs"] or counts, counts, test)}


def is_on_time(game, name):
    return bool(game["onTime"]) and game[game["onTime"]] == name


def match_table(rows, games, test):
    """The matches in the order of their first games."""
    def moves_of(game):
        row, number = game["of"][0]
        found = rows[row]["summary"]["games"][number]
        return found["start"], found["moves"]

    matches = {}
    for game in filter(is_whole, games):
        matches.setdefault(frozenset(game["engines"]), []).append(game)
    return [match_of(played[0]["engines"], played, moves_of, test) for played in matches.values()]
