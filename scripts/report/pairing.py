"""Which two logs are of one match: they have the same games, and their engines different sides.

A move that came when the game was over, as after the flag fell, is in the log of its engine alone.
Of an engine that was never to move in a game the log does not tell the side; the partner's does.
"""
import collections

from courses import decided, turn_in

OTHER = {"white": "black", "black": "white"}


def folder_of(row):
    return row["log"].rpartition("/")[0]


def games_of(row):
    return (row["summary"] or {}).get("games") or []


def side_in(game):
    return game.get("side") or ""


def is_own(game, ply, side):
    """Whether a move of a game is one of this side."""
    first = "black" if turn_in(game["start"]) == "b" else "white"
    return side == (OTHER[first] if ply % 2 else first)


def contradict(one, two):
    """Whether both logs of a game tell the same side, or different results."""
    results = {decided(game.get("told")) for game in (one, two)} - {None}
    return len(results) > 1 or (side_in(one) and side_in(one) == side_in(two))


def is_same(one, two):
    """Whether two logs tell of one game; a last move that came too late may be in its engine's."""
    if one["start"] != two["start"] or contradict(one, two):
        return False
    short, long = sorted((one, two), key=lambda it: len(it["moves"]))
    count = len(short["moves"])
    if long["moves"][:count] != short["moves"]:
        return False
    extra = len(long["moves"]) - count
    return extra == 0 or (extra == 1 and is_own(long, count, side_in(long)))


def are_same(one, two):
    """Whether two logs have the same games."""
    some, others = games_of(one), games_of(two)
    return len(some) == len(others) and all(map(is_same, some, others))


# LOGS IN PAIRS


def is_told(row):
    """Whether a log tells the side in each of its games."""
    return all(map(side_in, games_of(row)))


def of_told(rows, key_of):
    """Pairs of logs that tell the side in each game."""
    waiting = {}
    for row in filter(is_told, rows):
        sides = tuple(map(side_in, games_of(row)))
        key = (key_of(row), *(game["start"] for game in games_of(row)))
        others = waiting.get((key, tuple(OTHER[it] for it in sides)), [])
        other = next((it for it in others if are_same(it, row)), None)
        if other:
            others.remove(other)
            yield other, row
        else:
            waiting.setdefault((key, sides), []).append(row)


def of_untold(rows, key_of):
    """Pairs of logs of which one does not tell the side in some game, but both do in another."""
    waiting = {}
    for row in rows:
        untold, told = waiting.setdefault((key_of(row), len(games_of(row))), ([], []))
        others = untold if is_told(row) else untold + told
        other = next((it for it in others if have_sides(it, row) and are_same(it, row)), None)
        if other:
            (told if is_told(other) else untold).remove(other)
            yield other, row
        else:
            (told if is_told(row) else untold).append(row)


def have_sides(one, two):
    """Whether there is a game in which both logs tell the side."""
    return any(side_in(a) and side_in(b) for a, b in zip(games_of(one), games_of(two)))


def of_two(rows, folders):
    """The only two logs of a folder, if one of them tells a side."""
    left = collections.defaultdict(list)
    for row in rows:
        left[folder_of(row)].append(row)
    for folder, logs in left.items():
        is_pair = len(logs) == folders[folder] == 2 and are_same(*logs)
        if is_pair and any(side_in(game) for row in logs for game in games_of(row)):
            yield logs[0], logs[1]


def pairs_in(rows):
    """The two logs of each match: those in one folder first, then those of different ones."""
    left = [row for row in rows if games_of(row)]
    folders = collections.Counter(map(folder_of, left))

    def is_anywhere(_):
        return ""

    for find, key in ((of_told, folder_of), (of_untold, folder_of), (of_two, folders),
                      (of_told, is_anywhere), (of_untold, is_anywhere)):
        taken = set()
        for pair in find(left, key):
            taken.update(map(id, pair))
            yield pair
        left = [row for row in left if id(row) not in taken]
