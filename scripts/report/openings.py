"""The openings of a folder's games, by their first plies."""
from courses import POINTS

PLIES = 8


def opening_table(rows, games):
    """Each opening with its games, and how often White won, drew and lost; most played first."""
    table = {}
    for game in games:
        row, number = game["of"][0]
        found = rows[row]["summary"]["games"][number]
        key = (found["start"], *found["moves"][:min(PLIES, game["plies"])])
        entry = table.setdefault(key, {"start": key[0], "moves": list(key[1:]), "games": 0,
                                       "won": 0, "drawn": 0, "lost": 0})
        entry["games"] += 1
        if game["result"] in POINTS:
            entry[{1: "won", 0.5: "drawn", 0: "lost"}[POINTS[game["result"]]]] += 1
    return sorted(table.values(), key=lambda it: -it["games"])
