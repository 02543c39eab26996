"""The games of a folder, each once, and the cross table."""
from courses import POINTS, decided, lost_on_time, result_of
from pairing import OTHER, folder_of, games_of, pairs_in, side_in


def engine_of(row):
    return row["summary"]["engine"] or row["log"]


def places_of(pairs):
    """For the name of each engine the folders that have its logs alone, by the ends of their paths.

    They are those of matches whose logs are in two folders.
    """
    found = {}
    for pair in pairs:
        if folder_of(pair[0]) != folder_of(pair[1]):
            for row in pair:
                found.setdefault(engine_of(row), set()).add(end_of(folder_of(row)))
    return found


def end_of(path):
    return path.rpartition("/")[2]


def name_of(row, places):
    """The name of an engine, with that of its folder if logs of that name are in several."""
    name, place = engine_of(row), end_of(folder_of(row))
    several = places.get(name, ())
    return f"{name} ({place})" if len(several) > 1 and place in several else name


def names_of(pair, places):
    """The names of the engines, with those of their logs if they are alike."""
    names = [name_of(row, places) for row in pair]
    if names[0] != names[1]:
        return names
    files = [row["log"] for row in pair]
    ends = list(map(end_of, files))
    return [f"{name} ({file})" for name, file in zip(names, files if ends[0] == ends[1] else ends)]


def told_in(games):
    """What the interface told of a game, in the first of its logs that has a result."""
    told = [game["told"] for game in games if game.get("told")]
    return next((text for text in told if decided(text)), told[0] if told else None)


def game_entry(places, names):
    """A game, by its places: for each of its logs the number of the row, that in the log, the game.

    `given` is the number of moves before the first one of an engine: the opening that the
    interface set.
    """
    games = [game for _, _, game in places]
    told = told_in(games)
    by_side = {side_in(game): name for game, name in zip(games, names)}
    if len(names) == 2:
        # (of an engine that was never to move its own log tells no side)
        by_side.update({OTHER[side_in(game)]: name for game, name in zip(games, names[::-1])
                        if side_in(game)})
    return {"of": [[row, number] for row, number, _ in places], "told": told, "engines": names,
            "white": by_side.get("white", "?"), "black": by_side.get("black", "?"),
            "result": decided(told) or result_of(games[0]) or "*",
            "onTime": next((it for it in map(lost_on_time, games) if it), None),
            "plies": min(len(game["moves"]) for game in games),
            "given": min(game.get("given", 0) for game in games)}


def game_list(rows):
    """The games of all logs; one that two logs of a match have is there once."""
    numbers, pairs = {id(row): number for number, row in enumerate(rows)}, list(pairs_in(rows))
    places = places_of(pairs)
    partner, seconds = {id(one): two for one, two in pairs}, {id(two) for _, two in pairs}
    for row in rows:
        if not games_of(row) or id(row) in seconds:
            continue
        logs = [row, partner[id(row)]] if id(row) in partner else [row]
        names = names_of(logs, places) if len(logs) == 2 else [name_of(row, places)]
        for number, games in enumerate(zip(*map(games_of, logs))):
            yield game_entry([(numbers[id(log)], number, game) for log, game in zip(logs, games)],
                             names)


def is_whole(game):
    """Whether both logs of a game are there."""
    return len(game["of"]) == 2


def outcome(game, name):
    """What a game was to the engine of this name; open, too, if no log tells a side."""
    if game["result"] not in POINTS or game["white"] == "?":
        return "open"
    points = POINTS[game["result"]]
    return {1: "won", 0.5: "drawn", 0: "lost"}[points if game["white"] == name else 1 - points]


def cross_table(games):
    """The engines, and for two of them how often the first won, drew, lost, or had no result."""
    scores, names = {}, []
    for game in filter(is_whole, games):
        for name, other in (game["engines"], game["engines"][::-1]):
            if name not in names:
                names.append(name)
            cell = scores.setdefault((name, other), {"won": 0, "drawn": 0, "lost": 0, "open": 0})
            cell[outcome(game, name)] += 1
    return {"engines": names,
            "cells": [[scores.get((left, right)) for right in names] for left in names]}
