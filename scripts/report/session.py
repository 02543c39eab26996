"""All that a page shows of a log."""
import courses
from answers import Answer, collected, games_in, judged, positions_in, revived, written_again
from log_lines import Log, text_of
from reading import Reading

MATED = 100_000


def is_late(search):
    """A search for a move that was stopped, has ended and shows no move."""
    has_ended = search["to"] is not None and not search["shown"]
    return search["kind"] == "move" and search["stopped"] and has_ended


def is_given_up(search):
    """A search that pondering or an analysis ended without a move."""
    return search["kind"] != "move" and search["to"] is not None and not search["shown"]


def unanswered_in(reading, searches):
    """What the engine owed when the log ended: the handshake, or the `bestmove` of a search."""
    waits = [{"line": number, "what": f"no {text_of(word)}"} for word,
             number in reading.waits.items()]
    owed = [{"line": it["from"], "what": "no bestmove"} for it in searches
            if it["to"] is None and (it["kind"] == "move" or it["stopped"])]
    return waits + owed


def is_shown(search):
    return search["kind"] == "move" and search["shown"]


def thinking_of(reading, searches):
    """For the line of each shown move what the engine said last, and the clocks before it."""
    found, last = {}, 0
    for it in filter(is_shown, searches):
        said = reading.answers.get(it["to"], (None,) * 5)
        found[it["to"]] = [*said, *reading.clock_before(it["to"], last)]
        last = it["to"]
    return found


def white_score(said, black):
    """A score from White's side, in hundredths of a pawn; a mate in N is N below MATED."""
    score, mate = said[:2]
    if mate is not None:
        score = MATED - mate if mate > 0 else -MATED - mate
    return -score if black and score is not None else score


def put_scores(games, thinking):
    """Puts to each game the scores that the engine gave its own moves."""
    for game in games:
        first = (game["start"] or " w").split(" ")[1] == "b"
        scores = [white_score(thinking[line], (n + first) % 2) if line in thinking else None
                  for n, line in enumerate(game.get("lines", ()))]
        if any(it is not None for it in scores):
            game["scores"] = scores


def forfeits_in(games):
    """The games that were lost on time: which, by whom, and where the interface said so."""
    return [{"game": number, "line": game["toldAt"], "side": side, "own": is_own(game, side)}
            for number, game in enumerate(games, 1) if (side := courses.lost_on_time(game))]


def is_own(game, side):
    """Whether the engine had this side; not if it was never to move, and none if that is unknown."""
    if game.get("side"):
        return game["side"] == side
    return None if game.get("asked", True) else False


def late_on_time(late, games):
    """The late answers whose search belongs to a game that was lost on time."""
    ends = [game for game in games if game.get("toldAt")]
    for search in late:
        game = next((it for it in ends if it["toldAt"] >= search["from"]), None)
        if game and courses.lost_on_time(game):
            yield search["to"]


def asked(log, reading, kind):
    """The verdicts of `replay`, the searches, positions and games."""
    verdicts, searches, positions, games = [], [], [], []
    if kind == "bridge":
        verdicts.append(Answer(["check"], log).verdict())
        positions = collected(["positions"], log, positions_in)[1]
    if kind in ("bridge", "tap"):
        talk, searches = judged(log, kind)
        verdicts.append(talk.verdict())
    if kind == "bridge":
        games = courses.with_courses(collected(["games"], log, games_in)[1], reading, positions)
    if kind == "driver":
        verdicts.append(written_again(log, ["drive"]))
    if kind == "reviver":
        verdicts.append(revived(log, reading.lives))
    return verdicts, searches, positions, games


def session_of(log, name):
    """The summary of a log, and the data of its page."""
    reading = Reading(log)
    kind = reading.kind()
    verdicts, searches, positions, games = asked(log, reading, kind)
    is_bridge = kind == "bridge"
    thinking = thinking_of(reading, searches)
    put_scores(games, thinking)
    # a tap's log does not have what the interface was shown, so nothing in it is late
    late = [it for it in searches if is_bridge and is_late(it)]
    summary = {
        "name": name, "kind": kind, "torn": log.torn, "engine": reading.engine(),
        "settings": reading.settings, "verdicts": verdicts, "count": reading.count, "games": games,
        "shown": reading.shown["X move " if is_bridge else "X bestmove "],
        "late": [it["to"] for it in late], "lateOnTime": list(late_on_time(late, games)),
        "forfeits": forfeits_in(games),
        "engineFaults": reading.faults if is_bridge else [],
        "unanswered": unanswered_in(reading, searches) if kind in ("bridge", "tap") else [],
        "givenUp": sum(is_given_up(it) for it in searches) if is_bridge else 0,
        "searches": {it: sum(search["kind"] == it for search in searches)
                     for it in ("move", "ponder", "analyse")},
    }
    return summary, {"searches": searches, "positions": positions, "thinking": thinking}
