"""The games of a log as its lines tell of them: their moves, who had which side, what was told."""
import re

POINTS = {"1-0": 1, "0-1": 0, "1/2-1/2": 0.5}
ON_TIME = re.compile(r"\bon time\b|\btime forfeit\b|\bflag fell\b", re.IGNORECASE)
STANDARD = "rnbqkbnr/pppppppp/8/8/8/8/PPPPPPPP/RNBQKBNR w KQkq - 0 1"
OTHER = {"w": "b", "b": "w"}
SIDES = {"w": "white", "b": "black"}


class Task:
    """What the interface has the engine do, by its orders alone: a side to play, `analyse`, none.

    The engine may have no word of it: a search waits until it is ready.
    """

    def __init__(self):
        self.does = "b"

    def hear(self, word, on_move):
        """Takes an order; `on_move` is the side whose turn it is."""
        if word == "go":
            self.does = on_move
        elif word == "playother":
            self.does = OTHER[on_move]
        elif word == "new" and self.does != "analyse":
            self.does = "b"
        elif word == "analyze":
            self.does = "analyse"
        elif word in ("force", "result") or (word == "exit" and self.does == "analyse"):
            self.does = None


class Course:
    """One game as it went on in a log; `called` are the sides that the engine was to move for."""

    def __init__(self, start):
        self.start = None if start == STANDARD else start
        self.lines, self.called = [], set()
        self.told, self.told_at = None, None

    def tell(self, number, text):
        """A result that the interface told; an open one takes the place of open ones alone."""
        known = decided(self.told)
        if text and (decided(text) or not known):
            self.told, self.told_at = text, number

    def take_back(self, word):
        del self.lines[-1 if word == "undo" else -2:]

    def counts(self):
        """Whether it is a game: it has moves, or its result was told before the first one."""
        return bool(self.lines or decided(self.told))


def decided(text):
    """The result in a text, if there is one."""
    word = text.split(" ")[0] if text else None
    return word if word in POINTS else None


def turn_in(position):
    """The side on move in a position, White's if there is none."""
    return (position or " w").split(" ")[1]


def courses(reading, positions):
    """The games one after the other.

    A game goes on by each line that leaves a position, back by `undo` and `remove`, and is over at
    a `new` or `setboard` that is not refused.
    """
    left, task = dict(positions), Task()
    position = left.get(0)
    course = Course(position)
    for number in sorted({*left, *reading.words} - {0}):
        position = left.get(number, position)
        text = reading.words.get(number, "")
        word = text.split(None, 1)[0] if text else ""
        if word == "result":
            course.tell(number, text[7:])
        elif word in ("new", "setboard") and (number in left or number not in reading.refused):
            yield course
            course = Course(position)
        elif word in ("undo", "remove") and number in left:
            course.take_back(word)
        elif number in left:
            course.lines.append(number)
        task.hear(word, turn_in(position))
        if task.does == turn_in(position):
            course.called.add(task.does)
    yield course


def side_of(course, start, answers):
    """Which side the engine had, by the moves that it showed, else by when it was to move."""
    first = turn_in(start)
    turns = (first, OTHER[first])
    sides = {turns[n % 2] for n, number in enumerate(course.lines) if number in answers}
    found = sides or course.called
    return SIDES[next(iter(found))] if len(found) == 1 else ""


def given_in(course, answers):
    """How many moves came before the first one of the engine."""
    own = (n for n, number in enumerate(course.lines) if number in answers)
    return next(own, len(course.lines))


def with_courses(games, reading, positions):
    """The games with what was told, and with the lines of their moves if both are told of alike.

    A game without a move is one of them if its result was told.
    """
    found = [it for it in courses(reading, positions) if it.counts()]
    played = [it for it in found if it.lines]
    fits = len(played) == len(games)
    for game, course in zip(games, played):
        put_course(game, course, reading.answers, fits)
    if not fits:
        return games
    told = iter(games)
    return [next(told) if it.lines else unplayed(it) for it in found]


def put_course(game, course, answers, fits):
    """Puts to a game what its course tells; `fits` says that there are as many of both."""
    has_moves = len(course.lines) == len(game["moves"])
    if has_moves:
        game.update(lines=course.lines, given=given_in(course, answers),
                    side=side_of(course, game["start"], answers), asked=bool(course.called))
    if has_moves or fits:
        game.update(told=course.told, toldAt=course.told_at)


def unplayed(course):
    """A game whose result was told before its first move."""
    return {"start": course.start, "moves": [], "result": "*", "lines": [], "given": 0,
            "side": side_of(course, course.start, ()), "asked": bool(course.called),
            "told": course.told, "toldAt": course.told_at}


def result_of(game):
    """The result that the interface told, else that of the board, without its comment."""
    return decided(game.get("told")) or decided(game["result"])


def lost_on_time(game):
    """Which side lost on time, by the comment of the told result."""
    told = game.get("told") or ""
    if not ON_TIME.search(told):
        return None
    return {"1-0": "black", "0-1": "white"}.get(decided(told))
