"""One reading of a log: its marks, and the lines that a page counts or leads to.

Nothing here knows the rules of chess: positions, games, searches and verdicts are those of
`replay`.
"""
import bisect
import re

from log_lines import text_of
from thinking import Thinking

HEADER = re.compile(rb"#[23] ")
NAME = re.compile(rb'myname="([^"]*)"')
CLOCK = re.compile(rb"x (time|otim) +(-?\d{1,9})\s*$")
ILLEGAL = b"X tellusererror Illegal position"
FAULTS = {b"X tellusererror Illegal move by engine": "illegal move",
          b"X tellusererror Engine ended": "engine ended"}
COURSE_WORDS = {b"new", b"setboard", b"undo", b"remove", b"result", b"go", b"playother", b"force",
                b"analyze", b"exit"}
ENGINE_WORDS = (b"id", b"uciok", b"readyok", b"bestmove", b"info", b"option")


def word_in(line):
    """The first word of an engine's line that says something; those before it say nothing."""
    return next((word for word in line.split()[1:] if word in ENGINE_WORDS), b"")


class Reading:
    """What stands in the lines of a log, in the order in which they are read."""

    def __init__(self, log):
        self.count, self.letters, self.settings = 0, set(), ""
        self.marks, self.names, self.own_names, self.lives = set(), [], [], 0
        self.shown = {"X move ": 0, "X bestmove ": 0}
        self.faults, self.words, self.refused = [], {}, set()
        self.answers, self.clocks, self.waits = {}, [], {}
        self.thinking = Thinking()
        by_letters = {b"u ": self.from_engine, b"x ": self.from_interface,
                      b"X ": self.to_interface, b"U ": self.to_engine}
        for number, line in enumerate(log.lines(), 1):
            self.count = number
            letters = line[:2]
            if letters in by_letters:
                by_letters[letters](number, line)
            else:
                self.lives += line == b"u!"
                if number == 1 and HEADER.match(line):
                    self.settings = text_of(line)[3:]
            self.letters.add(letters)

    def from_engine(self, number, line):
        if line.startswith(b"u info "):
            self.thinking.hear(line)
        elif line.startswith(b"u id name ") and not self.names:
            self.names.append(text_of(line[10:]))
        elif line.startswith(b"u feature ") and not self.own_names and (it := NAME.search(line)):
            self.own_names.append(text_of(it[1]))
        elif (word := word_in(line)) == b"bestmove":
            self.answers[number] = self.thinking.answer()
        else:
            self.waits.pop(word, None)

    def from_interface(self, number, line):
        word = line[2:].split(None, 1)[:1]
        if not word:
            return
        if word[0] in COURSE_WORDS:
            self.words[number] = text_of(line[2:].strip())
        elif it := CLOCK.match(line):
            self.clocks.append((number, it[1] == b"time", int(it[2])))
        elif line == b"x uci":
            self.marks.add(line)

    def to_interface(self, number, line):
        if line.startswith(b"X move "):
            self.shown["X move "] += 1
        elif line.startswith(b"X bestmove "):
            self.shown["X bestmove "] += 1
        elif line in FAULTS:
            self.faults.append({"line": number, "what": FAULTS[line]})
        elif line == ILLEGAL:
            self.refused.add(number - 1)

    def to_engine(self, number, line):
        if line.startswith(b"U go"):
            self.thinking = Thinking()
        elif line == b"U uci":
            self.waits[b"uciok"] = number
        elif line == b"U isready":
            self.waits[b"readyok"] = number
        elif line == b"U xboard":
            self.marks.add(line)

    def kind(self):
        """Which program wrote the log, by its marks."""
        if self.settings:
            return "bridge"
        if b"x uci" in self.marks:
            return "driver" if b"U xboard" in self.marks else "reviver"
        return "tap" if b"U " in self.letters and not self.letters & {b"x ", b"X "} else "bridge"

    def engine(self):
        """The name by which the engine calls itself."""
        return next(iter(self.own_names if self.kind() == "driver" else self.names), "")

    def clock_before(self, number, after):
        """The last clocks that the interface told between two lines: the engine's, the other's."""
        first = bisect.bisect_left(self.clocks, (after + 1,))
        last = bisect.bisect_left(self.clocks, (number,))
        told = {own: left for _, own, left in self.clocks[first:last]}
        return [told.get(True), told.get(False)]
