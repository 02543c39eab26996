"""What the engine said last before an answer: score, depth, time, nodes and nodes a second."""
import re

NUMBER = {name: re.compile(rb" " + name.encode() + rb" (-?\d+)")
          for name in ("multipv", "score cp", "score mate", "depth", "time", "nodes", "nps")}


def number_in(line, name):
    it = NUMBER[name].search(line) if line else None
    return int(it[1]) if it else None


class Thinking:
    """The last lines of thinking on the best line of play in the search that runs."""

    def __init__(self):
        self.scored = self.deep = self.timed = None

    def hear(self, line):
        """Takes a line of `info`; what follows `string` is free text."""
        if b" string " in line:
            line = line.partition(b" string ")[0]
        if b" multipv " in line and (number_in(line, "multipv") or 1) > 1:
            return
        if b" score " in line and (NUMBER["score cp"].search(line)
                                   or NUMBER["score mate"].search(line)):
            self.scored = line
        if b" depth " in line:
            self.deep = line
        if b" time " in line:
            self.timed = line

    def answer(self):
        """The numbers at an answer, each none if it was not said: those of a search begin anew."""
        mate = number_in(self.scored, "score mate")
        score = None if mate is not None else number_in(self.scored, "score cp")
        time, nodes = number_in(self.timed, "time"), number_in(self.timed, "nodes")
        speed = number_in(self.timed, "nps")
        if speed is None and time and nodes is not None:
            speed = nodes * 1000 // time
        said = (score, mate, number_in(self.deep, "depth"), time, speed)
        self.__init__()
        return said
