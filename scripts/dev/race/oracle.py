"""What a log must be, looked at step by step and apart from the bridge's own core.

It keeps the game by the interface's lines and the shown moves, and the engine's state by the orders
written and the engine's lines, and reports each of these faults by its line:

- an order to an engine that searches or gets ready, a second `stop` in one search;
- a move shown that does not stand beside the engine's answer, that answers no search of the present
  epoch, or that is not legal;
- a search begun in another position than the game's;
- with FenceStops, a search begun behind a `stop` without a `readyok` to an `isready` after it;
- step numbers that are not 0, 1, 2 and so on.
"""
import chess

EPOCH = {"new", "force", "go", "playother", "undo", "remove", "setboard", "analyze", "exit",
         "result"}


class Fault(Exception):
    pass


class Oracle:
    def __init__(self):
        self.positions = [chess.read_fen(chess.START)]
        self.epoch = 0
        self.state = "boot"
        self.search = None
        self.ordered = None
        self.shown = 0
        self.searches = 0
        self.stops = 0
        self.stale = 0
        self.fences = self.is_unfenced = False
        # of each answer that closed a search, the number of its line among the engine's, and that search's
        self.heard, self.closed = 0, []

    def walk(self, text):
        lines = text.decode().split("\n")
        if lines and lines[-1] == "":
            lines.pop()
        if not lines or not lines[0].startswith(("#2 ", "#3 ")):
            raise Fault("line 1: no header")
        self.fences = " FenceStops=true" in lines[0]
        event, number = None, 0
        written = []
        for at, line in enumerate(lines[1:], 2):
            try:
                if line.startswith("# "):
                    if event is not None or written:
                        self.step(event, written)
                    if int(line[2:]) != number:
                        raise Fault(f"step {line[2:]} where {number} is due")
                    number, event, written = number + 1, None, []
                elif line[0] in "xu":
                    event = line
                else:
                    written.append(line)
            except Fault as fault:
                raise Fault(f"before line {at}: {fault}") from fault
        self.step(event, written)
        return self

    def step(self, event, written):
        shown = [line[7:] for line in written if line.startswith("X move ")]
        refused = any(line.startswith(("X Illegal ", "X Error ")) for line in written)
        if event is not None:
            if event.startswith("x ") and not refused:
                self.hear_iface(event[2:])
            answer = self.hear_engine(event[2:]) if event.startswith("u ") else None
            if event in ("u.", "u?"):
                self.state = "gone"
        else:
            answer = None
        if shown:
            self.show(shown, answer)
        for line in written:
            if line.startswith("U "):
                self.order(line[2:])

    def hear_iface(self, line):
        words = line.split()
        if not words:
            return
        if words[0] in EPOCH or words[0] == "usermove":
            self.epoch += 1
        if words[0] == "new":
            self.positions = [chess.read_fen(chess.START)]
        elif words[0] == "usermove":
            if words[1] not in chess.legal_moves(self.positions[-1]):
                raise Fault("an illegal move was accepted: " + words[1])
            self.positions.append(chess.play(self.positions[-1], words[1]))
        elif words[0] in ("undo", "remove"):
            count = 1 if words[0] == "undo" else 2
            if len(self.positions) <= count:
                raise Fault("too many moves were taken back")
            del self.positions[-count:]
        elif words[0] == "setboard":
            self.positions = [chess.read_fen(line[9:])]

    def hear_engine(self, line):
        """The search that the line answers, if it does."""
        word = (line.split() or [""])[0]
        self.heard += 1
        if word == "uciok" and self.state == "boot":
            self.state = "idle"
        elif word == "readyok" and self.state == "getting":
            self.state, self.is_unfenced = "idle", False
        elif word == "bestmove" and self.state == "search":
            search, self.search, self.state = self.search, None, "idle"
            self.closed.append((self.heard - 1, self.searches))
            self.stale += search["epoch"] != self.epoch
            return search, line
        return None

    def show(self, shown, answer):
        if len(shown) != 1 or answer is None:
            raise Fault(f"moves shown beside no answer: {shown}")
        search, line = answer
        move = shown[0]
        if search["kind"] != "move" or search["epoch"] != self.epoch:
            raise Fault("a stale move was shown: " + move)
        if line.split()[1].lower() != move:
            raise Fault("another move was shown: " + move)
        if move not in chess.legal_moves(self.positions[-1]):
            raise Fault("an illegal move was shown: " + move)
        self.positions.append(chess.play(self.positions[-1], move))
        self.epoch += 1
        self.shown += 1

    def order(self, line):
        word = line.split()[0]
        if word == "uci":
            return
        if word == "quit":
            self.state = "gone" if self.state == "gone" else "closed"
        elif word == "stop":
            if self.state != "search" or self.search["stopped"]:
                raise Fault("`stop` where no search runs, or for the second time")
            self.search["stopped"] = self.is_unfenced = True
            self.stops += 1
        elif word == "ponderhit":
            if self.state != "search" or self.search["kind"] != "ponder" or self.search["stopped"]:
                raise Fault("`ponderhit` outside a ponder search")
            if self.search["board"] != self.positions[-1]:
                raise Fault("`ponderhit` after another move than the hint")
            self.search.update(kind="move", epoch=self.epoch)
        else:
            if self.state != "idle":
                raise Fault("an order to a busy engine: " + line)
            if word == "isready":
                self.state = "getting"
            elif word == "position":
                self.ordered = position_of(line)
            elif word == "go":
                self.begin(line)

    def begin(self, line):
        kind = "ponder" if " ponder" in line else "analyse" if "infinite" in line else "move"
        if kind != "ponder" and self.ordered != self.positions[-1]:
            raise Fault("a search in another position than the game's")
        if self.fences and self.is_unfenced:
            raise Fault("a search behind a `stop` that is not fenced")
        self.search = {"kind": kind, "epoch": self.epoch, "stopped": False, "board": self.ordered}
        self.state = "search"
        self.searches += 1


def position_of(line):
    """The position of a `position` order."""
    front, _, moves = line.partition(" moves ")
    start = chess.START if "startpos" in front else front[len("position fen "):]
    position = chess.read_fen(start)
    for move in moves.split():
        position = chess.play(position, move)
    return position
