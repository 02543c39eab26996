"""What `replay` answers to a log, which is handed to it piece by piece."""
import contextlib
import itertools
import os
import re
import subprocess
import threading

from log_lines import text_of

SEARCH = re.compile(r"search \d+: (\w+), from line (\d+), (?:to line (\d+)|open), "
                    r"(not )?stopped, (\S+)")


class Missing(Exception):
    """A program that is needed cannot be run."""


def program():
    return os.environ.get("REPLAY") or "replay"


def try_program():
    """What `replay` says of itself, or that it is missing."""
    try:
        return subprocess.run([program(), "--version"], capture_output=True, text=True,
                              check=False).stdout
    except OSError as fault:
        raise Missing(f"{program()} cannot be run: {fault.strerror}") from fault


def feed(pipe, pieces):
    """Writes all pieces to a program, which may end before it has read them."""
    with contextlib.suppress(BrokenPipeError):
        with pipe:
            for piece in pieces:
                pipe.write(piece)


def verdict(words, text, good):
    return {"program": " ".join(["replay", *words]), "text": text, "good": good}


class Answer:
    """What `replay` answers to these words and a log: its whole lines go to `take` as they come."""

    def __init__(self, words, log, take=None):
        try:
            run = subprocess.Popen([program(), *words], stdin=subprocess.PIPE,
                                   stdout=subprocess.PIPE, stderr=subprocess.PIPE)
        except OSError as fault:
            raise Missing(f"{program()} cannot be run: {fault.strerror}") from fault
        self.words, self.last = words, b""
        with run:
            feeder = threading.Thread(target=feed, args=(run.stdin, log.input()))
            feeder.start()
            if take:
                take(self.whole_lines(run.stdout))
            for _ in self.whole_lines(run.stdout):
                pass
            self.told = text_of(run.stderr.read()).strip()
            feeder.join()
        self.status = run.returncode

    def whole_lines(self, output):
        for line in output:
            if line.endswith(b"\n"):
                self.last = line
                yield text_of(line[:-1])

    def verdict(self):
        return verdict(self.words, self.told or text_of(self.last).removesuffix("\n"),
                       self.status == 0)


def collected(words, log, parse):
    """The answer to these words, and what `parse` makes of its lines."""
    found = []
    answer = Answer(words, log, lambda lines: found.extend(parse(lines)))
    return answer, found


def searches_in(lines):
    """The searches that the judge tells of, with the numbers of their lines."""
    for line in lines:
        if it := SEARCH.match(line):
            kind, start, end, running, shown = it.groups()
            yield {"kind": kind, "from": int(start), "to": int(end) if end else None,
                   "stopped": not running, "shown": None if shown == "none" else shown}


def judged(log, kind):
    """What the judge says, and the searches: of a tap's log as such, if `replay` knows the word."""
    if kind == "tap":
        answer, found = collected(["judge", "tap"], log, searches_in)
        if answer.told != "replay: usage":
            return answer, found
    return collected(["judge"], log, searches_in)


def positions_in(lines):
    """The number of each line that leaves a position, with the position."""
    for line in lines:
        number, _, fen = line.partition(" ")
        yield [int(number), fen]


def games_in(lines):
    """The games that `replay games` writes: where each began, its moves and its result."""
    start = None
    for line in lines:
        if line.startswith("["):
            start = line[6:-2]
            continue
        *words, result = line.split(" ")
        yield {"start": start, "moves": [it for it in words if not re.fullmatch(r"\d+\.+", it)],
               "result": result}
        start = None


def with_feeds(pieces):
    """Lines with their line feeds."""
    held = b""
    for piece in pieces:
        *lines, held = (held + piece).split(b"\n")
        yield from (line + b"\n" for line in lines)
    if held:
        yield held


def written_again(log, words):
    """Whether `replay` with these words writes the log of its own events."""
    differs = []

    def compare(output):
        pairs = itertools.zip_longest(output, with_feeds(log.input()))
        differs.extend(itertools.islice((n for n, (a, b) in enumerate(pairs, 1) if a != b), 1))

    answer = RawAnswer(words, log, compare)
    if answer.status:
        return answer.verdict()
    if differs:
        return verdict(words, f"differs at line {differs[0]}", False)
    return verdict(words, "writes this log again", True)


class RawAnswer(Answer):
    """The same, with the bytes of the lines, cut ones too."""

    def whole_lines(self, output):
        for line in output:
            self.last = line
            yield line


def revived(log, lives_begun):
    """The same of a log of `reviver`, which does not say how many lives there might have been."""
    lives = [min(9, 1 + lives_begun), *range(1, 10)]
    first = found = written_again(log, ["revive", str(lives[0])])
    for count in lives[1:]:
        if found["good"]:
            break
        found = written_again(log, ["revive", str(count)])
    return found if found["good"] else first
