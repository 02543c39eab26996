"""What is done to `driver`, `tap` and `reviver`: what they share, and what is their own."""
from cases import AWAIT, UNREAD, case, jailed, unblocked

# What must be true of a log: it is what `replay` writes for its own events, or it is a log.
OWN_LOG = {"driver": "replay drive <log | cmp -s - log",
           "reviver": "replay revive 3 <log | cmp -s - log",
           "tap": "replay judge <log >judged; [ $? -le 1 ]"}
START = {"driver": "driver ", "tap": "tap ", "reviver": "reviver 3 "}
# An engine that answers.
ENGINE = {"driver": "scripted old", "tap": "scripted toy", "reviver": "scripted toy"}
# What is given for an engine that says nothing, and for one that has ended. Behind `quit` the last
# life is over.
MUTE = {"driver": "bestmove 0000\n", "tap": "", "reviver": "uciok\n"}
ENDED = {"driver": "bestmove 0000\n", "tap": "", "reviver": "uciok\n"}
# An interface that wants a move, waits a while, and ends the session; and one that waits for what
# it wants.
PLAYS = ("{ printf 'uci\\n'; sleep 0.3;"
         " printf 'position startpos moves e2e4\\ngo movetime 100\\n'; sleep 0.3;"
         " echo quit; } | ")
WAITS = AWAIT + PLAYS.replace("sleep 0.3", "await uciok", 1).replace("sleep 0.3", "await bestmove")
MOVE = "bestmove e7e5"
# A reader that begins late.
LATE = "{ sleep 1; cat >/dev/null; }"
LISTENS = "sh -c 'cat >/dev/null'"
WRITES = "sh -c 'echo said >&2; cat >/dev/null'"
# The tap hands on all that passes, and leaves its own standard error to the engine.
WRITTEN = {"driver": "", "tap": "said\n", "reviver": ""}
FLOOD = "info depth 1"


class Table:
    """The cases of one program."""

    def __init__(self, program):
        self.program, self.start = program, START[program]
        self.plays = PLAYS + self.start + "log "

    def row(self, name, command, status, **wanted):
        return case("%s: %s" % (self.program, name), command, status, **wanted)

    def logged(self, name, command, status, **wanted):
        return self.row(name, command, status, log=OWN_LOG[self.program], **wanted)

    def unstarted(self, name, command, status, **wanted):
        """No engine was started, so nothing is written and no log is made."""
        return self.row(name, command, status, output="", log="[ ! -e log ]", **wanted)

    def engines(self):
        """Engines that cannot be started, and engines that misbehave."""
        plays, log = self.plays, self.start + "log "
        mute, ended = MUTE[self.program], ENDED[self.program]
        return [
            self.unstarted("no arguments", self.program, 2),
            self.unstarted("a log and no engine", self.start + "log", 2),
            self.unstarted("an argument that is no text", log + "cat $'\\xff'", 2),
            self.unstarted("an engine that is missing", plays + "./none", 8),
            self.unstarted("an engine that is not executable", plays + "./toy", 8),
            self.unstarted("an engine that is a folder", plays + "./folder", 8),
            self.unstarted("an engine without a name", plays + "''", 8),
            self.row("an engine that is no program", plays + "./noprogram", (0, 7, 8)),
            self.logged("an engine that ends at once", plays + "true", (0, 7), part=ended),
            self.logged("an engine that is killed", plays + "sh -c 'kill -9 $$'", (0, 7),
                        part=ended),
            self.logged("an engine that never answers", plays + LISTENS, 0, output=mute),
            self.logged("an engine that never reads or answers", plays + "sleep 3", 0, output=mute),
            self.logged("an engine that closes its input", plays + "sh -c 'exec <&-; sleep 1'",
                        (0, 7)),
            self.logged("an engine that closes its output",
                        plays + "sh -c 'exec >&-; cat >/dev/null'", 0),
            self.row("16,000 arguments", log + "true", (0, 7), words=16000),
            self.unstarted("100,000 arguments", log + "true", 3, words=100000),
        ]

    def streams(self):
        """Streams that are closed, full or gone."""
        plays, log, engine = self.plays, self.start + "log ", ENGINE[self.program]
        waits = WAITS + log
        return [
            self.logged("an interface that goes away within a line",
                        "printf 'uci\\nposition startpos moves e2e4\\ngo' | " + log + engine, 0),
            self.logged("a reader that goes away", plays + engine + " | head -n 1", (0, 5)),
            self.logged("a reader that is gone", "{ %s%s; } | :" % (UNREAD, plays + engine), 5),
            self.logged("closed input", log + engine + " <&-", 4, output=""),
            self.logged("closed output", plays + engine + " >&-", 5),
            self.logged("an engine that writes to standard error, where the interface reads it",
                        plays + WRITES + " 2>&1 | cat", 0,
                        output=WRITTEN[self.program] + MUTE[self.program]),
            self.logged("closed diagnostics", waits + engine + " 2>&-", 0, told="", part=MOVE),
            self.logged("all streams closed", log + engine + " <&- >&- 2>&-", 4, told=""),
            self.logged("a full disk as output", plays + engine + " >/dev/full", 5),
            self.row("a full disk as log", waits.replace(" log ", " /dev/full ") + engine, 9,
                     part=MOVE),
            self.row("a full disk as both",
                     plays.replace(" log ", " /dev/full ") + engine + " >/dev/full", 5),
            self.row("diagnostics on a full disk", self.program + " 2>/dev/full", 2, told=""),
            self.row("a log that is a folder", waits.replace(" log ", " folder ") + engine, 9,
                     part=MOVE),
            self.row("a log in a folder that is missing",
                     waits.replace(" log ", " none/log ") + engine, 9, part=MOVE),
            self.logged("an input that does not block", unblocked(log + engine), 4, output="",
                        memory=None),
        ]

    def floods(self):
        """Inputs and answers without a line feed, without sense and without an end."""
        log, waits, one = self.start + "log ", "sleep 0.3 | ", self.start.replace("3", "1") + "log "
        says = waits + log + "sh -c '%s; cat >/dev/null'"
        counted = "; echo $?; grep -c '^u %s$' log" % FLOOD
        return [
            self.logged("an interface without a line feed", log + LISTENS + " <letters", 0,
                        output=""),
            self.logged("an interface of random bytes", log + LISTENS + " <noise", 0, output=""),
            self.logged("an interface that floods", "cut -c 3- longest | " + log + LISTENS, 0,
                        output=""),
            self.logged("an engine without a line feed", says % "cat letters" + " >/dev/null", 0),
            self.logged("an engine that says random bytes", says % "cat noise" + " >/dev/null", 0),
            self.logged("an engine that says the longest lines",
                        says % "cut -c 3- longest" + " >/dev/null", 0),
            self.row("an engine that floods",
                     "{ until grep -q '^u[.!]' log; do sleep 0.2; done; } 2>/dev/null | "
                     + one + "sh -c 'yes \"%s\" | head -n {some}' >/dev/null%s" % (FLOOD, counted),
                     0,
                     output="0\n{some}\n"),
            self.row("an engine that floods behind quit", "echo quit | " + log +
                     "sh -c 'cat >/dev/null; yes \"%s\" | head -n {some}' >/dev/null%s" % (FLOOD,
                                                                                           counted),
                     0,
                     output="0\n{some}\n"),
        ]


DRIVER = [
    *Table("driver").engines(),
    *Table("driver").streams(),
    *Table("driver").floods(),
    Table("driver").logged("an engine that answers before it is asked",
                           AWAIT + PLAYS.replace("sleep", "await uciok; sleep", 1)
                           + "driver log sh -c 'printf \"move e2e4\\npong 7\\nfeature done=1\\n"
                           "move e7e5\\nresign\\n\"; cat >/dev/null'", 0,
                           part="uciok\nbestmove 0000\n"),
    # 5,000 thinking lines are more than a pipe holds
    Table("driver").logged("an output that does not block",
                           PLAYS + "{ ./unblocked 1; driver log sh thinks; } | " + LATE,
                           (0, 5), memory=None),
]

TAP = [
    *Table("tap").engines(),
    *Table("tap").streams(),
    *Table("tap").floods(),
    Table("tap").row("closed output, and no null device",
                     jailed("tap", "/log $scripted /toy >&-", 5), 5,
                     log="! grep -qv '^[Uux]' jail/log"),
    Table("tap").logged("random bytes there and back", "tap log cat <noise | cmp - noise", 0,
                        output=""),
    Table("tap").row("64 MiB there and back", "tap log cat <letters | cmp - letters && sort log", 0,
                     output="u!\nu.\nx!\nx.\n"),
    Table("tap").logged("an engine that floods without end, and a reader that is gone",
                        "{ %secho quit | tap log yes; } | :" % UNREAD, 5),
    Table("tap").logged("an output that does not block",
                        "cut -c 3- pings pings | { ./unblocked 1; tap log cat; } | " + LATE,
                        (0, 5), memory=None),
]

REVIVER = [
    *Table("reviver").engines(),
    *Table("reviver").streams(),
    *Table("reviver").floods(),
    *[Table("reviver").unstarted("%s lives" % lives, "reviver %s log true" % lives, 2)
      for lives in ("0", "10", "-1", "x", "''")],
    Table("reviver").row("nine lives that end at once", WAITS + "reviver 9 log true", (0, 7),
                         output="uciok\nbestmove 0000\n",
                         log="replay revive 9 <log | cmp -s - log"
                             " && [ $(grep -c '^u!$' log) = 9 ]"),
    Table("reviver").logged("an output that does not block",
                            PLAYS + "{ ./unblocked 1; reviver 3 log sh talks; } | " + LATE,
                            (0, 5), memory=None),
]
