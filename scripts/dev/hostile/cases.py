"""What is done to `replay`, `scripted` and `bridge`, and what must come of it."""
import collections

MIB = 1024
SCRIPT_COMMANDS = ("migrate", "games", "judge", "revive 3", "drive")
UNMARKED = "replay: line 1 has no mark"

# What a case must come to: its status, or one of several; what is reported, if it is not the text of
# the status; the output, whole or a part; the name of a file that must be a script that is lawful
# and replays to itself, or a command that must be true of the log; and the bound of its memory in
# KiB.
Case = collections.namedtuple("Case",
                              "name command status told output part script log memory words")


def case(name, command, status, told=None, output=None, part=None, script=None, log=None,
         memory=8 * MIB, words=0):
    return Case(name, command, status, told, output, part, script, log, memory, words)


# Waits until the output has a line that begins so, or a minute.
AWAIT = "await() { for _ in $(seq 600); do grep -q \"^$1\" out && return; sleep 0.1; done; }; "
# Waits until nobody reads the output, which gets empty lines.
UNREAD = "(trap '' PIPE; while echo; do sleep 0.1; done) 2>/dev/null; "
# An interface that asks for a feature list and an answer, waits, and ends the session.
ASKS = "{ printf 'xboard\\nprotover 2\\nping 1\\n'; sleep 0.3; echo quit; } | bridge --LogFile log "
# What it gets while the engine says nothing, and from an engine that ended.
SILENT = "feature done=0\npong 1\n"
ENDED = "tellusererror Engine ended"
# One that ends the session once it got the whole list, or once the engine ended.
BOOTS = AWAIT + ASKS.replace("sleep 0.3", "await 'feature done=1'")
OUTLIVES = AWAIT + ASKS.replace("sleep 0.3", f"await '{ENDED}'")
FLOOD = "info depth 1"
START = "rnbqkbnr/pppppppp/8/8/8/8/PPPPPPPP/RNBQKBNR w KQkq - 0 1"
LISTENS = "sh -- -c 'cat >/dev/null'"
WRITES = "sh -- -c 'echo tellusererror said >&2; cat >/dev/null'"


def bridge(name, command, status, **wanted):
    """A session of the bridge that leaves a lawful log."""
    return case("bridge: " + name, command, status, script="log", **wanted)


def unlogged(name, command, status, **wanted):
    return case("bridge: " + name, command, status, **wanted)


def unblocked(command):
    """The command with an input that does not block, and is open until the command ends."""
    return ("rm -f ended; { until [ -e ended ]; do sleep 0.1; done; } | "
            "{ ./unblocked 0; %s; status=$?; : >ended; exit $status; }" % command)


def jailed(program, words, status):
    """The program in a root folder with programs and a script and no null device; it needs root."""
    needs = "ldd bin/scripted bin/tap | awk '$2 == \"=>\" { print $3 } $1 ~ /^\\// { print $1 }'"
    fill = ("for file in $(readlink -f bin/scripted bin/tap) $(%s); do "
            "mkdir -p jail${file%%/*}; cp -Lu $file jail$file; done; "
            "cp toy jail/toy; rm -f jail/log; " % needs)
    run = ("scripted=$(readlink -f bin/scripted); "
           "echo uci | chroot jail $(readlink -f bin/%s) %s" % (program, words))
    return "[ $(id -u) = 0 ] || exit %d; " % status + fill + run


def each_command(name, command, status, **wanted):
    """A case for each other command of `replay` that reads a script."""
    return [case(f"{words.split()[0]}: {name}", command % words, status, **wanted)
            for words in SCRIPT_COMMANDS]


REPLAY = [
    case("replay: closed input", "replay replay <&-", 4, output="U uci\n"),
    case("replay: closed output", "replay replay </dev/null >&-", 5),
    case("replay: closed diagnostics", "replay nonsense 2>&-", 5, told=""),
    case("replay: all streams closed", "replay replay <&- >&- 2>&-", 5, told=""),
    case("replay: a full disk", "replay replay </dev/null >/dev/full", 5),
    case("check: a full disk", "replay check <pings >/dev/full", 5),
    case("moves: a full disk", "replay moves %s >/dev/full" % START, 5),
    case("drill: a full disk", "replay drill 1 10 >/dev/full", 5),
    case("replay: diagnostics on a full disk", "replay nonsense 2>/dev/full", 5, told=""),
    case("replay: a reader that goes away", "replay replay <marks | head -n 1", 5,
         output="U uci\n"),
    case("replay: a reader that is gone", "{ %sreplay replay </dev/null; } | :" % UNREAD, 5),
    case("replay: a folder as input", "replay replay <.", 4, output="U uci\n"),
    case("replay: 64 MiB without a line feed", "replay replay <letters", 2, UNMARKED, "U uci\n"),
    case("replay: 64 MiB behind a mark", "{ printf 'x '; cat letters; } | replay replay", 2,
         UNMARKED, "U uci\n"),
    case("replay: 64 MiB of NUL bytes", "replay replay <nuls", 2, UNMARKED, "U uci\n"),
    case("replay: 64 MiB of random bytes", "replay replay <noise", 2, UNMARKED, "U uci\n"),
    case("check: 64 MiB without a line feed", "replay check <letters", 2, UNMARKED, ""),
    case("check: 64 MiB of NUL bytes", "replay check <nuls", 2, UNMARKED, ""),
    case("check: 64 MiB of random bytes", "replay check <noise", 2, UNMARKED, ""),
    case("replay: random marks", "replay replay <marks >script", 0, script="script"),
    case("replay: 64 MiB of the longest lines", "replay replay <longest >script", 0,
         script="script"),
    case("replay: a line that is too long", "replay replay <overlong", 2, UNMARKED, "U uci\n"),
    case("replay: 300 options",
         "replay replay <options >script && grep -c '^X feature option=' script", 0,
         output="256\n", script="script"),
    # 225 lines of 290 bytes fit into 65,536
    case("replay: 300 options of 255 bytes",
         "replay replay <wide >script && grep -c '^X feature option=' script", 0,
         output="225\n", script="script"),
    case("replay: 12,000 plies and one more", "replay replay <plies >script && tail -n 4 script", 0,
         script="script",
         output="x usermove g1f3\nX Illegal move (game too long): g1f3\n"
                "x go\nX 1/2-1/2 {Draw by repetition}\n"),
    case("replay: 100,000 arguments", "replay replay", 2, "replay: usage", "", words=100000),
    case("moves: 100,000 arguments", "replay moves", 2, "replay: position: board", "", words=100000),
    case("replay: an argument that is no text", "replay $'\\xff'", 2, "replay: usage", ""),
    *each_command("closed input", "replay %s <&-", 4),
    *each_command("a folder as input", "replay %s <.", 4),
    *each_command("a full disk", "replay %s <plies >/dev/full", 5),
    *each_command("64 MiB without a line feed", "replay %s <letters", 2, told=UNMARKED),
    *each_command("64 MiB of NUL bytes", "replay %s <nuls", 2, told=UNMARKED),
    *each_command("64 MiB of random bytes", "replay %s <noise", 2, told=UNMARKED),
    *each_command("64 MiB of the longest lines", "replay %s <longest >script", 0),
    *each_command("100,000 arguments", "replay %s", 2, told="replay: usage", output="", words=100000),
]

SCRIPTED = [
    case("scripted: closed input", "scripted toy <&-", 4, output=""),
    case("scripted: closed output", "echo uci | scripted toy >&-", 5),
    case("scripted: all streams closed", "scripted toy <&- >&- 2>&-", 4),
    case("scripted: closed input, and no null device", jailed("scripted", "/toy <&-", 4), 4,
         output=""),
    case("scripted: a full disk", "echo uci | scripted toy >/dev/full", 5),
    case("scripted: a reader that is gone", "{ %secho uci | scripted toy; } | :" % UNREAD, 5),
    case("scripted: a script that is missing", "scripted none </dev/null", 4, output=""),
    case("scripted: a folder as script", "scripted . </dev/null", 4, output=""),
    case("scripted: a name that is no text", "scripted $'\\xff' </dev/null", 4, output=""),
    case("scripted: two arguments, one no text", "scripted toy $'\\xff' </dev/null", 2, output=""),
    case("scripted: a script without an end", "scripted /dev/zero </dev/null", 7, output="",
         memory=40 * MIB),
    case("scripted: a script of NUL bytes", "scripted <(head -c 16777216 nuls) </dev/null", 6,
         output="", memory=40 * MIB),
    case("scripted: a script of random bytes", "scripted <(head -c 1000000 noise) </dev/null", 6,
         output=""),
    case("scripted: 64 MiB without a line feed", "scripted toy <letters", 0, output=""),
    case("scripted: 64 MiB of NUL bytes", "scripted toy <nuls", 0, output=""),
    case("scripted: 64 MiB of random bytes", "scripted toy <noise", 0, output=""),
    case("scripted: 100,000 arguments", "scripted toy", 2, output="", words=100000),
]

BRIDGE = [
    unlogged("no arguments", "bridge", 2, output=""),
    unlogged("an argument that is no text", "bridge cat $'\\xff'", 2, output=""),
    unlogged("an engine that is missing", ASKS + "./none", 8, output=""),
    unlogged("an engine that is not executable", ASKS + "./toy", 8, output=""),
    unlogged("an engine that is a folder", ASKS + "./folder", 8, output=""),
    unlogged("an engine without a name", ASKS + "''", 8, output=""),
    unlogged("an engine that is no program", ASKS + "./noprogram", (0, 7, 8)),
    bridge("an engine that ends at once", OUTLIVES + "true", (0, 7), part=ENDED),
    bridge("an engine that is killed", OUTLIVES + "sh -- -c 'kill -9 $$'", (0, 7), part=ENDED),
    bridge("an engine that never answers", ASKS + LISTENS, 0, output=SILENT),
    bridge("an engine that never reads or answers", ASKS + "sleep 3", 0, output=SILENT),
    bridge("an engine that closes its input", ASKS + "sh -- -c 'exec <&-; sleep 1'", (0, 7)),
    bridge("an engine that closes its output",
           OUTLIVES + "sh -- -c 'exec >&-; cat >/dev/null'", 0, part=ENDED),
    bridge("an engine that answers before it is asked",
           BOOTS + "sh -- -c 'printf \"bestmove e2e4\\nreadyok\\nuciok\\nuciok\\nreadyok\\n\";"
           " cat >/dev/null'", 0,
           part="feature done=1"),
    bridge("an engine that says only NUL bytes",
           ASKS + "sh -- -c 'head -c 67108864 /dev/zero; cat >/dev/null'", 0,
           output=SILENT),
    bridge("an engine that says random bytes", ASKS + "sh -- -c 'cat noise; cat >/dev/null'", 0,
           output=SILENT),
    bridge("an engine that says the longest lines",
           ASKS + "sh -- -c 'cut -c 3- longest; cat >/dev/null'", 0,
           output=SILENT),
    bridge("an engine of 300 options", BOOTS + "sh -- -c 'cut -c 3- options; cat >/dev/null'", 0,
           part="feature option=\"Option256 -string v\"\nfeature done=1"),
    unlogged("an engine that floods",
             "{ until grep -q '^u[.]$' log; do sleep 0.2; done; echo quit; } 2>/dev/null"
             " | bridge --LogFile log sh -- -c 'yes \"%s\" | head -n {flood}'; echo $?;"
             " grep -c '^u %s$' log" % (FLOOD, FLOOD), 0, output=ENDED + "\n0\n{flood}\n"),
    bridge("an interface that floods",
           "head -c 67108864 longest | cut -c 3- | bridge --LogFile log " + LISTENS, 0),
    bridge("an interface that goes away within a line",
           "printf 'ping 1\\nusermove e2' | bridge --LogFile log " + LISTENS,
           0, output="pong 1\nError (bad argument): usermove e2\n"),
    bridge("an interface that goes away on both sides",
           "printf 'ping 1\\nusermove e2' | { %s"
           "bridge --LogFile log sh -- -c 'cat >/dev/null'; } | :" % UNREAD, 5),
    bridge("a reader that goes away",
           ASKS.replace("sleep", "sleep 0.3; echo ping 2; sleep") + LISTENS + " | head -n 2",
           (0, 5),
           output=SILENT),
    bridge("closed input", "bridge --LogFile log %s <&-" % LISTENS, 4, output=""),
    bridge("closed output", ASKS + LISTENS + " >&-", 5),
    bridge("closed diagnostics", ASKS + LISTENS + " 2>&-", 0, told="", output=SILENT),
    bridge("all streams closed", "bridge --LogFile log %s <&- >&- 2>&-" % LISTENS, 4, told=""),
    bridge("an engine that writes to standard error", ASKS + WRITES, 0, told="tellusererror said",
           output=SILENT),
    bridge("the same where the interface reads standard error", ASKS + WRITES + " 2>&1 | cat", 0,
           output=SILENT),
    bridge("the engine's standard error if it was closed", BOOTS + "sh -- -c 'read line; "
           "echo \"id name $(readlink /proc/$$/fd/2)\"; echo uciok; cat >/dev/null' 2>&-", 0,
           told="",
           part='feature myname="/dev/null"'),
    bridge("a full disk as output", ASKS + LISTENS + " >/dev/full", 5),
    unlogged("a full disk as log", ASKS.replace("--LogFile log", "--LogFile /dev/full") + LISTENS,
             9, output=SILENT),
    unlogged("a full disk as both",
             ASKS.replace("--LogFile log", "--LogFile /dev/full") + LISTENS + " >/dev/full", 5),
    unlogged("diagnostics on a full disk", "bridge 2>/dev/full", 2, told=""),
    unlogged("a log that is a folder", ASKS.replace("--LogFile log", "--LogFile folder") + LISTENS,
             9, output=SILENT),
    unlogged("a log in a folder that is missing",
             ASKS.replace("--LogFile log", "--LogFile none/log") + LISTENS, 9,
             output=SILENT),
    bridge("an input that does not block", unblocked("bridge --LogFile log " + LISTENS), 4,
           output="", memory=None),
    bridge("an output that does not block",
           "cut -c 3- pings pings | { ./unblocked 1; bridge --LogFile log %s; } | { sleep 1; cat; }"
           % LISTENS, (0, 5),
           memory=None),
    # the arguments have room for 16,000 of one byte
    bridge("16,000 arguments", "bridge --LogFile log -- true", (0, 7), words=16000),
    unlogged("100,000 arguments", "bridge --LogFile log -- true", 3, output="", log="[ ! -e log ]",
             words=100000),
    bridge("arguments of 1,000,000 bytes",
           "bridge --LogFile log -- true $(head -c 1000000 letters | fold -w 100000)",
           (0, 7)),
    unlogged("arguments of 1,100,000 bytes",
             "bridge --LogFile log -- true $(head -c 1100000 letters | fold -w 100000)", 3,
             output="", log="[ ! -e log ]"),
]


def cramped(command, sizes, statuses):
    """A command with little memory: address spaces of so many MiB."""
    return [case("%s in %d MiB" % (command.split()[0], size),
                 "ulimit -v %d; %s" % (size * MIB, command), statuses,
                 memory=None) for size in sizes]


# Below the first size no program of the C library begins. Where the readers have no room for their
# stacks, no engine is started.
CRAMPED = (
    cramped("replay drill 1 10", range(4, 13), (0, 3))
    + cramped("scripted toy </dev/null", range(4, 13), (0, 3))
    + cramped("bridge --LogFile log -- cat </dev/null", range(4, 41, 2), (0, 3))
    + cramped("driver log cat </dev/null", range(4, 41, 2), (0, 3))
    + cramped("tap log cat </dev/null", range(4, 41, 2), (0, 3))
    + cramped("reviver 3 log cat </dev/null", range(4, 41, 2), (0, 3))
)
