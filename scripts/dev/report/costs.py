"""What pages cost: the memory for a long log, pages that are kept, many logs a process, the bar."""
import os
import pty
import shutil
import subprocess
import time

from basics import REPORT, TOP, ask, is_installed, measured, say, wants
from one_page import long_session

LONG_ROUNDS = 1620


def used(words, **more):
    """Runs a program; answers its status, and the most memory of any of its processes."""
    run = subprocess.Popen(words, **more)
    _, status, taken = os.wait4(run.pid, 0)
    run.returncode = os.waitstatus_to_exitcode(status)
    return run.returncode, taken.ru_maxrss * 1024


def grown_log(work, replay, megabytes):
    """A log of so many megabytes: a session of short games over and over."""
    log, part = work / "grown.log", work / "part.log"
    session = "".join(long_session(LONG_ROUNDS, 30)).encode()
    part.write_bytes(ask(replay, "replay", data=session).stdout)
    size = part.stat().st_size
    rounds = LONG_ROUNDS * megabytes * 1_000_000 // size
    with open(log, "wb") as out:
        run = subprocess.Popen([replay, "replay"], stdin=subprocess.PIPE, stdout=out)
        for text in long_session(rounds, 30):
            run.stdin.write(text.encode())
        run.stdin.close()
        run.wait()
    return log


def check_memory(work, replay, megabytes, most):
    """The page of a long log takes no more memory than this, whatever process of it takes it."""
    log = grown_log(work, replay, megabytes)
    page = work / "grown.html"
    with measured() as took, open(page, "wb") as out:
        status, memory = used([REPORT, log], stdout=out)
    wants(status == 0, f"a log of {megabytes} MB: status {status}")
    lines = page.read_bytes().count(b"\n")
    wants(lines > 0 and page.stat().st_size > log.stat().st_size, "the page of a long log is short")
    wants(memory <= most * 1_000_000,
          f"a log of {megabytes} MB: {memory // 1_000_000} MB of memory, not {most}")
    say(f"the page of a log of {log.stat().st_size // 1_000_000} MB: {memory // 1_000_000} MB of "
        f"memory, {took}")
    log.unlink()
    page.unlink()


def stamps_in(folder):
    return {it.name: it.stat().st_mtime_ns for it in folder.rglob("*.log.html")}


def made_anew(folder, *words, **more):
    """The pages that a run makes anew, and what it says."""
    before = stamps_in(folder)
    ran = ask(REPORT, *words, folder, **more)
    wants(ran.returncode == 0, f"{folder.name}: status {ran.returncode}: {ran.stderr.decode()}")
    after = stamps_in(folder)
    return {name for name, stamp in after.items() if before.get(name) != stamp}, ran


def check_kept(work, log, replay):
    """A page is kept until its log, this program or replay changes."""
    folder, own = work / "kept", work / "own replay"
    folder.mkdir()
    names = [f"{number}.log" for number in range(5)]
    for name in names:
        (folder / name).write_bytes(log)
    shutil.copy(replay, own)
    here = {**os.environ, "REPLAY": str(own)}
    pages = {f"{name}.html" for name in names}
    wanted = [("at first", pages), ("again", set()), ("a new log", {"2.log.html"}),
              ("a new replay", pages), ("a page that is gone", {"4.log.html"}), ("at last", set())]
    for what, anew in wanted:
        time.sleep(0.05)
        if what == "a new log":
            (folder / "2.log").write_bytes(log)
        elif what == "a new replay":
            own.touch()
        elif what == "a page that is gone":
            (folder / "4.log.html").unlink()
        found, _ = made_anew(folder, env=here)
        wants(found == anew, f"{what}: made anew were {sorted(found)}, not {sorted(anew)}")
    say(f"pages kept, and made anew for a new log and a new replay: {len(wanted)} runs")


def check_blanks(work, log):
    """Program and folder have a blank and signs of the shell in their paths; nothing is said."""
    program, folder = work / "a b/it's", work / "logs 'of' a day"
    shutil.copytree(TOP / "scripts/report", program / "report")
    shutil.copy(REPORT, program)
    folder.mkdir()
    for number in range(3):
        (folder / f"{number} $x.log").write_bytes(log)
    (work / "this machine").write_text(":\n")
    ways = [(), ("--machines", work / "this machine")]
    ways += [("--joblog", work / "a joblog")] if is_installed("parallel") else []
    tables = set()
    for words in ways:
        for page in folder.glob("*.html"):
            page.unlink()
        ran = ask(program / "wineravine-report", *words, folder)
        told = (ran.returncode, ran.stderr, len(list(folder.glob("*.log.html"))))
        wants(told == (0, b"", 3), f"a path with blanks, {words}: {told}")
        tables.add(ran.stdout)
        left = [*folder.glob("*.new"), *work.glob("x*.log")]
        wants(not left, f"a path with blanks: these files are left: {left}")
    wants(len(tables) == 1, "made by GNU parallel the table is another one")
    say(f"paths with blanks and quotes: {len(ways)} ways to make pages, nothing said")


def check_bar(work, log):
    """At a terminal the bar says how many are made; elsewhere nothing is said."""
    folder = work / "bar"
    folder.mkdir()
    for number in range(12):
        (folder / f"{number}.log").write_bytes(log)
    ours, theirs = pty.openpty()
    run = subprocess.Popen([REPORT, folder], stdout=subprocess.DEVNULL, stderr=theirs)
    os.close(theirs)
    said = b""
    try:
        while piece := os.read(ours, 4096):
            said += piece
    except OSError:
        # (so Linux says that the terminal is left by all)
        pass
    run.wait()
    wants(b"12 of 12 logs, 0 s left" in said and b"#" in said and said.endswith(b"\r\x1b[K"),
          f"the bar at a terminal: {said!r}")
    for page in folder.glob("*.html"):
        page.unlink()
    wants(ask(REPORT, folder).stderr == b"", "something is said where no terminal is")
    say("the bar with the time left: at a terminal, and nowhere else")


def check_costs(work, log, replay, is_long):
    content = log.read_bytes()
    check_kept(work, content, replay)
    check_blanks(work, content)
    check_bar(work, content)
    check_memory(work, replay, *((200, 600) if is_long else (20, 150)))
