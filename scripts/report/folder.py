"""The pages of a folder of logs, and its table: what is made anew, by whom, and what is kept."""
import contextlib
import os
import pathlib
import shlex
import shutil
import socket
import subprocess
import sys
import urllib.parse

import answers
import crew
import matches
import openings
import pages
import session
import standings
from command_line import name_of
from log_lines import Changed
from progress import Bar

PARTS = pathlib.Path(__file__).resolve().parent


def page_beside(log):
    return log.with_name(log.name + ".html")


def as_word(log):
    """The name of a log below the folder, as a word that is no option."""
    return f"./{log}"


# WHAT IS KEPT


def programs_since(script):
    """When the last of this program's files and `replay` came here."""
    replay = shutil.which(answers.program())
    files = [script, *PARTS.iterdir(), *([replay] if replay else [])]
    times = [os.stat(file) for file in files]
    return max(max(it.st_mtime_ns, it.st_ctime_ns) for it in times)


def is_kept(log, since):
    """Whether the page of a log is there, newer than the log and than the programs."""
    try:
        return page_beside(log).stat().st_mtime_ns > max(log.stat().st_mtime_ns, since)
    except OSError:
        return False


# WHAT IS MADE


def page_of_log(path, name):
    """The pieces of the page of a log, once all that stands above its lines is known."""
    with session.Log(path) as log:
        summary, data = session.session_of(log, name)
        title = f"{name}: {summary['engine'] or summary['kind']}"
        yield from pages.log_page(title, log, summary, data)


def make_page(folder, log):
    """Makes the page of one log; answers what went wrong."""
    path = folder / log
    if path.exists() and not path.is_file():
        return f"{name_of(log)} cannot be read: it is no file"
    pieces = page_of_log(path, name_of(log))
    try:
        first = next(pieces)
    except OSError as fault:
        return f"{name_of(log)} cannot be read: {fault.strerror}"
    made = page_beside(path)
    new = made.with_name(made.name + ".new")
    try:
        with open(new, "wb") as out:
            out.write(first.encode())
            out.writelines(piece.encode() for piece in pieces)
        os.replace(new, made)
        return ""
    except OSError as fault:
        return f"its page cannot be written: {fault.strerror}"
    finally:
        with contextlib.suppress(OSError):
            new.unlink(missing_ok=True)


def processors():
    if hasattr(os, "sched_getaffinity"):
        return len(os.sched_getaffinity(0))
    return os.cpu_count() or 1


def make_or_tell(folder, log):
    try:
        return make_page(folder, log)
    except (answers.Missing, Changed) as fault:
        return f"its page cannot be made: {fault}"


def make_here(folder, logs, jobs):
    """Makes the pages in several processes, each of which makes many; answers what went wrong."""
    faults, bar = {}, Bar(len(logs))
    if not logs:
        return faults
    answers.try_program()
    count = min(int(jobs) if jobs else processors(), len(logs))
    for log, fault in crew.shared(logs, count, lambda log: make_or_tell(folder, log)):
        faults[log] = fault
        bar.step()
    bar.end()
    return faults


def make_by_parallel(folder, logs, words, script):
    """Has GNU parallel make the pages, a log a job."""
    command = ["parallel", "-0", "--will-cite", *(["--jobs", words.jobs] if words.jobs else []),
               *(["--bar"] if sys.stderr and sys.stderr.isatty() else [])]
    program, here = f"{shlex.quote(sys.executable)} {shlex.quote(str(script))}", None
    # (one that GNU parallel names is taken away while machines that share a home are asked)
    place = f".wineravine-report-{socket.gethostname()}-{os.getpid()}"
    if words.machines:
        machines = pathlib.Path(words.machines).resolve()
        command += ["--sshloginfile", machines, "--filter-hosts", "--workdir", place,
                    "--transferfile", "{}", "--return", "{}.html", "--cleanup"]
        # (if this machine is among them, its place is an empty folder in that of the logs)
        program = "[ -e {} ] || cd ..; wineravine-report"
        here = {**os.environ, "PATH": f"{script.parent}:{os.environ['PATH']}"}
    if words.joblog:
        command += ["--joblog", pathlib.Path(words.joblog).resolve()]
    names = b"\0".join(os.fsencode(as_word(log)) for log in logs)
    made = program + " {} > {}.html.new && mv {}.html.new {}.html || { rm -f {}.html.new; false; }"
    if logs:
        subprocess.run([*command, made], input=names, cwd=folder, env=here, check=False,
                       stdout=sys.stderr or subprocess.DEVNULL)
        with contextlib.suppress(OSError):
            os.rmdir(folder / place)


# THE TABLE


def row_of(folder, log, fault, since):
    """What the table has of a log: the summary of its page."""
    path, summary = folder / log, None
    if fault is None and not is_kept(path, since):
        fault = make_page(folder, log)
    if not fault:
        try:
            with open(page_beside(path), encoding="utf-8") as page:
                summary = pages.summary_in(page)
        except (OSError, ValueError) as reason:
            fault = f"its page cannot be read: {reason}"
    link = "./" + urllib.parse.quote(os.fsencode(page_beside(log)))
    return {"log": name_of(log), "link": link if summary else None, "fault": fault or "",
            "summary": summary}


def folder_page(folder, words, script):
    """The table of all logs below a folder, whose pages are made first."""
    since = programs_since(script)
    logs = sorted(it.relative_to(folder) for it in folder.rglob("*.log") if not it.is_dir())
    wanted = [log for log in logs if (folder / log).is_file() and not is_kept(folder / log, since)]
    faults = {}
    if words.machines or words.joblog:
        make_by_parallel(folder, wanted, words, script)
    else:
        faults = make_here(folder, wanted, words.jobs)
    rows = [row_of(folder, log, faults.get(log), since) for log in logs]
    title = f"{name_of(folder.resolve().name)}: {len(rows)} {'log' if len(rows) == 1 else 'logs'}"
    games = list(standings.game_list(rows))
    test = words.sprt and {"elo0": words.sprt[0], "elo1": words.sprt[1],
                           "alpha": words.alpha, "beta": words.beta}
    table = {"games": games, "cross": standings.cross_table(games), "test": test or None,
             "matches": matches.match_table(rows, games, test),
             "openings": openings.opening_table(rows, games)}
    return pages.index_page(title, rows=rows, table=table)
