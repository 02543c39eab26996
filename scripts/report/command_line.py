"""The arguments of wineravine-report, and why they are refused."""
import argparse
import os
import pathlib
import re
import shutil

import machines
from log_lines import text_of

JOBLOG = b"Seq\tHost\t"


class Refused(Exception):
    """The program ends with this status and text."""

    def __init__(self, status, text):
        super().__init__(text)
        self.status = status


def wrong(text):
    """The end at wrong arguments."""
    return Refused(2, text + "; wineravine-report --help says how it is called")


def name_of(path):
    return text_of(os.fsencode(path))


class Words(argparse.ArgumentParser):
    """A reader of arguments that raises what is wrong."""

    def error(self, message):
        raise wrong(message)


def number(text):
    return float(text)


def words_of(arguments):
    """The arguments by their names."""
    words = Words(prog="wineravine-report", add_help=False, allow_abbrev=False)
    words.add_argument("-h", "--help", action="store_true")
    words.add_argument("-V", "--version", action="store_true")
    for name in ("--machines", "--jobs", "--joblog"):
        words.add_argument(name)
    words.add_argument("--resume", action="store_true", default=None)
    words.add_argument("--sprt", nargs=2, type=number)
    for name in ("--alpha", "--beta"):
        words.add_argument(name, type=number)
    words.add_argument("log", nargs="?")
    return words.parse_args(arguments)


def check_words(found):
    """Refuses arguments that do not go together, or have no good value."""
    if not found.log:
        raise wrong("a log or a folder is wanted")
    path = pathlib.Path(found.log)
    if not path.exists():
        raise Refused(4, f"{name_of(path)} cannot be read: there is no such file")
    check_test(found)
    if not path.is_dir():
        options = [found.machines, found.jobs, found.joblog, found.resume, found.sprt]
        if any(it is not None for it in options):
            raise wrong("--machines, --jobs, --joblog, --resume and --sprt are for a folder")
    if found.jobs is not None and not re.fullmatch("[1-9][0-9]{0,3}", found.jobs):
        raise wrong("--jobs wants a number from 1 to 9999")
    if found.joblog is not None:
        check_joblog(found)
    elif found.resume:
        raise wrong("--resume wants --joblog FILE")
    if found.machines is not None:
        check_machines(found)
    if (found.machines or found.joblog) and not shutil.which("parallel"):
        raise Refused(3, "the program parallel (GNU parallel) is missing")


def check_test(found):
    """The bounds of the sequential test, and how often it may be wrong."""
    rates = [it for it in (found.alpha, found.beta) if it is not None]
    if not found.sprt and rates:
        raise wrong("--alpha and --beta want --sprt ELO0 ELO1")
    if not all(0 < it < 0.5 for it in rates):
        raise wrong("--alpha and --beta want numbers between 0 and 0.5")
    if found.sprt and not -2000 <= found.sprt[0] < found.sprt[1] <= 2000:
        raise wrong("--sprt wants two differences from -2000 to 2000, the lower one first")
    found.alpha, found.beta = found.alpha or 0.05, found.beta or 0.05


def check_joblog(found):
    """The joblog can be written; the one to go on with is one of GNU parallel."""
    path = pathlib.Path(found.joblog)
    if not found.joblog or not path.parent.is_dir():
        raise wrong(f"--joblog wants a file in a folder that is there, and not {found.joblog!r}")
    if path.exists() and not path.is_file():
        raise wrong(f"--joblog wants a file, and {name_of(path)} is none")
    if not os.access(path if path.exists() else path.parent, os.W_OK):
        raise wrong(f"--joblog: {name_of(path)} cannot be written")
    if found.resume and path.exists():
        begin = path.read_bytes()[:len(JOBLOG)]
        if begin not in (b"", JOBLOG):
            raise wrong(f"--resume wants a joblog of GNU parallel, and {name_of(path)} is none")


def check_machines(found):
    """The file has logins; if all of them are this machine, GNU parallel is not needed for them."""
    path = pathlib.Path(found.machines)
    # (GNU parallel would take these for something else than a file)
    if found.machines in ("", machines.HERE, "-"):
        raise wrong(f"--machines wants a file with an ssh login a line, and not {found.machines!r}")
    if not path.exists():
        raise Refused(3, f"{name_of(path)} cannot be read: there is no such file")
    if not path.is_file():
        raise wrong(f"--machines wants a file, and {name_of(path)} is none")
    try:
        named = machines.Machines(path)
    except OSError as fault:
        raise Refused(3, f"{name_of(path)} cannot be read: {fault.strerror}") from fault
    for number, login in named.wrong:
        raise wrong(f"--machines: {name_of(path)}, line {number}: {login!r} is no ssh login")
    if not named.here and not named.others:
        raise wrong(f"--machines: {name_of(path)} names no machine")
    if not named.others:
        found.machines = None
