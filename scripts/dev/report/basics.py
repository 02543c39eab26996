"""What the checks of wineravine-report share: what they say, and how a page is made."""
import contextlib
import pathlib
import resource
import subprocess
import time

from prelude import TOP, Check

REPORT = TOP / "scripts/wineravine-report"
check = Check("report")
say, wants, is_installed = check.say, check.wants, check.is_installed


def ask(*words, data=b"", **more):
    return subprocess.run(words, input=data, capture_output=True, check=False, **more)


def page_of(log, status=0):
    """Makes the page of a log beside it."""
    ran = ask(REPORT, f"./{log.name}", cwd=log.parent)
    wants(ran.returncode == status, f"{log}: status {ran.returncode}: {ran.stderr.decode()}")
    page = pathlib.Path(str(log) + ".html")
    page.write_bytes(ran.stdout)
    return page


def table_of(page, folder, *words, **more):
    """Makes the table of a folder, and opens it."""
    ran = ask(REPORT, *words, folder, **more)
    wants(ran.returncode == 0, f"{folder}: status {ran.returncode}: {ran.stderr.decode()[-400:]}")
    index = folder / "index.html"
    index.write_bytes(ran.stdout)
    page.open(index)
    is_quiet(page, f"the table of {folder.name}")
    return page.js("LOGS")


def is_quiet(page, name):
    for fault in page.faults():
        wants(False, f"{name}: {fault}")


def late_log(replay):
    """The log of a session in which one answer came late."""
    script = ask(replay, "replay", data=(TOP / "samples/late.session").read_bytes()).stdout
    return ask(replay, "migrate", data=script).stdout


def processor_seconds():
    """What all programs that were run and have ended took."""
    taken = resource.getrusage(resource.RUSAGE_CHILDREN)
    return taken.ru_utime + taken.ru_stime


class Measured:
    """The time that passed, and the processor time of what was run and has ended."""

    def __init__(self):
        self.begun, self.taken = time.monotonic(), processor_seconds()

    def stop(self):
        self.wall, self.processor = time.monotonic() - self.begun, processor_seconds() - self.taken
        return self

    def __str__(self):
        return f"{self.wall:.1f} s (processor {self.processor:.1f} s)"


@contextlib.contextmanager
def measured():
    took = Measured()
    yield took
    took.stop()
