"""The pictures of docs/pictures, taken anew."""
import os
import shutil
import subprocess
import time

from basics import page_of, say, wants

DISPLAY = ":94"
NEEDED = ("xboard", "Xvfb", "stockfish", "toga2", "import", "xdotool")


def take_pictures(page, log, index, folder):
    """The page of the late answer, and a table."""
    made = page_of(log)
    for name, shown, width, height, dark in (
            ("report", made, 1280, 800, False), ("report-dark", made, 1280, 800, True),
                                             ("report-narrow", made, 400, 800, False),
            ("report-narrow-dark", made, 400, 800, True), ("report-table", index, 1280, 760, False),
                                             ("report-table-narrow", index, 400, 800, True)):
        page.size(width, height, dark)
        page.open(shown)
        page.key("l", "l")
        page.js("new Promise(done => setTimeout(done, 200))")
        page.picture(folder / f"{name}.png")
        make_small(folder / f"{name}.png")
    say(f"pictures taken: {folder}")


def take_games(page, index, folder):
    """The table of a match, with the list of its games and the scores of both engines."""
    page.size(1280, 1060)
    page.open(index)
    page.js("document.querySelector('#games details').open = true;"
            " [...document.querySelectorAll('#game-rows button')]"
            ".find(e => e.textContent === 'scores').click(); scrollTo(0, 0)")
    page.js("new Promise(done => setTimeout(done, 200))")
    page.picture(folder / "report-games.png")
    make_small(folder / "report-games.png")
    say(f"the picture of a match taken: {folder}")


def make_small(picture):
    """Leaves a picture fewer colours, if ImageMagick is there."""
    if shutil.which("convert"):
        subprocess.run(["convert", picture, "+dither", "-colors", "96", f"PNG8:{picture}"],
                       check=False)


def take_xboard(work, wineravine, folder):
    """XBoard on a screen in memory, with two engines through wineravine in the middle of a game."""
    here = {**os.environ, "PATH": f"{work}:{os.environ['PATH']}", "DISPLAY": DISPLAY,
            "HOME": str(work)}
    (work / "wineravine").symlink_to(wineravine)
    quiet = {"stdout": subprocess.DEVNULL, "stderr": subprocess.DEVNULL}
    screen = subprocess.Popen(["Xvfb", DISPLAY, "-screen", "0", "1010x520x24"], env=here, **quiet)
    time.sleep(2)
    xboard = subprocess.Popen(
        ["xboard", "-mode", "TwoMachines", "-mg", "1", "-depth", "6", "-size", "49",
         "-soundProgram", "true", "-engineOutputUp", "true", "-saveSettingsOnExit", "false",
         "-fcp", "wineravine --LogFile first.log stockfish",
         "-scp", "wineravine --LogFile second.log toga2"], cwd=work, env=here, **quiet)
    end = time.monotonic() + 120
    log = work / "first.log"
    while time.monotonic() < end and (not log.exists()
                                      or log.read_bytes().count(b"\nX move ") < 12):
        time.sleep(0.2)
    # no window manager is there to put the windows beside one another
    for window, place in (("Engine Output", ("440", "10")), (" vs. ", ("5", "10"))):
        subprocess.run(["xdotool", "search", "--onlyvisible", "--name", window, "windowmove",
                        *place], env=here, check=False)
    time.sleep(2)
    taken = subprocess.run(["import", "-window", "root", folder / "xboard.png"], env=here,
                           check=False)
    wants(taken.returncode == 0, "XBoard: no picture")
    make_small(folder / "xboard.png")
    xboard.terminate()
    xboard.wait()
    screen.terminate()
    screen.wait()
    say(f"XBoard's picture taken: {folder}")
