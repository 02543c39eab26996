"""Real games: a log with times, a match under XBoard, and a tournament over two logins."""
import os
import re
import shutil

from basics import TOP, ask, is_installed, is_quiet, measured, page_of, say, table_of, wants

NEEDED = ("xboard", "xvfb-run", "xauth", "stockfish", "toga2")


def recipes(pattern):
    """The recipes of docs/REPORT.md that begin so."""
    return re.findall(rf"^    ((?:{pattern}).*)$", (TOP / "docs/REPORT.md").read_text(), re.M)


def has_times(page):
    wants(page.js("S.verdicts[0].text") == "lawful", "a log with times is not lawful without them")
    wants(page.js("D.times.length === LINES.length && D.times.every(t => t !== null)"
                  " && !document.getElementById('strip').hidden"),
          "a log with times shows none")
    wants(page.js("document.querySelectorAll('.row .t').length") > 0, "its rows have no times")


def check_times(page, work, wineravine, scripted, replay):
    """A log through `ts` over a fifo: its times in the page, and the log without them is lawful."""
    if not is_installed("ts"):
        return
    engine = f"{scripted} {TOP}/samples/toy.engine"
    command = recipes("mkfifo")[0].replace("wineravine ", f"{wineravine} ", 1)
    command = command.replace("stockfish", engine) + "; wait"
    talk = "xboard\nprotover 2\nnew\npost\nusermove e2e4\n"
    # (on a busy machine `ts` may begin after half a second)
    begun = "for _ in $(seq 1200); do [ ! -s timed.log ] || break; sleep 0.1; done"
    talking = f"(printf '{talk}'; {begun}; sleep 0.5; echo quit)"
    ran = ask("bash", "-c", f"{talking} | ({command})", cwd=work, timeout=300)
    log = work / "timed.log"
    wants(log.exists() and log.stat().st_size > 0, f"times: {ran.stderr.decode()}")
    page.open(page_of(log))
    is_quiet(page, "a log with times")
    has_times(page)
    span = page.js("D.times[D.times.length - 1] - D.times[0]")
    wants(0.3 < span < 120, f"a session of half a second takes {span} s by its log")
    bare = re.search("`(cut .*)replay check`", (TOP / "docs/REPORT.md").read_text())[1]
    answer = ask("bash", "-c", f"{bare} {replay} check", cwd=work).stdout
    wants(answer == b"lawful\n", f"a log without its times: {answer}")
    say(f"a log with times: {page.js('LINES.length')} lines in {span:.2f} s")


def cross_text(page):
    return page.js("document.getElementById('cells').innerText")


def results_in(pgn):
    return re.findall(r'^\[Result "(.*)"\]', pgn.read_text(), re.M)


def play_match(folder, wineravine, games):
    """Plays a match with two logs, of which the first has times; answers the results."""
    os.mkfifo(folder / "first.fifo")
    # (XBoard waits for its engines, so that their logs are whole)
    command = ("ts %.s <first.fifo >first.log & timeout -k 5 600 xvfb-run -a xboard -noGUI -xexit "
               "-soundProgram true -mode TwoMachines -depth 4 -delayAfterQuit 60 -sgf match.pgn "
               f"-mg {games} -fcp '{wineravine} --LogFile first.fifo stockfish' "
               f"-scp '{wineravine} --LogFile second.log toga2'; wait")
    ran = ask("bash", "-c", command, cwd=folder, env={**os.environ, "HOME": str(folder)},
              timeout=900)
    results = results_in(folder / "match.pgn") if (folder / "match.pgn").exists() else []
    wants(len(results) == games,
          f"a match: {len(results)} games, not {games}: {ran.stderr.decode()[-300:]}")
    return results


def check_match(page, work, wineravine, games):
    """A match of two engines under XBoard: a page with times, and the table of both logs."""
    if not is_installed("ts", *NEEDED):
        return
    folder = work / "match"
    folder.mkdir()
    with measured() as took:
        results = play_match(folder, wineravine, games)
    page.open(page_of(folder / "first.log"))
    is_quiet(page, "the page of a match")
    has_times(page)
    told = page.js("S.games.map(game => (game.told || game.result).split(' ')[0])")
    wants(told == results, f"a match: the page has the results {told}, XBoard {results}")
    wants(page.js("S.verdicts.every(it => it.good)") and "HandleDraws" in page.js("S.settings"),
          f"a match: {page.js('S.verdicts')}")
    wants(page.js("S.games.every(game => game.lines && game.side)"),
          "a match: games without the lines of their moves")
    shown, shares = page.js("[S.shown, shownMoves.filter(move => move.own >= 0 && move.own < 1"
                            " && move.depth).length]")
    wants(shown == shares > 0,
          f"a match: {shown} moves shown, {shares} with a depth and a share of the bridge")
    table_of(page, folder)
    wants(page.js("LOGS.every(row => isGood(row, 'check') && isGood(row, 'talk'))"),
          "a match: a log that is not lawful")
    cell = page.js("CROSS.cells.length && CROSS.cells[0][1]")
    drawn = results.count("1/2-1/2")
    wants(cell and cell["drawn"] == drawn and sum(cell.values()) == games,
          f"a match: the cross table has {cell}, XBoard {results}")
    say(f"a match of {games} games under XBoard: {took}; {page.js('LOGS[0].summary.count')} lines, "
        f"{shown} moves shown, {cross_text(page)!r}")


def check_tournament(page, work, logins, games):
    """The recipe for a tournament: its games, its PGN, and its report, in which all is lawful."""
    if not is_installed(*NEEDED):
        return
    folder = work / "tournament"
    folder.mkdir()
    shutil.copy(logins.machines, folder / "machines")
    recipe = "\n".join(recipes(r"parallel|wineravine-report \.|cat game"))
    recipe = recipe.replace("$(seq 10)", f"$(seq {games})")
    recipe = re.sub("(?m)^parallel ", "parallel --joblog joblog ", recipe)
    here = {**os.environ, "PATH": f"{logins.home}:{os.environ['PATH']}"}
    with measured() as took:
        ran = ask("bash", "-ec", recipe, cwd=folder, env=here, timeout=1800)
    wants(ran.returncode == 0,
          f"a tournament: status {ran.returncode}: {ran.stderr.decode()[-400:]}")
    played = len(results_in(folder / "games.pgn"))
    wants(played == games, f"a tournament: {played} games, not {games}")
    wants(len(logins.hosts_in(folder / "joblog")) == 2, "a tournament: not over both logins")
    page.open(folder / "index.html")
    is_quiet(page, "the table of a tournament")
    good = page.js("LOGS.filter(row => isGood(row, 'check') && isGood(row, 'talk')).length")
    wants((page.js("LOGS.length"), good) == (2 * games, 2 * games),
          "a tournament: logs that are not lawful")
    wants(page.js("CROSS.engines.length") == 2
          and page.js("Object.values(CROSS.cells[0][1]).reduce((a, b) => a + b)") == games,
          f"a tournament: the cross table has {page.js('CROSS.cells')}")
    say(f"a tournament of {games} games over two logins: {took.wall:.1f} s; {cross_text(page)!r}")
