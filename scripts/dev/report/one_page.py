"""The page of one log, tried in a browser."""
import os
import re
import shutil
import subprocess

from basics import REPORT, TOP, ask, is_quiet, measured, page_of, say, wants
from tables import TAPPED


def chosen(page):
    return page.js("chosen + 1")


def fen_shown(page):
    return page.js("document.getElementById('fen').textContent").partition(": ")[2]


def check_samples(page, work, replay):
    """The page of each sample: its verdict is that of replay, and positions are at their lines."""
    tried, positions = 0, 0
    for sample in sorted([*TOP.glob("samples/*.script"), *TOP.glob("samples/*.log")]):
        log = work / sample.name
        shutil.copy(sample, log)
        page.open(page_of(log))
        is_quiet(page, sample.name)
        wants(page.js("document.querySelectorAll('#rows .row').length") > 0,
              f"{sample.name}: no rows")
        if page.js("S.kind") == "bridge":
            content = sample.read_bytes()
            ran = ask(replay, "check", data=content)
            said = (ran.stderr.decode().strip() or ran.stdout.decode().strip())
            wants(page.js("document.querySelector('#facts dd').textContent") == said,
                  f"{sample.name}: another verdict than {said}")
            for line in ask(replay, "positions", data=content).stdout.decode().splitlines():
                number, _, fen = line.partition(" ")
                page.js(f"choose({max(0, int(number) - 1)}, true)")
                wants(int(number) == 0 or fen_shown(page) == fen,
                      f"{sample.name}: line {number}: {fen_shown(page)}, not {fen}")
                positions += 1
        tried += 1
    say(f"pages of samples: {tried}, with {positions} positions at their lines")


def check_late(page, log):
    """The late answer: its number in the head, its row in red with words, and the ways to it."""
    page.open(page_of(log))
    is_quiet(page, log.name)
    late = page.js("S.late")
    wants(len(late) == 1 and page.js("document.getElementById('late-count').textContent") == "1",
          f"{late} are late, not one")
    wants(log.read_text().splitlines()[late[0] - 1] == "u bestmove b8c6",
          f"line {late} is another line")
    page.click("#late a")
    wants(page.comes_to("chosen + 1", late[0]), "the link in the head leads elsewhere")
    wants(page.js("document.querySelector('.row.late').textContent").count("not shown") == 1,
          "the row does not say: not shown")
    red = page.js("getComputedStyle(document.querySelector('.row.late .says')).color")
    wants(red == "rgb(184, 31, 43)", f"the late answer is {red}, not red")
    page.key("Home")
    page.key("l", "l")
    wants(chosen(page) == late[0], "the key l leads elsewhere")
    wants("came late" in page.js("document.getElementById('where').textContent"),
          "the line below does not say: came late")
    say("late answer: in the head, in red, with its words, by its link and by a key")


def check_keys(page, log, replay):
    """Keys go from line to line and from move to move; search and clicks find lines."""
    content = log.read_bytes()
    told = [line.partition(" ") for line in ask(replay, "positions",
                                                data=content).stdout.decode().splitlines()]
    lines = content.decode().splitlines()
    page.open(page_of(log), "#1")
    page.js("document.getElementById('rows').focus()")
    for number, _, fen in told[1:]:
        page.key("ArrowRight")
        wants((chosen(page), fen_shown(page)) == (int(number), fen),
              f"a key to the right: line {chosen(page)}, not {number}")
    for number, _, fen in reversed(told[1:-1]):
        page.key("ArrowLeft")
        wants((chosen(page), fen_shown(page)) == (int(number), fen),
              f"a key to the left: line {chosen(page)}, not {number}")
    moves = page.js("[...document.querySelectorAll('.moves button')].map(e => e.textContent)")
    games = ask(replay, "games", data=content).stdout.decode()
    wants(moves == [it for it in games.split() if re.match(r"[a-hKQRBNO]", it)],
          f"the moves are {moves}")
    page.click(".moves button:last-of-type")
    wants(page.js("document.querySelector('[aria-current]').textContent") == moves[-1],
          "a click on a move marks another")
    check_search(page, lines)
    say(f"keys, moves, search and clicks: {len(told)} positions, {len(moves)} moves")


def check_search(page, lines):
    """A search finds a folded line, and a click shows the raw line."""
    page.key("Home")
    page.key("ArrowDown")
    first = page.js("rows[1].at + 1")
    wants(chosen(page) == first, f"a key down: line {chosen(page)}, not {first}")
    page.key("/", "/")
    for letter in "depth 2":
        page.key(letter, letter)
    page.key("Enter")
    wanted = next(n for n, line in enumerate(lines, 1) if "depth 2" in line)
    wants(chosen(page) == wanted, f"search: line {chosen(page)}, not {wanted}")
    wants(page.js("document.getElementById('raw').textContent") == lines[wanted - 1],
          "the raw line is another")
    wants("hit" in page.js("document.querySelector('.row.on').className"),
          "the match is not marked")
    page.click(".row:not(.on) .says")
    wants(page.js("document.getElementById('raw').textContent") == lines[chosen(page) - 1],
          "a click shows another raw line")


def check_access(page):
    """What a screen reader gets, rows with names and the board in words; and print."""
    nodes = page.ask("Accessibility.getFullAXTree")["nodes"]
    names = {(it.get("role", {}).get("value"), it.get("name", {}).get("value", "")) for it in nodes}
    roles = [role for role, _ in names]
    wants({"grid", "row", "gridcell", "heading"} <= set(roles),
          f"roles: {sorted(set(map(str, roles)))}")
    wants(any(role in ("image", "img") and "White: king" in name for role, name in names),
          "the board has no words")
    wants(any("from the engine: " in name for _, name in names), "a row does not say who speaks")
    wants(not [role for role, name in names if role == "button" and not name],
          "a button has no name")
    paper = page.ask("Page.printToPDF")["data"]
    wants(len(paper) > 20000, "it prints next to nothing")
    say(f"accessibility: {len(nodes)} nodes, all buttons named; "
        f"printed: {len(paper) * 3 // 4000} KB")


HOSTILE = [
    b"x </script><script>hacked=1</script>", b"u info string <img src=x onerror=hacked=2>",
           b"x <!--<script>", b"u ]]>&lt;&amp;<svg onload=hacked=3>",
    b"x \xff\xfe\x80 no UTF-8 \xc3", b"x a\0b\x1b[31m\x7f",
           b"x \xe2\x80\xa8 \xe2\x80\xa9 \\u003cscript>", b"x {{7*7}} ${hacked=4} `",
           b"x @SCRIPT@ @DATA@",
    b"u id name <b>bold</b>\"'><script>hacked=5</script>",
           "x usermove \u202e4e2e\u202c\u200b\ufeff\x85".encode(),
]


def shown_as(line):
    """How a page shows a line: bytes that are no UTF-8, and what cannot be seen, in signs."""
    text = line.decode("utf-8", "backslashreplace").replace("\x7f", "\u2421")
    text = re.sub("[\0-\x08\x0b-\x1f]", lambda it: chr(0x2400 + ord(it[0])), text)
    return re.sub("[\x80-\x9f\u2028-\u202e\u200b\ufeff]", lambda it: f"\\u{ord(it[0]):04x}", text)


def check_hostile(page, work):
    """No line of a log becomes markup or a script, and each is shown whole."""
    content = b"\n".join([*HOSTILE, b"u " + b"<b>" * 21845, b"X " + b"a" * 131070,
                          b"no mark <script>hacked=6</script>"])
    log = work / "hostile.log"
    log.write_bytes(content)
    page.open(page_of(log))
    is_quiet(page, "hostile log")
    counts = page.js("[typeof hacked, document.scripts.length, document.images.length,"
                     " document.querySelectorAll('b b, svg[onload]').length]")
    wants(counts == ["undefined", 3, 0, 0], f"a hostile log made markup: {counts}")
    for number, line in enumerate(content.split(b"\n")):
        page.js(f"choose({number}, true)")
        shown = page.js("document.getElementById('raw').textContent")
        wants(shown == shown_as(line), f"hostile line {number + 1} is shown as {shown[:80]!r}")
    # a long line is read by the arrows, which then move no row
    page.js("choose(LINES.length - 2, true)")
    page.js("document.getElementById('raw').focus()")
    page.key("ArrowDown")
    wants(chosen(page) == content.count(b"\n"), "an arrow in the line below leads to another line")
    say(f"hostile lines shown as text: {content.count(10) + 1}")


def long_session(rounds, thinking):
    """A session with many lines: short games, each with thinking of this many lines a move."""
    yield "u id name Long\nu option name Ponder type check default false\n"
    yield "u uciok\nu readyok\nx post\n"
    for number in range(rounds):
        if number % 4 == 0:
            yield "x new\nu readyok\n"
        asked, answer = ("f3g1", "f6g8") if number % 2 else ("g1f3", "g8f6")
        yield f"x usermove {asked}\n"
        for depth in range(1, thinking + 1):
            yield (f"u info depth {depth} score cp {number % 90 - 45} time {depth * 10} "
                   f"nodes {depth * 999} pv {answer}\n")
        yield f"u bestmove {answer}\n"


def check_long(page, work, replay):
    """100,000 lines: the time to the first paint and until it is drawn, and how fast it goes on."""
    session = "".join(long_session(1620, 30)).encode()
    log = work / "long.log"
    log.write_bytes(ask(replay, "replay", data=session).stdout)
    with measured() as writing:
        made = page_of(log)
    took, worked = open_long(page, made)
    count, rows = page.js("[LINES.length, document.querySelectorAll('#rows .row').length]")
    wants(count >= 100000 and rows < 200, f"a long log: {count} lines, {rows} rows drawn")
    # (a slow machine has as much longer as a fixed work takes it)
    most = max(3, 4 * fixed_work(page))
    wants(min(took, worked) < most,
          f"a long log: drawn after {took:.2f} s, in which the browser worked for {worked:.2f} s, "
          f"not less than {most:.2f} s")
    paint = page.js("performance.getEntriesByType('paint').map(it => it.startTime).pop() / 1000")
    step = page.js("(() => { const a = performance.now(); for (let k = 0; k < 50; k++) byRow(1);"
                   " return (performance.now() - a) / 50; })()")
    page.key("End")
    wants(chosen(page) == count, "the last line is another")
    page.js("find('depth 30')")
    hits = page.js("hits.length")
    wants(hits == session.count(b"depth 30 "), f"a long log: {hits} matches")
    page.js("document.getElementById('unfold').click()")
    wants(page.js("rows.length") == count, "not all is unfolded")
    load = os.getloadavg()[0]
    say(f"{count} lines, {made.stat().st_size // 1000} KB: written in {writing}, "
        f"drawn in {took:.2f} s (first paint {paint:.2f} s, processor {worked:.2f} s), "
        f"a key takes {step:.1f} ms; load {load:.1f}")


def fixed_work(page):
    """The browser's processor time for a loop."""
    before = page.processor_seconds()
    page.js("(() => { let sum = 0; for (let k = 0; k < 1e8; k++) sum = (sum * 31 + k) | 0;"
            " return sum; })()")
    return page.processor_seconds() - before


def open_long(page, made):
    """The time in which a page is drawn, and the browser's processor time; the best of three."""
    times = []
    for _ in range(3):
        before = page.processor_seconds()
        took = page.open(made)
        times.append((took, page.processor_seconds() - before))
        is_quiet(page, "a long log")
    return min(times)


def odd_values(work):
    """Options of a folder with a value that they do not take."""
    place = work / "odd values"
    place.mkdir()
    texts = {"empty": "", "comment": "# none\n\n", "odd": "localhost\na;b\n", "bytes": "\udcff\n"}
    for name, text in texts.items():
        (place / name).write_bytes(text.encode("utf-8", "surrogateescape"))
    machines = ("", ":", "-", ".", "..", place, "/dev/null", *(place / name for name in texts))
    return [*(("--machines", it) for it in machines),
            *(("--jobs", it) for it in ("", "0", "-1", "many", "1.5", "50%", "2\n", "1" * 30)),
            *(("--joblog", it) for it in ("", place, place / "no-such/joblog")),
            ("--resume", "--joblog", place / "odd"),
            *(("--sprt", *it) for it in (("5", "0"), ("0",), ("0,5",), ("nan", "5"), ("0", "inf"))),
            *(("--sprt", "0", "5", f"--{name}", it) for name in ("alpha", "beta")
              for it in ("0.7", "0", "1e-400", "nan", "half", "")),
            ("--resume",), ("--alpha", "0.1"), ("--alp", "0.1"), ("--sprt=0", "5"), ("x\ny",)]


def check_statuses(work):
    """Each wrong use has its status and one line that tells it, and writes no page."""
    numbered = TOP / "samples/numbered.log"
    cases = [((), 2), (("--jobs",), 2), (("--wrong", "x"), 2), (("a.log", "b.log"), 2),
             (("no-such.log",), 4), (("no such\n.log",), 4), (("",), 2),
             (("--jobs", "2", numbered), 2), (("--sprt", "0", "5", numbered), 2),
             (("--machines", "no-such", work), 3),
             *(((*words, work), 2) for words in odd_values(work))]
    for words, status in cases:
        ran = ask(REPORT, *words)
        answer = (ran.returncode, ran.stderr.startswith(b"wineravine-report: "),
                  ran.stderr.count(b"\n"), ran.stdout)
        wants(answer == (status, True, 1, b""),
              f"the arguments {words}: status {ran.returncode}, not {status}: {ran.stderr.decode()}")
    ran = ask(REPORT, numbered, env={**os.environ, "REPLAY": "no-such-program"})
    wants(ran.returncode == 3 and b"no-such-program" in ran.stderr,
          f"no replay: status {ran.returncode}")
    for words in ((numbered,), ("--help",)):
        with open("/dev/full", "wb") as full:
            status = subprocess.run([REPORT, *words], stdout=full, stderr=subprocess.DEVNULL,
                                    check=False).returncode
        wants(status == 5, f"{words} on a full disk: status {status}, not 5")
    wants(ask(REPORT, "--help").stdout.startswith(b"Shows a log"), "--help says nothing")
    closed = check_closed(work, numbered)
    say(f"statuses compared: {len(cases) + 3 + closed}")


def check_closed(work, log):
    """A standard stream is closed: the page is written all the same, or it is said that it is not."""
    folder = work / "closed streams"
    folder.mkdir()
    shutil.copy(log, folder)
    whole = {it: ask(REPORT, it).stdout for it in (log, folder)}
    for path, page in whole.items():
        for streams, wanted in (("<&-", (0, page)), ("2>&-", (0, page)), (">&-", (5, b"")),
                                ("<&- >&- 2>&-", (5, b""))):
            for made in folder.glob("*.html"):
                made.unlink()
            ran = ask("sh", "-c", f'exec "$0" "$1" {streams}', REPORT, path)
            told = ran.stderr.count(b"\n") == (streams == ">&-")
            wants((ran.returncode, ran.stdout) == wanted and told,
                  f"{path.name} with {streams}: status {ran.returncode}: {ran.stderr.decode()}")
    return 8


def check_kinds(page, work):
    """Logs without a line, of one line, cut, and of a tap: no more is said than they tell."""
    handshake = (TOP / "samples/handshake.script").read_bytes()
    for name, content in {"empty": b"", "feed": b"\n", "one": b"x", "cut": handshake[:-5],
                          "returns": handshake.replace(b"\n", b"\r\n")}.items():
        log = work / f"{name}.log"
        log.write_bytes(content)
        page.open(page_of(log))
        is_quiet(page, name)
        page.js("['ArrowDown', 'ArrowUp', 'ArrowLeft', 'ArrowRight', 'Home', 'End', 'PageDown',"
                " 'Enter', 'l', 'n'].forEach(key => LINES.length && keys[key]())")
        is_quiet(page, name)
        wants(page.js("S.count") == content.count(b"\n")
              + bool(content and not content.endswith(b"\n")), f"{name}: another number of lines")
    log = work / "tap.log"
    log.write_bytes(TAPPED)
    page.open(page_of(log))
    is_quiet(page, "a tap's log")
    head = page.js("document.getElementById('facts').innerText")
    wants("not told by the log of a tap" in head and not page.js("document.querySelector('.late')"),
          f"the log of a tap: {head}")
    say("logs without a line, of one line, cut, with carriage returns, and of a tap: 6")
