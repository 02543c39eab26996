"""The table of a folder of logs, made on this machine."""
import functools
import os
import shutil

import faults
from basics import REPORT, TOP, ask, is_quiet, late_log, measured, say, table_of, wants

# a search that was stopped, of which a tap cannot tell whether its move was shown
TAPPED = (b"U uci\nu id name Tapped\nu uciok\nU position startpos\nU go wtime 9000 btime 9000\n"
          b"U stop\nu bestmove e2e4\nU quit\nx.\nu.\n")


def folder_of(work, name, count, replay):
    """A folder with logs of every kind.

    They are of games of two engines, each with both logs, and two that cannot be read.
    """
    folder = work / name
    kinds = {"late.log": late_log(replay), "tap.log": TAPPED,
             "faulty.log": (TOP / "samples/faulty.script").read_bytes(),
             "driver.log": (TOP / "samples/driver.script").read_bytes(),
             "reviver.log": (TOP / "samples/reviver.script").read_bytes(),
             "no mark.log": b"hello\n"}
    kinds.update((f"{it}.log", content) for it, content in faults.logs_of(replay).items())
    folder.mkdir()
    for kind, content in kinds.items():
        (folder / kind).write_bytes(content)
    (folder / "gone.log").symlink_to("nowhere")
    os.mkfifo(folder / "pipe.log")
    for number in range((count - len(kinds) - 1) // 2):
        game = folder / f"game {number}"
        game.mkdir()
        for side in ("first", "second"):
            (game / f"{side}.log").write_bytes(match_log(replay, side, number % 2))
    return folder


@functools.lru_cache
def match_log(replay, side, number):
    script = ask(replay, "replay", data=match_session(side, number)).stdout
    return ask(replay, "migrate", data=script).stdout


def match_session(side, number):
    """A side of a game that White mates in four moves; the first engine is White in every other."""
    name, moves = {"first": "One",
                   "second": "Two"}[side], "e2e4 e7e5 f1c4 b8c6 d1h5 g8f6 h5f7".split()
    mine = (side == "first") == (number % 2 == 0)
    lines = [f"u id name {name}", "u uciok", "u readyok", "x new", "u readyok", "x post", "x force"]
    for ply, move in enumerate(moves):
        if (ply % 2 == 0) != mine:
            lines.append(f"x usermove {move}")
            continue
        lines += ["x go"] if ply < 2 else []
        lines += [f"u info depth {ply + 3} score cp {20 * ply} time {ply * 100} pv {move}",
                  f"u bestmove {move}"]
    lines += ["x result 1-0 {White mates}", "x quit", "u."]
    return "".join(line + "\n" for line in lines).encode()


def texts_in(page, selector):
    """The texts of the cells of each row."""
    return page.js(f"[...document.querySelectorAll('{selector}')]"
                   ".map(e => [...e.children].map(c => c.textContent))")


def column_of(page, head):
    """The number of the column with this head."""
    heads = texts_in(page, "#heads")[0]
    wants(head in heads, f"no column {head}: {heads}")
    return heads.index(head) if head in heads else 0


def links_in(page, head):
    """The links in the column with this head: text and target."""
    cells = f"#logs tr > :nth-child({column_of(page, head) + 1}) a"
    return page.js(f"[...document.querySelectorAll('{cells}')]"
                   ".map(a => [a.textContent, a.getAttribute('href')])")


def seen_after(page, text):
    """The logs that are seen once this text was looked for."""
    page.js("(e => { e.value = '%s'; e.dispatchEvent(new Event('input')); })"
            "(document.getElementById('find'))" % text)
    return page.js("[...document.querySelectorAll('#logs tr')].filter(e => !e.hidden)"
                   ".map(e => e.firstChild.textContent)")


def check_orders(page):
    """A second click on a head puts those logs first that have most of it; a search finds rows."""
    for head, first in (("late answers", "late.log"), ("engine faults", "illegal.log")):
        for _ in "ab":
            page.js(f"document.querySelectorAll('#heads button')[{column_of(page, head)}].click()")
        wants(page.js("document.querySelector('#logs th').textContent") == first,
              f"the table is not sorted by {head}")
    for text, logs in (("faulty", ["faulty.log"]), ("ILLEGAL MOVE", ["illegal.log"]),
                       ("engine ended", ["ended.log", "lost.log"])):
        seen = seen_after(page, text)
        wants(sorted(seen) == logs, f"a search for {text} finds {seen}")


def check_table(page, folder, count):
    with measured() as took:
        table_of(page, folder)
    rows = {row[0]: row[1:] for row in texts_in(page, "#logs tr")}
    wants(len(rows) == count, f"a table: {len(rows)} rows, not {count}")
    check_rows(rows)
    late = links_in(page, "late answers")
    wants(len(late) == 1 and late[0][1].startswith("./late.log.html#"),
          f"late answers lead to {late}")
    found = links_in(page, "engine faults")
    wanted = [[text, f"./{name}.log.html#{text.rpartition(' ')[2]}"]
              for name in sorted(faults.TEXTS) for text in faults.TEXTS[name]]
    wants(found == wanted, f"engine faults lead to {found}")
    check_orders(page)
    games = sum(name.endswith("first.log") for name in rows)
    check_cross(page, games)
    check_link(page, folder)
    say(f"a table of {count} logs: {took}, {took.wall / count * 1000:.0f} ms a log; sorted, "
        f"searched, its links followed; {games} games in its cross table")
    return took


def check_rows(rows):
    """What a table says of a log of each kind."""
    kinds = [rows[f"{it}.log"][0] for it in ("late", "tap", "driver", "reviver", "faulty", "gone",
                                             "pipe")]
    wants(kinds == ["bridge", "tap", "driver", "reviver", "bridge", "", ""], f"kinds: {kinds}")
    for name in ("gone.log", "pipe.log"):
        wants(f"{name} cannot be read" in rows[name][1], f"a log that cannot be read: {rows[name]}")
    wants(rows["late.log"][1:3] == ["replay check: lawful", "replay judge: lawful talk"],
          f"late.log: {rows['late.log']}")
    wants(rows["tap.log"][2] == "replay judge tap: lawful talk" and rows["tap.log"][7] == "",
          f"tap.log: {rows['tap.log']}")
    told = [rows[f"{it}.log"][10][:1] for it in ("illegal", "right", "tap", "driver", "reviver")]
    wants(told == ["2", "0", "", "", ""], f"engine faults: {told}")
    wants("unlawful at line 16" in rows["faulty.log"][2], f"faulty.log: {rows['faulty.log']}")
    for name in ("driver.log", "reviver.log"):
        wants("writes this log again" in rows[name][1], f"{name}: {rows[name]}")


def check_cross(page, games):
    won = [(games + 1) // 2, games // 2]
    scores = [f"{won[it]} of {games}" for it in (0, 1)]
    wanted = [["One", "–", f"{scores[0]} (+{won[0]} =0 −{won[1]})", scores[0]],
              ["Two", f"{scores[1]} (+{won[1]} =0 −{won[0]})", "–", scores[1]]]
    cross = texts_in(page, "#cells tr")[1:]
    wants(cross == wanted, f"the cross table: {cross}")


def check_link(page, folder):
    page.open(folder / "index.html")
    page.js("delete document.body.dataset.ready")
    page.click("#logs a[href*=first]")
    page.wait_until_ready()
    wants(page.js("document.body.className").startswith("session"),
          "a link of the table opens no page of a log")


def check_without_parallel(page, work, folder):
    """The same table where GNU parallel is not there, and a folder without a log."""
    tools = work / "tools"
    tools.mkdir()
    for name in ("env", "python3"):
        (tools / name).symlink_to(shutil.which(name))
    here = {**os.environ, "PATH": str(tools)}
    for made in folder.rglob("*.log.html"):
        made.unlink()
    again = ask(REPORT, folder, env=here)
    wants(again.stdout == (folder / "index.html").read_bytes(),
          "made without GNU parallel the table is another one")
    wants(ask(REPORT, folder, env=here).stdout == again.stdout,
          "of pages that are kept the table is another one")
    ran = ask(REPORT, "--joblog", work / "none", folder, env=here)
    wants(ran.returncode == 3 and b"parallel" in ran.stderr,
          f"a joblog without GNU parallel: status {ran.returncode}")
    empty = work / "no logs"
    empty.mkdir()
    wants(table_of(page, empty) == [], "a folder without a log has rows")
    wants("No log" in page.js("document.body.innerText"), "a folder without a log does not say so")
    say("the same table without GNU parallel; a folder without a log")


# names that a shell, a browser, rsync or GNU parallel would take for something else
NAMES = [b"\"><img src=x onerror=hacked=7> \xff'`.log", b"javascript:hacked=8;.log", b"a b  c.log",
         b"$(touch hacked).log", b"`touch hacked`.log",
         b"new\nline.log", b"-dash.log", b"{}.log", b"{.}.log", b"a;touch hacked.log", b"*.log",
         b"host:x.log", b"a\\b.log", b"~.log", b"#5.log",
         b"%20.log", b"?x=1.log", "\u202eabc.log".encode(), b".log"]


def hostile_folder(work, content):
    folder = work / "names"
    folder.mkdir()
    for name in NAMES:
        with open(os.path.join(os.fsencode(folder), name), "wb") as log:
            log.write(content)
    return folder


def check_names(page, folder, *words, where="on this machine"):
    """Each log has its page, whatever its name; no name becomes markup or is run."""
    rows = table_of(page, folder, *words)
    wants(len(rows) == len(NAMES), f"{len(rows)} rows for {len(NAMES)} names")
    wants(page.js("typeof hacked + document.images.length") == "undefined0",
          "a hostile name made markup")
    wants(not list(folder.rglob("hacked*")), "a hostile name was run")
    wants(not [row for row in rows if row["fault"]],
          f"names: {[row['fault'] for row in rows if row['fault']]}")
    links = page.js("[...document.querySelectorAll('#logs th a')].map(a => a.href)")
    wants(len(links) == len(NAMES) and all(it.startswith(folder.as_uri()) for it in links),
          f"links lead elsewhere: {links}")
    for link in links:
        page.go(link)
        is_quiet(page, link)
        wants(page.js("typeof hacked + document.images.length + S.count") == "undefined0" + "87",
              f"{link} is another page")
    say(f"hostile names of files {where}: {len(NAMES)}")
