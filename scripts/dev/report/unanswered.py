"""What an engine owed when its log ended: in the head of a page, and in the table.

The logs are written by hand, and so are the numbers of the lines that are wanted.
"""
from basics import is_quiet, page_of, say, table_of, wants

BOOT = "U uci\nu id name Mute\nu uciok\nU isready\nu readyok\n"
MOVE = "x usermove e2e4\nU position startpos moves e2e4\nU go movetime 1000\n"
ANALYSIS = "x analyze\nU position startpos\nU go infinite\n"
# the log, and what is wanted of it
LOGS = {
    "no bestmove": (BOOT + MOVE + "x quit\nU quit\nu.\n", ["no bestmove, line 8"]),
    "no uciok": ("U uci\nu id name Mute\nx xboard\nx quit\nU quit\n", ["no uciok, line 1"]),
    "no readyok": ("U uci\nu uciok\nU isready\nx quit\nU quit\n", ["no readyok, line 3"]),
    "stopped": (BOOT + ANALYSIS + "x exit\nU stop\nx quit\nU quit\n", ["no bestmove, line 8"]),
    # an engine that analyses owes no answer until it is stopped
    "analysing": (BOOT + ANALYSIS + "x quit\nU quit\nu.\n", []),
    "answered": (BOOT + MOVE + "u bestmove e7e5\nX move e7e5\nx quit\nU quit\nu.\n", []),
    # words before the first one of UCI say nothing
    "banner": ("U uci\nu Mute 1.0 uciok\nU isready\nu and now readyok\nx quit\nU quit\n", []),
    "tap": ("U uci\nu uciok\nU isready\nu readyok\nU position startpos\nU go movetime 10\nx.\nu.\n",
            ["no bestmove, line 6"]),
}


def check_unanswered(page, work):
    """Each log's count and links; the table has the same."""
    folder = work / "unanswered"
    folder.mkdir()
    for name, (content, wanted) in LOGS.items():
        log = folder / f"{name}.log"
        log.write_text(content)
        page.open(page_of(log))
        is_quiet(page, log.name)
        count = page.js("document.getElementById('unanswered-count')?.textContent")
        wants(count == str(len(wanted)), f"{name}: the head counts {count} without an answer")
        links = page.js("[...document.querySelectorAll('#unanswered a')].map(a => a.textContent)")
        wants(links == wanted, f"{name}: the head leads to {links}, not {wanted}")
        if wanted:
            page.click("#unanswered a")
            line = int(wanted[0].rpartition(" ")[2])
            wants(page.comes_to("chosen + 1", line), f"{name}: the link leads elsewhere")
    table_of(page, folder)
    found = page.js("Object.fromEntries(LOGS.map(row => [row.log.replace('.log', ''),"
                    " unansweredIn(row).map(it => it[1])]))")
    wants(found == {name: wanted for name, (_, wanted) in LOGS.items()},
          f"the table has {found} without an answer")
    fact = page.js("document.getElementById('facts').innerText.replace(/\\s+/g, ' ')")
    wants("unanswered 5" in fact, f"the head of the table: {fact}")
    say(f"searches and handshakes without an answer: 5 in {len(LOGS)} logs")
