"""The pages: one file each, with no script but its own, written piece by piece."""
import base64
import functools
import hashlib
import html
import itertools
import json
import pathlib
import re

PARTS = pathlib.Path(__file__).resolve().parent
SCRIPTS = {"page": ("common", "pgn", "scores", "head", "lines", "board", "plots", "times", "page"),
           "index": ("common", "pgn", "scores", "index", "matches", "games", "last")}
SUMMARY = re.compile(r'<script id="summary" type="application/json">(.*)</script>')


def data_of(value):
    """JSON that is no markup wherever it stands."""
    text = json.dumps(value, separators=(",", ":"))
    return text.replace("<", "\\u003c").replace(">", "\\u003e").replace("&", "\\u0026")


def list_of(values):
    """The same for a list of which only a part is held at a time."""
    begun = False
    yield "["
    while held := list(itertools.islice(values, 4096)):
        yield ("," if begun else "") + data_of(held)[1:-1]
        begun = True
    yield "]"


def allowed(text):
    """The name by which a browser takes this script or style, and no other."""
    return "'sha256-" + base64.b64encode(hashlib.sha256(text.encode()).digest()).decode() + "'"


def title_of(text):
    return html.escape("".join(it if it.isprintable() else " " for it in text))


@functools.cache
def template_of(name):
    """The template of this name, cut at its places, and the texts that all such pages have."""
    style = (PARTS / "report.css").read_text("utf-8")
    script = "".join((PARTS / f"{part}.js").read_text("utf-8") for part in SCRIPTS[name])
    parts = {"STYLE": style, "SCRIPT": script,
             "STYLE_NAME": allowed(style), "SCRIPT_NAME": allowed(script)}
    template = "".join((PARTS / f"{part}.html").read_text("utf-8") for part in ("top", name))
    return re.split(r"@([A-Z_]+)@", template), parts


def page_of(name, title, **data):
    """The pieces of the page of this name; what is no text among its data is written as JSON."""
    template, parts = template_of(name)
    parts = {**parts, "TITLE": [title_of(title)],
             **{key.upper(): value for key, value in data.items()}}
    for number, text in enumerate(template):
        if number % 2 == 0:
            yield text
        elif isinstance(parts[text], str):
            yield parts[text]
        else:
            yield from parts[text]


def log_page(title, log, summary, data):
    """The page of a log, whose lines are read again."""
    lines = itertools.chain(
        ['{"lines":'], list_of(log_texts(log)), [',"times":'], list_of(log.times()),
        *([f',"{key}":', data_of(value)] for key, value in data.items()), ["}"])
    return page_of("page", title, summary=data_of(summary), data=lines)


def log_texts(log):
    """The lines as text; what is no UTF-8 is shown as \\xNN."""
    return (line.decode("utf-8", "backslashreplace") for line in log.lines())


def index_page(title, **data):
    return page_of("index", title, **{key: data_of(value) for key, value in data.items()})


def summary_in(page):
    """The summary of a page that was written before, if it is one."""
    for line in page:
        if it := SUMMARY.match(line):
            return json.loads(it[1])
    return None
