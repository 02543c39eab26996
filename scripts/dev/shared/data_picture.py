"""The picture of data: how bytes go through the running bridge, and which crates do it."""

STYLE = """\
graph [rankdir=LR, nodesep=0.3, ranksep=0.5, fontname="sans-serif", fontsize=11]
node [shape=box, margin="0.1,0.05", fontname="sans-serif", fontsize=11]
node [style=filled, fillcolor="#f4f1e8", color="#54513f"]
edge [arrowsize=0.6, color="#54513f", fontname="sans-serif", fontsize=10, fontcolor="#6b6650"]"""

# each place: what it does, and the crates that do it
PLACES = {
    "interface": ("XBoard", []),
    "engine": ("the engine", ["child_engine"]),
    "reader_of_interface": ("reader", ["line_io", "event_pipe"]),
    "reader_of_engine": ("reader", ["line_io", "event_pipe"]),
    "channel": ("channel", ["event_pipe"]),
    "loop": ("loop", ["event_loop"]),
    "core": ("core: one step an event", ["adapter_core", "desk_rules", "search_epochs"]),
    "lines_in": ("lines read", ["cecp_lines", "uci_lines"]),
    "lines_out": ("replies and orders written", ["cecp_lines", "uci_lines"]),
    "marks": ("marks of the step", ["script_lines"]),
    "sinks": ("sinks: log, interface, engine", ["program_lifecycle"]),
    "log": ("the log", []),
}
PEERS = ["interface", "engine", "log"]
WAYS = [
    ("interface", "reader_of_interface", "bytes"),
    ("engine", "reader_of_engine", "bytes"),
    ("reader_of_interface", "channel", "lines"),
    ("reader_of_engine", "channel", "lines"),
    ("channel", "loop", "events, one at a time"),
    ("loop", "lines_in", "an event"),
    ("lines_in", "core", "messages"),
    ("core", "lines_out", "replies, orders"),
    ("lines_out", "marks", "lines"),
    ("marks", "sinks", "text"),
    ("sinks", "log", "first"),
    ("sinks", "interface", "then"),
    ("sinks", "engine", "last"),
]


def named():
    """The crates that the picture names."""
    return sorted({crate for _, crates in PLACES.values() for crate in crates})


def place(name):
    does, crates = PLACES[name]
    shape = ', shape=ellipse, fillcolor="#ffffff"' if name in PEERS else ""
    return f'{name} [label="{label(does, crates)}"{shape}]'


def label(does, crates):
    return does + ("\\n" + "\\n".join(crates) if crates else "")


def graph():
    """The picture, in the language of dot."""
    ways = [f'{one} -> {other} [label="{text}"{back(one)}]' for one, other, text in WAYS]
    return "\n".join(["digraph data {", STYLE, *map(place, PLACES), *ways, "}"])


def back(one):
    """The ways back to the peers do not set the order of the places."""
    return ", constraint=false" if one == "sinks" else ""
