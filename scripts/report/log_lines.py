"""A log on the disk, read piece by piece: its lines, and the time of each if it has times."""
import os
import re
import shutil
import stat
import tempfile

STAMP = re.compile(rb"(\d{1,12}(?:\.\d{1,9})?) (?=[xuXU#])")
PIECE = 1 << 20


class Changed(Exception):
    """A log became shorter while it was read."""


def text_of(line):
    """Bytes as text; what is no UTF-8 is shown as \\xNN."""
    return line.decode("utf-8", "backslashreplace")


def on_disk(file):
    """The file itself, or a copy of what a pipe gives."""
    if stat.S_ISREG(os.fstat(file.fileno()).st_mode):
        return file
    copy = tempfile.TemporaryFile()
    with file:
        shutil.copyfileobj(file, copy)
    copy.flush()
    return copy


class Log:
    """A log as long as it was when it was opened. Each reading begins anew, beside others."""

    def __init__(self, path):
        # (it is closed with the log)
        self.file = on_disk(open(path, "rb"))  # pylint: disable=consider-using-with
        self.size = os.fstat(self.file.fileno()).st_size
        self.has_times = bool(STAMP.match(os.pread(self.file.fileno(), 64, 0)))
        self.torn = self.size > 0 and os.pread(self.file.fileno(), 1, self.size - 1) != b"\n"

    def __enter__(self):
        return self

    def __exit__(self, *_):
        self.file.close()

    def pieces(self):
        """The bytes as they stand in the file."""
        at = 0
        while at < self.size:
            piece = os.pread(self.file.fileno(), min(PIECE, self.size - at), at)
            if not piece:
                raise Changed("it became shorter while it was read")
            at += len(piece)
            yield piece

    def stamped(self):
        """The lines as they stand in the file."""
        held = b""
        for piece in self.pieces():
            *lines, held = (held + piece).split(b"\n")
            yield from lines
        if self.torn:
            yield held

    def lines(self):
        """The lines without the times before them."""
        if not self.has_times:
            return self.stamped()
        return (line[it.end():] if (it := STAMP.match(line)) else line for line in self.stamped())

    def times(self):
        """The time of each line, none where it has none."""
        for line in self.stamped() if self.has_times else ():
            it = STAMP.match(line)
            yield float(it[1]) if it else None

    def input(self):
        """The bytes of the log without the times: what `replay` reads."""
        if not self.has_times:
            yield from self.pieces()
            return
        held, size = [], 0
        for line in self.lines():
            held.append(line)
            size += len(line)
            if size > PIECE:
                yield b"\n".join(held) + b"\n"
                held, size = [], 0
        if held:
            yield b"\n".join(held) + (b"" if self.torn else b"\n")
