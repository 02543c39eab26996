"""How far a long work is, on standard error where that is a terminal."""
import sys
import time

WIDTH = 30


def left_text(seconds):
    """The time that is left, in the units in which one waits."""
    if seconds < 100:
        return f"{seconds:.0f} s"
    return f"{seconds / 60:.0f} min" if seconds < 5_940 else f"{seconds / 3600:.1f} h"


class Bar:
    """A bar with the time left, as the rate so far gives it."""

    def __init__(self, total, out=None):
        self.total, self.done, self.out = total, 0, out or sys.stderr
        # (standard error may be closed)
        self.shows = bool(total and self.out and self.out.isatty())
        self.begun, self.told = time.monotonic(), 0.0

    def step(self):
        """One more is done; what is shown changes at most ten times a second."""
        self.done += 1
        now = time.monotonic()
        if self.shows and (now - self.told > 0.1 or self.done == self.total):
            self.told = now
            left = (now - self.begun) * (self.total - self.done) / self.done
            filled = WIDTH * self.done // self.total
            self.write(f"{'#' * filled}{'.' * (WIDTH - filled)} {self.done} of {self.total} logs, "
                       f"{left_text(left)} left")

    def write(self, text):
        self.out.write(f"\r\x1b[K{text}")
        self.out.flush()

    def end(self):
        """Takes the bar away."""
        if self.shows:
            self.write("")
