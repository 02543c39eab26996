"""A program that speaks UCI, and the lines that it writes."""
import queue
import subprocess
import sys
import threading


class UciProgram:
    """The running program. What it does not do ends the whole script, with a line that says so."""

    statuses = (0,)

    def __init__(self, words):
        self.process = subprocess.Popen(words, stdin=subprocess.PIPE, stdout=subprocess.PIPE,
                                        stderr=subprocess.DEVNULL, text=True)
        self.lines = queue.Queue()
        threading.Thread(target=self.read, daemon=True).start()

    def read(self):
        for line in self.process.stdout:
            self.lines.put(line.rstrip("\n"))
        self.lines.put(None)

    def order(self, line):
        self.process.stdin.write(line + "\n")
        self.process.stdin.flush()

    def wait_for(self, word, what, seconds=120):
        """The next line that begins with the word, which belongs to what is named so."""
        while True:
            try:
                line = self.lines.get(timeout=seconds)
            except queue.Empty:
                sys.exit(f"no {word} for {what} within {seconds} s")
            if line is None:
                sys.exit(f"the program ended before {word} for {what}")
            if line.split()[:1] == [word]:
                return line

    def quit(self):
        """Orders its end, with a status that it may have."""
        self.order("quit")
        if (status := self.process.wait(timeout=120)) not in self.statuses:
            sys.exit(f"the program ended with status {status}")
