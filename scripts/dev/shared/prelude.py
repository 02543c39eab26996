"""What the checks in Python share: where things are, how arguments are read, what a check says."""
import argparse
import os
import pathlib
import shutil

TOP = pathlib.Path(__file__).resolve().parents[3]
# where Debian has games, and the server of ssh
os.environ["PATH"] += ":/usr/games:/usr/sbin"
# programs speak English
os.environ["LC_ALL"] = "C.UTF-8"
os.environ.pop("LANGUAGE", None)


def words_of(text):
    """A reader of arguments for the script with this docstring, which --help prints."""
    return argparse.ArgumentParser(usage=argparse.SUPPRESS, description=text,
                                   formatter_class=argparse.RawDescriptionHelpFormatter)


def program(path):
    """An argument that names a program: its full path."""
    if not os.access(path, os.X_OK):
        raise argparse.ArgumentTypeError(f"there is no program {path}")
    return os.path.realpath(path)


class Check:
    """The lines that a check prints, what has failed, and what is not installed."""

    def __init__(self, name):
        self.name, self.failed, self.missing = name, 0, []

    def say(self, text):
        print(f"checks: {self.name}: {text}", flush=True)

    def fail(self, text):
        self.failed += 1
        self.say(f"FAILED: {text}")

    def wants(self, condition, text):
        if not condition:
            self.fail(text)

    def is_installed(self, *names):
        """Whether all of these programs are; those that are not are named at the end."""
        absent = [name for name in names if not shutil.which(name)]
        self.missing += [name for name in absent if name not in self.missing]
        return not absent

    def end(self):
        """Says what was not tried; the status of the check."""
        if self.missing:
            self.say("not installed, so not tried: " + " ".join(self.missing))
        return 1 if self.failed else 0
