"""A file of ssh logins, one a line, as GNU parallel reads it."""
import re

# [@group+group/][processors/], and [command of ssh ][user[:password]@]host[:port] or `:`
BEFORE = re.compile(r"(?:@[^/]+/)?(?:(\d+)/)?")
LOGIN = re.compile(r"(?:.* )?(?:[^@ ]+@)?(?:[-a-z0-9._]+(?::\w+)?|\[[0-9a-f:]+\](?::\w+)?"
                   r"|(?=.*:.*:)[0-9a-f:]+(?:[p.#]\w+)?)", re.IGNORECASE)
HERE = ":"


class Machines:
    """The logins of a file: whether this machine and others are among them, and what is none."""

    def __init__(self, path):
        self.here, self.others, self.wrong = False, False, []
        with open(path, encoding="utf-8", errors="surrogateescape") as file:
            for number, line in enumerate(file, 1):
                if line.strip() and not line.lstrip().startswith("#"):
                    self.take(number, line)

    def take(self, number, line):
        # (of two commas a login has one, which ends none)
        for login in re.split(r"(?<![,\\]),(?!,)", line.rstrip()):
            name = BEFORE.sub("", login.rstrip(), count=1)
            if name == HERE:
                self.here = True
            elif LOGIN.fullmatch(name):
                self.others = True
            else:
                self.wrong.append((number, login.strip()))
