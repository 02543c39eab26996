"""How contracts in code are read: a function's clauses, and where a block of braces ends."""
import re

FUNCTION = re.compile(r"^[ \t]*(pub(?:\([a-z]+\))? )?fn (\w+)", re.M)
OWNER = re.compile(r"^(?:pub )?(?:unsafe )?(?:impl|trait)\b[^{]*", re.M)
NEXT = re.compile(r"\s*(?:(requires|ensures)\s*(\w+)?\s*(?=\{)|where\b)")


def plain(text):
    return re.sub(r"[;,] ([)}])", r" \1", " ".join(text.split()))


def past(text, at):
    """Where the text goes on after the brace at this place and all that it holds."""
    depth = 0
    for number in range(at, len(text)):
        depth += {"{": 1, "}": -1}.get(text[number], 0)
        if not depth:
            return number + 1
    return len(text)


def clauses_from(text, at):
    """The clauses of the function whose words begin here, each as one line."""
    depth, clauses = 0, []
    while at < len(text):
        found = NEXT.match(text, at) if not depth else None
        if found and found[1]:
            end = past(text, found.end())
            clauses.append(plain(text[found.start():end]))
            at = end
        elif not depth and text[at] in "{;":
            break
        else:
            depth += {"(": 1, "[": 1, ")": -1, "]": -1}.get(text[at], 0)
            at += 1
    return clauses


def owner_of(head):
    """The names of the types of an impl or a trait, without their parameters."""
    head = head.split(" where")[0]
    while re.search(r"<[^<>]*>", head):
        head = re.sub(r"<[^<>]*>", " ", head)
    words = re.findall(r"\w+", head)
    return ".".join(it for it in words if it not in ("impl", "trait", "pub", "for", "unsafe")) + "."


def contracts_of_code(text):
    """Each function that has clauses or is public, as `Type.name`, with its clauses."""
    owners = [(it.start(), past(text, it.end()), owner_of(it[0])) for it in OWNER.finditer(text)]
    for found in FUNCTION.finditer(text):
        owner = "".join(name for begin, end, name in owners if begin < found.start() < end)
        clauses = clauses_from(text, found.end())
        if clauses or found[1]:
            yield owner + found[2], clauses
