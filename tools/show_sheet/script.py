"""Lines of scripts and answers: how they part, read and look."""
import re

# How many values each kind of line has; None: one or more.
COUNTS = {
    "sort": 1, "ctor": None, "fun": None, "close": 1, "term": None, "eq": 2, "var": 2, "equate": 1, "cong": 2, "iface": 4,
    "assert": 1, "differ": 1, "push": 1, "pop": 1, "check": 1,
}
NUMBERS = re.compile(r"[0-9]+(,[0-9]+)*")


def lines(text):
    """Lines end in LF; the last may lack it."""
    parts = text.split(b"\n")
    if not parts[-1]:
        parts.pop()
    return parts


def read(line):
    """Kind and values of a line that the program accepted; None if it is of a kind unknown here."""
    key, _, value = line.decode("ascii", "replace").partition("=")
    if key not in COUNTS:
        return None
    if key == "sort":
        return (key, [value]) if value in ("d", "u") else None
    if not NUMBERS.fullmatch(value):
        return None
    values = [int(number) for number in value.split(",")]
    return (key, values) if COUNTS[key] in (None, len(values)) else None


def read_split(answer):
    """Atoms and guards of a `split=` answer."""
    atoms, guards, _ = answer.partition("=")[2].split(";")
    return numbers(atoms), numbers(guards)


def numbers(text):
    return [int(number) for number in text.split(",")] if text else []


def shown(line):
    """A line as text that is safe to look at: what is no printable UTF-8 is written as an escape."""
    text = line.replace(b"\\", b"\\\\").decode("utf-8", "backslashreplace")
    return "".join(c if c.isprintable() else c.encode("unicode_escape").decode("ascii") for c in text)
