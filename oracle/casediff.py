"""Order 8 of document 02, 'Compare two cases'."""

import itertools
import sys

from .hello import read_client_hello, read_server_hello
from .loglist import LIMIT, contents

READERS = {b"\x01": read_client_hello, b"\x02": read_server_hello}
FIELDS = "version", "random", "identifier", "suites", "methods"


def readable(message):
    """The Hello that the reader of its type gives, or None."""
    reader = READERS.get(message[:1])
    return reader(message)[2] if reader else None


def place(a, b):
    """ "the first differing byte place (the shorter one's length where it begins the longer)" """
    return next((i for i, (x, y) in enumerate(zip(a, b)) if x != y), min(len(a), len(b)))


def differences(a, b):
    """Of two messages of the same number; None stands for one that the case doesn't reach."""
    if a is None or b is None:
        return ["second" if a is None else "first"]
    if a == b:
        return []
    found = [f"byte {place(a, b)}"]
    x, y = readable(a), readable(b)
    if x and y and a[0] == b[0]:
        found += [f"field {name}" for name in FIELDS if getattr(x, name) != getattr(y, name)]
        ours, theirs = dict(x.extensions), dict(y.extensions)
        found += [f"extension {kind}" for kind in sorted({*ours, *theirs}) if ours.get(kind) != theirs.get(kind)]
    return found


def casediff(first, second):
    """The text for what two files hold; None stands for a file that can't be read."""
    cases = []
    for name, case in (("first", first), ("second", second)):
        bodies = None if case is None else contents(case)
        if bodies is None:
            return f"{name} refused\n"
        cases.append(bodies)
    pairs = enumerate(itertools.zip_longest(*cases), 1)
    return "".join(f"{number} {line}\n" for number, (a, b) in pairs for line in differences(a, b))


def read(path):
    try:
        with open(path, "rb") as file:
            return file.read(LIMIT + 1)
    except OSError:
        return None


if __name__ == "__main__":
    cases = [read(path) for path in sys.argv[1:3]]
    sys.stdout.write(casediff(*cases, *[None] * (2 - len(cases))))
