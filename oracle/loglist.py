"""Document 01, program `loglist`; a Finished by order 6 of document 02, the hash by order 7, the place by order 9."""

import sys

from . import decision
from .book import Book
from .log import Log, Told
from .numbers import PLACED

LIMIT = 32_768
SECRET = bytes(48)  # a case has none
TOLD = Told(resumes=False, sha384=False)  # "a fresh log never told of resuming"; "`loglist` states SHA-256"


def contents(case):
    """The bodies, or None where the contents are bad."""
    if len(case) > LIMIT or not case:
        return None
    count = case[0]
    lengths = [case[1 + 2 * i : 3 + 2 * i] for i in range(count)]
    if any(len(n) != 2 for n in lengths):
        return None
    lengths = [int.from_bytes(n, "big") for n in lengths]
    rest = case[1 + 2 * count :]
    if sum(lengths) != len(rest):
        return None
    bodies = []
    for n in lengths:
        bodies.append(rest[:n])
        rest = rest[n:]
    return bodies


def fed(log, body):
    """(number, place)"""
    return log.finish(SECRET, body) if body[:1] == b"\x14" else log.accept(body, TOLD)


def column(number, place):
    """With its place "after the number with a colon, as `1:17`"."""
    return f"{number}:{place}" if number in PLACED else f"{number}"


def loglist(case):
    lines = ["message type log hello"]
    bodies = contents(case)
    if bodies is None:
        lines.append("contents refused")
        bodies = []
    log, table = Log(), Book()
    for i, body in enumerate(bodies, 1):
        number, place = fed(log, body)
        hello = "-"
        if number == 0 and body[0] == 1:
            made, _, _ = decision.server(body, 1, table.known, decision.Connection(), decision.Switches(), bytes(64))
            hello = column(made.number, made.place)
        lines.append(f"{i} {body[0] if body else '-'} {column(number, place)} {hello}")
    return "\n".join(lines) + "\n"


if __name__ == "__main__":
    sys.stdout.write(loglist(sys.stdin.buffer.read()))
