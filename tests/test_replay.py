"""Program `replay` against the plain book, on long random scripts (layout: crates/script/specs/Script.antt)."""

import pathlib
import random
import subprocess

from oracle.book import Book

PROGRAM = pathlib.Path(__file__).resolve().parent.parent / "target/bin/replay"
CALL, ANSWER = 112, 70


def answer(book, call):
    """One call of a script on the second program's book."""
    kind, axle, ems, suite = call[0], call[1], call[3], int.from_bytes(call[5:7], "big")
    identifier = call[8 : 8 + min(call[2], 40)]
    lent = call[48 : 48 + min(call[4], 64)]
    number = found = has_ems = count = has_suite = 0
    out = b""
    if kind == 0:
        number = book.store(axle, identifier, bool(ems), suite, lent)
    elif kind == 1:
        number, found, has_ems, has_suite, out = book.look_up(axle, identifier, lent)
    elif kind == 2:
        number, found = book.withdraw(axle, identifier)
    elif kind == 3:
        number, count = book.held(axle)
    else:
        number = book.clear()
    return (bytes([number, found, has_ems, count]) + has_suite.to_bytes(2, "big") + out).ljust(ANSWER, b"\x00")


def agree(script):
    said = subprocess.run([PROGRAM], input=script, capture_output=True, check=True).stdout
    book = Book()
    expected = b"".join(answer(book, script[i : i + CALL]) for i in range(0, len(script) - CALL + 1, CALL))
    assert said == expected
    return [said[i : i + ANSWER] for i in range(0, len(said), ANSWER)]


def test_random_scripts():
    r = random.Random(1)
    calls = 0
    for _ in range(60):
        few = [r.randbytes(40) for _ in range(r.choice((4, 20, 80)))]
        script = b""
        for _ in range(r.randrange(1, 586)):
            kind = r.choices((0, 1, 2, 3, 4), (60, 20, 8, 11, 0.2))[0]
            length = 48 if r.random() < 0.95 else r.randrange(256)
            head = bytes([kind, r.choice((1, 2, 3, 4, 4, 4, 5, 6, r.randrange(256))), r.choice((1, 32, r.randrange(256)))])
            script += head + bytes([r.randrange(3), length]) + r.randbytes(3) + r.choice(few) + r.randbytes(64)
            calls += 1
        agree(script + r.randbytes(r.choice((0, 1, 50))) if len(script) < 65_000 else script)
    return f"{calls} calls"


def test_the_suite_of_a_session():
    """Places 5 and 6 of a store, the high byte first, and place 7 not read; 4 and 5 of what a look-up that finds it answers."""
    secret, nothing = bytes(range(1, 49)), bytes(ANSWER)

    def call(kind, between=bytes(3), name=b"a"):
        return bytes([kind, 3, 1, 1, 48]) + between + name.ljust(40, b"\x00") + secret.ljust(64, b"\x00")

    found, replaced = (bytes([0, 1, 1, 0]) + suite + secret + bytes(16) for suite in (b"\x12\x34", b"\x34\x12"))
    said = agree(call(0, b"\x12\x34\x09") + call(1) + call(0, b"\x34\x12\xff") + call(1) + call(2) + call(1, name=b"b") + call(1))
    withdrawn, none = bytes([0, 1]) + bytes(ANSWER - 2), bytes(6) + secret + bytes(16)
    assert said == [nothing, found, nothing, replaced, withdrawn, none, none]


def test_any_bytes_are_a_script():
    r = random.Random(2)
    for n in (0, 1, 111, 112, 113, 224, 65_520):
        agree(r.randbytes(n))
