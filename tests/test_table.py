"""The session table against the plain book and the layout before order 3: random lists of calls, every refusal, every output
length, the incident, and after every call all bytes of the table, which the book alone foretells."""

import collections
import pathlib
import random
import subprocess

from oracle import numbers, one_row
from oracle.book import Book
from oracle.decision import Connection, Switches
from tests import face, hellos, values
from tests.test_decision import server_agrees

ROOT = pathlib.Path(__file__).resolve().parent.parent
SECRET = bytes(range(48))
PATTERN = bytes((i * 29 + 5) % 256 for i in range(80))
SUITE = 0x123B
ROW = 84  # bytes of a place


def row_bytes(session):
    _, identifier, ems, suite, secret = session
    return bytes([ems, len(identifier)]) + suite.to_bytes(2, "big") + identifier.ljust(32, b"\x00") + secret


def queue_bytes(sessions):
    """Their places, blank ones up to the eighth, and how many they are."""
    assert len(sessions) <= 8
    return b"".join(map(row_bytes, sessions)).ljust(8 * ROW, b"\x00") + bytes([len(sessions)])


def expected_bytes(book):
    """The whole table: for each axle its part of the book, in order."""
    assert len(book.row) <= 32
    return b"".join(queue_bytes([s for s in book.row if s[0] == axle]) for axle in range(1, 7))


class OneRow:
    """The layout before order 3, called as the book is."""

    def __init__(self):
        self.row = one_row.fresh_row()

    def _call(self, *call):
        answer = one_row.answer_in(self.row, call)
        self.row = one_row.after_in(self.row, call)
        return answer

    def store(self, axle, identifier, ems, suite, secret):
        return self._call("store", (axle, identifier, bool(ems), suite, secret))

    def look_up(self, axle, identifier, out):
        number, session, after = self._call("look_up", axle, identifier, out)
        return number, session is not None, bool(session and session[2]), session[3] if session else 0, after

    def withdraw(self, axle, identifier):
        return self._call("withdraw", axle, identifier)

    def held(self, axle):
        return self._call("held", axle)

    def clear(self):
        return self._call("clear")

    def laid_out(self, book):
        """Its row is the book, with blank places behind it."""
        taken = len(book.row)
        assert self.row == (book.row + [one_row.BLANK] * (32 - taken), taken)


class Pair:
    """The table and the book, given the same calls, and others that are called as the book is; every answer, the whole lent output
    and all bytes of the table are compared."""

    def __init__(self, *others):
        self.table, self.book, self.others = face.table_fresh(), Book(), (OneRow(), *others)
        self.laid_out()

    def laid_out(self):
        assert bytes(self.table) == expected_bytes(self.book)
        for other in self.others:
            other.laid_out(self.book)

    def _agreed(self, answer, name, *given):
        """The book's answer is everybody's."""
        for other in self.others:
            assert getattr(other, name)(*given) == answer
        return answer

    def _keep(self, answer, number):
        """A refusal hands the table back as it was."""
        if number:
            assert bytes(answer.table) == bytes(self.table)
        self.table = answer.table
        self.laid_out()

    def store(self, axle, identifier, ems, suite, secret):
        given = axle, identifier, ems, suite, secret
        number = self._agreed(self.book.store(axle, identifier, bool(ems), suite, secret), "store", *given)
        answer = face.table_store(self.table, *given)
        assert answer.refusal.plain() == numbers.refusal(number)
        self._keep(answer, number)
        return number

    def look_up(self, axle, identifier, out):
        number, found, ems, suite, after = self._agreed(self.book.look_up(axle, identifier, out), "look_up", axle, identifier, out)
        lent = face.lend(out)
        answer = face.table_look_up(self.table, axle, identifier, lent)
        assert answer.refusal.plain() == numbers.refusal(number)
        assert (answer.found, answer.ems, answer.suite, bytes(lent)) == (found, ems, suite, after)
        self.laid_out()
        return found

    def withdraw(self, axle, identifier):
        number, withdrawn = self._agreed(self.book.withdraw(axle, identifier), "withdraw", axle, identifier)
        answer = face.table_withdraw(self.table, axle, identifier)
        assert answer.refusal.plain() == numbers.refusal(number) and answer.withdrawn == withdrawn
        self._keep(answer, number)
        return withdrawn

    def held(self, axle):
        number, count = self._agreed(self.book.held(axle), "held", axle)
        answer = face.table_held(self.table, axle)
        assert answer.refusal.plain() == numbers.refusal(number) and answer.count == count
        self.laid_out()
        return count

    def clear(self):
        number = self._agreed(self.book.clear(), "clear")
        answer = face.table_clear(self.table)
        assert answer.refusal.plain() == numbers.refusal(number)
        self._keep(answer, number)

    def all_held(self):
        return [self.held(axle) for axle in range(1, 7)]


def identifiers():
    """A fresh one each time."""
    n = 0
    while True:
        n += 1
        yield n.to_bytes(4, "big")


def test_cases_of_document_01():
    fresh = identifiers()
    p, first = Pair(), next(fresh)
    p.store(1, first, 1, SUITE, SECRET)
    for _ in range(8):
        p.store(1, next(fresh), 1, SUITE, SECRET)
    assert p.held(1) == 8 and not p.look_up(1, first, bytes(48))
    p = Pair()
    for axle in range(1, 5):
        for _ in range(8):
            p.store(axle, next(fresh), 0, SUITE, SECRET)
    for _ in range(4):
        p.store(5, next(fresh), 0, SUITE, SECRET)
    assert p.all_held() == [7, 7, 7, 7, 4, 0]
    p.store(5, next(fresh), 0, SUITE, SECRET)
    assert p.all_held() == [7, 7, 7, 7, 4, 0]
    p.store(6, next(fresh), 0, SUITE, SECRET)
    assert p.all_held() == [6, 7, 7, 7, 4, 1]


def test_one_axle_restarts_without_end():
    """Axle four restarts without end; the latest sessions of the other five are all found."""
    fresh, p, latest = identifiers(), Pair(), {}
    for _ in range(4):
        for axle in (1, 2, 3, 5, 6):
            latest[axle] = next(fresh), 0xC000 + axle, bytes([axle]) * 48
            identifier, suite, secret = latest[axle]
            p.store(axle, identifier, 1, suite, secret)
    for _ in range(10_000):
        assert p.store(4, next(fresh), 1, SUITE, SECRET) == 0
    for axle, (identifier, suite, secret) in latest.items():
        out = face.lend(bytes(48))
        answer = face.table_look_up(p.table, axle, identifier, out)
        assert (answer.found, answer.ems, answer.suite, bytes(out)) == (1, 1, suite, secret)


def test_refusals():
    p = Pair()
    p.store(1, b"a", 1, SUITE, SECRET)
    for axle in (0, 1, 6, 7, 100, 255):
        for n in (0, 1, 32, 33, 300):
            identifier = b"a" * n
            for k in (0, 47, 48, 49, 96):
                p.store(axle, identifier, k % 2, SUITE + k, PATTERN[:k] if k <= 80 else bytes(k))
            p.look_up(axle, identifier, PATTERN[:10])
            p.look_up(axle, identifier, PATTERN[:48])
            p.withdraw(axle, identifier)
            p.store(1, b"a", 1, SUITE, SECRET)
        p.held(axle)


def test_output_lengths():
    p = Pair()
    p.store(2, b"there", 1, SUITE, SECRET)
    for n in range(65):
        for identifier in (b"there", b"not", b"there\x00", b"ther"):
            p.look_up(2, identifier, PATTERN[:n])


def test_identifiers_are_compared_whole():
    p = Pair()
    names = [b"\x00", b"\x00\x00", b"a", b"a\x00", b"a" * 31, b"a" * 32, b"a" * 31 + b"b"]
    for i, name in enumerate(names):
        p.store(1 + i % 6, name, i % 2, 256 * i, bytes([i]) * 48)
        for axle in range(1, 7):
            for other in names:
                p.look_up(axle, other, bytes(48))


def some_calls(r, length):
    """Names and arguments of Pair's calls: all axles alike, one busier than the others, two that hardly call; few identifiers or
    many; hostile arguments at times."""
    few = [r.randbytes(r.choice((1, 2, 32))) for _ in range(r.choice((3, 12, 60)))]
    skewed = ((1, 1, 1, 2, 3, 4, 5, 6), (4, 4, 4, 4, 4, 1, 2, 3, 5, 6), (1, 2, 3, 6) * 5 + (4, 5))
    busy = r.choice(((1, 2, 3, 4, 5, 6), *skewed))
    for _ in range(length):
        axle = r.choice(busy) if r.random() < 0.97 else r.choice((0, 7, 200))
        identifier = r.choice(few) if r.random() < 0.97 else r.choice((b"", bytes(33)))
        way = r.random()
        if way < 0.6:
            secret = r.randbytes(48) if r.random() < 0.97 else r.randbytes(r.choice((0, 47, 49)))
            suite = r.choice((0, 0x003B, 0x3B00, 0x00FF, 0xFF00, 0xFFFF, r.randrange(65_536), r.randrange(65_536)))
            yield "store", axle, identifier, r.choice((0, 1, 2, 255)), suite, secret
        elif way < 0.8:
            yield "look_up", axle, identifier, PATTERN[: r.choice((0, 47, 48, 48, 48, 60))]
        elif way < 0.88:
            yield "withdraw", axle, identifier
        elif way < 0.997:
            yield "held", axle
        else:
            yield ("clear",)


WAYS = ("the same name", "the axle's oldest of 8", "none", "the axle's oldest of 4 to 7", "the oldest of the fullest")


def way_of(book, axle, identifier):
    """Which session a store is to strike out: document 01's five cases."""
    if book.known(axle, identifier) is not None:
        return WAYS[0]
    own = book.held(axle)[1]
    if own == 8:
        return WAYS[1]
    if len(book.row) < 32:
        return WAYS[2]
    return WAYS[3] if own >= 4 else WAYS[4]


def played(p, r, length):
    """A list of calls made; of each what it was and how it ended: a number, a flag, for a store that is not refused the way it went."""
    for name, *given in some_calls(r, length):
        way = way_of(p.book, *given[:2]) if name == "store" else None
        answer = getattr(p, name)(*given)
        yield name, way if name == "store" and answer == 0 else bool(answer) if name == "held" else answer


def test_100_000_random_calls():
    r = random.Random(1)
    kinds = collections.Counter()
    while kinds.total() < 100_000:
        kinds.update(played(Pair(), r, r.randrange(1, 401)))
    assert {("store", end) for end in (*WAYS, 10, 11)} <= set(kinds)
    assert {("look_up", True), ("withdraw", True), ("clear", None)} <= set(kinds)
    return f"{kinds.total()} calls"


def test_secrets_given_up_are_gone():
    """Replaced, struck out, withdrawn, cleared: no eight bytes of them are left in the table."""
    r = random.Random(3)
    gone = collections.Counter()
    for _ in range(30):
        p, before = Pair(), set()
        for kind in played(p, r, 400):
            now, data = {s[4] for s in p.book.row}, bytes(p.table)
            for secret in before - now:
                assert not any(secret[i : i + 8] in data for i in range(41))
                gone[kind] += 1
            assert all(secret in data for secret in now)
            before = now
    assert set(gone) == {("withdraw", True), ("clear", None), *(("store", way) for way in WAYS if way != "none")}, gone
    return f"{gone.total()} secrets"


def test_a_wrong_layout_is_found():
    """Two sessions of an axle in the wrong order, one more or fewer counted, a suite the wrong way round, a byte left in a place given
    up."""

    def swapped(queue):
        queue.rows[0], queue.rows[1] = face.Row.from_buffer_copy(queue.rows[1]), face.Row.from_buffer_copy(queue.rows[0])

    def counted(queue, by):
        queue.held += by

    def turned(queue):
        queue.rows[2].suite[:] = queue.rows[2].suite[::-1]

    def left(queue):
        queue.rows[7].secret[47] = 1

    def suite_left(queue):
        queue.rows[3].suite[1] = 1

    for wrong in (swapped, lambda queue: counted(queue, 1), lambda queue: counted(queue, -1), turned, left, suite_left):
        p = Pair()
        for identifier in (b"a", b"b", b"c"):
            p.store(5, identifier, 1, SUITE, identifier * 48)
        wrong(p.table.queues[4])
        try:
            p.laid_out()
        except AssertionError:
            continue
        raise Exception(f"{wrong} was not found")


def test_what_layouts_refuses():
    """tests/layouts wants the library before order 3, which the gate has not: wrong words, and a library whose table is another."""
    ours = ROOT / "target/staticlib/libgateway.a", ROOT / "include/axle_gateway.h"
    for words, status, reason in (
        ((), 2, "usage: tests/layouts BEFORE.a BEFORE.h [LISTS]"),
        (ours[:1], 2, "usage:"),
        (("/none", ours[1]), 2, "usage:"),
        ((*ours, "1", "2"), 2, "usage:"),
        ((*ours, "0"), 2, "LISTS is a number from 1 on"),
        ((*ours, "1"), 1, "its table has 4,038 bytes; that of the layout before order 3 has 2,664"),
    ):
        said = subprocess.run([ROOT / "tests/layouts", *words], capture_output=True, text=True)
        assert (said.returncode, said.stdout) == (status, ""), (words, said)
        assert reason in said.stderr and said.stderr.count("\n") == 1, (words, said)


# ---- tables that no run of calls made: any bytes are six queues, of which at most 8 places count


def counts(t, axle):
    return min(t.queues[axle - 1].held, 8)


def named(t, axle, identifier):
    """The first place of the axle's queue that counts and bears that name; None where there is none, or the name is no name."""
    if not (1 <= axle <= 6 and 1 <= len(identifier) <= 32):
        return None
    rows = t.queues[axle - 1].rows[: counts(t, axle)]
    return next((row for row in rows if bytes(row.identifier)[: row.size] == identifier), None)


class Meaning:
    """What the server's decision knows of such a table."""

    def __init__(self, t):
        self.table = t

    def known(self, axle, identifier):
        row = named(self.table, axle, identifier)
        return None if row is None else (row.ems != 0, int.from_bytes(row.suite, "big"))


def tried(t, axle, identifier, secret, out):
    """Every call is answered by the places that count, a refusal changes nothing, and what is stored stands last in its queue.
    What a look-up, a withdrawal and the number held came to, and whether the server would resume, which it never would where the
    suite is not listed."""
    bad = not (1 <= axle <= 6 and 1 <= len(identifier) <= 32)
    row = named(t, axle, identifier)
    lent = face.lend(out)
    looked = face.table_look_up(t, axle, identifier, lent)
    number = 11 if bad else 10 if row and len(out) < 48 else 0
    found = row is not None and number == 0
    assert looked.refusal.plain() == numbers.refusal(number)
    assert (looked.found, looked.ems) == (found, found and row.ems != 0)
    assert looked.suite == (256 * row.suite[0] + row.suite[1] if found else 0)
    assert bytes(lent) == (bytes(row.secret) + out[48:] if found else out)

    withdrawn = face.table_withdraw(t, axle, identifier)
    assert withdrawn.refusal.plain() == numbers.refusal(11 if bad else 0) and withdrawn.withdrawn == (row is not None)
    if row is None:
        assert bytes(withdrawn.table) == bytes(t)
    else:
        assert withdrawn.table.queues[axle - 1].held == counts(t, axle) - 1

    stored = face.table_store(t, axle, identifier, 1, SUITE, secret)
    number = 11 if bad else 10 if len(secret) != 48 else 0
    assert stored.refusal.plain() == numbers.refusal(number)
    if number:
        assert bytes(stored.table) == bytes(t)
    else:
        queue = stored.table.queues[axle - 1]
        assert 1 <= queue.held <= 8 and bytes(queue.rows[queue.held - 1]) == row_bytes((axle, identifier, True, SUITE, secret))

    held, bad_axle = face.table_held(t, axle), not 1 <= axle <= 6
    assert held.refusal.plain() == numbers.refusal(11 if bad_axle else 0)
    assert held.count == (0 if bad_axle else counts(t, axle))
    cleared = face.table_clear(t)
    assert cleared.refusal.plain() == numbers.refusal(0) and bytes(cleared.table) == expected_bytes(Book())

    def resumes(suite):
        hello = hellos.client_hello(identifier, suite, extensions=hellos.ri() + hellos.ems())
        return server_agrees(hello, axle, t, Meaning(t), Connection(), Switches(), PATTERN[:35])[0].resumes

    high, low = row.suite if row else (0, 0)
    assert not resumes(bytes([high, low ^ 1]))
    return (looked.refusal.number, looked.found), withdrawn.withdrawn, held.count, resumes(bytes([high, low]))


def test_any_struct_value_ends():
    r = random.Random(2)
    seen = []
    for _ in range(600):
        t = values.some(r, face.Table)
        axle, identifier = r.randrange(8), r.randbytes(r.randrange(34))
        if r.random() < 0.5:
            axle = r.randrange(1, 7)
            row = t.queues[axle - 1].rows[r.randrange(8)]
            identifier = bytes(row.identifier)[: row.size]
        seen.append(tried(t, axle, identifier, SECRET[: r.choice((47, 48))], r.randbytes(r.randrange(60))))
    looked, withdrawn, held, resumes = map(set, zip(*seen))
    assert looked == {(0, 0), (0, 1), (10, 0), (11, 0)} and withdrawn == {0, 1} and held == set(range(9)) and resumes == {False, True}


def test_any_number_held():
    """Every value of the byte, in each queue: 8 places count at most."""
    r = random.Random(4)
    for stored in range(256):
        for axle in range(1, 7):
            t = values.some(r, face.Table)
            t.queues[axle - 1].held = stored
            identifier = r.choice((r.randbytes(1), bytes(t.queues[axle - 1].rows[7].identifier)))
            t.queues[axle - 1].rows[7].size = 32
            assert tried(t, axle, identifier, SECRET, bytes(48))[2] == min(stored, 8)


def test_an_identifier_of_no_bytes():
    """It is refused, and no session is known by it, not even to a table whose places that count bear no name."""
    r = random.Random(5)
    nameless = face.Table(tuple(face.Queue((), 8) for _ in range(6)))
    full = Pair()
    for i in range(48):
        full.store(1 + i % 6, bytes([i]), 1, SUITE, SECRET)
    for t in (face.table_fresh(), full.table, nameless, *(values.some(r, face.Table) for _ in range(200))):
        for axle in range(1, 7):
            looked, withdrawn, _, resumes = tried(t, axle, b"", SECRET, PATTERN[:48])
            assert (looked, withdrawn, resumes) == ((11, 0), 0, False)
