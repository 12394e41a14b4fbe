"""Both decisions against the second program: the whole table of situations, damaged hellos, and the reply rule run."""

import collections
import itertools
import random

from oracle import decision as oracle
from oracle import numbers
from oracle.book import Book
from oracle.decision import Connection, Switches
from tests import face, hellos

CLIENT, SERVER = bytes(range(1, 13)), bytes(range(101, 113))
SECRET = bytes(48)
IDENTIFIER = b"session identifier"
SUITE = 0x002F  # the session's, which the hellos of tests/hellos.py list and name unless told otherwise
SUITES = (SUITE, 0x2F00, 0x00FF, 0xFF00, 0xC02F, 0x002E)  # and such as it might be taken for; 00 ff is the signal
PATTERN = bytes((i * 31 + 3) % 256 for i in range(64))
ALL_SWITCHES = [Switches(*s) for s in itertools.product((False, True), repeat=3)]
RECORDS = [Connection(), Connection(False, True, True, CLIENT, SERVER)] + [
    Connection(True, flag, bar, CLIENT, SERVER) for flag in (False, True) for bar in (False, True)
]


def two_bytes(*suites):
    """Suites as they stand in a hello."""
    return b"".join(suite.to_bytes(2, "big") for suite in suites)


def table_with(session, suite=SUITE):
    """A table and its book: session None, or whether the session under IDENTIFIER on axle 3 has EMS; and its suite."""
    table, book = face.table_fresh(), Book()
    if session is not None:
        book.store(3, IDENTIFIER, session, suite, SECRET)
        table = face.table_store(table, 3, IDENTIFIER, int(session), suite, SECRET).table
    return table, book


def server_agrees(message, axle, table, book, record, switches, out):
    made, after, length = oracle.server(message, axle, book.known, record, switches, out)
    lent = face.lend(out)
    got = face.decide_server(message, axle, table, face.connection(record), face.switches(switches), lent)
    right = numbers.refusal(made.number, made.place), made, length
    assert face.plain_decision(got) == right, (message.hex(), made, face.plain_decision(got))
    assert bytes(lent) == after
    return made, after[:length]


def client_agrees(message, offered, session, record, switches):
    """session: None, or (identifier, whether it has EMS, suite)."""
    made = oracle.client(message, offered, session, record, switches)
    identifier, ems, suite = session or (b"", False, 0)
    got = face.decide_client(
        message,
        offered,
        int(session is not None),
        identifier,
        int(ems),
        suite,
        face.connection(record),
        face.switches(switches),
    )
    assert face.plain_decision(got) == (numbers.refusal(made.number, made.place), made, 0), (message.hex(), made)
    return made


def test_a_fresh_record():
    assert face.plain(face.connection_fresh()) == face.zeros(face.Connection) == face.plain(face.connection(Connection()))


def client_hellos(saved):
    """Signal, RI and EMS in all combinations: (message) for an identifier or none. SUITE is listed."""
    wrong = bytes([saved[0] ^ 1]) + saved[1:]
    indications = [None, b"", saved, saved[:-1], saved + b"\x00", wrong, saved[:-1] + b"\x00", saved + saved]
    for signal, ri, ems, identifier in itertools.product((False, True), indications, (False, True), (b"", IDENTIFIER)):
        block = (b"" if ri is None else hellos.ri(ri)) + (hellos.ems() if ems else b"")
        suites = two_bytes(SUITE, *(0x00FF,) * signal)
        yield hellos.client_hello(identifier, suites, extensions=block or None)


def test_server_whole_table():
    count = 0
    tables = [table_with(None)] + [table_with(*of) for of in itertools.product((False, True), (SUITE, 0xC02F))]
    for record in RECORDS:
        for message in client_hellos(record.client):
            for (table, book), switches in itertools.product(tables, ALL_SWITCHES):
                made, _ = server_agrees(message, 3, table, book, record, switches, PATTERN)
                count += 1
                if made.number == 0:
                    need = len(oracle.reply(record, made))
                    for n in {0, need - 1, need, need + 1} - {-1}:
                        server_agrees(message, 3, table, book, record, switches, PATTERN[:n])
                        count += 1
    return f"{count} situations"


def test_server_other_axles_and_precedence():
    table, book = table_with(True)
    good = hellos.client_hello(IDENTIFIER, extensions=hellos.ri() + hellos.ems())
    for axle in (0, 1, 2, 3, 4, 5, 6, 7, 255):
        for message in (good, b"", bytes(16_389), good[:-1], hellos.client_hello(version=0x0301), hellos.server_hello()):
            for record in RECORDS:
                for out in (b"", PATTERN):
                    server_agrees(message, axle, table, book, record, Switches(), out)


def test_client_whole_table():
    count = 0
    other = b"another"
    for record in RECORDS:
        both = record.client + record.server
        wrong = both[:-1] + bytes([both[-1] ^ 1])
        indications = [None, b"", both, both[:-1], both + b"\x00", wrong, record.client]
        for ri, ems, named, foreign in itertools.product(indications, (False, True), (b"", IDENTIFIER, other), (False, True)):
            block = (b"" if ri is None else hellos.ri(ri)) + (hellos.ems() if ems else b"")
            block += hellos.extension(35) if foreign else b""
            message = hellos.server_hello(named, extensions=block or None)
            for offered, session in (
                (b"", None),
                (b"", (IDENTIFIER, True, SUITE)),
                (b"", (IDENTIFIER, True, 0xC02F)),
                (IDENTIFIER, (IDENTIFIER, True, SUITE)),
                (IDENTIFIER, (IDENTIFIER, True, 0xC02F)),
                (IDENTIFIER, (IDENTIFIER, False, SUITE)),
                (IDENTIFIER, (IDENTIFIER, False, 0xC02F)),
                (IDENTIFIER, None),
                (IDENTIFIER, (other, True, SUITE)),
            ):
                for switches in ALL_SWITCHES:
                    client_agrees(message, offered, session, record, switches)
                    count += 1
    return f"{count} situations"


def test_client_offers():
    message = hellos.server_hello(b"x" * 32, extensions=hellos.ems())
    for n in (0, 1, 31, 32, 33, 40, 300):
        offered = b"x" * n
        for bearer in (None, (offered, True), (offered[:-1], True), (offered + b"x", False), (b"x" * 32, True)):
            for m, suite in itertools.product((message, b"", bytes(16_389)), (SUITE, 0xC02F)):
                client_agrees(m, offered, bearer and (*bearer, suite), Connection(), Switches())


def random_record(r):
    return Connection(*(r.random() < 0.5 for _ in range(3)), r.randbytes(12), r.randbytes(12))


def random_switches(r):
    return Switches(*(r.random() < 0.5 for _ in range(3)))


def some_suites(r):
    return two_bytes(*r.choices(SUITES, k=r.choice((1, 1, 2, 3, 8))))


def test_random_and_damaged_hellos():
    r = random.Random(1)
    tables = [table_with(None)] * 4 + [table_with(*of) for of in itertools.product((False, True), SUITES)]
    seen = collections.Counter()
    for _ in range(8000):
        record, switches = random_record(r), random_switches(r)
        saved = record.client, record.client + record.server

        def block(right):
            """The RI that is right for the record, half the time."""
            return hellos.ri(r.choice((right if record.completed else b"", b"", *saved))) + r.choice((b"", hellos.ems()))

        (table, book), suite = r.choice(tables), r.choice(SUITES)
        message = r.choice(
            (
                hellos.client_hello(r.choice((b"", IDENTIFIER)), some_suites(r), extensions=block(saved[0])),
                hellos.server_hello(r.choice((b"", IDENTIFIER)), two_bytes(suite), extensions=block(saved[1])),
                hellos.some(r),
            )
        )
        if r.random() < 0.5:
            message = hellos.damaged(r, message)
        axle, out = r.choice((3, 3, r.randrange(8))), PATTERN[: r.choice((0, 6, 7, 11, 31, 35, 64))]
        server, _ = server_agrees(message, axle, table, book, record, switches, out)
        session = r.choice((None, (IDENTIFIER, r.random() < 0.5, r.choice((suite, r.choice(SUITES))))))
        client = client_agrees(message, r.choice((b"", IDENTIFIER)), session, record, switches)
        seen.update(f"{side} {'resumes' if made.resumes else made.number}" for side, made in (("server", server), ("client", client)))
    assert min(seen[what] for what in ("server resumes", "client resumes", "client 12")) >= 5, seen
    return f"the client {seen['client 12']} times 12"


def test_the_reply_rule():
    """Our server's reply, put into a ServerHello, is accepted by our client with the same outcome, flag and bars. Both sides have the
    session with the same EMS and suite, or the server has lost it; our hello lists its suite or not. Where the server resumes, the
    ServerHello names that suite, else any."""
    r = random.Random(2)
    accepted = collections.Counter()
    for record in RECORDS + [random_record(r) for _ in range(40)]:
        for held, lost, offered in itertools.product((None, False, True), (False, True), (b"", IDENTIFIER)):
            if offered and held is None:
                continue
            suite, others = r.choice(SUITES[:2]), r.choices(SUITES[3:], k=3)  # our client sends no signal
            table, book = table_with(None if lost else held, suite)
            offer = [hellos.ri(record.client if record.completed else b""), hellos.ems()]
            for block, ours, theirs, listed in itertools.product(
                (offer, offer[::-1]), ALL_SWITCHES, (ALL_SWITCHES[0], ALL_SWITCHES[-1]), (False, True)
            ):
                suites = r.sample([*others, *(suite,) * listed], k=3 + listed)
                hello = hellos.client_hello(offered, two_bytes(*suites), extensions=b"".join(block))
                made, reply = server_agrees(hello, 3, table, book, record, ours, PATTERN)
                if made.number:
                    continue
                assert made.resumes == bool(offered and held and listed and not lost)
                named = offered if made.resumes else r.choice((b"", b"a new one"))
                body = hellos.server_hello(named, two_bytes(suite if made.resumes else r.choice(suites)))[4:] + reply
                session = None if held is None else (IDENTIFIER, held, suite)
                answer = client_agrees(hellos.message(2, body), offered, session, record, theirs)
                assert answer == made, (record, held, lost, offered, listed)
                accepted["resumed" if made.resumes else "unlisted" if offered and not lost and not listed else "full"] += 1
    assert min(accepted[what] for what in ("resumed", "unlisted", "full")) > 100, accepted
    return f"{accepted.total()} replies, {accepted['resumed']} resumed, {accepted['unlisted']} full since the suite was not listed"


def test_flags_of_any_value():
    """A flag is yes whatever its byte, but 0."""
    r = random.Random(3)
    hello = hellos.client_hello(IDENTIFIER, extensions=hellos.ri(CLIENT))
    for _ in range(300):
        flags = [r.choice((0, 0, 1, 2, 128, 255)) for _ in range(6)]
        record = Connection(*(bool(f) for f in flags[:3]), CLIENT, SERVER)
        switches = Switches(*(bool(f) for f in flags[3:]))
        table, book = table_with(False)
        made, _, length = oracle.server(hello, 3, book.known, record, switches, PATTERN)
        raw = face.connection(record)
        raw.completed, raw.indication, raw.barred = flags[:3]
        got = face.decide_server(hello, 3, table, raw, face.Switches(*flags[3:]), face.lend(PATTERN))
        assert face.plain_decision(got) == (numbers.refusal(made.number, made.place), made, length)
