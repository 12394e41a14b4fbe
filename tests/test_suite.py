"""Order 2 of document 02, 'The resumed suite must be on offer': a table keeps each session's suite, the server resumes a session only
where the hello lists it, and the client only where the ServerHello names it. What is right is set out here, by rows or by formulas, and
library and second program must both give it."""

import collections
import itertools
import random

from oracle.book import Book
from oracle.decision import Connection, Decision, Switches
from tests import face, handshakes, hellos
from tests.test_decision import (
    ALL_SWITCHES,
    CLIENT,
    IDENTIFIER,
    PATTERN,
    RECORDS,
    SECRET,
    SERVER,
    SUITE,
    SUITES,
    client_agrees,
    client_hellos,
    random_switches,
    server_agrees,
    some_suites,
    table_with,
    two_bytes,
)

OTHER = 0xC02F  # neither listed nor named by the hellos of tests/hellos.py
AXLE = 3
FIRST, LATER = Connection(), Connection(True, True, False, CLIENT, SERVER)


# ---- The incident


def test_a_replaced_module():
    """OpenSSL's client stands for the module. Its session was made with 00 3b; the module that replaces it offers the session, as
    OpenSSL does of itself, and lists other suites: a full handshake. One that still lists 00 3b, first or last, resumes."""
    full, (same, replaced, last) = handshakes.offered_with("NULL-SHA256", "AES128-SHA256:AES256-SHA", "AES128-SHA256:NULL-SHA256")
    answer = full.messages[1][1]
    made = face.read_server_hello(answer).hello
    identifier = made.identifier.of(answer)
    assert made.suite == handshakes.SUITE and len(identifier) == 32
    stored = face.table_store(face.table_fresh(), AXLE, identifier, int(full.ems), made.suite, full.master_secret)
    table, book = stored.table, Book()
    assert stored.refusal.number == book.store(AXLE, identifier, full.ems, made.suite, full.master_secret) == 0
    for hello, suites, resumes in (
        (same, (0x003B, 0x00FF), True),
        (replaced, (0x003C, 0x0035, 0x00FF), False),
        (last, (0x003C, 0x003B, 0x00FF), True),
        (replaced, (0x003C, 0x0035, 0x00FF), False),
    ):
        read = face.read_client_hello(hello).hello
        assert (read.identifier.of(hello), read.suites.of(hello)) == (identifier, two_bytes(*suites))
        decided, reply = server_agrees(hello, AXLE, table, book, FIRST, Switches(), PATTERN)
        assert (decided.number, decided.resumes, decided.ems) == (0, resumes, True)
        if not resumes:
            assert (decided, reply) == server_agrees(hello, AXLE, face.table_fresh(), Book(), FIRST, Switches(), PATTERN)
    secret = face.lend(bytes(48))
    looked = face.table_look_up(table, AXLE, identifier, secret)
    assert (looked.found, looked.ems, looked.suite, bytes(secret)) == (1, 1, handshakes.SUITE, full.master_secret)


def test_openssl_s_client_refuses_the_same():
    """A ServerHello of OpenSSL's that resumes: with the session's suite our client takes it as OpenSSL's does; with another one, which
    that client lists too, or with one that it does not list, both refuse it with the same alert."""
    for suite, number in ((handshakes.SUITE, 0), (0x003C, 12), (0x002F, 12)):
        identifier, hello, alert = handshakes.resumed_with(suite)
        decided = client_agrees(hello, identifier, (identifier, True, handshakes.SUITE), FIRST, Switches())
        refused = face.refusal(decided.number)
        assert (decided.number, decided.resumes) == (number, number == 0)
        assert ((refused.level, refused.code) if number else None) == alert


# ---- The table


def test_every_suite_comes_back():
    """All 65,536, each in the place of the one before: as the number stored, and in the table's own bytes the high one first."""
    table, lent = face.table_fresh(), face.lend(bytes(48))
    for suite in range(65_536):
        table = face.table_store(table, AXLE, IDENTIFIER, 1, suite, SECRET).table
        looked = face.table_look_up(table, AXLE, IDENTIFIER, lent)
        assert (looked.refusal.number, looked.found, looked.ems, looked.suite) == (0, 1, 1, suite)
        assert tuple(table.queues[AXLE - 1].rows[0].suite) == (suite >> 8, suite & 255)
    assert face.table_held(table, AXLE).count == 1


def test_no_suite_without_a_session():
    """0 where none is found and where the call is refused; nothing of it is left where the session is given up."""
    fresh = face.table_fresh()
    table = face.table_store(fresh, AXLE, IDENTIFIER, 0, 0xFFFF, SECRET).table
    assert b"\xff\xff" in bytes(table) and bytes(fresh) == bytes(face.sizeof_table)

    def looked(t, axle, identifier, room=48):
        answer = face.table_look_up(t, axle, identifier, face.lend(bytes(room)))
        return answer.refusal.number, answer.found, answer.suite

    assert looked(table, AXLE, IDENTIFIER) == (0, 1, 0xFFFF)
    assert looked(table, AXLE + 1, IDENTIFIER) == looked(table, AXLE, IDENTIFIER[:-1]) == (0, 0, 0)
    assert looked(table, AXLE, IDENTIFIER, 47) == (10, 0, 0)
    for axle, identifier in ((0, IDENTIFIER), (7, IDENTIFIER), (AXLE, b""), (AXLE, bytes(33))):
        assert looked(table, axle, identifier) == (11, 0, 0)
    for emptied in (face.table_withdraw(table, AXLE, IDENTIFIER).table, face.table_clear(table).table):
        assert bytes(emptied) == bytes(fresh) and looked(emptied, AXLE, IDENTIFIER) == (0, 0, 0)
    for axle, secret, number in ((AXLE, SECRET[1:], 10), (7, SECRET, 11)):
        refused = face.table_store(table, axle, IDENTIFIER, 0, SUITE, secret)
        assert refused.refusal.number == number and looked(refused.table, AXLE, IDENTIFIER) == (0, 1, 0xFFFF)


# ---- The server


def decide(suites, suite, record=FIRST, ems=True, switches=Switches()):
    """The decision on our client's hello with these suites, where the session that it offers has that one and EMS."""
    ri = hellos.ri(record.client if record.completed else b"")
    hello = hellos.client_hello(IDENTIFIER, suites, extensions=ri + (hellos.ems() if ems else b""))
    return server_agrees(hello, AXLE, *table_with(True, suite), record, switches, PATTERN)[0]


LISTS = [
    # the session's suite, the list in hex, and is it listed?
    (0x003B, "003b", True),
    (0x003B, "003b c02f 009c", True),
    (0x003B, "c02f 003b 009c", True),
    (0x003B, "c02f 009c 003b", True),
    (0x003B, "003b c02f 003b", True),
    (0x003B, "c02f 003b 003b", True),
    (0x3B00, "003b 3b00", True),
    (0x0000, "0000", True),
    (0xFFFF, "c02f ffff", True),
    # other suites, one of its bytes, both of them the other way round
    (0x003B, "c02f 009c", False),
    (0x003B, "003c 013b", False),
    (0x003B, "3b00", False),
    (0x3B00, "003b", False),
    (0x0000, "003b 3b00", False),
    # its bytes, but of two suites
    (0x003B, "c000 3bc0", False),
    (0x003B, "3b00 3b00", False),
    (0x3B00, "c03b 00c0", False),
    (0x3B00, "003b 003b", False),
    (0x0000, "3b00 003b", False),
]


def test_lists():
    for suite, text, listed in LISTS:
        for record in (FIRST, LATER):
            made = decide(bytes.fromhex(text), suite, record)
            assert (made.number, made.resumes, made.ems) == (0, listed, True), (suite, text)


def test_every_short_list():
    """Of one to three suites over three bytes, for every suite of these bytes: listed where it stands from an even byte on."""
    pairs = [bytes(pair) for pair in itertools.product((0x00, 0x3B, 0xFF), repeat=2)]
    tables = [(pair, *table_with(True, int.from_bytes(pair, "big"))) for pair in pairs]
    seen = collections.Counter()
    for listed in itertools.chain.from_iterable(itertools.product(pairs, repeat=n) for n in (1, 2, 3)):
        hello = hellos.client_hello(IDENTIFIER, b"".join(listed), extensions=hellos.ri() + hellos.ems())
        for pair, table, book in tables:
            made, _ = server_agrees(hello, AXLE, table, book, FIRST, Switches(), PATTERN)
            assert (made.number, made.resumes) == (0, pair in listed), (pair, listed)
            seen[made.resumes, pair in b"".join(listed)] += 1
    assert set(seen) == {(True, True), (False, True), (False, False)}
    return f"{seen.total()} hellos, {seen[False, True]} with the two bytes in the list, but not as a suite"


def test_the_longest_lists():
    """8,158 suites, with which the hello has its 16,388 bytes: the session's first, second, in the middle, last but one, last, twice;
    not at all; and everywhere, but of two suites."""
    most = (16_388 - len(hellos.client_hello(IDENTIFIER, b"", extensions=hellos.ri() + hellos.ems()))) // 2
    assert most == 8158
    for suite, filling in ((0x3BC0, 0xC02F), (0x003B, 0x3B00)):
        for places in ((0,), (1,), (most // 2,), (most - 2,), (most - 1,), (0, most - 1), ()):
            suites = [filling] * most
            for place in places:
                suites[place] = suite
            assert decide(two_bytes(*suites), suite).resumes == bool(places), (suite, places)


def test_the_signal_is_a_suite_like_another():
    """A session stored with 00 ff is listed where the signal is, and there alone. In a later handshake the signal is 5."""
    assert decide(two_bytes(0x00FF), 0x00FF).resumes and decide(two_bytes(OTHER, 0x00FF, SUITE), 0x00FF).resumes
    for suites in ((SUITE,), (0xFF00,), (0x0000, 0xFFFF)):
        made = decide(two_bytes(*suites), 0x00FF)
        assert (made.number, made.resumes) == (0, False)
    assert decide(two_bytes(0x00FF), 0x00FF, LATER).number == 5
    assert decide(two_bytes(SUITE), 0x00FF, LATER).number == 0 and not decide(two_bytes(SUITE), 0x00FF, LATER).resumes


def answered(hello, table, record, switches, out):
    """All that the library answers, and the whole output."""
    lent = face.lend(out)
    answer = face.decide_server(hello, AXLE, table, face.connection(record), face.switches(switches), lent)
    return face.plain(answer), bytes(lent)


def test_what_counts_as_none():
    """For every record, hello and switch, and sessions with EMS and without: where the suite is not listed, decision and output are
    those of an empty table. The session stays: the same table resumes where the suite is listed."""
    fresh, count = face.table_fresh(), collections.Counter()
    for ems in (False, True):
        unlisted, _ = table_with(ems, OTHER)
        listed, _ = table_with(ems)
        before = bytes(unlisted)
        for record in RECORDS:
            for hello in client_hellos(record.client):
                for switches, out in itertools.product(ALL_SWITCHES, (PATTERN, PATTERN[:10])):
                    none = answered(hello, fresh, record, switches, out)
                    assert answered(hello, unlisted, record, switches, out) == none, (record, hello.hex(), switches)
                    count[answered(hello, listed, record, switches, out) != none] += 1
        hello = hellos.client_hello(IDENTIFIER, two_bytes(OTHER), extensions=hellos.ri() + (hellos.ems() if ems else b""))
        (_, resumes, *_), _ = answered(hello, unlisted, FIRST, Switches(legacy_resumption=True), PATTERN)
        assert resumes == 1 and bytes(unlisted) == before
    assert count[True] > 200
    return f"{count.total()} situations; listed, the session would have mattered in {count[True]}"


def test_none_before_the_master_secret_rule():
    """A session with EMS and a hello without it: RFC 7627's 'MUST abort' is asked only where the suite is listed. Not listed, it is
    document 01's row of no session: legacy full if allowed, else 6, and the switch for legacy resumption is of no account."""
    for switches in ALL_SWITCHES:
        for record in (FIRST, LATER):
            assert decide(two_bytes(OTHER), OTHER, record, False, switches).number == 6
            made = decide(two_bytes(SUITE), OTHER, record, False, switches)
            if switches.legacy_full:
                assert made == Decision(0, indication=True, bars_export=True)
            else:
                assert made == Decision(6)


# ---- The client

ORDER = (11, 10, 1, 2, 3, 4, 7, 5, 12, 6)  # a number with an earlier one beside it is not answered
NO_RESUMPTION = ((True, False, True), (False, True, True), (False, False, False))  # session's EMS, hello's EMS, switch: each is 6
CLOSED = ((True, True), (False, False))  # flag and bar of a later handshake: each is 7


def resuming(faults, record, suite, without, bearer, closed):
    """What the client decides on: a ServerHello that resumes, with these faults in it, in the record or in what is lent. suite: the one
    named of 12; without: what of NO_RESUMPTION is 6; bearer: the session of 11; closed: flag and bar of 7."""
    session_ems, ems, legacy = without if 6 in faults else (True, True, False)
    right = record.client + record.server if record.completed else b""
    ri = hellos.ri(right[:-1] + b"?" if 5 in faults else right)
    block = ri * (2 if 2 in faults else 1) + hellos.ems() * ems + hellos.extension(35) * (4 in faults) + b"\x00" * (1 in faults)
    version, named = 0x0304 if 3 in faults else 0x0303, suite if 12 in faults else SUITE
    hello = hellos.server_hello(IDENTIFIER, two_bytes(named), extensions=block, version=version)
    hello = hello.ljust(16_389, b"\x00") if 10 in faults else hello
    session = bearer if 11 in faults else (IDENTIFIER, session_ems, SUITE)
    if 7 in faults:
        record = Connection(True, *closed, record.client, record.server)
    return hello, IDENTIFIER, session, record, Switches(legacy_resumption=legacy)


def test_every_set_of_the_client_s_faults():
    """Two of them and more: the first of 11, 10, 1, 2, 3, 4, 7 or 5, 12, 6 is answered, and nothing besides."""
    seen = collections.Counter()
    bearers = None, (IDENTIFIER + b"x", True, SUITE)
    for bits in itertools.product((False, True), repeat=len(ORDER)):
        faults = list(itertools.compress(ORDER, bits))
        for record, *ways in itertools.product((FIRST, LATER), (OTHER, 0x2F00), NO_RESUMPTION, bearers, CLOSED):
            if 7 in faults and record is FIRST:
                continue
            made = client_agrees(*resuming(faults, record, *ways))
            if not faults:
                assert made == Decision(0, resumes=True, ems=True, indication=True)
            else:
                assert (made.number, made) == (faults[0], Decision(faults[0], made.place)) and (made.place == 0 or faults[0] in (1, 2))
            seen[made.number] += 1
    assert set(seen) == {0, *ORDER}
    return f"{seen.total()} situations, {seen[12]} of them 12"


def test_12_and_nothing_else():
    """Its alert, no place, and all else 0."""
    for record, switches, ems in itertools.product((FIRST, LATER), ALL_SWITCHES, (0, 1)):
        ri = hellos.ri(record.client + record.server if record.completed else b"")
        hello = hellos.server_hello(IDENTIFIER, two_bytes(OTHER), extensions=ri + hellos.ems())
        given = hello, IDENTIFIER, 1, IDENTIFIER, ems, SUITE, face.connection(record), face.switches(switches)
        answer = face.decide_client(*given)
        assert answer.refusal.plain() == (12, 2, 47, 0)
        answer.refusal = face.Refusal()
        assert face.plain(answer) == face.zeros(face.Decision)


def test_every_suite_named():
    """All 65,536 by a ServerHello that resumes: of a session with that suite it is taken; with one of the other byte order, with one of
    another low or high byte, it is 12."""
    record, switches = face.connection(FIRST), face.switches(Switches())
    before, behind = (hellos.server_hello(IDENTIFIER, b"??", extensions=hellos.ri() + hellos.ems())).split(b"??")
    for suite in range(65_536):
        hello = before + suite.to_bytes(2, "big") + behind
        turned = suite >> 8 | (suite & 255) << 8
        for lent in {suite, turned, suite ^ (1 << suite % 16)}:
            answer = face.decide_client(hello, IDENTIFIER, 1, IDENTIFIER, 1, lent, record, switches)
            assert (answer.refusal.number, answer.resumes) == ((0, 1) if lent == suite else (12, 0)), (suite, lent)


def test_the_suite_of_a_full_handshake_is_not_judged():
    """Another identifier, none, nothing offered, nothing lent: whatever suite is named and whatever the session's is, the decision is
    the same, and never 12."""
    count = 0
    for session, offered, named in (
        (True, IDENTIFIER, b"another"),
        (True, IDENTIFIER, b""),
        (True, IDENTIFIER, IDENTIFIER[:-1]),
        (True, IDENTIFIER, IDENTIFIER + b"\x00"),
        (True, b"", IDENTIFIER),
        (True, b"", b""),
        (False, b"", IDENTIFIER),
        (False, b"", b""),
    ):
        for record, switches, ems, original in itertools.product((FIRST, LATER), ALL_SWITCHES, (False, True), (False, True)):
            ri = hellos.ri(record.client + record.server if record.completed else b"")
            made = set()
            for suite, lent in itertools.product(SUITES, SUITES):
                hello = hellos.server_hello(named, two_bytes(suite), extensions=ri + (hellos.ems() if ems else b""))
                made.add(client_agrees(hello, offered, (IDENTIFIER, original, lent) if session else None, record, switches))
                count += 1
            right = Decision(0, ems=ems, indication=True, bars_export=not ems) if ems or switches.legacy_full else Decision(6)
            assert made == {right}
    return f"{count} situations"


# ---- Both, at random


def test_random_suites():
    """Hellos that are right but for their suites, offered and lent sessions of few suites, any switches."""
    r = random.Random(1)
    tables = [(ems, suite, *table_with(ems, suite)) for ems, suite in itertools.product((False, True), SUITES)]
    seen = collections.Counter()
    for _ in range(6000):
        record, switches, (ems, suite, table, book) = r.choice((FIRST, LATER)), random_switches(r), r.choice(tables)
        saved = (record.client, record.client + record.server) if record.completed else (b"", b"")
        own = r.choice((b"", hellos.ems()))
        suites = some_suites(r)
        hello = hellos.client_hello(IDENTIFIER, suites, extensions=hellos.ri(saved[0]) + own)
        made, _ = server_agrees(hello, AXLE, table, book, record, switches, PATTERN)
        listed = suite in [int.from_bytes(suites[i : i + 2], "big") for i in range(0, len(suites), 2)]
        assert listed or not made.resumes
        seen["server", "listed" if listed else "unlisted", "resumes" if made.resumes else made.number] += 1
        named = r.choice((suite, r.choice(SUITES)))
        answer = hellos.server_hello(r.choice((IDENTIFIER, IDENTIFIER, b"")), two_bytes(named), extensions=hellos.ri(saved[1]) + own)
        made = client_agrees(answer, IDENTIFIER, (IDENTIFIER, ems, suite), record, switches)
        seen["client", "the session's" if named == suite else "another", "resumes" if made.resumes else made.number] += 1
    assert set(seen) == {
        *(("server", *of) for of in (("listed", "resumes"), ("listed", 0), ("listed", 5), ("listed", 6))),
        *(("server", *of) for of in (("unlisted", 0), ("unlisted", 5), ("unlisted", 6))),
        *(("client", *of) for of in (("the session's", "resumes"), ("the session's", 0), ("the session's", 6))),
        *(("client", *of) for of in (("another", 12), ("another", 0), ("another", 6))),
    }, seen
    assert min(seen.values()) > 100, seen
