"""SHA-384 suites (document 02, order 7): which hashes a log carries and works, when what is told counts, and what follows from it.
Hostile flags and structs. The real handshakes are those of tests/test_log.py and tests/test_feed.py."""

import itertools
import random

from oracle import secrets
from oracle.log import Told
from tests import face, hellos
from tests.test_completion import decided
from tests.test_feed import Parts, at_every_turn, long_message, parted, same, some
from tests.test_log import BOTH, CHOICES, EVERY_TOLD, OTHER, SECRET, TYPES, after, carried, situations, some_message

CLIENT_HELLO, SERVER_HELLO, CERTIFICATE = 1, 2, 11


def of_length(kind, length):
    return hellos.message(kind, bytes([7]) * (length - 4))


def running(sha384, data):
    """The running hash that has taken this, by its own calls, as plain() has it."""
    fresh, absorb = (face.hash384_fresh, face.hash384_absorb) if sha384 else (face.hash_fresh, face.hash_absorb)
    return face.plain(absorb(fresh(), data).hash)


def stands(log, hashed, chosen):
    """The log carries both hashes, or the chosen one, over these bytes: each is the very struct that its own calls make, and one that is
    not carried that of nothing."""
    assert log.hash.choice == CHOICES[chosen]
    for sha384, struct, _, _ in carried(log):
        assert face.plain(struct) == running(sha384, hashed if chosen in (None, sha384) else b""), (chosen, sha384)


# ---- Blocks


def test_the_cases():
    """A ServerHello of 124 bytes behind a ClientHello of 300, a block a call: both hashes take both of its parts, and the second completes
    a block of each; of one of 252, two blocks a call, both parts do. Then a Certificate of 500 behind one of 42 by 1, 2 and 256 blocks,
    with the chosen hash and its own block alone."""
    greeted = Parts()
    assert greeted.run(of_length(CLIENT_HELLO, 300), iter((1, 1, 1, 1))) == [(127, 1, 0), (64, 1, 1), (64, 1, 0), (45, 1, 1)]
    for sha384, parts in (
        (False, [(105, 1, 0), (128, 2, 0), (267, 5, 0)]),
        (True, [(169, 0, 1), (256, 0, 2), (75, 0, 1)]),
    ):
        p, told = parted(greeted), Told(sha384=sha384)
        assert p.run(of_length(SERVER_HELLO, 124), iter((1, 1)), told) == [(83, 1, 0), (41, 1, 1)]
        p = parted(greeted)
        assert p.run(of_length(SERVER_HELLO, 252), iter((2, 2)), told) == [(147, 2, 1), (105, 2, 1)]
        p = parted(greeted)
        assert p.run(of_length(SERVER_HELLO, 42), iter((1,)), told) == [(42, 1, 0)]
        assert p.run(of_length(CERTIFICATE, 500), iter((1, 2, 256))) == parts


def test_both_until_the_server_hello_is_whole():
    """By parts: every part of both hellos is worked by both hashes; with the last one of the ServerHello one is dropped, and is the
    fresh one in the struct; its block number is 0 in all that follows."""
    r, worked = random.Random(1), [[0, 0], [0, 0]]
    for told, _ in itertools.product(EVERY_TOLD, range(25)):
        p, hashed, chosen = Parts(), b"", None
        for kind in (CLIENT_HELLO, SERVER_HELLO) if told.resumes else (CLIENT_HELLO, SERVER_HELLO, CERTIFICATE, 12, 14, 16):
            rest = long_message(r, kind)
            for allowance in some(r):
                number, taken, blocks = p.part(rest, allowance, told)
                before, hashed, rest = len(hashed), hashed + rest[:taken], rest[taken:]
                completed = [len(hashed) // size - before // size for size in (64, 128)]
                for sha384 in BOTH:
                    assert number == 0 and blocks[sha384] == (completed[sha384] if chosen in (None, sha384) else 0)
                    worked[chosen is None][sha384] += blocks[sha384]
                chosen = told.sha384 if kind == SERVER_HELLO and not rest else chosen
                stands(p.log, hashed, chosen)
                if not rest:
                    break
        for _ in range(2 if p.due() else 0):
            finished = p.due()
            assert p.finish(SECRET, finished) == 0
            hashed += finished
            stands(p.log, hashed, chosen)
    assert min(map(min, worked)) > 100
    return f"{worked[True]} blocks with both, {worked[False]} with one"


# ---- What is told


def test_beside_other_messages_it_counts_for_nothing():
    """Every message in turn but a ServerHello, in every situation, with the single call and by parts: one log, whatever is told."""
    r, n = random.Random(2), 0
    for p, message in at_every_turn(r):
        if message[0] == SERVER_HELLO:
            continue
        first = parted(p)
        assert first.accept(message) == 0
        for told in EVERY_TOLD:
            single, fed = parted(p), parted(p)
            assert single.accept(message, told) == 0
            fed.run(message, some(r), told)
            assert same(first, single, fed)
            n += 1
    for p, told in itertools.product(situations(), EVERY_TOLD):  # type 0 leaves the log, and a refused message too
        before = parted(p)
        assert p.accept(some_message(0), told) == 0 and p.accept(some_message(99), told) == 7 and same(p, before)
    return f"{n} messages"


def test_with_later_parts_of_a_server_hello_it_is_not_asked():
    """Told four ways with the first part and four ways with the others: the first counts."""
    r = random.Random(3)
    for first, later in itertools.product(EVERY_TOLD, EVERY_TOLD):
        message, p, single = long_message(r, SERVER_HELLO), parted(after(CLIENT_HELLO)), parted(after(CLIENT_HELLO))
        rest = p.begin(message, first)
        assert (p.log.sha384, p.log.hash.choice) == (first.sha384, 0)
        p.run(rest, some(r), later)
        assert single.accept(message, first) == 0 and same(p, single)
        assert p.log.hash.choice == CHOICES[first.sha384] and (p.due() is not None) == first.resumes


def test_of_a_server_hello_that_is_refused_nothing_stays():
    """Out of turn, malformed or too long: what was told with it is forgotten."""
    for first, then in itertools.product(EVERY_TOLD, EVERY_TOLD):
        p, right = after(), after(CLIENT_HELLO, SERVER_HELLO, told=then)
        assert p.accept(some_message(SERVER_HELLO), first) == 7
        assert p.accept(some_message(CLIENT_HELLO)) == 0
        for wrong, number in ((b"\x02\x00", 1), (some_message(SERVER_HELLO) + b"x", 1), (of_length(SERVER_HELLO, 16_389), 10)):
            assert p.accept(wrong, first) == number
        assert p.accept(some_message(SERVER_HELLO), then) == 0 and same(p, right)


def test_flags_of_any_byte():
    """All 256 of each, with either call: 0 is no, all else is yes; in the log they are 0 or 1."""
    r = random.Random(4)
    begun, message = after(CLIENT_HELLO), long_message(r, SERVER_HELLO)
    right = {told: face.plain(face.log_accept(begun.log, message, face.told(told)).log) for told in EVERY_TOLD}
    assert len(set(right.values())) == 4
    for byte, other in itertools.product(range(256), (0, 1, 2, 255)):
        for resumes, sha384 in ((byte, other), (other, byte)):
            told, flags = Told(resumes != 0, sha384 != 0), face.Told(resumes, sha384)
            assert face.plain(face.log_accept(begun.log, message, flags).log) == right[told], (resumes, sha384)
            first = face.log_feed(begun.log, message, 1, flags)
            assert first.log.left and first.log.sha384 == told.sha384
            last = face.log_feed(first.log, message[first.taken :], 256, face.told())
            assert face.plain(last.log) == right[told], (resumes, sha384)


# ---- What follows the chosen hash


def test_session_hash():
    """Of 32 or 48 bytes, with zeros behind them, over ClientHello through ClientKeyExchange; it stays the same afterwards. In a resumed
    log, and earlier, there is none."""
    for kinds, sha384 in itertools.product(((14, 16), (11, 12, 14, 16), (13, 14, 11, 16, 15)), BOTH):
        p = after(CLIENT_HELLO, SERVER_HELLO, *kinds, 20, 20, told=Told(sha384=sha384))
        messages = [some_message(kind) for kind in (CLIENT_HELLO, SERVER_HELLO, *kinds)]
        value = secrets.digest(sha384, b"".join(messages[: [m[0] for m in messages].index(16) + 1]))
        answer = face.log_session_hash(p.log)
        assert (answer.refusal.number, answer.length) == (0, 48 if sha384 else 32)
        assert bytes(answer.hash) == value.ljust(48, b"\x00") == bytes(p.log.session)
        for early in (after(CLIENT_HELLO), after(1, 2, 14, told=Told(False, sha384)), after(1, 2, 20, 20, told=Told(True, sha384))):
            answer = face.log_session_hash(early.log)
            assert (answer.refusal.number, answer.length, bytes(answer.hash)) == (7, 0, bytes(48))


def test_two_logs_of_the_same_messages():
    """Told different hashes they differ in the hashes, and so in session hash and Finished: the one's is 8 to the other."""
    for kinds, resumes in (((1, 2, 14, 16), False), ((1, 2, 13, 14, 11, 16, 15), False), ((1, 2), True)):
        logs = [after(*kinds, told=Told(resumes, sha384)) for sha384 in BOTH]
        for _ in range(2):
            dues = [p.due() for p in logs]
            assert dues[0] != dues[1]
            for p, mine, others in zip(logs, dues, reversed(dues)):
                assert p.finish(SECRET, others) == p.finish(OTHER, mine) == 8 and p.finish(SECRET, mine) == 0
        assert all(p.oracle.complete for p in logs)
        assert resumes or logs[0].session_hash() != logs[1].session_hash()


# ---- Hostile structs


def test_every_choice_is_harmless():
    """Other bytes in the place of the choice, in the log of every situation and between parts: each call keeps to its numbers, a refusal
    hands the struct back, and no part works more blocks than it is allowed."""
    r, calls = random.Random(5), 0
    logs = [p.log for p in situations()]
    for p, message in at_every_turn(r):
        p.begin(message, r.choice(EVERY_TOLD))
        logs.append(p.log)
    for at, log in enumerate(logs * 24):
        log = face.Log.from_buffer_copy(log)
        log.hash.choice = at % 256
        kind, allowance = r.choice(TYPES), r.choice((1, 2, 256))
        rest = bytes(log.left) if log.left else r.choice((some_message(kind), long_message(r, kind)))
        told = face.told(r.choice(EVERY_TOLD))
        fed, accepted = face.log_feed(log, rest, allowance, told), face.log_accept(log, rest, told)
        finished = face.log_finish(log, SECRET, hellos.message(20, bytes(face.log_expected_finished(log, SECRET).value)))
        for answer, numbers in ((fed, (0, 1, 7, 10)), (accepted, (0, 1, 7, 10)), (finished, (0, 7))):
            assert answer.refusal.number in numbers
            assert answer.refusal.number == 0 or face.plain(answer.log) == face.plain(log)
        assert fed.taken <= len(rest) and max(face.plain(fed.blocks)) <= allowance
        hashed = face.log_session_hash(log)
        assert (hashed.refusal.number, hashed.length) in ((7, 0), (0, 32), (0, 48))
        record = face.connection_fresh()
        assert face.complete(record, log, face.decision(decided(False))).number in (0, 7)
        calls += 6
    assert calls > 6 * 10 * 256
    return f"{calls} calls"
