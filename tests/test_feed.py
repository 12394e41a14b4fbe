"""Messages that enter the log part by part (document 02, orders 4 and 7), against the single call and the second program. After each call
the whole log is compared; when a message is whole, it is the very log that the single call gives on the bytes taken."""

import itertools
import random

from oracle import numbers
from oracle.decision import Connection
from oracle.log import NO_BLOCKS, Told
from oracle.log import Log as Oracle
from tests import face, hellos, values
from tests.handshakes import SHA384_SUITES, full_and_resumed
from tests.test_completion import agree, decided
from tests.test_log import (
    BOTH,
    EVERY_TOLD,
    LONGEST,
    NOT_48_BYTES,
    OTHER,
    SECRET,
    TYPES,
    Pair,
    after,
    copied,
    in_turn,
    made,
    situations,
    some_message,
)

NOT_ALLOWED = (0, 257, 258, 511, 2**16, 2**16 + 1, 2**32, 2**32 + 256, 2**63, 2**64 - 1)
MALFORMED = b"", b"\x0b", b"\x0b\x00\x00", b"\x0b\x00\x00\x01", b"\x01\x00\x00\x01xy", hellos.message(0, b"x"), hellos.message(20, bytes(11))
TOO_LONG = hellos.message(11, bytes(LONGEST - 3)), bytes(LONGEST + 1), bytes([20]) * 70_000
NOTHING = hellos.message(0, b"")


class Parts(Pair):
    """The log and the second program's, fed by parts too."""

    def part(self, rest, allowance, told=Told()):
        """(number, bytes taken, blocks worked: SHA-256's, then SHA-384's)"""
        number, place, taken, blocks = self.oracle.feed(rest, allowance, told)
        answer = face.log_feed(self.log, rest, allowance, face.told(told))
        assert (answer.taken, face.plain(answer.blocks)) == (taken, blocks), (len(rest), allowance, answer.taken, blocks)
        return self._keep(answer, (number, place)), taken, blocks

    def run(self, message, allowances, told=Told()):
        """The whole message, by these allowances in turn: (bytes, blocks of each hash) of each part."""
        parts, rest = [], message
        while rest:
            allowance = next(allowances)
            number, taken, blocks = self.part(rest, allowance, told)
            assert number == 0 and min(len(rest), 64) <= taken and max(blocks) <= allowance
            parts.append((taken, *blocks))
            rest = rest[taken:]
        assert not self.oracle.begun
        return parts

    def begin(self, message, told=Told()):
        """The first part by the least allowance; what is left of the message, which is not all."""
        number, taken, _ = self.part(message, 1, told)
        assert number == 0 and taken < len(message)
        return message[taken:]


def parted(pair):
    p = copied(pair)
    return Parts(p.log, p.oracle)


def same(*pairs):
    """Whether the logs are the same in every field."""
    first, *others = (face.plain(p.log) for p in pairs)
    return all(other == first for other in others)


def some(r):
    """Allowances without an end, mostly small ones."""
    while True:
        yield r.choice((1, 1, 2, 3, 5, r.randrange(1, 257), 256))


def long_message(r, kind):
    """One that an allowance of 1 or 2 does not take at once, with either hash."""
    return hellos.message(kind, r.randbytes(r.randrange(400, 900)))


def at_every_turn(r):
    """Every situation, with a long message of each type that is in turn."""
    for pair, kind in itertools.product(situations(), TYPES[1:]):
        message = long_message(r, kind)
        if pair.oracle._judged(message) == (0, 0):
            yield parted(pair), message


# ---- How much is taken, and what comes of it


def test_the_example():
    """300 bytes from empty, one block of SHA-256 a call."""
    p, single = Parts(), Parts()
    message = hellos.message(1, bytes(range(256)) + bytes(40))
    assert p.run(message, itertools.repeat(1)) == [(127, 1, 0), (64, 1, 1), (64, 1, 0), (45, 1, 1)]
    assert single.accept(message) == 0 and same(p, single)


def begun_with(r, sha384, waiting):
    """A log that has hashed 128 bytes and so many more, and the type of a message in turn: with neither hash chosen it has a
    ClientHello, with one of them a ServerHello too."""
    p = Parts()
    if sha384 is None:
        assert p.accept(hellos.message(1, r.randbytes(124 + waiting))) == 0
        return p, 2
    assert p.accept(hellos.message(1, r.randbytes(52))) == 0
    assert p.accept(hellos.message(2, r.randbytes(68 + waiting)), Told(sha384=sha384)) == 0
    return p, 11


def test_as_much_as_is_allowed():
    """With any number of bytes waiting in both hashes, in SHA-256 and in SHA-384: no part of the allowance is left over, and none is
    overdrawn. So many bytes are taken that one more would complete a block too many of a hash that is carried, or all."""
    r, calls = random.Random(1), 0
    for sha384, waiting in itertools.product((None, False, True), range(128)):
        begun, kind = begun_with(r, sha384, waiting)
        sizes = {None: (64, 128), False: (64,), True: (128,)}[sha384]

        def worked(n):
            """Blocks of each hash that n bytes complete; none of one that is not carried."""
            return tuple((waiting % size + n) // size * (size in sizes) for size in (64, 128))

        for allowance in (1, 2, 17, 256):
            around = range(sizes[0] * (allowance - 1), sizes[0] * (allowance + 2))
            most = max(n for n in around if max(worked(n)) <= allowance)
            for length in {4, 64, most - 1, most, most + 1, most + 128, LONGEST}:
                if length > LONGEST:
                    continue
                p, single, message = parted(begun), parted(begun), hellos.message(kind, r.randbytes(length - 4))
                n = min(length, most)
                assert p.part(message, allowance) == (0, n, worked(n)) and p.log.left == length - n
                assert single.accept(message) == 0 and same(p, single) == (length <= most)
                calls += 1
    return f"{calls} first parts"


def test_real_handshakes():
    """OpenSSL's own, with suites of both hashes, by random allowances, told wrongly with all that is not the first part of a
    ServerHello."""
    r, parts = random.Random(2), {}
    for suite, certificate, ems in itertools.product(("NULL-SHA256", *SHA384_SUITES), BOTH, BOTH):
        for h in full_and_resumed(certificate, ems, suite):
            right, wrong = Told(h.resumed, h.sha384), Told(not h.resumed, not h.sha384)
            for _ in range(8):
                p, single = Parts(), Pair()
                for _, m in h.messages:
                    if m[0] == 20:
                        assert p.part(m, 256)[0] == 7 and p.finish(h.master_secret, m) == single.finish(h.master_secret, m) == 0
                        continue
                    assert single.accept(m, right) == 0
                    rest, told = m, right if m[0] == 2 else wrong
                    for allowance in some(r):
                        number, taken, _ = p.part(rest, allowance, told)
                        assert number == 0
                        parts[h.sha384], rest, told = parts.get(h.sha384, 0) + 1, rest[taken:], wrong
                        if not rest:
                            break
                    assert same(p, single) and p.session_hash() == single.session_hash()
                assert p.oracle.complete and same(p, single)
                if h.ems and h.pre_master:
                    lent = face.lend(bytes(48))
                    assert face.extended_master_secret(int(h.sha384), h.pre_master, p.session_hash()[1], lent).number == 0
                    assert bytes(lent) == h.master_secret
    assert min(parts.values()) > 400
    return f"{parts[False]} parts with SHA-256, {parts[True]} with SHA-384"


def test_the_longest_message():
    """A Certificate of 16,388 bytes with some bytes waiting, none to all but one of a block: by the least, by the most and by mixed
    allowances, with either hash."""
    r, most = random.Random(3), 0
    for sha384, size in ((False, 64), (True, 128)):
        for waiting in (0, 1, 31, 59, 60, 63, *((64, 123, 124, 127) if sha384 else ())):
            begun, kind = begun_with(r, sha384, waiting)
            hashed = len(begun.oracle.hashed)
            assert kind == 11 and hashed % size == waiting
            message = hellos.message(11, r.randbytes(LONGEST - 4))
            single = parted(begun)
            assert single.accept(message) == 0
            blocks = (hashed + LONGEST) // size - hashed // size
            for allowances in ((1,), (256,), (2, 1, 256, 7), (r.randrange(1, 40) for _ in range(1000))):
                p = parted(begun)
                ran = p.run(message, itertools.cycle(allowances))
                taken, *worked = (list(column) for column in zip(*ran))
                assert same(p, single) and sum(taken) == LONGEST
                assert sum(worked[sha384]) == blocks and set(worked[not sha384]) == {0}
                most = max(most, len(ran))
                if allowances == (1,):
                    assert set(taken[1:-1]) == {size} and set(worked[sha384][:-1]) == {1}
                if allowances == (256,):
                    assert len(ran) == (2 if not sha384 and waiting >= 60 else 1)
    return f"up to {most} parts"


def test_any_allowances_every_turn():
    """Every message in turn in every situation, by three runs of allowances, and then on to the next message by the single call."""
    r, n = random.Random(4), 0
    for p, message in at_every_turn(r):
        for told in EVERY_TOLD:
            single = parted(p)
            assert single.accept(message, told) == 0
            for _ in range(3):
                fed = parted(p)
                fed.run(message, some(r), told)
                assert same(fed, single) and fed.session_hash() == single.session_hash() and fed.due() == single.due()
                n += 1
            following = in_turn(r, single)
            assert following is None or fed.accept(following) == single.accept(following) == 0 and same(fed, single)
    return f"{n} messages"


# ---- Refusals


def test_allowances():
    """0 and above 256 are 10 with every part, before all else; none of 1 to 256 is refused."""
    r = random.Random(5)
    message = long_message(r, 1)
    others = (message, NOTHING, hellos.message(2, b""), hellos.message(20, bytes(12)), *MALFORMED, *TOO_LONG)
    for allowance in NOT_ALLOWED:
        for rest in others:
            assert Parts().part(rest, allowance) == (10, 0, NO_BLOCKS)
        for p, m in ((Parts(), message), (after(1), long_message(r, 2)), (after(1, 2, 14), long_message(r, 16))):
            p = parted(p)
            rest = p.begin(m)
            for lent in (rest, m, b"", rest + b"x", *others):
                assert p.part(lent, allowance) == (10, 0, NO_BLOCKS)
            p.run(rest, some(r))
    for allowance in range(1, 257):
        p = Parts()
        assert Parts().part(message, allowance)[0] == p.part(p.begin(message), allowance)[0] == 0


def test_a_first_part_is_judged_as_the_single_call():
    """Whole, damaged and hostile messages in every situation: the number and the place of the single call, and where that takes the
    message, so does the run. No byte of what is refused is taken."""
    r, seen = random.Random(6), {}
    for pair in situations():
        messages = [some_message(kind) for kind in TYPES] + [*MALFORMED, *TOO_LONG, hellos.message(11, bytes(LONGEST - 4))]
        messages += [hellos.damaged(r, long_message(r, kind)) for kind in TYPES]
        stated = (5, 400, 16_384, 16_385, 65_536, 2**24 - 1)
        messages += [bytes([kind]) + r.choice(stated).to_bytes(3, "big") + bytes(400) for kind in TYPES]
        for message, told in itertools.product(messages, EVERY_TOLD):
            p, single = parted(pair), parted(pair)
            number = single.accept(message, told)
            fed, taken, blocks = p.part(message, r.choice((1, 2, 256)), told)
            assert (fed, p.place) == (number, single.place)
            seen.setdefault(number, set()).add(p.place)
            if number:
                assert (taken, blocks) == (0, NO_BLOCKS) and same(p, pair)
            elif message[taken:]:
                p.run(message[taken:], some(r), Told(not told.resumes, not told.sha384))
            assert same(p, single)
    assert seen.keys() == {0, 1, 7, 10} and {0, 1, 3} <= seen[1] and seen[0] == seen[7] == seen[10] == {0}, seen


def test_a_finished_and_type_0():
    """A Finished is 7 in every situation, due or not, whatever its value; type 0 is one call of 4 bytes and no block, also behind both
    Finished. Of either, another length of the body is 1, at place 1."""
    r = random.Random(7)
    for p in map(parted, situations()):
        before = parted(p)
        for value in (bytes(12), *made(p).values(), *made(p, OTHER).values()):
            for allowance, told in itertools.product((1, 256), EVERY_TOLD):
                assert p.part(hellos.message(20, value), allowance, told) == (7, 0, NO_BLOCKS)
        for kind, length in itertools.product((0, 20), (0, 1, 11, 12, 13, 300, LONGEST - 4)):
            if length != (12 if kind else 0):
                assert p.part(hellos.message(kind, r.randbytes(length)), 1) == (1, 0, NO_BLOCKS) and p.place == 1
        for allowance, told in itertools.product((1, 2, 256), EVERY_TOLD):
            assert p.part(NOTHING, allowance, told) == (0, 4, NO_BLOCKS)
        assert same(p, before)


def test_a_later_rest_of_another_length():
    """10, whatever it holds, with the message left as it stands between its parts; the right one goes on."""
    r, n = random.Random(8), 0
    for p, message in at_every_turn(r):
        single = parted(p)
        assert single.accept(message) == 0
        rest = p.begin(message)
        while rest:
            wrong = [b"", rest[:1], rest[:4], rest[1:], rest[:-1], rest + b"\x00", message, rest + rest, bytes(LONGEST), bytes(LONGEST + 1)]
            wrong += [rest + bytes(2**16), NOTHING, hellos.message(20, bytes(12)), *MALFORMED, *TOO_LONG]
            for lent in wrong:
                if len(lent) != len(rest):
                    assert p.part(lent, r.choice((1, 256)), r.choice(EVERY_TOLD)) == (10, 0, NO_BLOCKS)
                    n += 1
            rest = rest[p.part(rest, r.choice((1, 2)))[1] :]
        assert same(p, single)
    return f"{n} refusals"


# ---- What counts


def test_the_bytes_taken_count():
    """What was lent and not taken may be other bytes the next time, other headers among them."""
    r = random.Random(9)
    for p, message in at_every_turn(r):
        single, taken, lent = parted(p), b"", message
        while len(taken) < len(message):
            number, n, _ = p.part(lent, r.choice((1, 1, 2)))
            assert number == 0
            taken += lent[:n]
            left = len(message) - len(taken)
            lent = r.choice((r.randbytes(left), bytes(left), hellos.message(0, bytes(left))[:left], message[:left]))
        assert taken != message and single.accept(taken) == 0 and same(p, single)


def test_what_is_told():
    """With the first part of a ServerHello it counts, with later ones it is not asked; with other messages it is of no account."""
    r = random.Random(10)
    for first, later, other in itertools.product(EVERY_TOLD, repeat=3):
        p, message = Parts(), long_message(r, 1)
        rest = p.begin(message, other)
        p.run(rest, itertools.repeat(1), later)
        rest = p.begin(long_message(r, 2), first)
        p.run(rest, itertools.repeat(1), later)
        assert (p.oracle.resumed, p.oracle.sha384) == first and (p.due() is not None) == first.resumes
        assert p.part(long_message(r, 11), 1, other)[0] == (7 if first.resumes else 0)
    for byte in (1, 2, 255):  # a flag is a byte: all but 0 is yes
        log = face.log_feed(after(1).log, some_message(2), 1, face.Told(byte, 0)).log
        assert face.log_expected_finished(log, SECRET).refusal.number == 0


# ---- Other calls between parts


def completes(p):
    return [agree(p, Connection(), decided(resumes))[0] for resumes in (False, True)]


def test_every_other_call_between_parts():
    """7, in 7's place among the numbers, and the log stays: the message goes on as if nothing had been asked."""
    r = random.Random(11)
    for p, message in at_every_turn(r):
        single, was_due, had = parted(p), p.due(), p.session_hash()
        assert single.accept(message) == 0
        value = single.due() or hellos.message(20, bytes(12))
        rest = p.begin(message)
        while rest:
            before = parted(p)
            for kind, told in itertools.product(TYPES, EVERY_TOLD):
                assert p.accept(some_message(kind), told) == 7
            assert p.accept(message) == 7 and p.accept(rest) in (1, 7)
            for wrong in MALFORMED:
                assert p.accept(wrong) == p.finish(SECRET, wrong) == 1
            for wrong in TOO_LONG:
                assert p.accept(wrong) == p.finish(SECRET, wrong) == 10
            for finished in (value, was_due or value, hellos.message(20, bytes(12)), message, NOTHING):
                assert p.finish(SECRET, finished) == p.finish(OTHER, finished) == 7
                assert {p.finish(secret, finished) for secret in NOT_48_BYTES} == {10}
            assert {p.finish(secret, MALFORMED[0]) for secret in NOT_48_BYTES} == {10}
            assert p.expected(SECRET)[0] == p.expected(OTHER)[0] == 7
            assert {p.expected(secret)[0] for secret in NOT_48_BYTES} == {10}
            assert p.session_hash() == (7, b"")
            assert completes(p) == [7, 7]
            assert same(p, before)
            rest = rest[p.part(rest, 1)[1] :]
        assert same(p, single) and p.session_hash() == single.session_hash()
        assert had[0] or p.session_hash() == had  # "It stays the same afterwards"


def test_the_session_hash_around_a_certificate_verify():
    for sha384 in BOTH:
        p = parted(after(1, 2, 13, 14, 11, 16, told=Told(sha384=sha384)))
        number, value = p.session_hash()
        assert number == 0 and len(value) == (48 if sha384 else 32)
        rest = p.begin(hellos.message(15, bytes(500)))
        while rest:
            assert p.session_hash() == (7, b"")
            rest = rest[p.part(rest, 1)[1] :]
        assert p.session_hash() == (0, value)


def test_a_message_given_up():
    """By the log from before: it is a value, and knows nothing of the parts."""
    r = random.Random(12)
    for p, message in at_every_turn(r):
        kept, other = parted(p), long_message(r, message[0])
        p.begin(message)
        single = parted(kept)
        assert kept.accept(other) == single.accept(other) == 0 and same(kept, single)


# ---- Hostile lists of calls


def first_part(r, p):
    """A message in turn, another one, one that is damaged, or no message."""
    message = in_turn(r, p) if r.random() < 0.8 else None
    message = message or hellos.message(r.choice(TYPES), r.randbytes(r.choice((0, 1, 12, 500))))
    return message if r.random() < 0.8 else r.choice((hellos.damaged(r, message), r.randbytes(r.randrange(300)), TOO_LONG[0]))


def test_hostile_lists():
    """Random calls in any order. Beside the log stands one that single calls made of the bytes taken: whenever no message is between
    its parts they are the same."""
    r, whole, completed, seen = random.Random(13), 0, 0, {}
    for _ in range(150):
        p, single, right = Parts(), Pair(), Told(r.random() < 0.3, r.random() < 0.5)
        for _ in range(60):
            begun, way = bool(p.oracle.begun), r.random()
            if way < 0.6:
                if not begun:
                    lent, told, taken = first_part(r, p), r.choice(EVERY_TOLD) if p.oracle.word != "a" else right, b""
                else:  # of the bytes not taken none counts, but how many they are
                    lent = r.randbytes(p.log.left if r.random() < 0.8 else r.randrange(p.log.left * 2))
                allowance = r.choice((1, 1, 2, 3, 256)) if r.random() < 0.9 else r.choice(NOT_ALLOWED)
                number, n, _ = p.part(lent, allowance, r.choice(EVERY_TOLD) if begun else told)
                seen.setdefault(begun, set()).add(number)
                taken += lent[:n]
                if number == 0 and not p.oracle.begun:
                    assert single.accept(taken, told) == 0
                    whole += 1
            elif way < 0.75:
                m = hellos.message(r.choice(TYPES), r.randbytes(r.choice((0, 12))))
                m = hellos.damaged(r, m) if r.random() < 0.3 else m
                number = p.accept(m, right)
                assert number in (1, 7) if begun else number == single.accept(m, right)
            elif way < 0.9:
                m = p.due() or hellos.message(20, r.randbytes(r.choice((12, 12, 11))))
                m = m[:-1] + bytes([m[-1] ^ r.choice((0, 0, 1))])
                number = p.finish(SECRET, m)
                assert number in (1, 7) if begun else number == single.finish(SECRET, m)
            else:
                p.session_hash()
                p.expected(r.choice((SECRET, OTHER, b"short")))
                assert completes(p) == ([7 * p.oracle.resumed, 7 * (not p.oracle.resumed)] if p.oracle.complete else [7, 7])
            assert p.oracle.begun or same(p, single)
        completed += p.oracle.complete
    assert whole > 500 and completed > 50 and seen == {False: {0, 1, 7, 10}, True: {0, 10}}, (whole, completed, seen)
    return f"{whole} messages whole, {completed} of 150 logs completed"


def test_any_struct_value_ends():
    """A log that no run of calls made, whatever it says of its choice: a refused part hands the very struct back, an accepted one takes
    and works what the struct's own numbers say, and every other call keeps to its numbers."""
    r, seen = random.Random(14), {}
    for _ in range(6000):
        log = values.some(r, face.Log)
        kind = r.choice(TYPES)
        rest = r.choice((some_message(kind), long_message(r, kind), r.randbytes(log.left), r.randbytes(log.left ^ 1), TOO_LONG[0]))
        allowance = r.choice((1, 2, 3, 255, 256, *NOT_ALLOWED, r.randrange(2**64)))
        answer = face.log_feed(log, rest, allowance, values.some(r, face.Told))
        number, blocks = answer.refusal.number, face.plain(answer.blocks)
        first = log.left == 0
        seen.setdefault(first, set()).add(number)
        assert answer.refusal.plain() == (numbers.refusal(*Oracle._fault(rest)) if number == 1 else numbers.refusal(number))
        if not first:
            assert (number == 0) == (1 <= allowance <= 256 and len(rest) == log.left) and number in (0, 10)
        if number:
            assert (face.plain(answer.log), answer.taken, blocks) == (face.plain(log), 0, NO_BLOCKS)
            continue
        if first and rest[0] == 0:
            assert (face.plain(answer.log), answer.taken, blocks) == (face.plain(log), 4, NO_BLOCKS)
            continue
        if log.left and log.kind == 0:
            continue  # type 0 is never between parts: such a struct stands for nothing
        n, choice = answer.taken, log.hash.choice
        assert n <= len(rest) and max(blocks) <= allowance and answer.log.left == len(rest) - n
        assert answer.log.left or (answer.log.kind, answer.log.next, answer.log.sha384) == (0, 0, 0)
        chooses = answer.log.left == 0 and (rest[0] if first else log.kind) == 2
        assert answer.log.hash.choice in (1, 2) if chooses else answer.log.hash.choice == choice
        seen.setdefault("choice", set()).add(min(choice, 3))
        if choice <= 2:  # what is above stands for nothing
            worked = []
            for h, now, size, other in (
                (log.hash.sha256, answer.log.hash.sha256, 64, 2),
                (log.hash.sha384, answer.log.hash.sha384, 128, 1),
            ):
                worked.append((h.length % size + n) // size * (choice != other))
                if chooses and choice == 0 and answer.log.hash.choice == other:  # one that is chosen stays
                    assert now.length == 0
                else:
                    assert now.length == (h.length + n * (choice != other)) % 2**64
            assert blocks == tuple(worked)
            h, size = (log.hash.sha384, 128) if choice == 2 else (log.hash.sha256, 64)
            assert n == min(len(rest), size * (allowance + 1) - 1 - h.length % size)
        assert bytes(answer.log.client) + bytes(answer.log.server) == bytes(log.client) + bytes(log.server)
        for state in (log, answer.log):
            if state.left:
                assert face.log_accept(state, some_message(1), face.told()).refusal.number == 7
                assert face.log_finish(state, SECRET, hellos.message(20, bytes(12))).refusal.number == 7
                assert face.log_expected_finished(state, SECRET).refusal.number == 7
                assert face.log_session_hash(state).refusal.number == 7
    assert seen == {True: {0, 1, 7, 10}, False: {0, 10}, "choice": {0, 1, 2, 3}}, seen
