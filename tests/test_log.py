"""The message log against the second program: every order of types with either hash, random walks, real handshakes of OpenSSL. After
each call the whole log is compared, not the answer alone."""

import itertools
import random
import re

from oracle import numbers, secrets
from oracle.log import LETTER, Told
from oracle.log import Log as Oracle
from tests import face, hellos, values
from tests.handshakes import SHA384_SUITES, full_and_resumed

TYPES = (0, 1, 2, 11, 12, 13, 14, 15, 16, 20, 99)
LONGEST = 16_388
SECRET, OTHER = bytes(range(48)), bytes(48)
NOT_48_BYTES = (b"", SECRET[1:], SECRET + b"\x00", bytes(LONGEST + 1))

# The words of accepted messages that lead to a place, in the order of the places' numbers (crates/message_log/src/order.rt).
FULL = ["", "a", "ab", "abc", "abc?k", "abc?k?r", "abc?k?d", "abc?k?rd", "abc?k?rdc", "abc?k?dx", "abc?k?rdcx", ".*v", ".*C", ".*CS"]
RESUMED = ["ab", "abS", "abSC"]
CHOICES = {None: 0, False: 1, True: 2}  # the number for what is chosen: both hashes, SHA-256, SHA-384
RESUMES = Told(resumes=True)
BOTH = (False, True)
EVERY_TOLD = [Told(*flags) for flags in itertools.product(BOTH, BOTH)]


def place(word, resumed):
    first, ways = (len(FULL), RESUMED) if resumed else (0, FULL)
    (found,) = (n for n, way in enumerate(ways, first) if re.fullmatch(way, word))
    return found


def between(oracle):
    """What is taken of a message between its parts, its type, the place that it leads to, the hash that was told, and how many bytes are
    left."""
    if not oracle.begun:
        return b"", 0, 0, 0, 0
    got, whole, told = oracle.begun
    kind = got[0]
    leads_to = place(oracle.word + LETTER[kind], told.resumes if kind == 2 else oracle.resumed)
    return got, kind, leads_to, int(told.sha384), whole - len(got)


def carried(log):
    """Each hash of a log: its flag, its struct, its digest, and the one that has taken nothing."""
    yield False, log.hash.sha256, face.hash_digest, face.hash_fresh()
    yield True, log.hash.sha384, face.hash384_digest, face.hash384_fresh()


class Pair:
    """The log and the second program's, given the same calls; every answer is compared."""

    def __init__(self, log=None, oracle=None):
        self.log, self.oracle = log or face.log_fresh(), oracle or Oracle()
        self.place = 0  # of the last message's refusal

    def _keep(self, answer, refused):
        number, self.place = refused
        assert answer.refusal.plain() == numbers.refusal(*refused), (answer.refusal.plain(), refused, self.oracle.word)
        if number:
            assert face.plain(answer.log) == face.plain(self.log)
        self.log = answer.log
        self._stands()
        return number

    def _stands(self):
        """The log is the second program's in every field."""
        log, o = self.log, self.oracle
        got, *kept = between(o)
        hashed = o.hashed + got
        assert log.hash.choice == CHOICES[o.sha384], o.word
        for sha384, hash_, digest, fresh in carried(log):
            if o.sha384 in (None, sha384):
                right = len(hashed), secrets.digest(sha384, hashed)
                assert (hash_.length, bytes(digest(hash_).bytes)) == right, (o.word, sha384)
            else:
                assert face.plain(hash_) == face.plain(fresh), (o.word, sha384)
        assert (log.place, bytes(log.session)) == (place(o.word, o.resumed), (o.session or b"").ljust(48, b"\x00")), o.word
        assert [log.kind, log.next, log.sha384, log.left] == kept, o.word
        assert (bytes(log.client), bytes(log.server)) == tuple(o.values.get(side, bytes(12)) for side in "CS"), o.word

    def accept(self, message, told=Told()):
        return self._keep(face.log_accept(self.log, message, face.told(told)), self.oracle.accept(message, told))

    def finish(self, secret, message):
        return self._keep(face.log_finish(self.log, secret, message), self.oracle.finish(secret, message))

    def feed(self, secret, message, told=Told()):
        """Each message by the call that it is for."""
        return self.finish(secret, message) if message[0] == 20 else self.accept(message, told)

    def session_hash(self):
        number, value = self.oracle.session_hash()
        answer = face.log_session_hash(self.log)
        assert (answer.refusal.plain(), answer.length) == (numbers.refusal(number), len(value))
        assert bytes(answer.hash) == value.ljust(48, b"\x00")
        return number, value

    def expected(self, secret):
        number, value = self.oracle.expected_finished(secret)
        answer = face.log_expected_finished(self.log, secret)
        assert (answer.refusal.plain(), bytes(answer.value)) == (numbers.refusal(number), value)
        return number, value

    def due(self, secret=SECRET):
        """The Finished that is due, or None."""
        number, value = self.expected(secret)
        return None if number else hellos.message(20, value)

    def take_due(self, secret=SECRET):
        assert self.finish(secret, self.due(secret)) == 0

    def state(self):
        """What decides all later answers, for telling situations apart."""
        o = self.oracle
        return o.word, o.resumed, o.sha384, o.hashed, o.session, o.begun


def body(kind):
    return bytes(12) if kind == 20 else b"" if kind == 0 else bytes([kind])


def some_message(kind):
    return hellos.message(kind, body(kind))


def copied(pair):
    o = Oracle()
    o.__dict__.update({k: (dict(v) if isinstance(v, dict) else v) for k, v in pair.oracle.__dict__.items()})
    return Pair(type(pair.log).from_buffer_copy(pair.log), o)


def after(*kinds, told=Told()):
    """The log that has accepted messages of these types; a Finished is the one that is due."""
    p = Pair()
    for kind in kinds:
        assert p.feed(SECRET, p.due() if kind == 20 else some_message(kind), told) == 0
    return p


def situations():
    """Every log that can be reached by messages of these types, told and not told of resuming and of SHA-384; a due Finished has its
    value. A refused message leaves the log as it was (that is compared), so orders that differ only in refused messages are one."""
    met, to_follow = {}, [Pair()]
    while to_follow:
        pair = to_follow.pop()
        if pair.state() in met:
            continue
        met[pair.state()] = pair
        for kind, told in (*((kind, Told()) for kind in TYPES), *((2, told) for told in EVERY_TOLD[1:])):
            p = copied(pair)
            p.feed(SECRET, (p.due() if kind == 20 else None) or some_message(kind), told)
            p.session_hash()
            to_follow.append(p)
    return list(met.values())


def finishing():
    """Those in which a Finished is due."""
    return [p for p in situations() if p.due()]


def test_every_order():
    """In every situation every type is given to both calls, with a Finished whose value is wrong."""
    met, steps = situations(), 0
    for pair in met:
        for kind, told in itertools.product(TYPES, EVERY_TOLD):
            steps += 2
            p, message = copied(pair), some_message(kind)
            assert p.finish(SECRET, message) == (8 if kind == 20 and p.due() else 7)
            p.accept(message, told)  # in turn or not, as if it had not been given to the other call
            p.session_hash()
    complete = {(p.oracle.word, p.oracle.sha384) for p in met if p.oracle.complete}
    assert len(complete) == 26  # twelve full orders and the resumed one, with either hash
    assert complete == {(p.oracle.word, p.oracle.sha384) for p in met if p.oracle.word.endswith(("CS", "SC"))}
    return f"{steps} steps, {len(met)} situations, orders of up to {max(len(word) for word, _ in complete)} messages"


def test_told_counts_only_with_the_server_hello():
    p = Pair()
    p.accept(hellos.message(1, b"x"), RESUMES)
    p.accept(hellos.message(2, b"y"))
    assert p.expected(SECRET)[0] == 7
    p = Pair()
    p.accept(hellos.message(2, b"y"), RESUMES)
    p.accept(hellos.message(1, b"x"))
    p.accept(hellos.message(2, b"y"))
    assert p.expected(SECRET)[0] == 7


def test_case_of_document_01():
    for secret in (SECRET, OTHER, b"\xff" * 48):
        not_told, told = Pair(), Pair()
        for p in (not_told, told):
            assert p.accept(hellos.message(1, b"")) == 0
            assert p.accept(hellos.message(2, b""), Told(resumes=p is told)) == 0
        for message in (hellos.message(20, bytes(12)), told.due(secret)):
            assert not_told.finish(secret, message) == 7
            assert not_told.accept(message) == told.accept(message) == 7
        assert told.finish(secret, hellos.message(20, bytes(12))) == 8
        assert told.finish(secret, told.due(secret)) == 0
    p = Pair()
    assert p.accept(hellos.message(0, b"")) == 0
    assert p.oracle.hashed == b"" and face.plain(p.log.hash) == face.plain(face.log_fresh().hash)


def in_turn(r, p, choices=(1, 2, 11, 12, 13, 14, 15, 16)):
    """A message that the log will accept now, with a random body, or None."""
    for kind in r.sample(choices, len(choices)):
        trial = copied(p)
        m = hellos.message(kind, r.randbytes(r.choice((0, 1, 40, 300))))
        if trial.oracle.accept(m) == (0, 0):
            return m
    return None


def test_long_random_walks():
    r = random.Random(1)
    complete, answered = 0, set()
    for _ in range(250):
        p, told = Pair(), Told(r.random() < 0.4, r.random() < 0.5)
        secrets_ = [r.randbytes(48) for _ in range(2)]
        for _ in range(40):
            way = r.random()
            due = p.oracle._due()
            if way < 0.45 and not due:
                m = in_turn(r, p)
                if m and r.random() < 0.2:
                    p.finish(secrets_[0], m)
                if m:
                    p.accept(m, told)
            elif way < 0.55:
                m = hellos.damaged(r, hellos.message(r.choice(TYPES), r.randbytes(r.randrange(20))))
                p.accept(m, r.choice(EVERY_TOLD))
                answered.add(p.finish(secrets_[0], m))
            elif way < 0.6:
                p.accept(hellos.message(0, b""))
            elif way < 0.8 and due:
                secret = r.choice(secrets_)
                m = p.due(secret)
                if r.random() < 0.3:
                    m = m[:-1] + bytes([m[-1] ^ r.choice((0, 1, 128))])
                if r.random() < 0.3:
                    p.accept(r.choice((m, hellos.message(0, b""))))
                answered.add(p.finish(secret if r.random() < 0.8 else secrets_[0], m))
            elif way < 0.85:
                answered.add(p.finish(r.randbytes(r.choice((0, 47, 48, 49))), hellos.message(20, r.randbytes(r.choice((11, 12, 13))))))
            elif way < 0.9:
                others = hellos.message(0, b""), hellos.message(0, b"x"), hellos.message(14, b""), b"", bytes(LONGEST + 1)
                answered.add(p.finish(secrets_[0], r.choice(others)))
            else:
                p.session_hash()
                p.expected(r.choice(secrets_))
                p.expected(b"short")
        complete += p.oracle.complete
    assert complete > 20 and answered == {0, 1, 7, 8, 10}
    return f"{complete} of 250 walks completed"


def test_longest_messages():
    for sha384 in BOTH:
        p = Pair()
        for kind in (1, 2, 11, 12, 13, 14, 11, 16, 15):
            m = hellos.message(kind, bytes([kind]) * (LONGEST - 4))
            assert p.accept(m + b"\x00") == p.finish(SECRET, m + b"\x00") == 10
            assert p.finish(SECRET, m) == 7
            assert p.accept(m, Told(sha384=sha384)) == 0
            p.session_hash()
        p.take_due()
        p.take_due()
        assert p.oracle.complete
        p.session_hash()
        assert p.accept(hellos.message(1, b"")) == 7


def test_damaged_headers():
    r = random.Random(2)
    p = Pair()
    for n in range(12):
        for _ in range(40):
            p.accept(r.randbytes(n))
    due = after(1, 2, 14, 16)
    for stated in range(0, 40):
        for length in range(0, 40):
            rest = stated.to_bytes(3, "big") + bytes(length)
            q = Pair()
            q.accept(bytes([1]) + rest)
            assert due.finish(SECRET, bytes([20]) + rest) == (8 if stated == length == 12 else 1)
            assert due.finish(SECRET, bytes([14]) + rest) == (7 if stated == length else 1)


# ---- The Finished


def made(pair, secret=SECRET):
    """verify_data of this moment, under that secret: of either side by either hash, due or not."""
    return {
        (side, sha384): secrets.verify_data(sha384, secret, side == "S", secrets.digest(sha384, pair.oracle.hashed))
        for side, sha384 in itertools.product("CS", BOTH)
    }


def test_accepting_takes_no_finished():
    """Type 20 is 7 to the accepting call in every situation, due or not, equal or not: after 10 and 1."""
    for p in situations():
        for value, told in itertools.product((bytes(12), *made(p).values(), *made(p, OTHER).values()), (Told(), Told(True, True))):
            assert p.accept(hellos.message(20, value), told) == 7
            for wrong in (value[1:], value + b"\x00", b"", value * 2):
                assert p.accept(hellos.message(20, wrong), told) == 1
            assert p.accept(hellos.message(20, value)[:-1], told) == p.accept(hellos.message(20, value) + b"\x00", told) == 1
            assert p.accept(hellos.message(20, value).ljust(LONGEST + 1, b"\x00"), told) == 10
        assert p.due() is None or p.finish(SECRET, p.due()) == 0


def test_numbers_in_order():
    """10 before 1 before 7 before 8, for messages that would earn several of them; what is refused leaves the log, so the right
    one is taken in the end."""
    for p in situations():
        due = p.due()
        value = due[4:] if due else bytes(12)
        wrong = hellos.message(20, value[:-1] + bytes([value[-1] ^ 1]))
        too_long = [hellos.message(kind, value.ljust(LONGEST - 3, b"\x00")) for kind in TYPES]
        too_long += [hellos.message(20, value).ljust(LONGEST + 1, b"\x00"), bytes([20]) * (LONGEST + 1)]
        malformed = [b"", wrong[:1], wrong[:3], wrong[:-1], wrong + b"\x00"]
        malformed += [hellos.message(20, b) for b in (b"", value[1:], value + b"\x00", value * 2, value.ljust(LONGEST - 4, b"\x00"))]
        malformed += [hellos.message(0, b"\x00"), hellos.message(0, value)]
        malformed += [some_message(kind) + b"\x00" for kind in TYPES] + [some_message(kind)[:-1] for kind in TYPES]
        others = [some_message(kind) for kind in TYPES if kind != 20] + [hellos.message(kind, value) for kind in TYPES[1:] if kind != 20]
        for secret, message in itertools.product(NOT_48_BYTES, (*too_long, *malformed, *others, wrong, hellos.message(20, value))):
            assert p.finish(secret, message) == 10
        for secret in (SECRET, OTHER):
            assert {p.finish(secret, message) for message in too_long} == {10}
            assert {p.finish(secret, message) for message in malformed} == {1}
            assert {p.finish(secret, message) for message in others} == {7}
            assert p.finish(secret, wrong) == (8 if due else 7)
        assert p.finish(SECRET, hellos.message(20, value)) == (0 if due else 7)


def beginnings(hashed):
    """What was hashed before the first message, the second, .. and the last."""
    at = 0
    while at < len(hashed):
        yield hashed[:at]
        at += 4 + int.from_bytes(hashed[at + 1 : at + 4], "big")


def test_only_the_value_that_is_due():
    """Not the one under another secret, under the other side's label, by the other hash, or of an earlier moment, and no bit of it is
    without account."""
    for p in finishing():
        right, due = p.due(), (p.oracle._due(), p.oracle.sha384)
        assert p.finish(OTHER, right) == p.finish(SECRET, p.due(OTHER)) == 8
        assert right[4:] == made(p)[due]
        for other in (value for of, value in made(p).items() if of != due):
            assert p.finish(SECRET, hellos.message(20, other)) == 8
        for earlier, server in itertools.product(beginnings(p.oracle.hashed), BOTH):
            value = secrets.verify_data(p.oracle.sha384, SECRET, server, secrets.digest(p.oracle.sha384, earlier))
            assert p.finish(SECRET, hellos.message(20, value)) == 8
        for bit in range(8 * len(right)):
            flipped = (int.from_bytes(right, "little") ^ 1 << bit).to_bytes(len(right), "little")
            assert p.finish(SECRET, flipped) == (7 if bit < 8 else 1 if bit < 32 else 8)  # type, length, value
        assert p.finish(SECRET, right) == 0


def test_each_finished_once():
    """Of full and resumed orders: the client's or the server's first, then the other, then none."""
    orders = (1, 2, 14, 16), (1, 2, 11, 12, 14, 16), (1, 2, 13, 14, 11, 16), (1, 2, 11, 13, 14, 11, 16, 15), (1, 2)
    for kinds, sha384 in itertools.product(orders, BOTH):
        p = after(*kinds, told=Told(kinds == (1, 2), sha384))
        first = p.due()
        assert p.finish(SECRET, first) == 0 and list(p.oracle.values.items()) == [("S" if kinds == (1, 2) else "C", first[4:])]
        assert p.finish(SECRET, first) == 8 and p.accept(first) == 7 and not p.oracle.complete
        second = p.due()
        assert p.finish(SECRET, second) == 0 and p.oracle.complete
        for message in (first, second, hellos.message(20, bytes(12)), some_message(1)):
            assert p.finish(SECRET, message) == p.accept(message) == 7
        assert p.due() is None and p.accept(some_message(0)) == 0 and p.oracle.complete


def test_two_secrets():
    """Each call has its own: the log keeps none, and a refused one leaves no trace."""
    for sha384 in BOTH:
        p = after(1, 2, 14, 16, told=Told(sha384=sha384))
        assert p.finish(SECRET, p.due(OTHER)) == 8
        assert p.finish(OTHER, p.due(OTHER)) == 0
        assert p.finish(OTHER, p.due(SECRET)) == 8
        assert p.finish(SECRET, p.due(SECRET)) == 0


def test_a_hello_request_changes_nothing():
    """Type 0 between the expected value and the call that takes it, between both Finished, and behind them."""
    for plain in finishing():
        p = copied(plain)
        while due := p.due():
            assert p.accept(some_message(0)) == 0 and p.due() == due
            assert p.finish(SECRET, some_message(0)) == 7 and p.finish(SECRET, hellos.message(0, due[4:])) == 1
            assert p.finish(SECRET, due) == plain.finish(SECRET, due) == 0
            assert p.accept(some_message(0)) == 0
            assert face.plain(p.log) == face.plain(plain.log)
        assert p.oracle.complete


def test_real_handshakes():
    """OpenSSL's own, with suites of both hashes: every message in order, the real master secret from the session hash, both Finished on
    the wire. A log that is told the other hash refuses them with 8."""
    seen = {}
    for suite, certificate, ems in itertools.product(("NULL-SHA256", *SHA384_SUITES), BOTH, BOTH):
        for h in full_and_resumed(certificate, ems, suite):
            p, other, told = Pair(), Pair(), Told(h.resumed, h.sha384)
            for _, m in h.messages:
                if m[0] == 20:
                    assert p.expected(h.master_secret) == (0, m[4:])
                    assert p.accept(m, told) == 7 and p.finish(OTHER, m) == other.finish(h.master_secret, m) == 8
                    other.take_due(h.master_secret)
                else:
                    assert p.finish(h.master_secret, m) == 7
                    assert other.accept(m, Told(h.resumed, not h.sha384)) == 0
                assert p.feed(h.master_secret, m, told) == 0
            assert p.oracle.complete
            number, session_hash = p.session_hash()
            assert number == (7 if h.resumed else 0) and len(session_hash) == (0 if h.resumed else 48 if h.sha384 else 32)
            if ems and h.pre_master:
                lent = face.lend(bytes(48))
                assert face.extended_master_secret(int(h.sha384), h.pre_master, session_hash, lent).number == 0
                assert bytes(lent) == h.master_secret
                assert secrets.extended_master_secret(h.sha384, h.pre_master, session_hash, bytes(48))[1] == h.master_secret
            what = f"{'resumed' if h.resumed else 'full'} with SHA-{384 if h.sha384 else 256}"
            seen[what] = seen.get(what, 0) + 1
    return ", ".join(f"{n} {what}" for what, n in seen.items())


def test_any_struct_value_ends():
    """A log that no run of calls made: every number is one of the call's, and a refusal changes nothing. Accepting takes no Finished,
    and the other call only the one that is expected: then its value is one side's, and all but hashes and place is as it was."""
    r = random.Random(3)
    seen = {}
    for _ in range(4000):
        log = values.some(r, face.Log)
        expected = face.log_expected_finished(log, SECRET)
        right = hellos.message(20, bytes(expected.value))
        m = r.choice((right, hellos.message(20, r.randbytes(12)), hellos.message(r.choice(TYPES), r.randbytes(r.choice((0, 12, 100))))))
        m = hellos.damaged(r, m) if r.random() < 0.2 else m
        m = hellos.message(1, bytes(16_385)) if r.random() < 0.05 else m
        secret = r.choice((SECRET, SECRET[1:]))
        accepted, finished = face.log_accept(log, m, values.some(r, face.Told)), face.log_finish(log, secret, m)
        for call, answer in (("accept", accepted), ("finish", finished)):
            number = answer.refusal.number
            assert answer.refusal.plain() == (numbers.refusal(*Oracle._fault(m)) if number == 1 else numbers.refusal(number))
            seen.setdefault(call, set()).add(number)
            if number:
                assert face.plain(answer.log) == face.plain(log)
        assert m[:1] != b"\x14" or accepted.refusal.number != 0
        taken = finished.refusal.number == 0
        assert taken == (secret == SECRET and expected.refusal.number == 0 and m == right)
        if taken:
            kept = (bytes(log.session), bytes(log.client), bytes(log.server))
            now = (bytes(finished.log.session), bytes(finished.log.client), bytes(finished.log.server))
            assert now in ((kept[0], m[4:], kept[2]), (kept[0], kept[1], m[4:])) and finished.log.place != log.place
        answer = face.log_session_hash(log)
        assert answer.length in ((0,) if answer.refusal.number else (32, 48))
        seen.setdefault("session hash", set()).add(answer.refusal.number)
        seen.setdefault("expected", set()).add(expected.refusal.number)
    assert seen == {"accept": {0, 1, 7, 10}, "finish": {0, 1, 7, 8, 10}, "session hash": {0, 7}, "expected": {0, 7}}, seen
