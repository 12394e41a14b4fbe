"""Completion: the record where it stands, after real and made-up handshakes, early, refused and in disagreement."""

import ctypes as c
import itertools
import random

from oracle import decision as decisions
from oracle import numbers, secrets
from oracle.book import Book
from oracle.decision import Connection, Switches
from oracle.hello import EMS, RI
from oracle.log import Told, complete
from tests import face, hellos, test_writing
from tests.handshakes import SHA384_SUITES, full_and_resumed
from tests.test_decision import client_agrees, server_agrees, two_bytes
from tests.test_log import Pair, copied


def agree(pair, record, decision, raw=None):
    """Completion on both sides; the whole record afterwards is compared."""
    number, after = complete(record, pair.oracle, decision)
    lent = face.connection(record)
    before = face.plain(lent)
    answer = face.complete(c.byref(lent), pair.log, raw or face.decision(decision))
    assert answer.plain() == numbers.refusal(number)
    assert face.plain(lent) == (before if number else face.plain(face.connection(after)))
    return number, after


def decided(resumes, ems=True, indication=True):
    return decisions._outcome(indication, resumes, ems)


def stages(resumes, sha384=False):
    """A log at each stage of a handshake."""
    p = Pair()
    yield p
    for kind in (1, 2) if resumes else (1, 2, 11, 14, 16):
        p.accept(hellos.message(kind, b"x"), Told(resumes, sha384))
        yield copied(p)
    for _ in range(2):
        p.take_due()
        yield copied(p)


def test_every_stage():
    """With either hash: completion does not ask which."""
    for resumes, sha384 in itertools.product((False, True), repeat=2):
        found = []
        for p in stages(resumes, sha384):
            for says, ems, flag, refused in itertools.product((False, True), repeat=4):
                decision = decisions.Decision(1, 17) if refused else decided(says, ems, flag)
                for record in (Connection(), Connection(True, True, False, b"c" * 12, b"s" * 12)):
                    number, after = agree(p, record, decision)
                    assert (number == 0) == (p.oracle.complete and not refused and says == resumes)
                    found.append(number)
                    if number == 0:
                        assert agree(p, after, decision)[1] == after  # done twice it writes the same
        assert 0 in found and 7 in found


def test_values_go_by_side():
    for resumes, sha384 in itertools.product((False, True), repeat=2):
        *_, p = stages(resumes, sha384)
        _, after = agree(p, Connection(), decided(resumes))
        assert (after.client, after.server) == (p.oracle.values["C"], p.oracle.values["S"])
        assert after.client != after.server


def test_two_real_handshakes_on_one_connection():
    """Hello, decision, log and completion together, on OpenSSL's messages; then a renegotiation of our own."""
    for ems, suite in itertools.product((True, False), ("NULL-SHA256", *SHA384_SUITES)):
        full, _ = full_and_resumed(ems=ems, suite=suite)
        switches = Switches(legacy_full=True)
        table = face.table_fresh()
        record = Connection()
        hello = full.messages[0][1]
        made, _, _ = decisions.server(hello, 1, lambda *_: None, record, switches, bytes(64))
        raw = face.decide_server(hello, 1, table, face.connection(record), face.switches(switches), face.lend(bytes(64)))
        p = Pair()
        for _, m in full.messages:
            assert p.feed(full.master_secret, m, Told(sha384=full.sha384)) == 0
        number, record = agree(p, record, made, raw)
        assert number == 0 and record.completed
        again = hellos.client_hello(extensions=hellos.ri(record.client) + hellos.ems())
        made, reply, n = decisions.server(again, 1, lambda *_: None, record, switches, bytes(64))
        lent = face.lend(bytes(64))
        raw = face.decide_server(again, 1, table, face.connection(record), face.switches(switches), lent)
        assert face.plain_decision(raw) == (numbers.refusal(0), made, n) and bytes(lent) == reply


def test_flags_of_any_value():
    """And of a refusal the number alone counts."""
    r = random.Random(1)
    *_, p = stages(True)
    for _ in range(200):
        raw = face.decision(decided(True))
        raw.resumes, raw.indication, raw.bar = (r.choice((0, 1, 2, 255)) for _ in range(3))
        raw.refusal.level, raw.refusal.code, raw.refusal.place = r.randrange(256), r.randrange(256), r.randrange(2**64)
        seen = decisions.Decision(0, resumes=bool(raw.resumes), ems=True, indication=bool(raw.indication), bar=bool(raw.bar))
        agree(p, Connection(), seen, raw)


# ---- Our own hellos, by the writers

AXLE, REPLY_MAX = 3, 35
SUITES = (0x003B, 0x3B00, 0xC027, 0x009D)  # of which a handshake takes one
SHA384 = 0x009D  # the one whose hash is SHA-384


class Sides:
    """Our client and our server, each with its record of one connection; every answer is compared with the second program's."""

    def __init__(self, r):
        self.r, self.table, self.book = r, face.table_fresh(), Book()
        self.connect()

    def connect(self):
        self.client = self.server = Connection()

    def written(self, fields):
        number, message = test_writing.agree(fields, self.r.randbytes(300))
        assert number == 0
        return message

    def hello(self, offered, indicates, ems):
        """Our client's hello; without EMS, or with neither, an older client's."""
        saved = self.client.client if self.client.completed else b""
        lists = hellos.listed([(RI, hellos.vector(1, saved))] * indicates + [(EMS, b"")] * ems)
        lists["suites"] = two_bytes(*self.r.sample(SUITES, k=4))
        return self.written(hellos.Client(random=self.r.randbytes(32), identifier=offered, block=int(indicates or ems), **lists))

    def suite(self, resumed):
        """The suite of our server's hello: that of the session it resumes, as a look-up hands it out; else one of its own choice."""
        if not resumed:
            return self.r.choice(SUITES)
        looked = face.table_look_up(self.table, AXLE, resumed, face.lend(bytes(48)))
        assert looked.found
        return looked.suite

    def answer(self, named, suite, reply):
        """Our server's hello: the reply is taken apart, and stands behind the method again."""
        extensions, end = test_writing.handed_out(reply, 2)
        assert end == max(2, len(reply))
        lists = dict(hellos.listed(extensions), suite=suite)
        message = self.written(hellos.Server(random=self.r.randbytes(32), identifier=named, block=int(bool(reply)), **lists))
        assert message[4 + 2 + 32 + 1 + len(named) + 2 + 1 :] == reply
        return message

    def secret(self, hello, answer, session_hash, ems, sha384):
        pre_master, lent = self.r.randbytes(48), face.lend(bytes(48))
        if ems:
            ours, theirs, seed = face.extended_master_secret, secrets.extended_master_secret, session_hash
        else:
            ours, theirs, seed = face.master_secret, secrets.master_secret, hello[6:38] + answer[6:38]
        assert ours(int(sha384), pre_master, seed, lent).number == 0
        assert theirs(sha384, pre_master, seed, bytes(48)) == (0, bytes(lent))
        return bytes(lent)

    def handshake(self, session, indicates, ems, switches):
        """session: None, or what the client offers: (identifier, EMS, suite, secret). Both numbers, and the session made or offered."""
        offered, known = (session[0], session[:3]) if session else (b"", None)
        hello = self.hello(offered, indicates, ems)
        decided, reply = server_agrees(hello, AXLE, self.table, self.book, self.server, switches, self.r.randbytes(REPLY_MAX))
        if decided.number:  # no reply; the client would not take one either
            answer = self.answer(b"", SUITES[0], b"")
            return decided.number, client_agrees(answer, offered, known, self.client, switches).number, session
        resumed = offered if decided.resumes else b""
        named, suite = resumed or self.r.randbytes(32), self.suite(resumed)
        answer = self.answer(named, suite, reply)
        assert client_agrees(answer, offered, known, self.client, switches) == decided
        between = [] if decided.resumes else [hellos.message(kind, self.r.randbytes(40)) for kind in (11, 14, 16)]
        logs, told = (Pair(), Pair()), Told(decided.resumes, suite == SHA384)  # a session has no hash: its suite says it again
        for log in logs:
            assert not any(log.accept(message, told) for message in (hello, answer, *between))
        if not decided.resumes:
            hashes = [log.session_hash() for log in logs]
            assert hashes[0] == hashes[1]
            session = named, decided.ems, suite, self.secret(hello, answer, hashes[0][1], decided.ems, told.sha384)
            assert self.book.store(AXLE, *session) == 0
            self.table = face.table_store(self.table, AXLE, named, int(decided.ems), suite, session[3]).table
        for log in logs:
            log.take_due(session[3])
            log.take_due(session[3])
        completed = [agree(log, record, decided) for log, record in zip(logs, (self.client, self.server))]
        assert completed[0] == completed[1] and completed[0][0] == 0
        self.client, self.server = (record for _, record in completed)
        return 0, 0, session


def test_our_own_hellos():
    """Hellos that the writers made, first and later, full and resumed, through decisions, logs, Finished and completion on both sides:
    equal outcomes and records, and the server's hello carries the reply byte by byte."""
    r = random.Random(2)
    seen = {}
    for indicates, ems in itertools.product((True, False), repeat=2):
        switches = Switches(indication_required=indicates, legacy_full=not ems, legacy_resumption=not ems)
        sides, session = Sides(r), None
        for resumptions in itertools.product((False, True), repeat=3):  # the first handshake of a connection, and two more
            sides.connect()
            for resumes in resumptions:
                before = sides.client
                closed = before.completed and (before.barred or not before.indication)
                server, client, made = sides.handshake(session if resumes else None, indicates, ems, switches)
                session = made or session
                assert (server, client) == ((9, 7) if closed else (0, 0))
                after = Connection(True, indicates, resumes and not ems, sides.client.client, sides.client.server)
                assert sides.client == sides.server == (before if closed else after)
                assert closed or len({before.client, before.server, after.client, after.server}) == (4 if before.completed else 3)
                what = "closed" if closed else f"{'later' if before.completed else 'first'} {'resumed' if resumes else 'full'}"
                test_writing.counted(seen, what)
                if not closed and session[2] == SHA384:
                    test_writing.counted(seen, f"{what} with SHA-384")
    ways = [f"{when} {how}" for when in ("first", "later") for how in ("full", "resumed")]
    return test_writing.told(seen, *ways, *(f"{way} with SHA-384" for way in ways), "closed")
