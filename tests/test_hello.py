"""Reading both hellos: the reader's answer is the second program's, field by field and with number, alert and place, for whole,
damaged and hostile input."""

import itertools
import random
import time

from oracle import hello as oracle
from oracle import numbers
from tests import face, hellos
from tests.handshakes import full_and_resumed


def client_fields(h, message):
    """The fields of our answer, cut out of the message, as the second program has them."""
    return h.version, h.random.of(message), h.identifier.of(message), h.suites.of(message), h.methods.of(message), h.signal


def server_fields(h, message):
    return h.version, h.random.of(message), h.identifier.of(message), h.suite.to_bytes(2, "big"), bytes([h.compression]), 0


def extension_fields(e, message):
    indication = e.indication.of(message) if e.indicated else None
    return e.block, e.list.of(message), indication, e.ems, e.others


def answers(message):
    """Both readers on one message. Answers number and place of each."""
    found = []
    for read, fields, theirs in (
        (face.read_client_hello, client_fields, oracle.read_client_hello),
        (face.read_server_hello, server_fields, oracle.read_server_hello),
    ):
        number, place, hello = theirs(message)
        answer = read(message)
        assert answer.refusal.plain() == numbers.refusal(number, place), (message.hex(), answer.refusal.plain(), number, place)
        if number:
            assert face.plain(answer.hello) == face.zeros(type(answer.hello))
        else:
            signal = hello.signal if fields is client_fields else 0
            right = (hello.version, hello.random, hello.identifier, hello.suites, hello.methods, signal)
            assert fields(answer.hello, message) == right, message.hex()
            inside = b"".join(hellos.extension(t, d) for t, d in hello.extensions)
            others = any(t not in (oracle.EMS, oracle.RI) for t, _ in hello.extensions)
            right = (hello.block, inside, hello.renegotiation_info, hello.ems, others)
            assert extension_fields(answer.hello.extensions, message) == right, message.hex()
        found.append((number, place))
    return found


def agree(message):
    """Both readers on one message. Answers the two numbers."""
    return [number for number, _ in answers(message)]


def samples():
    real = [m for ems in (True, False) for h in full_and_resumed(ems=ems) for _, m in h.messages[:2]]
    made = [
        hellos.client_hello(),
        hellos.client_hello(extensions=b""),
        hellos.client_hello(b"x" * 32, b"\x00\x2f\x00\xff", b"\x01\x00", hellos.ri() + hellos.ems()),
        hellos.client_hello(b"x", extensions=hellos.ems() + hellos.ri(b"y" * 12) + hellos.extension(10, b"\x00\x02\x00\x17")),
        hellos.server_hello(),
        hellos.server_hello(b"x" * 32, extensions=hellos.ri(b"z" * 24) + hellos.ems()),
    ]
    return real + made


def test_cases_of_document_01():
    block = lambda e: hellos.client_hello(extensions=bytes.fromhex(e))
    *_, fields = oracle.read_client_hello(block("ff01000100"))
    assert fields.renegotiation_info == b""
    assert agree(block("ff01000100"))[0] == 0
    assert agree(block("00170000"))[0] == 0
    assert agree(block("0017000100"))[0] == 1
    smallest_client, smallest_server = hellos.client_hello(), hellos.server_hello()
    assert (len(smallest_client), len(smallest_server)) == (45, 42)
    assert agree(smallest_client) == [0, 1] and agree(smallest_server) == [1, 0]
    for m in (smallest_client, smallest_server):
        shorter = hellos.message(m[0], m[4:-1])
        assert agree(shorter) == [1, 1]
    assert agree(hellos.client_hello(extensions=b""))[0] == 0
    assert agree(hellos.server_hello(extensions=b""))[1] == 0


def test_hellos_of_openssl():
    for ems in (True, False):
        for h in full_and_resumed(ems=ems):
            assert agree(h.messages[0][1])[0] == 0
            assert agree(h.messages[1][1])[1] == 0


def test_all_truncations():
    for m in samples():
        for n in range(len(m) + 1):
            agree(m[:n])
            if n >= 4:
                agree(hellos.message(m[0], m[4:n]))


def test_all_single_byte_changes():
    r = random.Random(1)
    for m in samples():
        for i in range(len(m)):
            for v in {0, 1, 255, (m[i] + 1) % 256, (m[i] - 1) % 256, r.randrange(256)}:
                agree(m[:i] + bytes([v]) + m[i + 1 :])


def test_short_ends_exhaustively():
    """Every end of up to 6 bytes over a small alphabet behind the fixed part of each hello."""
    small = (0x00, 0x01, 0x02, 0x17, 0xFF)
    client, server = hellos.client_hello()[4:], hellos.server_hello()[4:]
    before_suites = client[:-6]
    count = 0
    for n in range(7):
        for end in itertools.product(small, repeat=n):
            tail = bytes(end)
            for kind, body in ((1, before_suites + tail), (1, client + tail), (2, server + tail)):
                agree(hellos.message(kind, body))
                count += 1
    return f"{count} messages"


def test_repeats_and_precedence():
    e = hellos.extension
    for kinds in itertools.product((5, 6, 7, 0x17), repeat=3):
        block = b"".join(e(k) for k in kinds)
        agree(hellos.client_hello(extensions=block))
        agree(hellos.client_hello(extensions=block, version=0x0301))
        agree(hellos.server_hello(extensions=block, version=0x0304))
    many = b"".join(e(k) for k in range(100, 200))
    assert agree(hellos.client_hello(extensions=many + e(199)))[0] == 2  # the very last pair
    assert agree(hellos.client_hello(extensions=e(100) + many))[0] == 2
    assert agree(hellos.client_hello(extensions=many + e(199), version=0x0301))[0] == 2
    assert agree(hellos.client_hello(extensions=e(1) + e(1) + b"\x00", version=0x0301))[0] == 1
    assert agree(hellos.client_hello(extensions=hellos.ems() + e(0x17, b"\x00")))[0] == 1
    assert agree(hellos.client_hello(extensions=hellos.ems() + hellos.ems()))[0] == 2
    assert agree(hellos.client_hello(version=0x0302))[0] == 3
    for version in (0x0302, 0x0304, 0x0300, 0xFEFD):
        agree(hellos.client_hello(version=version))
        agree(hellos.server_hello(version=version))


def test_the_signal():
    for suites in (b"\x00\xff", b"\x00\x2f\x00\xff", b"\x01\x00\xff\x01", b"\x00\xff\x00\xff", b"\xff\x00"):
        agree(hellos.client_hello(suites=suites))
    agree(hellos.server_hello(suite=b"\x00\xff"))


def test_longest_messages():
    """16,388 bytes with the most extensions that fit; the pairs are quadratic, and this is how long they take."""
    room = 16_388 - len(hellos.client_hello(extensions=b""))
    block = b"".join(hellos.extension(k) for k in range(1000, 1000 + room // 4))
    last = hellos.extension(999, bytes(room % 4))  # fills the message up to the last byte
    m = hellos.client_hello(extensions=block[4:] + last)
    assert len(m) == 16_388 and agree(m)[0] == 0
    start = time.perf_counter()
    face.read_client_hello(m)
    took = time.perf_counter() - start
    assert agree(m + b"\x00") == [10, 10]
    assert agree(hellos.message(1, bytes(16_385))) == [10, 10]
    assert agree(bytes(70_000)) == [10, 10]
    return f"{room // 4} extensions read in {took * 1e3:.1f} ms"


def test_random_hellos():
    r = random.Random(2)
    seen = {}
    for _ in range(6000):
        m = hellos.some(r)
        for number in agree(m) + agree(hellos.damaged(r, m)):
            seen[number] = seen.get(number, 0) + 1
    assert {0, 1, 2, 3} <= set(seen)
    return str(seen)


def test_random_bytes():
    r = random.Random(3)
    for _ in range(4000):
        agree(r.randbytes(r.randrange(80)))
        agree(hellos.message(r.choice((1, 2)), r.randbytes(r.randrange(80))))
