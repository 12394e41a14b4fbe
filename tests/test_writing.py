"""Writing both hellos: the writers' whole answer and the whole output are the second program's, for every field at its bounds and
past them, every refusal beside every other, and random and hostile input; what was written reads back as the same fields, and what
was read is written back to the same bytes."""

import itertools
import random

from oracle import hello as oracle
from oracle import numbers
from oracle.hello import EMS, MESSAGE_LIMIT, RI
from tests import face, hellos
from tests.handshakes import full_and_resumed
from tests.hellos import Client, Server, listed, some_fields

WRITERS = {
    Client: (face.write_client_hello, oracle.write_client_hello),
    Server: (face.write_server_hello, oracle.write_server_hello),
}
READERS = {1: face.read_client_hello, 2: face.read_server_hello}
KINDS = (Client, Server)
NOISE = random.Random(0).randbytes(MESSAGE_LIMIT + 100)


def handed_out(message, at):
    """The extensions that axle_next_extension hands out from a place on, (type, data) each, and where it stops."""
    found = []
    while (e := face.next_extension(message, at)).found:
        assert at < e.next <= len(message)
        found.append((e.type, e.data.of(message)))
        at = e.next
    return found, at


def taken_apart(message):
    """The number that reading a hello answers, and its fields, by our reader and axle_next_extension."""
    answer = READERS[2 if message[:1] == b"\x02" else 1](message)
    if answer.refusal.number:
        return answer.refusal.number, None
    hello, e = answer.hello, answer.hello.extensions
    extensions, end = handed_out(message, e.list.at)
    assert end == len(message) == e.list.at + e.list.length
    shared = [hello.version, hello.random.of(message), hello.identifier.of(message)]
    if message[0] == 1:
        return 0, Client(*shared, hello.suites.of(message), hello.methods.of(message), e.block, **listed(extensions))
    return 0, Server(*shared, hello.suite, hello.compression, e.block, **listed(extensions))


def agree(given, out):
    """A writer and the second program, with these bytes in the output before. Answers the number and the message."""
    ours, theirs = WRITERS[type(given)]
    number, message = theirs(*given, len(out))
    lent = face.lend(out)
    answer = ours(*given, lent)
    assert (answer.refusal.plain(), answer.length) == (numbers.refusal(number), len(message)), (given, len(out), number)
    assert bytes(lent) == message + out[len(message) :], (given, len(out))
    if number == 0:
        assert taken_apart(message) == (0, given._replace(block=int(given.block != 0))), given
    return number, message


def with_every_output(given):
    """With outputs that are longer, exactly as long, one byte short and empty. Answers the number where there is room."""
    number, message = agree(given, NOISE)
    n = len(message)
    for room in {0, 1, n + 1, n + 13, MESSAGE_LIMIT}:
        assert agree(given, NOISE[-room:] if room else b"")[0] == (number if number or room >= n else 10)
    if n:
        assert agree(given, NOISE[:n]) == (0, message)
        assert agree(given, NOISE[1:n])[0] == 10
    return number


def numbers_of(kind, field, values):
    return [with_every_output(kind(**{field: v})) for v in values]


def counted(seen, what):
    seen[what] = seen.get(what, 0) + 1


def told(seen, *least):
    assert set(least) <= set(seen), seen
    return ", ".join(f"{seen[what]} times {what}" for what in sorted(seen, key=str))


# ---- Bounds


def test_every_field_at_its_bounds():
    for kind in KINDS:
        assert numbers_of(kind, "random", (bytes(n) for n in (0, 1, 31, 32, 33, 64, 256 + 32))) == [10, 10, 10, 0, 10, 10, 10]
        lengths = (0, 1, 31, 32, 33, 34, 255, 256, 257, 65_536)
        assert numbers_of(kind, "identifier", (bytes(n) for n in lengths)) == [0] * 4 + [10] * 6
        for high, low in itertools.product((0, 1, 2, 3, 4, 0x7F, 0x80, 0xFE, 0xFF), (0, 2, 3, 4, 0x7F, 0x80, 0xFD, 0xFF)):
            v = high << 8 | low
            assert with_every_output(kind(version=v)) == (3 if v < 0x0303 or (kind is Server and v != 0x0303) else 0)
    assert numbers_of(Client, "suites", (bytes(n) for n in (0, 1, 2, 3, 4, 255, 256, 258))) == [10, 10, 0, 10, 0, 10, 0, 0]
    assert numbers_of(Client, "suites", (bytes(n) for n in (65_532, 65_533, 65_534, 65_535, 65_536, 65_538))) == [10] * 6
    assert numbers_of(Client, "methods", (bytes(n) for n in (0, 1, 2, 254, 255, 256, 257, 65_537))) == [10, 0, 0, 0, 0, 10, 10, 10]
    assert set(numbers_of(Server, "suite", (0, 1, 0x00FF, 0xFF00, 0x7FFF, 0x8000, 0xFFFF))) == {0}
    assert set(numbers_of(Server, "compression", range(256))) == {0}
    assert set(numbers_of(Client, "suites", (b"\x00\xff", b"\xff\x00", b"\x00\xff" * 9))) == {0}  # not judged, the signal neither


def test_shapes():
    """renegotiation_info and extended_master_secret with data of every shape, alone, first and last; another type's is not judged."""
    sizes = [(0, 0), (1, 0), (0, 1), (1, 1), (2, 1), (12, 12), (13, 12), (11, 12)]
    sizes += [(254, 255), (255, 255), (255, 254), (0, 256), (255, 256), (1, 257)]  # the length byte, and what stands behind it
    datas = [b"", *(bytes([first]) + bytes(behind) for first, behind in sizes)]
    seen = {}
    for kind, data, t in itertools.product(KINDS, datas, (EMS, RI, 0x1700, 0x0016, 0x0018, 0x0117, 0x01FF, 0xFF00, 0xFF02)):
        for extensions in ([(t, data)], [(t, data), (5, b"xy")], [(5, b"\x01"), (6, b""), (t, data)]):
            number = with_every_output(kind(block=1, **listed(extensions)))
            assert number == (t == EMS and data != b"" or t == RI and (data == b"" or data[0] + 1 != len(data)))
            counted(seen, (t, number))
    assert {(EMS, 0), (EMS, 1), (RI, 0), (RI, 1)} <= set(seen)


def test_repeats():
    """Each pair of places of a list, whatever the type."""
    for kind, n in itertools.product(KINDS, (1, 2, 3, 7, 20)):
        types = [5, EMS, 0xFFFF, 0, *range(300, 320)][:n]
        assert with_every_output(kind(block=1, **listed([(t, b"") for t in types]))) == 0
        for i, j in itertools.combinations(range(n), 2):
            twice = list(types)
            twice[j] = twice[i]
            assert agree(kind(block=1, **listed([(t, b"ab"[: t % 3] if t != EMS else b"") for t in twice])), NOISE)[0] == 2
    assert with_every_output(Client(block=1, **listed([(RI, b"\x00"), (RI, b"\x01x")]))) == 2
    near = [0x0117, 0x1700, 0x1701, 0x0017, 0x0018, 0x8017]
    assert with_every_output(Client(block=1, **listed([(t, b"") for t in near]))) == 0


def test_the_block():
    """None, an empty one and one with extensions are three messages; any byte but 0 says that there is one."""
    for kind in KINDS:
        _, none = agree(kind(block=0), NOISE)
        for flag in (1, 2, 128, 255):
            number, empty = agree(kind(block=flag), NOISE)
            assert number == 0 and empty == hellos.message(none[0], none[4:] + b"\x00\x00")
            extensions = listed([(RI, b"\x00"), (EMS, b"")])
            number, whole = agree(kind(block=flag, **extensions), NOISE)
            assert number == 0 and whole == hellos.message(none[0], none[4:] + b"\x00\x09" + hellos.ri() + hellos.ems())
            assert with_every_output(kind(block=flag)) == 0
        for types in ((5,), (EMS,), (5, 6)):
            assert with_every_output(kind(block=0, types=types, lengths=(0,) * len(types))) == 10
        assert with_every_output(kind(block=0, lengths=(0,))) == with_every_output(kind(block=0, data=b"x")) == 10
    assert agree(Client(), NOISE)[1] == hellos.client_hello() and agree(Server(), NOISE)[1] == hellos.server_hello()


def test_lists_that_do_not_add_up():
    for kind in KINDS:
        for types, lengths, data in (
            ((5, 6), (2, 3), b"abcde"),
            ((5,), (0,), b""),
            ((5, 6, 7), (0, 0, 4), b"abcd"),
            ((RI, EMS), (1, 0), b"\x00"),
        ):
            right = kind(block=1, types=types, lengths=lengths, data=data)
            assert with_every_output(right) == 0
            longer = [lengths[:i] + (n + 1,) + lengths[i + 1 :] for i, n in enumerate(lengths)]
            shorter = [lengths[:i] + (n - 1,) + lengths[i + 1 :] for i, n in enumerate(lengths) if n]
            for wrong in (
                *(dict(lengths=v) for v in longer + shorter),
                dict(lengths=lengths + (0,)),
                dict(lengths=lengths[:-1]),
                dict(lengths=lengths[:-1], data=data[: sum(lengths[:-1])]),
                dict(lengths=()),
                dict(types=types + (9,)),
                dict(types=types[:-1]),
                dict(types=()),
                dict(data=data + b"x"),
                *([dict(data=data[:-1]), dict(data=b"")] if data else []),
                dict(lengths=lengths[:-1] + (65_535,)),
            ):
                assert with_every_output(right._replace(**wrong)) == 10, wrong


# ---- The order of refusals


def padded(extensions, given, size):
    """One more extension, so that the message has that many bytes."""
    front = len(agree(given._replace(block=1), NOISE)[1])
    used = sum(4 + len(d) for _, d in extensions)
    return [*extensions, (0x7777, bytes(size - front - used - 4))]


def faults(kind):
    """For each number, in the order of the rules, ways to earn it: (what happens to the fields, to the extensions, to the lists)."""
    fields = lambda **to: (to, (), {})
    added = lambda *extensions: ({}, extensions, {})
    lists = lambda how: ({}, (), {"how": how})
    outside = [
        fields(random=bytes(31)),
        fields(random=bytes(33)),
        fields(identifier=bytes(33)),
        lists(lambda g: g._replace(lengths=g.lengths[:-1])),
        lists(lambda g: g._replace(lengths=g.lengths + (0,))),
        lists(lambda g: g._replace(lengths=g.lengths[:-1] + (g.lengths[-1] + 1,))),
        lists(lambda g: g._replace(data=g.data + b"\x00")),
        lists(lambda g: g._replace(data=g.data[:-1])),
        fields(block=0),
        ({}, (), {"size": MESSAGE_LIMIT + 1}),
    ]
    if kind is Client:
        outside += [fields(suites=bytes(n)) for n in (0, 3, 65_535, 65_536)] + [fields(methods=bytes(n)) for n in (0, 256)]
    misshapen = [added((RI, b"")), added((RI, b"\x00\x00")), added((RI, b"\x02x")), added((EMS, b"\x00"))]
    misshapen += [added((EMS, b""), (EMS, b"\x00"))]
    twice = [added((5, b"ab")), added((6, b""), (6, b"x")), added((13, b""), (14, b""), (13, b""))]
    version = [fields(version=v) for v in ((0x0302, 0, 0x02FF) if kind is Client else (0x0302, 0x0304, 0xFFFF))]
    return [(10, outside), (1, misshapen), (2, twice), (3, version)]


def faulty(kind, *chosen):
    """Fields that have all of these faults."""
    given, extensions = kind(block=1), [(5, b"abc"), (9, b"d")]
    for fields, more, _ in chosen:
        given = given._replace(**fields)
        extensions += more
    ways = {name: way for _, _, special in chosen for name, way in special.items()}
    if "size" in ways:
        extensions = padded(extensions, kind(), ways["size"])
    given = given._replace(**listed(extensions))
    return ways["how"](given) if "how" in ways else given


def test_every_refusal_and_the_order():
    """Every way to earn a number, alone and beside every way to earn each of the others: all five, or any of them, at once."""
    seen = {}
    for kind in KINDS:
        groups = faults(kind)
        assert agree(faulty(kind), NOISE)[0] == 0
        for chosen in itertools.product(*([None, *ways] for _, ways in groups)):
            earned = tuple(n for (n, _), c in zip(groups, chosen) if c)
            for turn in (1, -1):  # the extension that earns 1 stands before the one that earns 2, and behind it
                given = faulty(kind, *(c for c in chosen[::turn] if c))
                number, message = agree(given, NOISE)
                assert number == (*earned, 0)[0], (chosen, number)
                for room in (0, len(message) - 1 if message else 60):  # and the output too short, last
                    assert agree(given, NOISE[:room])[0] == (*earned, 10)[0]
            counted(seen, earned)
        for a, b in itertools.combinations(groups[0][1], 2):  # two of the first kind
            assert agree(faulty(kind, a, b), NOISE)[0] == 10
    assert len(seen) == 16
    return f"{sum(seen.values())} lists of arguments, {len(seen)} sets of faults"


# ---- Long ones


def many(n):
    """So many different types without data, the two that are judged not among them."""
    return [(t, b"") for t in range(n + 1) if t != EMS][:n]


def test_longest_messages():
    for kind, front in ((Client, 47), (Server, 44)):
        room = MESSAGE_LIMIT - front
        ways = [
            ([(5, bytes(room - 4))], [(5, bytes(room - 3))]),
            ([(5, bytes(9000)), (6, bytes(room - 9008))], [(5, bytes(9000)), (6, bytes(room - 9007))]),
            (many(room // 4 - 1) + [(0xFFFF, bytes(room % 4))], many(room // 4 - 1) + [(0xFFFF, bytes(room % 4 + 1))]),
            (many(room // 4 - 1) + [(0xFFFF, bytes(room % 4))], many(room // 4 + 1)),
        ]
        for fits, over in ways:
            given = kind(block=1, **listed(fits))
            number, message = agree(given, NOISE)
            assert number == 0 and len(message) == MESSAGE_LIMIT
            assert agree(given, NOISE[:MESSAGE_LIMIT])[0] == 0 and agree(given, NOISE[: MESSAGE_LIMIT - 1])[0] == 10
            assert agree(given._replace(identifier=b"x"), NOISE)[0] == 10
            assert agree(kind(block=1, **listed(over)), NOISE)[0] == 10
    for methods, number in ((1, 0), (2, 0), (3, 10)):
        assert with_every_output(Client(suites=bytes(16_344), methods=bytes(methods))) == number
    assert with_every_output(Client(suites=bytes(16_346))) == 10
    assert with_every_output(Client(suites=bytes(16_342), block=1)) == 0  # an empty block, to the last byte but one
    assert with_every_output(Client(suites=bytes(16_342), methods=bytes(2), block=1)) == 0
    assert with_every_output(Client(suites=bytes(16_344), block=1)) == 10
    assert with_every_output(Client(identifier=bytes(32), suites=bytes(16_312), methods=bytes(2))) == 0


def test_hostile_lists():
    """Counts and sums past 16 bits, and repeats that only a look at every pair finds, in lists that are too long to be looked at."""
    for kind in KINDS:
        for n in (4_087, 16_383, 16_384, 16_385, 65_535, 65_536, 70_000):
            zeros = (0,) * n
            for types in (zeros, tuple(i % 65_536 for i in range(n))):
                assert agree(kind(block=1, types=types, lengths=zeros), NOISE)[0] == 10
            assert agree(kind(block=1, types=(5,), lengths=zeros), NOISE)[0] == 10
            assert agree(kind(block=1, types=zeros, lengths=(0,)), NOISE)[0] == 10
            assert agree(kind(block=0, types=zeros, lengths=zeros), NOISE)[0] == 10
        for lengths in ((20_000,), (65_535,), (65_535, 1), (65_535, 65_535, 2), (32_768, 32_768), (65_535,) * 9, (65_535,) * 20_000):
            types, whole = tuple(range(30, 30 + len(lengths))), sum(lengths)
            for n in {whole, whole % 65_536, whole % 65_536 + 1, whole - 1, whole + 1} if whole < 2**20 else {0, whole % 65_536}:
                assert agree(kind(block=1, types=types, lengths=lengths, data=bytes(n)), NOISE)[0] == 10
        assert agree(kind(block=1, data=bytes(20_000)), NOISE)[0] == 10
        assert agree(kind(random=bytes(70_000), identifier=bytes(70_000)), NOISE)[0] == 10
    assert agree(Client(suites=bytes(70_000), methods=bytes(70_000)), NOISE)[0] == 10


# ---- There and back


def test_random_fields():
    """Written and read back (agree does), the output as long as it likes."""
    r = random.Random(1)
    seen = {}
    for _ in range(12_000):
        given = some_fields(r)
        number, message = agree(given, r.randbytes(r.choice((0, 44, 60, 300, 1000, MESSAGE_LIMIT))))
        counted(seen, number)
        if number == 0:
            assert agree(taken_apart(message)[1], message) == (0, message)
    return told(seen, 0, 10)


def spoilt(r, given):
    """One thing about the fields changed, mostly for the worse."""
    near = lambda data: r.choice((data[:-1], data + b"\x00", b"", data, r.randbytes(len(data))))
    types, lengths = given.types, given.lengths
    choices = dict(
        version=lambda: r.choice((0, 0x02FF, 0x0302, 0x0303, 0x0304)),
        random=lambda: near(given.random),
        identifier=lambda: r.choice((near(given.identifier), bytes(33))),
        block=lambda: r.choice((0, 0, 2, 255)),
        types=lambda: r.choice((types[:-1], types[::-1], types + types[:1], types + (5,))),
        lengths=lambda: r.choice((lengths[:-1], lengths[::-1], lengths[1:] + lengths[:1], lengths + (0,))),
        data=lambda: near(given.data),
    )
    if isinstance(given, Client):
        choices |= dict(suites=lambda: near(given.suites), methods=lambda: near(given.methods))
    name = r.choice(list(choices))
    return given._replace(**{name: choices[name]()})


def with_one_more(r, given):
    """An extension more, which may repeat a type or have the wrong shape."""
    kind = r.choice((*given.types, EMS, RI, 5))
    data = r.choice((b"", b"\x00", b"\x01", b"\x01x"))
    return given._replace(block=1, types=given.types + (kind,), lengths=given.lengths + (len(data),), data=given.data + data)


def test_random_faults():
    r = random.Random(2)
    seen = {}
    for _ in range(20_000):
        given = some_fields(r)
        for _ in range(r.choice((0, 1, 1, 2))):
            given = r.choice((spoilt, with_one_more))(r, given)
        room = r.choice((0, 43, 60, 300, MESSAGE_LIMIT, MESSAGE_LIMIT))
        number, _ = agree(given, NOISE[:room])
        last = number == 10 and WRITERS[type(given)][1](*given, MESSAGE_LIMIT)[0] == 0
        counted(seen, "10 last" if last else number)
    return told(seen, 0, 1, 2, 3, 10, "10 last")


def written_back(message):
    """A message that our reader accepts is written back, to the byte. Answers the number of reading it."""
    number, given = taken_apart(message)
    if number == 0:
        assert agree(given, NOISE) == (0, message), message.hex()
        assert agree(given, NOISE[: len(message)]) == (0, message)
        assert agree(given, NOISE[: len(message) - 1])[0] == 10
    return number


def test_hellos_of_openssl():
    handshakes = [h for certificate in (False, True) for ems in (True, False) for h in full_and_resumed(certificate, ems)]
    for h in handshakes:
        assert [written_back(message) for _, message in h.messages[:2]] == [0, 0]
        assert {written_back(message) for _, message in h.messages[2:]} == {1}
    return f"{2 * len(handshakes)} hellos"


def test_random_and_damaged_messages():
    """Whatever the reader accepts is written back."""
    r = random.Random(3)
    seen = {}
    real = [m for ems in (True, False) for h in full_and_resumed(ems=ems) for _, m in h.messages[:2]]
    for i in range(10_000):
        message = r.choice(real) if i % 4 == 0 else hellos.some(r)
        counted(seen, written_back(message))
        counted(seen, f"damaged {written_back(hellos.damaged(r, message))}")
    for message in (*real, hellos.client_hello(b"x", extensions=hellos.ems() + hellos.ri(b"y")), hellos.server_hello(extensions=b"")):
        for i, old in enumerate(message):
            for v in {0, 1, 255, (old + 1) % 256, (old - 1) % 256} - {old}:
                counted(seen, f"changed {written_back(message[:i] + bytes([v]) + message[i + 1 :])}")
    return told(seen, 0, 2, 3, *(f"{how} {number}" for how in ("damaged", "changed") for number in range(4)))


# ---- Extensions, one after the other

FAR = [2**16, 2**31, 2**32, 2**32 + 4, 2**63, *(2**64 - n for n in range(1, 10))]


def next_agrees(message, at):
    right = oracle.next_extension(message, at)
    kind, place, length, behind = right or (0, 0, 0, 0)
    assert face.plain(face.next_extension(message, at)) == (int(right is not None), kind, (place, length), behind), (message.hex(), at)
    return right is not None


def test_next_extension_anywhere():
    """At every place of a message, behind it and far off."""
    r = random.Random(4)
    seen = {}
    messages = [hellos.some(r) for _ in range(120)] + [bytes(n) for n in range(6)] + [b"\xff" * 9, hellos.ri(), hellos.ems()]
    messages += [bytes([0, 5, n >> 8, n & 255]) + bytes(m) for n in (1, 255, 256, 700) for m in (n - 1, n, n + 1)]
    messages += [r.randbytes(r.randrange(80)) for _ in range(200)]
    messages += [bytes(r.choices((0, 1, 2, 23, 255), k=r.randrange(40))) for _ in range(400)]
    messages += [b"\x00\x05\xff\xff" + bytes(n) for n in (65_534, 65_535, 65_536)]
    for message in messages:
        near = range(len(message) + 6) if len(message) < 2000 else (*range(9), *range(len(message) - 9, len(message) + 6))
        for at in (*near, *FAR):
            counted(seen, "found" if next_agrees(message, at) else "not found")
    return told(seen, "found", "not found")


def test_next_extension_on_hellos():
    """The very list, in order, and then none; of a reply too, from place 2 on."""
    r = random.Random(5)
    seen = {}
    for _ in range(3000):
        message = hellos.some(r)
        number, _, hello = (oracle.read_client_hello if message[0] == 1 else oracle.read_server_hello)(message)
        counted(seen, number)
        if number == 0:
            list_at = READERS[message[0]](message).hello.extensions.list.at
            assert handed_out(message, list_at) == (hello.extensions, len(message))
            assert not next_agrees(message, len(message))
    assert handed_out(b"\x00\x09" + hellos.ri() + hellos.ems(), 2) == ([(RI, b"\x00"), (EMS, b"")], 11)
    assert handed_out(b"", 2) == ([], 2)
    return told(seen, 0, 2, 3)
