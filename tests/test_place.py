"""Order 9 of document 02, 'Tell us where the message broke'. The places are set out here from the order's words, as numbers or by
formulas, and library and second program must both give them: readers, decisions, log and `loglist`."""

import itertools
import random

from oracle.decision import Connection, Switches
from oracle.hello import EMS, RI
from tests import face, hellos
from tests.hellos import extension, message
from tests.test_decision import PATTERN, client_agrees, server_agrees, table_with
from tests.test_hello import answers, samples
from tests.test_log import SECRET, Pair, after
from tests.test_loglist import agree as listed
from tests.test_loglist import case

CLIENT, SERVER = 1, 2
LONGEST = 16_388


def raw(text):
    return bytes.fromhex(text)


def client(tail, version="0303"):
    """A ClientHello with these bytes, in hex, from place 38 on: the identifier's length."""
    return message(CLIENT, raw(version) + bytes(range(32)) + raw(tail))


def server(tail, version="0303"):
    return message(SERVER, raw(version) + bytes(range(32)) + raw(tail))


def client_block(block, version="0303"):
    """With an extension block from place 45 on, so that its first extension is at place 47."""
    return client("00 0002 002f 01 00" + block, version)


def server_block(block, version="0303"):
    """With an extension block from place 42 on, so that its first extension is at place 44."""
    return server("00 002f 00" + block, version)


# The rows of the table of places: message, number and place. The reader of the other hello answers 1 at place 0 to each.
ROWS = [
    # the type
    (raw(""), 1, 0),
    (raw("00"), 1, 0),
    (raw("0b 0000"), 1, 0),
    (raw("14 000000"), 1, 0),
    (raw("03 000001"), 1, 0),
    # the message's length: cut off, and other than what is there
    (raw("01"), 1, 1),
    (raw("01 00"), 1, 2),
    (raw("01 0000"), 1, 3),
    (raw("02"), 1, 1),
    (raw("02 ff"), 1, 2),
    (raw("02 0000"), 1, 3),
    (raw("01 000001"), 1, 1),
    (raw("01 000000 00"), 1, 1),
    (raw("01 010000"), 1, 1),
    (raw("02 000100"), 1, 1),
    (raw("02 ffffff"), 1, 1),
    (client("00 0002 002f 01 00") + b"\x00", 1, 1),
    (client("00 0002 002f 01 00")[:-1], 1, 1),
    (server("00 002f 00") + b"\x00", 1, 1),
    # version and random
    (raw("01 000000"), 1, 4),
    (raw("01 000001 03"), 1, 5),
    (raw("01 000002 0303"), 1, 6),
    (raw("01 000002 0000"), 1, 6),
    (raw("02 000003 030300"), 1, 7),
    (client("")[:3] + b"\x21" + client("")[4:-1], 1, 37),
    # the identifier's length
    (client(""), 1, 38),
    (server(""), 1, 38),
    (client("01"), 1, 38),
    (client("20" + "61" * 31), 1, 38),
    (client("21" + "61" * 33 + "0002 002f 01 00"), 1, 38),
    (server("21" + "61" * 33 + "002f 00"), 1, 38),
    (server("ff"), 1, 38),
    # the suites' length
    (client("00"), 1, 39),
    (client("00 00"), 1, 40),
    (client("03 616263"), 1, 42),
    (client("03 616263 00"), 1, 43),
    (client("00 0003 002f00 01 00"), 1, 39),
    (client("00 0001 00 01 00"), 1, 39),
    (client("00 0000 01 00"), 1, 39),
    (client("00 0002 00"), 1, 39),
    (client("00 fffe 002f"), 1, 39),
    (client("00 ffff 002f"), 1, 39),
    (client("03 616263 0002"), 1, 42),
    (client("20" + "61" * 32 + "0005 002f"), 1, 71),
    # the methods' length
    (client("00 0002 002f"), 1, 43),
    (client("00 0002 002f 00"), 1, 43),
    (client("00 0002 002f 01"), 1, 43),
    (client("00 0002 002f 02 00"), 1, 43),
    (client("00 0002 002f 00 0000"), 1, 43),
    (client("03 616263 0004 002f00ff 03 0100"), 1, 48),
    # a ServerHello's suite and method
    (server("00"), 1, 39),
    (server("00 00"), 1, 40),
    (server("00 002f"), 1, 41),
    (server("03 616263"), 1, 42),
    (server("03 616263 00"), 1, 43),
    (server("03 616263 002f"), 1, 44),
    # the block's length
    (client_block("00"), 1, 46),
    (client_block("0001"), 1, 45),
    (client_block("ffff"), 1, 45),
    (client_block("0000 00"), 1, 45),
    (client_block("0004 0005000161"), 1, 45),
    (client("03 616263 0004 002f00ff 02 0100 00"), 1, 52),
    (client("03 616263 0004 002f00ff 02 0100 0001"), 1, 51),
    (server_block("00"), 1, 43),
    (server_block("0001"), 1, 42),
    (server("03 616263 002f 00 0000 00"), 1, 45),
    # an extension's type and length
    (client_block("0001 00"), 1, 48),
    (client_block("0002 0005"), 1, 49),
    (client_block("0003 0005 00"), 1, 50),
    (client_block("0004 0005 0001"), 1, 49),
    (client_block("0005 0005 0002 61"), 1, 49),
    (client_block("0004 0005 ffff"), 1, 49),
    (client_block("0006 0005000161 00"), 1, 53),
    (client_block("0007 0005000161 0006"), 1, 54),
    (client_block("0008 0005000161 0006 00"), 1, 55),
    (client_block("0009 0005000161 0006 0001"), 1, 54),
    (server_block("0001 00"), 1, 45),
    (server_block("0004 0005 0001"), 1, 46),
    # data in an EMS; its length is judged before
    (client_block("0005 0017 0001 00"), 1, 51),
    (client_block("0006 0017 0002 0000"), 1, 51),
    (client_block("000a 0005000161 0017 0001 00"), 1, 56),
    (client_block("0009 0017 0001 00 00050000"), 1, 51),
    (client_block("0004 0017 0001"), 1, 49),
    (client_block("0005 0017 0002 00"), 1, 49),
    (server_block("0005 0017 0001 00"), 1, 48),
    # the length byte of an RI; the extension's length is judged before
    (client_block("0004 ff01 0000"), 1, 51),
    (client_block("0008 ff01 0000 00050000"), 1, 51),
    (client_block("0005 ff01 0001 01"), 1, 51),
    (client_block("0006 ff01 0002 00 61"), 1, 51),
    (client_block("0006 ff01 0002 02 61"), 1, 51),
    (client_block("0006 ff01 0002 ff 61"), 1, 51),
    (client_block("0009 0005000161 ff01 0000"), 1, 56),
    (client_block("0004 ff01 0001"), 1, 49),
    (server_block("0004 ff01 0000"), 1, 48),
    # the earliest type that repeats one before it
    (client_block("0008 00050000 00050000"), 2, 51),
    (client_block("000c 00050000 00060000 00050000"), 2, 55),
    (client_block("000c 00050000 00050000 00050000"), 2, 51),
    (client_block("0010 00010000 00020000 00020000 00010000"), 2, 55),
    (client_block("0010 00010000 00020000 00010000 00020000"), 2, 55),
    (client_block("000d 0005000161 00060000 00050000"), 2, 56),
    (client_block("0008 00170000 00170000"), 2, 51),
    (client_block("000a ff01000100 ff01000100"), 2, 52),
    (server_block("0008 00050000 00050000"), 2, 48),
    (server_block("0010 00010000 00020000 00020000 00010000"), 2, 52),
    # the number is chosen first: 10, then 1, then 2, then 3
    (client_block("0009 00050000 00050000 00"), 1, 56),
    (client_block("000d 00050000 00050000 0017000100"), 1, 59),
    (client_block("0009 00170000 0017000100", "0301"), 1, 55),
    (server_block("0009 00050000 00050000 00"), 1, 53),
    (client_block("0008 00050000 00050000", "0302"), 2, 51),
    (server_block("0008 00050000 00050000", "0304"), 2, 48),
    (client_block("0004 00050000", "0302"), 3, 0),
    (server_block("", "0304"), 3, 0),
    (raw("01") + bytes(LONGEST), 10, 0),
    (raw("02") + bytes(LONGEST), 10, 0),
    (bytes(LONGEST + 1), 10, 0),
    # nothing broke
    (client("00 0002 002f 01 00"), 0, 0),
    (client_block("0009 ff01000100 00170000"), 0, 0),
    (client("03 616263 0004 002f00ff 02 0100 0000"), 0, 0),
    (server_block(""), 0, 0),
]

# The log judges the header alone, whatever the type.
LOG_ROWS = [
    (raw(""), 1, 0),
    *((bytes([kind]) + bytes(n - 1), 1, n) for kind in (0, 1, 2, 11, 20, 99) for n in (1, 2, 3)),
    *((bytes([kind]) + raw(stated), 1, 1) for kind in (0, 1, 2, 11, 20, 99) for stated in ("000001", "000000 00", "010000")),
    # a body of type 0, and a Finished that has not 12 bytes
    (raw("00 000001 00"), 1, 1),
    (raw("00 00000c" + "00" * 12), 1, 1),
    (raw("14 000000"), 1, 1),
    (raw("14 00000b" + "00" * 11), 1, 1),
    (raw("14 00000d" + "00" * 13), 1, 1),
    (raw("14 00000b" + "00" * 12), 1, 1),
    (raw("14 00000d" + "00" * 12), 1, 1),
    # no place with another number
    (raw("14") + bytes(LONGEST), 10, 0),
    (raw("01") + bytes(LONGEST), 10, 0),
    (raw("63 000000"), 7, 0),
    (raw("14 00000c" + "00" * 12), 7, 0),
    (raw("10 000001 00"), 7, 0),
]


def breaks(hello, number, place):
    """Both readers, of library and second program: the one that the hello is for answers this, the other one 1 for its type."""
    other = (10, 0) if number == 10 else (1, 0)
    right = [(number, place) if hello[:1] == bytes([kind]) else other for kind in (CLIENT, SERVER)]
    assert answers(hello) == right, (hello.hex(), answers(hello), right)


def test_the_table():
    for row in ROWS:
        breaks(*row)
    places = {(number, place) for _, number, place in ROWS}
    return f"{len(ROWS)} rows, {len(places)} places"


def test_decisions():
    """The reading's number and place as they are; 11 comes first and has none."""
    table, book = table_with(None)
    for hello, number, place in ROWS:
        for axle, offered in ((0, b"x"), (1, b"")):
            ours = server_agrees(hello, axle, table, book, Connection(), Switches(), PATTERN)[0]
            theirs = client_agrees(hello, offered, None, Connection(), Switches())
            for kind, made in ((CLIENT, ours), (SERVER, theirs)):
                if not axle:
                    right = 11, 0
                elif number == 10 or hello[:1] == bytes([kind]):
                    right = number or made.number, place
                else:
                    right = 1, 0
                assert (made.number, made.place) == right, hello.hex()


def test_the_log():
    """Both its calls: on a fresh log, and on one whose Finished is due."""
    for m, number, place in LOG_ROWS:
        for p in (Pair(), after(1, 2, 14, 16))[: 1 if number == 7 else 2]:
            assert (p.accept(m), p.place) == (p.finish(SECRET, m), p.place) == (number, place), m.hex()
    for m, _, _ in ROWS:  # as the second program has it
        Pair().accept(m)
        Pair().finish(SECRET, m)


def column(number, place):
    return f"{number}:{place}" if number in (1, 2) else f"{number}"


def test_loglist():
    """Both columns: the log's, of many messages in one case; the hello's, of each ClientHello in a case of its own."""
    rows = [row for row in LOG_ROWS if row[1] != 10]
    lines = [f"{n} {m[0] if m else '-'} {column(*refused)} -\n" for n, (m, *refused) in enumerate(rows, 1)]
    assert listed(case([m for m, _, _ in rows])) == "message type log hello\n" + "".join(lines)
    count = 0
    for hello, number, place in ROWS:
        said = listed(case([hello]))
        if hello[:1] == b"\x01" and (place > 3 or number == 3):
            assert said == f"message type log hello\n1 1 0 {column(number, place)}\n", hello.hex()
            count += 1
    return f"{len(rows)} log columns, {count} hello columns"


def longest(behind):
    """A ClientHello of 16,388 bytes with one extension, of type 5, and behind it these bytes."""
    first = LONGEST - len(hellos.client_hello(extensions=b"")) - 4 - len(behind)
    hello = hellos.client_hello(extensions=extension(5, bytes(first)) + behind)
    assert len(hello) == LONGEST
    return hello


def test_the_longest_lines():
    """16 bytes with the newline: message 255, type 1, log 0, and a place of five digits. The bodies before it are empty."""
    for behind, number, place in (
        (raw("00"), 1, 16_388),
        (raw("0006 00"), 1, 16_388),
        (raw("0017 0001 00"), 1, 16_387),
        (raw("0006 0001"), 1, 16_386),
        (raw("0005 0000"), 2, 16_384),
    ):
        breaks(longest(behind), number, place)
        _, *before, last = listed(case([b""] * 254 + [longest(behind)])).splitlines(keepends=True)
        assert before == [f"{n} - 1:0 -\n" for n in range(1, 255)]
        assert last == f"255 1 0 {number}:{place}\n" and len(last) == 16
    breaks(longest(b"\x00") + b"\x00", 10, 0)


# ---- Hellos of known fields, by the table's formulas


def table_fields(kind, i, s, c):
    """Place, width and the bytes that it counts, of each field of a body up to the block; i, s and c as in the table."""
    shared = [(4, 2, 0), (6, 32, 0), (38, 1, i)]
    if kind == CLIENT:
        return [*shared, (39 + i, 2, s), (41 + i + s, 1, c)]
    return [*shared, (39 + i, 2, 0), (41 + i, 1, 0)]


def block_place(kind, i, s, c):
    return 42 + i + s + c if kind == CLIENT else 42 + i


def sized(kind, i, s, c, extensions=None):
    """A hello of these sizes."""
    identifier = bytes(range(1, 1 + i))
    if kind == CLIENT:
        return hellos.client_hello(identifier, bytes([0, 47] * (s // 2)), bytes(c), extensions)
    return hellos.server_hello(identifier, extensions=extensions)


def placed(block, extensions):
    """Each extension with its place, (place, type, data), and all of them in bytes."""
    at, found = block + 2, []
    for t, data in extensions:
        found.append((at, t, data))
        at += 4 + len(data)
    return found, b"".join(extension(t, data) for t, data in extensions)


EXTENSIONS = [(5, b"abc"), (EMS, b""), (RI, b"\x02xy"), (6, b""), (RI + 1, bytes(300))]


def cut(fields, n):
    """Where a message breaks that ends at place n: a field of fixed size that is not all there gives that end, a vector whose
    bytes are not all there the place of its length."""
    for at, width, counted in fields:
        if n < at + width:
            return n
        if n < at + width + counted:
            return at
    return None


def test_every_field_cut_at_every_byte():
    """The header's length put right and not; the block's too, so that its extensions are cut in their turn."""
    messages = 0
    sizes = [(CLIENT, *of) for of in itertools.product((0, 3, 32), (2, 4, 256), (1, 2, 255))]
    for size in [*sizes, *((SERVER, i, 0, 0) for i in range(33))]:
        kind, whole, fields = size[0], sized(*size), table_fields(*size)
        for n in range(len(whole)):
            breaks(whole[:n], 1, n if n < 4 else 1)
            if n >= 4:
                breaks(message(kind, whole[4:n]), 1, cut(fields, n))
            messages += 2
        breaks(whole, 0, 0)
    for size in ((CLIENT, 3, 4, 2), (CLIENT, 32, 2, 1), (SERVER, 0, 0, 0), (SERVER, 32, 0, 0)):
        kind, block = size[0], block_place(*size)
        found, inside = placed(block, EXTENSIONS)
        whole, fields = sized(*size, inside), [field for x, _, data in found for field in ((x, 2, 0), (x + 2, 2, len(data)))]
        ends = [x for x, _, _ in found]  # where one begins, what stands before it is a whole block
        for n in range(block + 1, len(whole)):
            breaks(message(kind, whole[4:n]), 1, n if n == block + 1 else block)
            if n >= block + 2:
                breaks(sized(*size, whole[block + 2 : n]), *((0, 0) if n in ends else (1, cut(fields, n))))
            messages += 2
        breaks(whole, 0, 0)
    return f"{messages} messages"


def lengths(kind, i, s, c, found):
    """Each length of a hello with these extensions: its place, its width, and where the hello breaks if it has a wrong value that
    does not claim more than is left; None where that depends on what stands behind it."""
    yield 1, 3, lambda v: 1
    yield 38, 1, lambda v: 38 if v > 32 else None
    if kind == CLIENT:
        yield 39 + i, 2, lambda v: 39 + i if v % 2 or not v else None
        yield 41 + i + s, 1, lambda v: None if v else 41 + i + s
    block = block_place(kind, i, s, c)
    yield block, 2, lambda v: block
    for x, t, data in found:
        end = x + 4 + len(data) if x == found[-1][0] else None
        if t in (EMS, RI):
            yield x + 2, 2, lambda v: x + 4
        else:  # under 4 bytes behind the last one are an extension that is cut off
            yield x + 2, 2, lambda v: end if 0 < len(data) - v < 4 else None
        if t == RI:
            yield x + 4, 1, lambda v: x + 4


def test_every_length():
    """At every value around its own and at its ends, each extension once the last: library and second program agree, and where
    the length alone tells the place it is that."""
    messages = told = 0
    for size, turn in itertools.product(((CLIENT, 3, 4, 2), (CLIENT, 32, 2, 1), (SERVER, 3, 0, 0), (SERVER, 32, 0, 0)), range(4)):
        found, inside = placed(block_place(*size), EXTENSIONS[turn:4] + EXTENSIONS[:turn])
        hello = sized(*size, inside)
        for at, width, place in lengths(*size, found):
            old, left, top = int.from_bytes(hello[at : at + width], "big"), len(hello) - at - width, 256**width
            values = {*range(old - 40, old + 41), *range(left - 2, left + 3), 0, 1, 2, 32, 33, 255, 256, top // 2, top - 1}
            for value in {v % top for v in values} - {old}:
                changed = hello[:at] + value.to_bytes(width, "big") + hello[at + width :]
                right = at if value > left else place(value)
                if right is None:
                    answers(changed)
                else:
                    breaks(changed, 1, right)
                    told += 1
                messages += 1
    return f"{messages} messages, {told} of them told by the length alone"


def test_shapes():
    """EMS and RI with every data of up to three bytes over a small alphabet, alone, first, in the middle and last."""
    datas = [bytes(d) for n in range(4) for d in itertools.product((0, 1, 2, 3, 255), repeat=n)]
    others = extension(5, b"abc"), extension(6)
    for kind, t, data in itertools.product((CLIENT, SERVER), (EMS, RI), datas):
        wrong = data != b"" if t == EMS else data == b"" or data[0] != len(data) - 1
        for before, behind in ((b"", b""), (b"", others[0]), (others[0], others[1]), (b"".join(others), b"")):
            hello = sized(kind, 3, 2, 1, before + extension(t, data) + behind)
            breaks(hello, *((1, block_place(kind, 3, 2, 1) + 2 + len(before) + 4) if wrong else (0, 0)))


def test_repeats():
    """Every arrangement of three and of four types, with data of several lengths, in both hellos: the place is the least of those
    that stand behind an equal one. With a version that is refused too it stays; what is malformed behind it comes first."""
    data = {5: b"abc", 6: b"", EMS: b"", RI: b"\x01x"}
    arrangements = [*itertools.product((5, 6, EMS), repeat=3), *itertools.product((RI, EMS, 5), repeat=3)]
    arrangements += itertools.product(data, repeat=4)
    earliest = {}
    for kind, types in itertools.product((CLIENT, SERVER), arrangements):
        found, inside = placed(block_place(kind, 1, 4, 1), [(t, data[t]) for t in types])
        again = [later for (_, t, _), (later, u, _) in itertools.combinations(found, 2) if t == u]
        hello = sized(kind, 1, 4, 1, inside)
        breaks(hello, *((2, min(again)) if again else (0, 0)))
        breaks(hello[:4] + b"\x03\x02" + hello[6:], *((2, min(again)) if again else (3, 0)))
        for behind, place in ((b"\x00", 1), (extension(EMS, b"x"), 4), (b"\x00\x05\x00\x01", 2)):
            breaks(sized(kind, 1, 4, 1, inside + behind), 1, len(hello) + place)
        if again:
            nth = [x for x, _, _ in found].index(min(again)) + 1
            earliest[len(types), nth] = earliest.get((len(types), nth), 0) + 1
    assert set(earliest) == {(3, 2), (3, 3), (4, 2), (4, 3), (4, 4)}
    return ", ".join(f"{count} times the {nth}. of {n}" for (n, nth), count in sorted(earliest.items()))


def test_a_wrong_type_is_judged_first():
    """Of a message of any length, and one that states another."""
    for kind in (*range(4), 11, 20, 255):
        for n, stated in itertools.product((0, 1, 2, 3, 4, 5, 40), (0, 1, 36, 0xFFFFFF)):
            m = (bytes([kind]) + stated.to_bytes(3, "big") + bytes(40))[:n]
            for wanted, (number, place) in zip((CLIENT, SERVER), answers(m)):
                if kind != wanted:
                    assert (number, place) == (1, 0)
                elif n < 4:
                    assert (number, place) == (1, n)
                elif stated != n - 4:
                    assert (number, place) == (1, 1)


def test_what_stands_behind_the_place_is_of_no_account():
    """Fields are judged in order: whatever follows the one that broke, the place is the same. Of OpenSSL's hellos and our own."""
    r = random.Random(1)
    real, seen = samples(), {}
    for _ in range(4000):
        hello = hellos.damaged(r, r.choice(real) if r.random() < 0.5 else hellos.some(r))
        if hello[:1] not in (b"\x01", b"\x02"):
            continue
        number, place = answers(hello)[hello[0] - 1]
        if number == 1 and place < len(hello):
            width = 3 if place == 1 else 2
            other = hello[: place + width] + r.randbytes(max(0, len(hello) - place - width))
            breaks(other, 1, place)
            seen[place] = seen.get(place, 0) + 1
    assert len(seen) > 60
    return f"{sum(seen.values())} messages, {len(seen)} places"


def test_the_writers_have_none():
    """With their 1 and 2 as with all else: there is no message yet."""
    for extensions, number in (([(5, b""), (EMS, b"x")], 1), ([(5, b""), (RI, b"")], 1), ([(5, b"a"), (5, b"")], 2)):
        for write, kind in ((face.write_client_hello, hellos.Client), (face.write_server_hello, hellos.Server)):
            refused = write(*kind(block=1, **hellos.listed(extensions)), face.lend(bytes(200))).refusal
            assert (refused.number, refused.place) == (number, 0)
