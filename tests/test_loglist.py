"""Program `loglist` against the second program, on cases good and bad."""

import copy
import hashlib
import itertools
import pathlib
import random
import subprocess

from oracle.log import Log, Told
from oracle.loglist import LIMIT, SECRET, fed, loglist
from tests import hellos
from tests.handshakes import full_and_resumed

PROGRAM = pathlib.Path(__file__).resolve().parent.parent / "target/bin/loglist"


def case(messages):
    lengths = b"".join(len(m).to_bytes(2, "big") for m in messages)
    return bytes([len(messages)]) + lengths + b"".join(messages)


def agree(data):
    said = subprocess.run([PROGRAM], input=data, capture_output=True, check=True).stdout.decode()
    assert said == loglist(data), (data[:100].hex(), said)
    return said


def log_column(said):
    return [line.split()[2] for line in said.splitlines()[1:]]


def test_example_of_document_01():
    said = agree(bytes.fromhex("02 0004 0004 00000000 10000000"))
    assert said == "message type log hello\n1 0 0 -\n2 16 7 -\n"


def test_contents():
    header = "message type log hello\n"
    assert agree(b"") == header + "contents refused\n"
    assert agree(b"\x00") == header
    assert agree(b"\x00\x00") == header + "contents refused\n"
    assert agree(case([b""])) == header + "1 - 1:0 -\n"
    good = case([bytes(16_384), bytes(16_379)])
    assert len(good) == LIMIT and "refused" not in agree(good)
    assert "refused" in agree(case([bytes(16_384), bytes(16_380)]))
    assert "refused" in agree(good + bytes(100_000))
    for cut in range(12):
        agree(case([hellos.message(1, b""), hellos.message(2, b"")])[:cut])


def test_real_handshakes():
    """Their Finished were made under a real secret: 8 in a full one; in a resumed one none is due, since the log is not told."""
    for h in full_and_resumed(True) + full_and_resumed(False, False):
        said = agree(case([m for _, m in h.messages]))
        assert log_column(said) == [("7" if h.resumed else "8") if m[0] == 20 else "0" for _, m in h.messages]


HELLO = hellos.client_hello(extensions=hellos.ri() + hellos.ems())


def due(log, secret=SECRET):
    """The Finished that is due; where none is, one with the value 0."""
    return hellos.message(20, log.expected_finished(secret)[1])


def handshake(*kinds, sha384=False):
    """Messages of these types after our ClientHello; a Finished is right under the secret of 48 zero bytes, by that hash."""
    log, messages = Log(), [HELLO]
    log.accept(HELLO)
    for kind in kinds:
        messages.append(due(log) if kind == 20 else hellos.message(kind, bytes([kind]) * 5))
        if kind == 20:
            assert log.finish(SECRET, messages[-1]) == (0, 0)
        else:
            assert log.accept(messages[-1], Told(sha384=sha384)) == (0, 0)
    return messages


def test_both_finished_are_taken():
    """Of every full order, under the secret that a case has."""
    said = agree(case(handshake(2, 11, 14, 16, 20, 20)))
    assert said == "message type log hello\n1 1 0 0\n2 2 0 -\n3 11 0 -\n4 14 0 -\n5 16 0 -\n6 20 0 -\n7 20 0 -\n"
    orders = 0
    for certificate, exchange in itertools.product(((), (11,)), ((), (12,))):
        for rest in ((14, 16), (13, 14, 11, 16), (13, 14, 11, 16, 15)):
            messages = handshake(2, *certificate, *exchange, *rest, 20, 20)
            third = [messages[-1], messages[-2], hellos.message(20, bytes(12)), HELLO, hellos.message(0, b"")]
            assert log_column(agree(case(messages + third))) == ["0"] * len(messages) + ["7", "7", "7", "7", "0"]
            orders += 1
    return f"{orders} orders"


def test_it_states_sha_256():
    """Both Finished made by SHA-384 differ, and so does one of either by the other's transcript."""
    for kinds in ((2, 14, 16, 20, 20), (2, 11, 12, 13, 14, 11, 16, 15, 20, 20)):
        right, other = handshake(*kinds), handshake(*kinds, sha384=True)
        assert right[:-2] == other[:-2]
        assert log_column(agree(case(other))) == ["0"] * (len(other) - 2) + ["8", "8"]
        assert log_column(agree(case([*other, *right[-2:]]))) == ["0"] * (len(other) - 2) + ["8", "8", "0", "0"]


def test_finished_that_are_refused():
    """Each is passed over, and what follows it is answered as if it had not been there."""
    *before, client, server = handshake(2, 14, 16, 20, 20)
    nothing = hellos.message(0, b"")
    wrong = client[:-1] + bytes([client[-1] ^ 1])
    log = Log()
    for m in before:
        log.accept(m)
    steps = [
        (client, "7"),
        (HELLO, "0"),
        (client, "7"),
        (before[1], "0"),
        (client, "7"),  # the log was not told of resuming
        (client[:3], "1:3"),
        (client[:1], "1:1"),
        (hellos.message(20, b""), "1:1"),
        (before[2], "0"),
        (before[3], "0"),
        (b"", "1:0"),
        (client[:-1], "1:1"),
        (client + b"\x00", "1:1"),
        (hellos.message(20, client[4:-1]), "1:1"),
        (hellos.message(20, client[4:] + b"\x00"), "1:1"),
        (client.ljust(16_389, b"\x00"), "10"),
        (wrong, "8"),
        (due(log, bytes(range(48))), "8"),
        (hellos.message(20, log._value(SECRET, "S")), "8"),
        (server, "8"),
        (nothing, "0"),
        (client, "0"),
        (client, "8"),
        (nothing, "0"),
        (hellos.message(0, client[4:]), "1:1"),
        (hellos.message(20, b"\x00" * 11), "1:1"),
        (server, "0"),
        (server, "7"),
        (server[:-1], "1:1"),
    ]
    assert log_column(agree(case([m for m, _ in steps]))) == [column for _, column in steps]


def test_random_handshakes():
    """Most messages in turn, so that many come to their Finished: right ones, wrong ones, malformed ones."""
    r = random.Random(2)
    answered, complete = set(), 0
    for _ in range(200):
        log, messages = Log(), []
        for _ in range(30):
            others = [HELLO, *(hellos.message(kind, r.randbytes(r.randrange(20))) for kind in (0, 2, 11, 12, 13, 14, 15, 16))]
            in_turn = [m for m in others if copy.deepcopy(log).accept(m) == (0, 0)]
            m = r.choice((due(log), due(log), due(log, r.randbytes(48)), hellos.damaged(r, due(log)), *in_turn * 2, r.choice(others)))
            number, _ = fed(log, m)
            messages.append(m)
            if m[:1] == b"\x14":
                answered.add(number)
        agree(case(messages))
        complete += log.complete
    assert answered == {0, 1, 7, 8} and complete > 20
    return f"{complete} of 200 completed"


# SHA-256 of all that version 0.8.0, the last one without a choice of hash, wrote to the random cases below
WRITTEN = "38f141e94c65bf418f1142ba075ca660df669115205af37338bab801f9e9363e"


def test_500_random_cases():
    """Against the second program, and to the byte what was written before order 7."""
    r, written = random.Random(1), hashlib.sha256()
    kinds = (0, 1, 2, 11, 12, 13, 14, 15, 16, 20, 99)
    for i in range(520):
        messages = []
        for _ in range(r.choice((0, 1, 3, 8, 20, 255 if i % 50 == 0 else 5))):
            m = r.choice(
                (
                    hellos.some(r, hellos.client_hello),
                    hellos.message(r.choice(kinds), r.randbytes(r.choice((0, 0, 12, 30)))),
                    hellos.message(1, b""),
                    r.randbytes(r.randrange(6)),
                    b"",
                )
            )
            messages.append(hellos.damaged(r, m) if r.random() < 0.2 and m else m)
        data = case(messages)
        if r.random() < 0.25:
            data = r.choice((data[:-1], data + b"\x00", data[: r.randrange(len(data) + 1)], hellos.damaged(r, data)))
        written.update(agree(data).encode())
    agree(case([bytes(16_389)]))
    assert written.hexdigest() == WRITTEN
