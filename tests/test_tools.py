"""tools/make-case: from a list of hex messages and from captures, those of real tools (tests/data/captures) and those made here."""

import contextlib
import gzip
import io
import itertools
import os
import pathlib
import random
import subprocess
import sys
import tempfile

from tests import wire
from tests.handshakes import full_and_resumed

ROOT = pathlib.Path(__file__).resolve().parent.parent
TOOL = ROOT / "tools/make-case"
CAPTURES = ROOT / "tests/data/captures"

sys.path.insert(0, str(ROOT / "tools"))
import make_case  # noqa: E402  (the path above leads to it)


def case(messages):
    lengths = b"".join(len(m).to_bytes(2, "big") for m in messages)
    return bytes([len(messages)]) + lengths + b"".join(messages)


def messages_of(made):
    """The messages of a case."""
    sizes = [int.from_bytes(made[1 + 2 * i : 3 + 2 * i], "big") for i in range(made[0])]
    at, found = 1 + 2 * len(sizes), []
    for size in sizes:
        found.append(made[at : at + size])
        at += size
    assert at == len(made)
    return found


def run(*arguments, data=b"", shell=""):
    return subprocess.run(["bash", "-c", f'"$0" "$@" {shell}', TOOL, *map(str, arguments)], input=data, capture_output=True)


# ---- from hex


def test_from_hex():
    for path in sorted((ROOT / "examples/cases").glob("*.txt")):
        lines = [bytes.fromhex(line) for line in path.read_text().splitlines() if not line.startswith("#")]
        for said in (run(data=path.read_bytes()), run(path)):
            assert (said.returncode, said.stdout, said.stderr) == (0, case(lines), b"")
    assert run(data=b"00000000 # a HelloRequest\r\n\r\n10 00 00 00\n").stdout == case([bytes(4), b"\x10\x00\x00\x00"])


# ---- captures made here: a handshake of OpenSSL in segments, frames and files of every kind


def record(kind, body):
    return bytes([kind, 3, 3]) + len(body).to_bytes(2, "big") + body


def handshake():
    """The flights of a real handshake with a client's certificate and the messages in clear text, then what is protected."""
    real, _ = full_and_resumed(True)
    flights = []
    for from_client, m in real.messages:
        data = (record(20, b"\x01") if m[0] == 20 else b"") + record(22, m)
        if flights and flights[-1][0] == from_client:
            data = flights.pop()[1] + data
        flights.append((from_client, data))
    flights += [(True, record(23, bytes(300))), (False, record(23, bytes(700))), (True, record(21, bytes(34)))]
    return flights, [m for _, m in real.messages if m[0] != 20]


FLIGHTS, CLEAR = handshake()
PROTECTED = {  # in each direction, how many bytes stand before the end of its ChangeCipherSpec
    side: b"".join(data for s, data in FLIGHTS if s == side).index(record(20, b"\x01")) + 6 for side in (True, False)
}
TALK = wire.talk(FLIGHTS)


def answer(data, number=None):
    """Status, messages (None where there is no case) and what was said, of a capture."""
    said = io.StringIO()
    with contextlib.redirect_stderr(said):
        try:
            made, status = make_case.from_capture(data, number)
        except (make_case.Refused, make_case.Unreadable) as refused:
            return 1, None, f"{said.getvalue()}{refused}\n"
    return status, messages_of(made), said.getvalue()


def frames(segments):
    return [wire.ethernet(wire.ip4(s)) for s in segments]


def whole(data):
    assert answer(data) == (0, CLEAR, ""), answer(data)[::2]


def test_segments_of_every_size():
    for size in (1, 7, 100, 536, 1460, 100_000):
        whole(wire.pcap(frames(wire.talk(FLIGHTS, size))))


def test_reordering_and_retransmission():
    """The segments of a flight in any order, some of them twice or thrice."""
    r = random.Random(1)
    for _ in range(30):
        mixed = []
        for _, flight in itertools.groupby(TALK, key=lambda s: (s.from_client, bool(s.payload))):
            copies = [s for s in flight for _ in range(r.choice((1, 1, 2, 3)))]
            r.shuffle(copies)
            mixed += copies
        assert sum(a.sequence > b.sequence for a, b in zip(mixed, mixed[1:]) if a.payload and b.payload) > 20
        whole(wire.pcap(frames(mixed)))


def test_overlaps():
    """Bytes 0 to 200, 100 to 400, 400 to the end; a long repeat of all that was sent; one behind a gap that is filled late."""
    for parts in (
        lambda n: [(0, 200), (100, 400), (400, n)],
        lambda n: [(0, 10), (0, 30), (0, n), (5, n)],
        lambda n: [(50, 120), (90, n), (0, 60), (10, 70)],
    ):
        segments = wire.talk(FLIGHTS, 100_000)
        made = []
        for s in segments:
            for a, b in parts(len(s.payload)) if s.payload else [(0, 0)]:
                if s.payload and a >= min(b, len(s.payload)):
                    continue
                made.append(s._replace(sequence=s.sequence + a, payload=s.payload[a:b]))
        assert len(made) > len(segments) + 4
        whole(wire.pcap(frames(made)))


def test_copies_that_differ():
    """The first is taken, and it is said; a keep-alive's byte is nobody's."""
    first = next(s for s in TALK if s.payload)
    other = first._replace(payload=first.payload[:-1] + b"\xee")
    status, messages, said = answer(wire.pcap(frames(TALK[:5] + [other] + TALK[5:])))
    assert (status, messages) == (3, CLEAR) and "the first copy is taken" in said
    alive = TALK[9]._replace(sequence=TALK[9].sequence - 1, payload=b"\x00")
    assert TALK[9].from_client is False and TALK[9].payload
    whole(wire.pcap(frames(TALK[:9] + [alive] + TALK[9:])))


def test_missing_syn():
    for left_out in ((0,), (1,), (0, 1), (0, 1, 2)):
        whole(wire.pcap(frames([s for i, s in enumerate(TALK) if i not in left_out])))
    swapped = [TALK[4], TALK[3], *TALK[5:]]  # and the first segment comes second
    assert TALK[3].payload and TALK[4].payload and TALK[3].from_client == TALK[4].from_client
    whole(wire.pcap(frames(swapped)))


def test_sequence_numbers_wrap():
    for start in ((2**32 - 1, 2**32 - 150), (2**32 - 1000, 0), (0, 2**31 - 5)):
        whole(wire.pcap(frames(wire.talk(FLIGHTS, 100, start))))
        whole(wire.pcap(frames(wire.talk(FLIGHTS, 100, start)[3:])))


def test_resets():
    """The numbers of a reset need not be the stream's, and what it carries is none of it."""
    for reset in (
        TALK[3]._replace(flags=wire.RST | wire.ACK, sequence=0, acknowledged=2**31, payload=b"gone"),
        TALK[-1]._replace(flags=wire.RST, sequence=9_999),
    ):
        whole(wire.pcap(frames(TALK[:6] + [reset] + TALK[6:] + [reset])))


def test_links():
    by_ip = {wire.ip4: (wire.RAW, 12, 14, 228), wire.ip6: (wire.RAW, 12, 14, 229)}
    for ip, raw in by_ip.items():
        packets = [ip(s) for s in TALK]
        for link in raw:
            whole(wire.pcap(packets, link))
        for tags in (b"", b"\x81\x00\x00\x07", b"\x88\xa8\x00\x07\x81\x00\x00\x08", b"\x91\x00\x00\x07\x81\x00\x00\x08"):
            whole(wire.pcap([wire.ethernet(p, tags) for p in packets]))
        whole(wire.pcap([wire.cooked1(p) for p in packets], wire.COOKED1))
        whole(wire.pcap([wire.cooked2(p) for p in packets], wire.COOKED2))
        family = {4: 2, 6: 30}[packets[0][0] >> 4]
        for link, order in ((wire.NULL, "little"), (wire.NULL, "big"), (wire.LOOP, "big")):
            whole(wire.pcap([family.to_bytes(4, order) + p for p in packets], link))


def test_links_that_are_not_known():
    status, messages, said = answer(wire.pcap(frames(TALK), 127))
    assert status == 1 and messages is None and "link type 127 is not known here" in said and "Ethernet (1)" in said
    mixed = (
        wire.section()
        + wire.interface(127)
        + wire.interface()
        + wire.enhanced(b"radio")
        + b"".join(wire.enhanced(f, number=1) for f in frames(TALK))
    )
    status, messages, said = answer(mixed)
    assert (status, messages) == (0, CLEAR) and "1 packets of link type 127 are passed over" in said


def test_extension_headers_of_ipv6():
    hop, options, atomic = bytes([60, 1]) + bytes(14), bytes([44, 0]) + bytes(6), bytes([51, 0]) + bytes(6)
    authentication = bytes([6, 4]) + bytes(22)
    made = [wire.ip6(s, hop + options + atomic + authentication, 0) for s in TALK]
    whole(wire.pcap(made, wire.RAW))


def test_lengths_left_to_the_network_card():
    whole(wire.pcap([wire.ethernet(wire.ip4(s, total=0)) for s in wire.talk(FLIGHTS, 100_000)]))
    whole(wire.pcap([wire.ethernet(wire.ip6(s, length=0)) for s in wire.talk(FLIGHTS, 100_000)]))


def test_padding_and_other_traffic():
    """A short frame is padded to 60 bytes; UDP, ARP, other IP versions and a frame of one byte stand between."""
    padded = [f + b"\xaa" * max(0, 60 - len(f)) for f in frames(TALK)]
    udp = wire.ethernet(b"\x45\x00\x00\x1c" + bytes(5) + b"\x11" + bytes(18))
    others = [udp, bytes(12) + b"\x08\x06" + bytes(28), wire.ethernet(b"\x55" + bytes(40)), b"\x00", bytes(14)]
    whole(wire.pcap(others + padded[:10] + others + padded[10:]))


def test_files():
    made = frames(TALK)
    for order in "<>":
        for magic in (0xA1B2C3D4, 0xA1B23C4D):
            whole(wire.pcap(made, order=order, magic=magic))
        head = wire.section(order) + wire.interface(order=order)
        strange = wire.block(0x0BAD, b"what", order) + wire.block(4, bytes(4), order)
        for one in (wire.enhanced, wire.simple, wire.obsolete):
            whole(head + strange + b"".join(one(f, order) for f in made) + strange)
    both = wire.section() + wire.interface(wire.RAW) + b"".join(wire.enhanced(wire.ip4(s)) for s in TALK[:20])
    both += wire.section(">") + wire.interface(order=">") + b"".join(wire.enhanced(f, ">") for f in made[20:])
    whole(both)  # two sections, of two byte orders and link types
    whole(wire.section() + wire.interface(snap=20_000) + b"".join(wire.simple(f) for f in made))


def test_the_first_connection_with_a_client_hello():
    http = wire.talk([(True, b"GET / HTTP/1.1\r\n\r\n"), (False, b"HTTP/1.1 200 OK\r\n\r\n")], ports=(40_000, 80))
    unanswered = [wire.talk([], ports=(40_001, 443))[0]]
    whole(wire.pcap(frames(http + unanswered + TALK + wire.talk(FLIGHTS[:1], ports=(40_002, 443)))))
    again = wire.talk([(True, b"GET / HTTP/1.1\r\n\r\n")], start=(7_000, 8_000))  # the same ports before
    for talk in (TALK, TALK[1:], TALK[:1] + TALK[2:]):  # with both SYNs, or one of them
        whole(wire.pcap(frames(again + talk)))
    mixed = [s for pair in zip(TALK, wire.talk(FLIGHTS, ports=(40_003, 443))) for s in pair]  # two at the same time
    whole(wire.pcap(frames(mixed)))
    assert answer(wire.pcap(frames(http))) == (1, None, "none of its 1 TCP connections has a ClientHello (--list shows them)\n")


def test_who_is_the_client():
    """The end that sends the ClientHello, also where the capture begins with the other one."""
    with captured(wire.pcap(frames(TALK[1:]))) as path:
        line = run("--capture", path, "--list").stdout.decode().splitlines()[1]
    assert line.split()[1:3] == ["10.0.0.1:50000", "10.0.0.2:443"], line


# ---- captures that lack something: every message that is given is true, and the status says that some are not there


def is_prefix(messages):
    return messages is None or messages == CLEAR[: len(messages)]


def test_every_segment_lost():
    clear = protected = 0
    for i, s in enumerate(TALK):
        if not s.payload:
            continue
        status, messages, said = answer(wire.pcap(frames(TALK[:i] + TALK[i + 1 :])))
        assert status != 0 and is_prefix(messages) and said, (i, status)
        place = s.sequence - (100 if s.from_client else 200)
        if place < PROTECTED[s.from_client] - len(record(20, b"\x01")):
            assert status in (1, 3) and messages != CLEAR, (i, status)
            clear += 1
        elif place >= PROTECTED[s.from_client]:
            assert (status, messages) == (4, CLEAR) and "what is in clear text is whole" in said, (i, status)
            protected += 1
    assert clear > 20 and protected > 10


def test_nothing_behind_a_gap_is_given():
    """The ClientHello's end lost: no ServerHello that would be out of turn. The ServerHello lost: only what came before."""
    ends = [i for i, s in enumerate(TALK) if s.payload]
    assert answer(wire.pcap(frames(TALK[: ends[1]] + TALK[ends[1] + 1 :])))[:2] == (1, None)
    first = next(i for i, s in enumerate(TALK) if s.payload and not s.from_client)
    assert answer(wire.pcap(frames(TALK[:first] + TALK[first + 1 :])))[:2] == (3, CLEAR[:1])


def test_one_direction_alone():
    status, messages, _ = answer(wire.pcap(frames([s for s in TALK if s.from_client])))
    assert (status, messages) == (3, CLEAR[:1])
    status, messages, said = answer(wire.pcap(frames([s for s in TALK if not s.from_client])))
    assert (status, messages) == (1, None) and "ClientHello" in said


def test_every_snap_length():
    made, some = frames(wire.talk(FLIGHTS, 700)), 0
    for snap in range(len(max(made, key=len)) + 2):
        for data in (
            wire.pcap(made, snap=snap),
            wire.section() + wire.interface() + b"".join(wire.enhanced(f, cut=snap) for f in made),
        ):
            status, messages, said = answer(data)
            if snap < len(max(made, key=len)):
                assert status in (1, 3, 4) and is_prefix(messages) and said, (snap, status)
                some += status == 3
            else:
                assert (status, messages) == (0, CLEAR)
    assert some > 4


def test_packets_cut_before_their_tcp_header():
    """Nobody knows whose they are: here an acknowledgement, so that nothing else tells of it."""
    at = next(i for i, s in enumerate(TALK) if i > 3 and not s.payload)
    head = wire.section() + wire.interface()
    for talk, expected in ((TALK, (4, CLEAR)), (TALK[: at + 1], (3, CLEAR[:1]))):
        blocks = [wire.enhanced(f, cut=40 if i == at else None) for i, f in enumerate(frames(talk))]
        status, messages, said = answer(head + b"".join(blocks))
        assert (status, messages) == expected and f"1 packets, the first of them packet {at + 1}, are cut before" in said


def test_cut_packets_in_other_blocks():
    """A simple packet block tells by its interface how much was captured; a length of 0 does not hide that a packet is cut."""
    made = frames(TALK)
    snap = len(max(made, key=len)) - 53  # padded, so that the block has room for more
    simple = wire.section() + wire.interface(snap=snap) + b"".join(wire.simple(f, cut=snap) for f in made)
    _, _, said = answer(simple)
    assert "is cut" in said and "broken" not in said
    status, messages, said = answer(wire.pcap([wire.ethernet(wire.ip4(s, total=0)) for s in TALK], snap=snap))
    assert status == 1 and messages is None and "is cut" in said


def test_broken_blocks():
    head, made = wire.section() + wire.interface(), frames(TALK)
    first, rest = (b"".join(wire.enhanced(f) for f in part) for part in (made[:9], made[9:]))
    for broken in (
        wire.block(1, b"ab"),
        wire.block(6, bytes(8)),
        wire.block(3, b""),
        wire.block(2, bytes(16)),
        wire.enhanced(made[9], number=7),
        wire.block(6, bytes(12) + b"\xff\x00\x00\x00" * 2),
        bytes([5, 0, 0, 0, 8, 0, 0, 0]),
        bytes(16),
        wire.enhanced(made[9])[:-4] + bytes(4),
        wire.section()[:8] + bytes(4) + wire.section()[12:],
    ):
        status, messages, said = answer(head + first + broken + rest)
        assert status == 3 and is_prefix(messages) and "the file is broken at byte" in said, broken
        assert answer(broken)[0] == 1


def test_a_cut_packet_that_comes_again():
    """What one copy lacks another has: nothing is missing."""
    made = frames(TALK)
    cut = [f[:80] if s.payload else f for f, s in zip(made, TALK)]
    pairs = [(p, len(f)) for f, c in zip(made, cut) for p in (c, f)]
    data = wire.section() + wire.interface()
    for p, length in pairs:
        data += wire.enhanced(p + bytes(length - len(p)), cut=len(p))
    whole(data)


def test_fragments_of_ip():
    made = frames(TALK)
    large = next(i for i, s in enumerate(TALK) if s.payload and not s.from_client)
    ip = wire.ip4(TALK[large])
    first = wire.ethernet(ip[:2] + (60).to_bytes(2, "big") + ip[4:6] + b"\x20\x00" + ip[8:60])
    rest = wire.ethernet(ip[:2] + (20 + len(ip) - 60).to_bytes(2, "big") + ip[4:6] + b"\x00\x05" + ip[8:20] + ip[60:])
    data = wire.pcap(made[:large] + [first, rest] + made[large + 1 :])
    status, messages, _ = answer(data)
    assert (status, messages) == (3, CLEAR[:1])
    assert len(make_case.Capture(data).connections) == 1  # the rest of a fragment has no TCP header


def test_files_that_end_early():
    made = frames(TALK)
    for head, one in ((wire.pcap([]), lambda f: wire.pcap([f])[24:]), (wire.section() + wire.interface(), wire.enhanced)):
        data, ends = head, {len(head)}
        for f in made:
            data += one(f)
            ends.add(len(data))
        for n in [*range(0, len(head) + 100), *range(len(head) + 100, len(data), 11)]:
            status, messages, said = answer(data[:n])
            assert is_prefix(messages) and (n in ends or (status != 0 and said)), (n, status)
        assert answer(data + b"\x00")[:2] == (4, CLEAR)  # what is in clear text was there before


def test_a_handshake_under_way():
    under_way = [s for s in TALK if s.payload][:8]
    _, _, said = answer(wire.pcap(frames(TALK[:3] + under_way)))
    assert "does not end" in said
    hello = [i for i, s in enumerate(TALK) if s.payload and not s.from_client][0]
    assert answer(wire.pcap(frames(TALK[:hello]))) == (
        0,
        CLEAR[:1],
        "make-case: note: the capture ends while the handshake is under way\n",
    )
    early = [
        FLIGHTS[0],
        (False, record(22, CLEAR[1][:-1]) + record(20, b"\x01") + record(22, bytes(40))),
    ]  # its end never comes
    assert answer(wire.pcap(frames(wire.talk(early))))[:2] == (3, CLEAR[:1])
    status, messages, said = answer(wire.pcap(frames(wire.talk([FLIGHTS[0], (False, b"HTTP/1.1 400 Bad Request\r\n")]))))
    assert (status, messages) == (3, CLEAR[:1]) and "no TLS record from its byte 1 on" in said


def test_damaged_files():
    """Any bytes: a case, or a line that says why not, and nothing else."""
    r = random.Random(2)
    made = frames(TALK[:12])
    good = [wire.pcap(made), wire.section() + wire.interface() + b"".join(wire.enhanced(f) for f in made)]
    good += [wire.pcap([wire.ethernet(wire.ip6(s, bytes([6, 0]) + bytes(6), 0), b"\x81\x00\x00\x07") for s in TALK[:12]])]
    good += [path.read_bytes() for path in CAPTURES.iterdir()]
    statuses = {}
    for i in range(4_000):
        data = bytearray(good[i % len(good)])
        for _ in range(r.choice((1, 2, 5, 50))):
            at = r.randrange(len(data))
            data[at : at + r.choice((0, 1, 1, 4))] = r.choice(
                (r.randbytes(1), r.randbytes(4), b"\xff\xff\xff\xff", bytes(4), b"")
            )
        data = bytes(data[: r.choice((len(data), len(data), r.randrange(len(data))))])
        status, messages, said = answer(data)
        assert status in (0, 1, 3, 4) and (messages is None) == (status == 1) and (status == 0 or said), (i, status, said)
        with contextlib.suppress(make_case.Unreadable), contextlib.redirect_stderr(io.StringIO()):
            make_case.listed(make_case.Capture(data))
        statuses[status] = statuses.get(status, 0) + 1
    assert len(statuses) == 4
    return ", ".join(f"{count} with status {status}" for status, count in sorted(statuses.items()))


# ---- captures of real tools: types and lengths of the messages as tshark 4.0.17 gives them, without those behind ChangeCipherSpec

REAL = {
    "tcpdump-ethernet.pcap": "1:179 2:89 11:789 12:296 13:72 14:0 11:789 16:33 15:260",
    "tcpdump-cooked1.pcap": "1:103 2:85 11:789 14:0 16:258",
    "tcpdump-any.pcap": "1:103 2:85 11:789 14:0 16:258",
    "tcpdump-http-first.pcap": "1:103 2:85 11:789 14:0 16:258",
    "dumpcap-two-interfaces.pcapng": "1:103 2:85 11:789 14:0 16:258",  # Ethernet and cooked: every packet twice
    "text2pcap.pcapng": "1:105 2:85 11:789 13:54 14:0 11:789 16:258 15:260",  # no SYN
    "scapy-overlaps-qinq.pcap": "1:105 2:85 11:789 13:54 14:0 11:789 16:258 15:260",
}


def test_captures_of_real_tools():
    for name, expected in REAL.items():
        said = run("--capture", CAPTURES / name)
        assert said.returncode == 0 and said.stderr == b"", (name, said)
        found = messages_of(said.stdout)
        assert " ".join(f"{m[0]}:{len(m) - 4}" for m in found) == expected, name
        assert all(int.from_bytes(m[1:4], "big") == len(m) - 4 for m in found)
        assert run(CAPTURES / name).stdout == said.stdout  # told from a list by its first bytes
    lines = (ROOT / "examples/cases/full-handshake.txt").read_text().splitlines()
    sample = [bytes.fromhex(line) for line in lines if not line.startswith("#")][:8]
    for name in ("text2pcap.pcapng", "scapy-overlaps-qinq.pcap"):
        assert run("--capture", CAPTURES / name).stdout == case(sample)


def test_a_short_snap_length_of_tcpdump():
    said = run("--capture", CAPTURES / "tcpdump-snap200.pcap")
    assert said.returncode == 1 and said.stdout == b"" and b"packet 4 is cut" in said.stderr and b"Traceback" not in said.stderr


def test_list_and_connection():
    path = CAPTURES / "tcpdump-http-first.pcap"
    said = run("--capture", path, "--list")
    assert said.returncode == 0 and said.stderr == b""
    rows = [line.split() for line in said.stdout.decode().splitlines()]
    assert [row[:7] for row in rows[1:]] == [
        ["1", "127.0.0.1:40312", "127.0.0.1:44380", "11", "127", "520", "0"],
        ["2", "[::1]:46788", "[::1]:44331", "14", "515", "1037", "5"],
        ["3", "127.0.0.1:37092", "127.0.0.1:44332", "15", "329", "1873", "2"],
    ], said.stdout.decode()
    assert [" ".join(row[7:]) for row in rows[1:]] == ["", "the first with a ClientHello", "with a ClientHello"]
    third = run("--capture", path, "--connection", 3)
    assert third.returncode == 0 and [m[0] for m in messages_of(third.stdout)] == [1, 2]
    assert run("--capture", path, "--connection", 2).stdout == run("--capture", path).stdout
    for number, reason in ((1, "no handshake message"), (0, "no connection 0: it has 3"), (4, "no connection 4: it has 3")):
        said = run("--capture", path, "--connection", number)
        assert said.returncode == 1 and said.stdout == b"" and reason in said.stderr.decode(), said


# ---- what cannot be read or written is said in one line


@contextlib.contextmanager
def captured(data):
    with tempfile.NamedTemporaryFile() as file:
        file.write(data)
        file.flush()
        yield file.name


def refused(said, reason):
    text = said.stderr.decode()
    assert said.returncode == 1 and said.stdout == b"", said
    assert text.startswith("make-case: ") and text.count("\n") == 1 and reason in text, text


def test_what_cannot_be_read():
    for way in ((), ("--capture",)):
        refused(run(*way, "/none"), "/none: No such file or directory")
        refused(run(*way, "/"), "/: Is a directory")
        refused(run(*way, ""), "No such file or directory")
    refused(run(data=b"", shell="<&-"), "standard input: it is closed")
    refused(run(data=b"", shell="</"), "Is a directory")
    for data, reason in (
        (b"0100\n01zz\n", "line 2 is not a message in hex: '01zz'"),
        (b"010", "line 1"),
        (b"\xff\x00", "line 1"),
        (b"", "no message"),
        (b"# none\n", "no message"),
    ):
        refused(run(data=data), reason)
        with captured(data) as path:
            refused(run(path), reason)
    gzipped = gzip.compress(wire.pcap(frames(TALK)))
    for data, reason in (
        (b"", "an empty file"),
        (b"abc", "neither pcap nor pcapng"),
        (gzipped, "gunzip"),
        (b"\xd4\xc3\xb2\xa1", "24 bytes"),
    ):
        with captured(data) as path:
            refused(run("--capture", path), reason)
            refused(run("--capture", path, "--list"), reason)
    with captured(b"00000000\n") as path:
        refused(run(path, "--list"), "neither pcap nor pcapng")
    refused(run(data=b"00000000\n" * 256), "256 messages")
    assert run(data=b"00000000\n" * 255).returncode == 0


def test_a_capture_on_standard_input_is_taken_as_one():
    assert run(data=wire.pcap(frames(TALK))).stdout == case(CLEAR)


def test_what_cannot_be_written():
    sample = ROOT / "examples/cases/full-handshake.txt"
    refused(run(sample, shell=">/dev/full"), "standard output: No space left on device")
    refused(run(sample, shell=">&-"), "standard output: it is closed")
    said = run(sample, shell="| true; exit ${PIPESTATUS[0]}")
    assert said.returncode in (0, 1) and b"Traceback" not in said.stderr
    assert run(sample, shell="2>&-").stdout == run(sample).stdout


def test_usage():
    for arguments in (
        ("--capture",),
        ("--list",),
        ("--connection", "1"),
        ("a", "b"),
        ("--what",),
        ("--capture", "a", "--connection", "x"),
    ):
        said = run(*arguments)
        assert (
            said.returncode == 2 and said.stdout == b"" and b"usage:" in said.stderr and b"Traceback" not in said.stderr
        ), arguments
    assert b"--connection N" in run("--help").stdout


def test_statuses():
    data = frames(TALK)
    last = max(i for i, s in enumerate(TALK) if s.payload)
    for made, status in ((data, 0), (data[:6] + data[7:], 3), (data[:last] + data[last + 1 :], 4)):
        with captured(wire.pcap(made)) as path:
            said = run("--capture", path)
            assert said.returncode == status and bool(said.stderr) == bool(status), (status, said)


def test_a_tool_that_is_missing_is_said_by_the_tests():
    said = subprocess.run(
        [sys.executable, ROOT / "tests/runner.py", "test_bindings"],
        env={**os.environ, "PATH": "/none"},
        capture_output=True,
        text=True,
    )
    assert said.returncode == 1 and "cargo is not installed" in said.stdout and "Traceback" not in said.stdout + said.stderr
