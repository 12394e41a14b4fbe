"""TCP connections, packets and capture files for the tests of tools/make-case, written from the formats' papers; nothing of the tool
is used here."""

import struct
from typing import NamedTuple

FIN, SYN, RST, PSH, ACK = 0x01, 0x02, 0x04, 0x08, 0x10
ETHERNET, COOKED1, COOKED2, RAW, NULL, LOOP = 1, 113, 276, 101, 0, 108


class Segment(NamedTuple):
    from_client: bool
    sequence: int
    acknowledged: int
    flags: int
    payload: bytes = b""
    ports: tuple = (50_000, 443)


def talk(flights, size=100, start=(100, 200), ports=(50_000, 443)):
    """The segments of a whole connection: SYNs, each flight in parts and acknowledged, FINs."""
    at = {True: start[0], False: start[1]}

    def segment(from_client, flags, payload=b"", back=0):
        sequence, acknowledged = (at[from_client] - back) % 2**32, at[not from_client] % 2**32
        at[from_client] += len(payload)
        return Segment(from_client, sequence, acknowledged, flags, payload, ports)

    made = [segment(True, SYN, back=1)._replace(acknowledged=0), segment(False, SYN | ACK, back=1), segment(True, ACK)]
    for from_client, data in flights:
        made += [segment(from_client, PSH | ACK, data[i : i + size]) for i in range(0, len(data), size)]
        made.append(segment(not from_client, ACK))
    for from_client in (True, False):
        made.append(segment(from_client, FIN | ACK))
        at[from_client] += 1
    return made + [segment(True, ACK)]


def tcp(s):
    ports = s.ports if s.from_client else s.ports[::-1]
    options = b"\x01\x01\x01\x00" if s.flags & SYN else b""
    return (
        struct.pack(">HHIIBBHHH", *ports, s.sequence, s.acknowledged, (5 + len(options) // 4) << 4, s.flags, 1024, 0, 0)
        + options
        + s.payload
    )


def ip4(s, total=None, flags=0):
    data, ends = tcp(s), (b"\x0a\x00\x00\x01", b"\x0a\x00\x00\x02")[:: 1 if s.from_client else -1]
    return (
        struct.pack(">BBHHHBBH", 0x45, 0, 20 + len(data) if total is None else total, 7, flags, 64, 6, 0)
        + b"".join(ends)
        + data
    )


def ip6(s, extensions=b"", first=6, length=None):
    data, ends = (
        extensions + tcp(s),
        (b"\xfd" + bytes(14) + b"\x01", b"\xfd" + bytes(14) + b"\x02")[:: 1 if s.from_client else -1],
    )
    return struct.pack(">IHBB", 6 << 28, len(data) if length is None else length, first, 64) + b"".join(ends) + data


def ethernet(ip, tags=b""):
    return bytes(12) + tags + kind(ip) + ip


def kind(ip):
    return b"\x08\x00" if ip[0] >> 4 == 4 else b"\x86\xdd"


def cooked1(ip):
    return bytes(14) + kind(ip) + ip


def cooked2(ip):
    return kind(ip) + bytes(18) + ip


def pcap(frames, link=ETHERNET, order="<", magic=0xA1B2C3D4, snap=65_535):
    head = struct.pack(order + "IHHiIII", magic, 2, 4, 0, 0, snap, link)
    return head + b"".join(struct.pack(order + "IIII", 0, 0, len(f[:snap]), len(f)) + f[:snap] for f in frames)


def block(kind, body, order="<"):
    body += bytes(-len(body) % 4)
    return struct.pack(order + "II", kind, 12 + len(body)) + body + struct.pack(order + "I", 12 + len(body))


def section(order="<"):
    return block(0x0A0D0D0A, struct.pack(order + "IHHq", 0x1A2B3C4D, 1, 0, -1), order)


def interface(link=ETHERNET, order="<", snap=0):
    name = struct.pack(order + "HH", 2, 2) + b"lo\x00\x00" + bytes(4)
    return block(1, struct.pack(order + "HHI", link, 0, snap) + name, order)


def enhanced(frame, order="<", number=0, cut=None):
    return block(6, struct.pack(order + "IIIII", number, 0, 0, len(frame[:cut]), len(frame)) + frame[:cut], order)


def simple(frame, order="<", cut=None):
    return block(3, struct.pack(order + "I", len(frame)) + frame[:cut], order)


def obsolete(frame, order="<", number=0):
    return block(2, struct.pack(order + "HHIIII", number, 0, 0, 0, len(frame), len(frame)) + frame, order)
