"""The packets of a capture file, pcap or pcapng."""

import struct
from typing import NamedTuple

PCAP = {b"\xd4\xc3\xb2\xa1": "<", b"\x4d\x3c\xb2\xa1": "<", b"\xa1\xb2\xc3\xd4": ">", b"\xa1\xb2\x3c\x4d": ">"}
PCAPNG = b"\x0a\x0d\x0d\x0a"
PCAPNG_ORDER = {b"\x4d\x3c\x2b\x1a": "<", b"\x1a\x2b\x3c\x4d": ">"}
COMPRESSED = {
    b"\x1f\x8b": "gunzip",
    b"\x28\xb5\x2f\xfd": "zstd -d",
    b"\x04\x22\x4d\x18": "lz4 -d",
    b"BZh": "bunzip2",
    b"\xfd7zXZ": "unxz",
}


class Unreadable(Exception):
    """No capture that is known here; the text says why."""


class Packet(NamedTuple):
    link: int  # the link type that its first header is of
    data: bytes  # as much of it as was captured
    length: int  # how long it was on the wire


def is_capture(data):
    return data[:4] in PCAP or data[:4] == PCAPNG or any(data.startswith(magic) for magic in COMPRESSED)


def packets(data, trouble):
    """Each packet in turn. `trouble` is called with a line for a file that ends early or breaks off."""
    if data[:4] in PCAP:
        return _pcap(data, PCAP[data[:4]], trouble)
    if data[:4] == PCAPNG:
        return _pcapng(data, trouble)
    if not data:
        raise Unreadable("an empty file")
    for magic, command in COMPRESSED.items():
        if data.startswith(magic):
            raise Unreadable(f"a compressed file; unpack it first ({command})")
    raise Unreadable("neither pcap nor pcapng (Wireshark's `editcap -F pcap` converts captures of other kinds)")


def _pcap(data, order, trouble):
    if len(data) < 24:
        raise Unreadable("a pcap file that ends within its first 24 bytes")
    link = struct.unpack_from(order + "I", data, 20)[0] & 0xFFFF  # above it stand the length of a checksum and flags
    at, number = 24, 1
    while at < len(data):
        if len(data) - at < 16:
            return trouble(f"the file ends early, in the header of packet {number}")
        captured, length = struct.unpack_from(order + "II", data, at + 8)
        if captured > len(data) - at - 16:
            return trouble(
                f"the file ends early, or is broken: packet {number} should have {captured} bytes, and {len(data) - at - 16} are left"
            )
        yield Packet(link, data[at + 16 : at + 16 + captured], max(captured, length))
        at, number = at + 16 + captured, number + 1


def _pcapng(data, trouble):
    at, order, interfaces = 0, None, []
    while at < len(data):
        if len(data) - at < 12:
            return trouble("the file ends early, in the header of a block")
        if data[at : at + 4] == PCAPNG:  # a section: its own byte order and interfaces
            order, interfaces = PCAPNG_ORDER.get(data[at + 8 : at + 12]), []
            if order is None:
                return trouble(f"the file is broken at byte {at}: a section in no known byte order")
        kind, size = struct.unpack_from(order + "II", data, at)
        if size > len(data) - at:
            return trouble(
                f"the file ends early, or is broken: the block at byte {at} should have {size} bytes, and {len(data) - at} are left"
            )
        if size < 12 or data[at + size - 4 : at + size] != data[at + 4 : at + 8]:
            return trouble(f"the file is broken at byte {at}: a block whose two lengths differ")
        body = data[at + 8 : at + size - 4]
        try:
            if kind == 1:
                interfaces.append(struct.unpack_from(order + "HxxI", body))
            elif kind in PACKET_BLOCKS:
                yield PACKET_BLOCKS[kind](body, order, interfaces)
        except (struct.error, IndexError):
            return trouble(f"the file is broken at byte {at}: a block that does not hold what it says")
        at += size


def _enhanced(body, order, interfaces):
    interface, captured, length = struct.unpack_from(order + "I8xII", body)
    return _held(interfaces[interface][0], body[20:], captured, length)


def _obsolete(body, order, interfaces):
    interface, captured, length = struct.unpack_from(order + "H10xII", body)
    return _held(interfaces[interface][0], body[20:], captured, length)


def _simple(body, order, interfaces):
    (length,) = struct.unpack_from(order + "I", body)
    link, snap = interfaces[0]
    return _held(link, body[4:], min(length, snap or length), length)


def _held(link, data, captured, length):
    if captured > len(data):
        raise IndexError
    return Packet(link, data[:captured], max(captured, length))


PACKET_BLOCKS = {2: _obsolete, 3: _simple, 6: _enhanced}
