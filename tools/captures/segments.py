"""The TCP segment in a packet: link header, VLAN tags, IPv4 or IPv6 with its extension headers, TCP."""

import ipaddress
from typing import NamedTuple

# link type: where the network packet begins, and where the header has its EtherType (None: the packet's first bits tell)
LINKS = {
    1: (14, 12),  # Ethernet
    113: (16, 14),  # Linux cooked, version 1
    276: (20, 0),  # Linux cooked, version 2 (tcpdump -i any)
    0: (4, None),  # loopback of BSD and macOS
    108: (4, None),  # loopback of OpenBSD
    101: (0, None),  # raw IP
    12: (0, None),  # raw IP, as some systems number it
    14: (0, None),
    228: (0, None),  # raw IPv4
    229: (0, None),  # raw IPv6
}
KNOWN = "Ethernet (1), Linux cooked (113, 276), raw IP (101, 12, 14, 228, 229) and loopback (0, 108)"
VLAN = {0x8100, 0x88A8, 0x9100, 0x9200}
VERSION_OF_TYPE = {0x0800: 4, 0x86DD: 6}
TCP = 6
FIN, SYN, RST, ACK = 0x01, 0x02, 0x04, 0x10
EIGHTS = {0, 43, 60, 135, 139, 140}  # IPv6 extension headers whose length counts eights of bytes behind the first
FRAGMENT, AUTHENTICATION = 44, 51


class Cut(Exception):
    """The packet was cut before its TCP header ends, so nothing tells whose it is."""


class End(NamedTuple):
    address: bytes
    port: int

    def __str__(self):
        address = ipaddress.ip_address(self.address)
        return f"{address}:{self.port}" if address.version == 4 else f"[{address}]:{self.port}"


class Segment(NamedTuple):
    source: End
    target: End
    sequence: int  # of its first byte; a SYN's own number is left out
    acknowledged: int  # the next byte that its sender waits for, None where it does not say
    flags: int
    payload: bytes
    missing: int  # bytes of the payload that were not captured


def number(data, at, size):
    return int.from_bytes(data[at : at + size], "big")


def segment(packet):
    """The packet's segment, or None where it has no beginning of one. Raises Cut."""
    try:
        version, start = _network(packet)
        ip = packet.data[start:]
        if version != ip[0] >> 4:
            return None
        found = (_ipv4 if version == 4 else _ipv6)(ip, packet.length - start)
        return found and _tcp(ip, *found)
    except IndexError:  # a header that is not there whole
        if packet.length > len(packet.data):
            raise Cut from None
        return None


def _network(packet):
    """The version of the IP packet in it, None where there is none, and where that begins."""
    data, (start, kind_at) = packet.data, LINKS[packet.link]
    _needs(data, start + 1)
    if kind_at is None:
        return {4: 4, 6: 6}.get(data[start] >> 4), start
    kind = number(data, kind_at, 2)
    while kind in VLAN:
        _needs(data, start + 5)
        kind, start = number(data, start + 2, 2), start + 4
    return VERSION_OF_TYPE.get(kind), start


def _needs(data, size):
    if len(data) < size:
        raise IndexError


def _ipv4(ip, on_the_wire):
    """Addresses, where TCP begins and where the packet ends; None where that is another protocol, or a fragment's rest."""
    _needs(ip, 20)
    header, total = (ip[0] & 15) * 4, number(ip, 2, 2) or on_the_wire  # 0: left to the network card
    if ip[9] != TCP or number(ip, 6, 2) & 0x1FFF or header < 20:
        return None
    return ip[12:16], ip[16:20], header, total


def _ipv6(ip, on_the_wire):
    _needs(ip, 40)
    total = 40 + number(ip, 4, 2) if number(ip, 4, 2) else on_the_wire  # 0: left to the network card, or a jumbogram
    kind, at = ip[6], 40
    while kind != TCP:
        if kind in EIGHTS:
            kind, at = ip[at], at + 8 + 8 * ip[at + 1]
        elif kind == AUTHENTICATION:
            kind, at = ip[at], at + 8 + 4 * ip[at + 1]
        elif kind == FRAGMENT and number(ip, at + 2, 2) & 0xFFF8 == 0:
            _needs(ip, at + 8)
            kind, at = ip[at], at + 8
        else:
            return None
    return ip[8:24], ip[24:40], at, total


def _tcp(ip, source, target, at, total):
    _needs(ip, at + 20)
    payload_at, flags = at + (ip[at + 12] >> 4) * 4, ip[at + 13]
    if payload_at < at + 20 or payload_at > total:
        return None
    _needs(ip, payload_at)
    payload = ip[payload_at:total]
    sequence, acknowledged = number(ip, at + 4, 4), number(ip, at + 8, 4)
    return Segment(
        End(source, number(ip, at, 2)),
        End(target, number(ip, at + 2, 2)),
        (sequence + 1) % 2**32 if flags & SYN else sequence,
        acknowledged if flags & ACK else None,
        flags,
        payload,
        total - payload_at - len(payload),
    )
