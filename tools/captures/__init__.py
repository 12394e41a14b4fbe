"""Captured TLS connections: from the bytes of a capture file to the handshake messages that crossed the wire in clear text."""

from captures.files import Unreadable, is_capture, packets
from captures.segments import KNOWN, LINKS, Cut, segment
from captures.streams import connections

__all__ = ["Capture", "Unreadable", "is_capture"]


class Capture:
    """The connections of a capture file, and what is wrong with the file itself."""

    def __init__(self, data):
        self.troubles, self.notes, self.unknown, self.cut = [], [], {}, []
        self.connections = connections(self._segments(data))
        for link, count in sorted(self.unknown.items()):
            self.notes.append(f"{count} packets of link type {link} are passed over; known are {KNOWN}")
        if self.cut:
            self.troubles.append(
                f"{len(self.cut)} packets, the first of them packet {self.cut[0]}, are cut before their TCP header ends"
            )
        if self.unknown and not self.known:
            raise Unreadable(f"link type {min(self.unknown)} is not known here; known are {KNOWN}")

    def _segments(self, data):
        self.known = 0
        for number, packet in enumerate(packets(data, self.troubles.append), 1):
            if packet.link not in LINKS:
                self.unknown[packet.link] = self.unknown.get(packet.link, 0) + 1
                continue
            self.known += 1
            try:
                found = segment(packet)
            except Cut:
                self.cut.append(number)
                continue
            if found:
                yield number, found
