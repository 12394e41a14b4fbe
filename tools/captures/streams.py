"""TCP connections put together from their segments, and the TLS handshake messages in each."""

import heapq
import math
from typing import NamedTuple

from captures.records import Records
from captures.segments import ACK, FIN, RST, SYN


class Trouble(NamedTuple):
    """Bytes of a connection that the capture does not have, or that cannot be told for certain."""

    until: float  # the number of the last packet whose messages are certain all the same
    clear: bool  # whether it touches the part that is in clear text
    words: str

    @property
    def lost(self):
        return self.until < math.inf


class Direction:
    """The bytes that one end sent, in order, with the records in them."""

    def __init__(self, end, start):
        self.end, self.start = end, start  # start: the sequence number of its first byte
        self.size = 0  # how many bytes stand in a row from there
        self.waiting = []  # (place, packet, payload) behind a byte that has not come yet
        self.beyond = []  # (place, until, words): what tells of bytes behind those
        self.records = Records()
        self.kept = bytearray()  # the bytes of the clear part, to compare a second copy with
        self.differs = None

    def place(self, sequence):
        """Where the byte of this sequence number stands. The numbers wrap: it is the place nearest to what came last."""
        return self.size + (sequence - self.start - self.size + 2**31) % 2**32 - 2**31

    def take(self, packet, segment):
        """The messages that are whole with this segment of its own."""
        place = self.place(segment.sequence)
        if segment.payload:
            heapq.heappush(self.waiting, (place, packet, segment.payload))
        while self.waiting and self.waiting[0][0] <= self.size:
            at, came, payload = heapq.heappop(self.waiting)
            self._compare(at, came, payload)
            fresh = payload[self.size - at :]
            if self.records.clear:
                self.kept += fresh
            self.size += len(fresh)
            yield from self.records.messages(fresh)
        length = len(segment.payload) + segment.missing
        reach = place + length if length else place - 1  # an empty one may stand behind a FIN, which takes a number too
        if reach > self.size:
            self.beyond.append((reach, packet, f"packet {packet} {'is cut' if segment.missing else 'comes behind a gap'}"))

    def acknowledged(self, packet, sequence):
        """The other end waits for the byte of this number, so it has those before, a FIN among them perhaps."""
        reach = self.place(sequence) - 1
        if reach > self.size:
            self.beyond.append((reach, packet - 1, f"packet {packet} acknowledges them"))

    def _compare(self, place, packet, payload):
        """A second copy of bytes should be the first one. (A keep-alive may repeat the last byte as it likes.)"""
        begin, end = max(place, 0), min(place + len(payload), len(self.kept))
        if self.differs is not None or begin >= end or (len(payload) == 1 and end == self.size):
            return
        old, new = self.kept[begin:end], payload[begin - place : end - place]
        if old != new:
            at = begin + next(i for i in range(len(old)) if old[i] != new[i])
            words = f"packet {packet} repeats {self.end}'s byte {at + 1} and others differently; the first copy is taken"
            self.differs = Trouble(math.inf, self.records.is_clear(at), words)

    def troubles(self):
        for reach, until, words in self.beyond:
            if reach > self.size:
                words = f"bytes of {self.end} are missing from its byte {self.size + 1} on ({words})"
                yield Trouble(until, self.records.clear, words)
                break
        else:
            if self.records.stopped is not None:
                words = f"what {self.end} sends is no TLS record from its byte {self.records.stopped + 1} on"
                yield Trouble(math.inf, True, words)
            elif self.records.pending:
                words = f"the last message of {self.end} does not end; {self.records.pending} bytes of it are there"
                yield Trouble(math.inf, True, words)
        if self.differs:
            yield self.differs


class Connection:
    """The segments between two ends, in the order of the capture; the end that opened it first."""

    def __init__(self, segment):
        answers = segment.flags & SYN and segment.flags & ACK
        self.client, self.server = (segment.target, segment.source) if answers else (segment.source, segment.target)
        self.opened = {}  # end: the sequence number of its first byte, as a SYN or the answer to it says
        self.segments = []  # (packet, segment)

    def belongs(self, segment):
        """A SYN of another number, or an answer to such a one, is of another connection between the same ends."""
        if not segment.flags & SYN:
            return True
        if segment.source in self.opened:
            return self.opened[segment.source] == segment.sequence
        if segment.acknowledged is None or segment.target not in self.opened:
            return False
        return (segment.acknowledged - self.opened[segment.target]) % 2**32 < 2**16  # a SYN may bring the first bytes along

    def add(self, packet, segment):
        if segment.flags & SYN:
            self.opened.setdefault(segment.source, segment.sequence)
            if segment.acknowledged is not None:
                self.opened.setdefault(segment.target, segment.acknowledged)
        self.segments.append((packet, segment))

    def _start(self, end):
        """Where no SYN was captured: the lowest number that anything tells."""
        if end in self.opened:
            return self.opened[end]
        told = (s.sequence if s.source == end else s.acknowledged for _, s in self.segments if not s.flags & RST)
        told = [n for n in told if n is not None]
        return min(told, key=lambda n: (n - told[0] + 2**31) % 2**32) if told else 0

    def put_together(self):
        ends = {end: Direction(end, self._start(end)) for end in (self.client, self.server)}
        self.found = []  # (packet, message), in the order in which they were whole
        for packet, segment in self.segments:
            if segment.flags & RST:  # its numbers need not be those of the stream
                continue
            if segment.acknowledged is not None:
                ends[segment.target].acknowledged(packet, segment.acknowledged)
            self.found += ((packet, message) for message in ends[segment.source].take(packet, segment))
        if ends[self.server].records.begins_with_hello and not ends[self.client].records.begins_with_hello:
            self.client, self.server = self.server, self.client
        self.has_hello = ends[self.client].records.begins_with_hello
        self.sent, self.answered = ends[self.client].size, ends[self.server].size
        self.protected = not any(direction.records.clear for direction in ends.values())
        self.closed = any(segment.flags & (FIN | RST) for _, segment in self.segments)
        self.troubles = [trouble for direction in ends.values() for trouble in direction.troubles()]
        return self

    def messages(self):
        """The messages as far as they are certain: those before the first sign of missing bytes in clear text."""
        until = min((trouble.until for trouble in self.troubles if trouble.clear), default=math.inf)
        return [message for packet, message in self.found if packet <= until]


def connections(segments):
    """Every connection of these (packet, segment), in the order in which they begin."""
    latest, found = {}, []
    for packet, segment in segments:
        ends = frozenset((segment.source, segment.target))
        if ends not in latest or not latest[ends].belongs(segment):
            latest[ends] = Connection(segment)
            found.append(latest[ends])
        latest[ends].add(packet, segment)
    return [connection.put_together() for connection in found]
