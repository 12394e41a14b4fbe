"""The TLS records of one direction, and the handshake messages in those that are in clear text (RFC 5246, sections 6.2 and 7.4)."""

CHANGE_CIPHER_SPEC, HANDSHAKE = 20, 22
KINDS = range(20, 25)
LONGEST = 2**14 + 2048  # of a record's body
CLIENT_HELLO = 1


class Records:
    def __init__(self):
        self.size = 0  # bytes of whole records
        self.bytes, self.handshake = bytearray(), bytearray()  # a record, a message that has begun
        self.clear = True  # no ChangeCipherSpec yet: what follows it is protected, and is not looked at
        self.protected_from = None
        self.stopped = None  # where bytes stand that are no record
        self.begins_with_hello = False

    def messages(self, fresh):
        """The messages that end within these next bytes."""
        if not self.clear or self.stopped is not None:
            return
        self.bytes += fresh
        at = 0
        while self.clear and len(self.bytes) - at >= 5:
            kind, major, size = self.bytes[at], self.bytes[at + 1], int.from_bytes(self.bytes[at + 3 : at + 5], "big")
            if kind not in KINDS or major != 3 or size > LONGEST:
                self.stopped = self.size
                break
            if kind == HANDSHAKE and self.size == 0 and self.bytes[at + 5 : at + 6] == bytes([CLIENT_HELLO]):
                self.begins_with_hello = True  # also where the rest of it is missing
            if len(self.bytes) - at < 5 + size:
                break
            if kind == HANDSHAKE:
                self.handshake += self.bytes[at + 5 : at + 5 + size]
                yield from self._whole()
            at, self.size = at + 5 + size, self.size + 5 + size
            if kind == CHANGE_CIPHER_SPEC:
                self.clear, self.protected_from = False, self.size
        del self.bytes[:at]

    def _whole(self):
        while len(self.handshake) >= 4:
            end = 4 + int.from_bytes(self.handshake[1:4], "big")
            if len(self.handshake) < end:
                return
            yield bytes(self.handshake[:end])
            del self.handshake[:end]

    @property
    def pending(self):
        """Bytes in clear text of a message, or of a record, whose end has not come."""
        return len(self.handshake) + (len(self.bytes) if self.clear else 0)

    def is_clear(self, place):
        return self.protected_from is None or place < self.protected_from
