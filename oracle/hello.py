"""Document 01, 'Reading a hello'; document 02, order 1, 'Write whole hellos', and order 9, 'Tell us where the message broke'."""

from dataclasses import dataclass, field

MESSAGE_LIMIT = 16_388
EMS = 0x0017
RI = 0xFF01
SIGNAL = 0x00FF


class Malformed(Exception):
    """The message broke at this place, counted from 0."""

    def __init__(self, place):
        self.place = place


class Reader:
    """Takes fields off the front of what stands in a message from place `at` to place `end`. It knows its place."""

    def __init__(self, message, at=0, end=None):
        self.message, self.at, self.end = message, at, len(message) if end is None else end

    @property
    def left(self):
        return self.end - self.at

    def take(self, n):
        """Where it is not all there: "a field cut off by the end of what holds it gives that end"."""
        if self.left < n:
            raise Malformed(self.end)
        self.at += n
        return self.message[self.at - n : self.at]

    def number(self, width):
        return int.from_bytes(self.take(width), "big")

    def length(self, width, bounds):
        """Where it is wrong: "a field out of its bounds, a length that claims more than is left, or one that must fit exactly and
        doesn't, gives the field's own place"."""
        place, n = self.at, self.number(width)
        if n not in bounds or n > self.left:
            raise Malformed(place)
        return n

    def exactly(self, width):
        """A length that covers exactly the rest."""
        return self.length(width, [self.left - width])

    def part(self, width, bounds):
        """A length, and a reader of the bytes behind it."""
        n = self.length(width, bounds)
        self.at += n
        return Reader(self.message, self.at - n, self.at)

    def vector(self, width, bounds):
        part = self.part(width, bounds)
        return part.take(part.left)


@dataclass
class Hello:
    version: int
    random: bytes
    identifier: bytes
    suites: bytes  # a ServerHello's one suite
    methods: bytes  # a ServerHello's one method
    block: bool  # is there an extension block?
    extensions: list = field(default_factory=list)  # (type, data) in order

    @property
    def listed(self):
        """The suites as 16-bit numbers, two whole bytes each, the first one the high one."""
        return [int.from_bytes(self.suites[i : i + 2], "big") for i in range(0, len(self.suites), 2)]

    @property
    def signal(self):
        return SIGNAL in self.listed

    def extension(self, kind):
        return next((data for t, data in self.extensions if t == kind), None)

    @property
    def ems(self):
        return self.extension(EMS) is not None

    @property
    def renegotiation_info(self):
        """Its bytes, or None where there is none."""
        data = self.extension(RI)
        return None if data is None else data[1:]


def header(reader, wanted=None):
    """Type (1 byte), body length (3 bytes, big-endian) and exactly that body: the type. A hello's is wanted, and judged first."""
    kind = reader.number(1)
    if wanted not in (None, kind):
        raise Malformed(0)
    reader.exactly(3)
    return kind


def judge_shape(kind, data):
    """EMS has no data ("data in an EMS gives its first byte"), RI one length byte and exactly that many bytes. data: a reader."""
    if kind == EMS and data.left:
        raise Malformed(data.at)
    if kind == RI:
        data.exactly(1)


def misshapen(kind, data):
    """The same of data that stands in no message yet."""
    try:
        judge_shape(kind, Reader(data))
    except Malformed:
        return True
    return False


def _extensions(reader):
    """(is there a block?, (place, type, data) of each extension in it)"""
    if not reader.left:
        return False, []
    reader.exactly(2)
    found = []
    while reader.left:
        place, kind, data = reader.at, reader.number(2), reader.part(2, range(65_536))
        judge_shape(kind, data)
        found.append((place, kind, reader.message[place + 4 : reader.at]))
    return True, found


def repeat_place(extensions):
    """That of "the earliest type that repeats one before it", or None."""
    types = [kind for _, kind, _ in extensions]
    return next((place for i, (place, kind, _) in enumerate(extensions) if kind in types[:i]), None)


def _read(message, kind, suites_and_methods, version_fault):
    if len(message) > MESSAGE_LIMIT:
        return 10, 0, None
    r = Reader(message)
    try:
        header(r, kind)
        version, random = r.number(2), r.take(32)
        identifier = r.vector(1, range(33))
        suites, methods = suites_and_methods(r)
        block, extensions = _extensions(r)
    except Malformed as broken:
        return 1, broken.place, None
    place = repeat_place(extensions)
    if place is not None:
        return 2, place, None
    if version_fault(version):
        return 3, 0, None
    return 0, 0, Hello(version, random, identifier, suites, methods, block, [(kind, data) for _, kind, data in extensions])


def read_client_hello(message):
    """(number, place, Hello or None)"""

    def suites_and_methods(r):
        return r.vector(2, range(2, 65_535, 2)), r.vector(1, range(1, 256))

    return _read(message, 1, suites_and_methods, lambda v: v < 0x0303)


def read_server_hello(message):
    return _read(message, 2, lambda r: (r.take(2), r.take(1)), lambda v: v != 0x0303)


def next_extension(message, at):
    """(type, place of its data, length of its data, place behind it), or None where no whole extension stands there."""
    reader = Reader(message, at)
    try:
        kind, data = reader.number(2), reader.part(2, range(65_536))
    except Malformed:
        return None
    return kind, data.at, data.left, data.end


def _vector(width, data):
    return len(data).to_bytes(width, "big") + data


def _write(kind, version, wrong_version, random, identifier, bounded, rest, block, types, lengths, data, room):
    """rest: the bytes between identifier and extensions, made once all of them are `bounded`."""
    bounded = bounded and len(random) == 32 and len(identifier) <= 32
    if not bounded or len(types) != len(lengths) or sum(lengths) != len(data) or (types and not block):
        return 10, b""
    reader = Reader(data)
    extensions = [(t, reader.take(n)) for t, n in zip(types, lengths)]
    body = version.to_bytes(2, "big") + random + _vector(1, identifier) + rest()
    if 4 + len(body) + bool(block) * (2 + 4 * len(types) + len(data)) > MESSAGE_LIMIT:
        return 10, b""
    if block:
        body += _vector(2, b"".join(t.to_bytes(2, "big") + _vector(2, d) for t, d in extensions))
    if any(misshapen(t, d) for t, d in extensions):
        return 1, b""
    if len(set(types)) != len(types):
        return 2, b""
    if wrong_version:
        return 3, b""
    message = bytes([kind]) + _vector(3, body)
    return (10, b"") if room < len(message) else (0, message)


def write_client_hello(version, random, identifier, suites, methods, block, types, lengths, data, room):
    """(number, message): nothing where refused, and no place, since no message was read. room: bytes that the output has."""
    bounded = 2 <= len(suites) <= 65_534 and len(suites) % 2 == 0 and 1 <= len(methods) <= 255

    def rest():
        return _vector(2, suites) + _vector(1, methods)

    return _write(1, version, version < 0x0303, random, identifier, bounded, rest, block, types, lengths, data, room)


def write_server_hello(version, random, identifier, suite, compression, block, types, lengths, data, room):
    def rest():
        return suite.to_bytes(2, "big") + bytes([compression])

    return _write(2, version, version != 0x0303, random, identifier, True, rest, block, types, lengths, data, room)
