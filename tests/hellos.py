"""Hellos, made by hand: whole, damaged and hostile; and fields of hellos, as the writers take them."""

import random
from typing import NamedTuple

from oracle.hello import EMS, RI


def vector(width, data):
    return len(data).to_bytes(width, "big") + data


def extension(kind, data=b""):
    return kind.to_bytes(2, "big") + vector(2, data)


def ri(content=b""):
    return extension(RI, vector(1, content))


def ems():
    return extension(EMS)


def message(kind, body):
    return bytes([kind]) + len(body).to_bytes(3, "big") + body


def client_hello(
    identifier=b"", suites=b"\x00\x2f", methods=b"\x00", extensions=None, version=0x0303, hello_random=bytes(range(32))
):
    """extensions: None for no block, or the bytes inside the block."""
    body = version.to_bytes(2, "big") + hello_random + vector(1, identifier) + vector(2, suites) + vector(1, methods)
    return message(1, body + (b"" if extensions is None else vector(2, extensions)))


def server_hello(
    identifier=b"", suite=b"\x00\x2f", method=b"\x00", extensions=None, version=0x0303, hello_random=bytes(range(32))
):
    body = version.to_bytes(2, "big") + hello_random + vector(1, identifier) + suite + method
    return message(2, body + (b"" if extensions is None else vector(2, extensions)))


def some(r: random.Random, make=None):
    """A well-formed hello with random fields; its extension types may repeat now and then."""
    make = make or r.choice((client_hello, server_hello))
    blocks = []
    for _ in range(r.choice((0, 0, 1, 2, 3, 6))):
        blocks.append(
            r.choice(
                (
                    ems(),
                    ri(r.randbytes(r.choice((0, 0, 12, 24)))),
                    extension(r.choice((0, 10, 11, 13, 16, 35, 0xFF02)), r.randbytes(r.randrange(9))),
                    extension(r.randrange(65536), r.randbytes(r.randrange(40))),
                )
            )
        )
    fields = dict(
        identifier=r.randbytes(r.choice((0, 1, 8, 32))),
        extensions=r.choice((None, b"".join(blocks), b"".join(blocks))),
        version=r.choice((0x0303, 0x0303, 0x0303, 0x0302, 0x0304, 0x02FF)),
        hello_random=r.randbytes(32),
    )
    if make is client_hello:
        suites = [r.choice((b"\x00\x2f", b"\x00\xff", b"\xff\x00", r.randbytes(2))) for _ in range(r.randrange(1, 9))]
        return make(suites=b"".join(suites), methods=r.choice((b"\x00", b"\x01\x00", r.randbytes(255))), **fields)
    return make(suite=r.choice((b"\x00\x2f", b"\x2f\x00", b"\x00\xff", r.randbytes(2))), method=r.randbytes(1), **fields)


def damaged(r: random.Random, whole):
    """One to three small changes, most of them with the header's length put right again."""
    body = bytearray(whole)
    for _ in range(r.randrange(1, 4)):
        way = r.randrange(4)
        at = r.randrange(len(body)) if body else 0
        if way == 0 and body:
            body[at] = r.randrange(256)
        elif way == 1 and body:
            body[at] = (body[at] + r.choice((-1, 1))) % 256
        elif way == 2 and body:
            del body[at : at + r.randrange(1, 4)]
        else:
            body[at:at] = r.randbytes(r.randrange(1, 4))
    if r.random() < 0.8 and len(body) >= 4:
        body[1:4] = (len(body) - 4).to_bytes(3, "big")
    return bytes(body)


# ---- Fields, as the writers take them


class Client(NamedTuple):
    version: int = 0x0303
    random: bytes = bytes(range(32))
    identifier: bytes = b""
    suites: bytes = b"\x00\x2f"
    methods: bytes = b"\x00"
    block: int = 0
    types: tuple = ()
    lengths: tuple = ()
    data: bytes = b""


class Server(NamedTuple):
    version: int = 0x0303
    random: bytes = bytes(range(32))
    identifier: bytes = b""
    suite: int = 0x002F
    compression: int = 0
    block: int = 0
    types: tuple = ()
    lengths: tuple = ()
    data: bytes = b""


def listed(extensions):
    """Extensions, (type, data) each, as the three lists of a writer."""
    kinds, data = [t for t, _ in extensions], [d for _, d in extensions]
    return dict(types=tuple(kinds), lengths=tuple(map(len, data)), data=b"".join(data))


def some_extension(r):
    data = r.randbytes(r.choice((0, 0, 1, 12, 24, 255)))
    other = r.choice((0, 10, 11, 13, 16, 35, 0x1700, 0x01FF, 0xFF00, 0xFF02, r.randrange(65536)))
    kind = r.choice((EMS, RI, other, other))
    return kind, b"" if kind == EMS else vector(1, data) if kind == RI else r.randbytes(r.choice((0, 0, 1, 2, 40, 300)))


def some_fields(r: random.Random, kind=None):
    """Fields within their bounds, a list that fits, and no type twice."""
    kind = kind or r.choice((Client, Server))
    extensions = dict(some_extension(r) for _ in range(r.choice((0, 0, 1, 2, 3, 6, 12))))
    fields = dict(
        version=r.choice((0x0303, 0x0303, 0x0304, 0xFEFD, 0xFFFF, r.randrange(0x0303, 65536))) if kind is Client else 0x0303,
        random=r.randbytes(32),
        identifier=r.randbytes(r.choice((0, 0, 1, 31, 32, r.randrange(33)))),
        block=1 if extensions else r.randrange(2),
        **listed(extensions.items()),
    )
    if kind is Client:
        suites, methods = r.choice((1, 2, 31, 128)), r.choice((1, 1, 2, 255, r.randrange(1, 256)))
        return Client(suites=r.randbytes(2 * suites), methods=r.randbytes(methods), **fields)
    return Server(suite=r.randrange(65536), compression=r.randrange(256), **fields)
