"""Struct values that no run of calls made: random bytes and, in half the draws, the fields that steer a call drawn near their
bounds, so that it gets past its first test."""

import ctypes as c

from tests import face

LIMIT = 1_048_576  # bytes that a hash takes


def flag(r):
    return r.choice((0, 1, 1, 2, 255))


def length(r):
    return r.choice((r.randrange(130), r.randrange(LIMIT), r.randrange(LIMIT - 130, LIMIT + 2)))


# by struct and field
STEERING = {
    (face.Refusal, "number"): lambda r: r.choice((0, 0, 0, r.randrange(14))),
    **{(kind, "length"): length for kind in (face.Hash, face.Hash384)},
    (face.Transcript, "choice"): lambda r: r.choice((0, 1, 2, 2, r.randrange(256))),
    (face.Row, "size"): lambda r: r.randrange(34),
    (face.Queue, "held"): lambda r: r.randrange(10),
    (face.Log, "place"): lambda r: r.randrange(18),
    (face.Log, "left"): lambda r: r.choice((0, 0, 0, r.randrange(1, 200), r.randrange(16_389), r.randrange(2**16))),
    **{(face.Told, name): flag for name in ("resumes", "sha384")},
    **{(face.Connection, name): flag for name in ("completed", "indication", "barred")},
    **{(face.Switches, name): flag for name in ("indication_required", "legacy_full", "legacy_resumption")},
    **{(face.Decision, name): flag for name in ("resumes", "ems", "indication", "bar")},
}


def steer(r, value):
    for name, kind in value._fields_:
        field = getattr(value, name)
        if (type(value), name) in STEERING:
            setattr(value, name, STEERING[type(value), name](r))
        elif isinstance(field, c.Structure):
            steer(r, field)
        elif isinstance(field, c.Array) and issubclass(field._type_, c.Structure):
            for part in field:
                steer(r, part)


def some(r, kind):
    value = kind.from_buffer_copy(r.randbytes(c.sizeof(kind)))
    if r.random() < 0.5:
        steer(r, value)
    return value
