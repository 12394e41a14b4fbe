"""The C face (include/axle_gateway.h) for Python: ctypes over target/c/libaxle_gateway.so."""

import ctypes as c
import pathlib

from oracle import decision as oracle
from oracle.log import Told as OracleTold

LIB = c.CDLL(str(pathlib.Path(__file__).resolve().parent.parent / "target/c/libaxle_gateway.so"))

u8, u16, u32, u64, size = c.c_uint8, c.c_uint16, c.c_uint32, c.c_uint64, c.c_size_t
BYTES = (c.c_char_p, size)  # a lent slice to read: pointer and length
NUMBERS = (c.POINTER(u16), size)  # a lent slice of 16-bit numbers to read: any sequence of them, or an array made by numbers()
LENT = (c.c_void_p, size)  # a lent slice to write to, made by lend()


def lend(data):
    """A buffer of our own with these bytes in it."""
    return (u8 * len(data)).from_buffer_copy(data) if data else (u8 * 0)()


def numbers(values):
    """An array of our own with these 16-bit numbers in it."""
    return values if isinstance(values, c.Array) else (u16 * len(values))(*values)


def plain(value):
    """A struct as nested tuples and bytes, without the padding between its fields."""
    if isinstance(value, c.Structure):
        return tuple(plain(getattr(value, name)) for name, _ in value._fields_)
    if isinstance(value, c.Array):
        return bytes(value) if value._type_ is u8 else tuple(plain(v) for v in value)
    return value


def zeros(kind):
    """The struct of that kind with all fields zero, as plain() has it."""
    return plain(kind())


class Refusal(c.Structure):
    _fields_ = [("number", u8), ("level", u8), ("code", u8), ("place", size)]

    def plain(self):
        return self.number, self.level, self.code, self.place


CALLS = {}  # every call that is declared here: its function and the kinds of its arguments


def declare(name, answer, *arguments):
    """A function of the library; a lent slice takes two places, and a call passes the bytes, the numbers or the buffer alone."""
    f = getattr(LIB, name)
    f.restype = answer
    f.argtypes = [t for a in arguments for t in (a if isinstance(a, tuple) else (a,))]

    CALLS[name] = f, arguments

    def call(*given):
        passed = []
        for a, g in zip(arguments, given, strict=True):
            g = numbers(g) if a is NUMBERS else g
            passed += [g, len(g)] if isinstance(a, tuple) else [g]
        return f(*passed)

    return call


refusal = declare("axle_refusal", Refusal, u8)


# SHA-256 and SHA-384


class Hash(c.Structure):
    _fields_ = [("state", u32 * 8), ("tail", u8 * 64), ("length", u64)]


class Absorbed(c.Structure):
    _fields_ = [("refusal", Refusal), ("hash", Hash)]


class Digest(c.Structure):
    _fields_ = [("bytes", u8 * 32)]


class Digested(c.Structure):
    _fields_ = [("refusal", Refusal), ("digest", u8 * 32)]


class Hash384(c.Structure):
    _fields_ = [("state", u64 * 8), ("tail", u8 * 128), ("length", u64)]


class Absorbed384(c.Structure):
    _fields_ = [("refusal", Refusal), ("hash", Hash384)]


class Digest384(c.Structure):
    _fields_ = [("bytes", u8 * 48)]


class Digested384(c.Structure):
    _fields_ = [("refusal", Refusal), ("digest", u8 * 48)]


sizeof_hash = c.sizeof(Hash)
hash_fresh = declare("axle_hash_fresh", Hash)
hash_absorb = declare("axle_hash_absorb", Absorbed, Hash, BYTES)
hash_digest = declare("axle_hash_digest", Digest, Hash)
sha256 = declare("axle_sha256", Digested, BYTES)
hash384_fresh = declare("axle_hash384_fresh", Hash384)
hash384_absorb = declare("axle_hash384_absorb", Absorbed384, Hash384, BYTES)
hash384_digest = declare("axle_hash384_digest", Digest384, Hash384)
sha384 = declare("axle_sha384", Digested384, BYTES)


# Reading a hello


class Part(c.Structure):
    _fields_ = [("at", size), ("length", size)]

    def of(self, message):
        return message[self.at : self.at + self.length]


class Extensions(c.Structure):
    _fields_ = [("block", u8), ("list", Part), ("indicated", u8), ("indication", Part), ("ems", u8), ("others", u8)]


class ClientHello(c.Structure):
    _fields_ = [
        ("version", u16),
        ("random", Part),
        ("identifier", Part),
        ("suites", Part),
        ("methods", Part),
        ("signal", u8),
        ("extensions", Extensions),
    ]


class ServerHello(c.Structure):
    _fields_ = [
        ("version", u16),
        ("random", Part),
        ("identifier", Part),
        ("suite", u16),
        ("compression", u8),
        ("extensions", Extensions),
    ]


class ClientReading(c.Structure):
    _fields_ = [("refusal", Refusal), ("hello", ClientHello)]


class ServerReading(c.Structure):
    _fields_ = [("refusal", Refusal), ("hello", ServerHello)]


class Extension(c.Structure):
    _fields_ = [("found", u8), ("type", u16), ("data", Part), ("next", size)]


read_client_hello = declare("axle_read_client_hello", ClientReading, BYTES)
read_server_hello = declare("axle_read_server_hello", ServerReading, BYTES)
next_extension = declare("axle_next_extension", Extension, BYTES, size)


# Writing a hello


class Written(c.Structure):
    _fields_ = [("refusal", Refusal), ("length", size)]


LIST = (u8, NUMBERS, NUMBERS, BYTES)  # an extension block: is there one, types, lengths, data
write_client_hello = declare("axle_write_client_hello", Written, u16, BYTES, BYTES, BYTES, BYTES, *LIST, LENT)
write_server_hello = declare("axle_write_server_hello", Written, u16, BYTES, BYTES, u16, u8, *LIST, LENT)


# The session table


class Row(c.Structure):
    _fields_ = [("ems", u8), ("size", u8), ("suite", u8 * 2), ("identifier", u8 * 32), ("secret", u8 * 48)]


class Queue(c.Structure):
    _fields_ = [("rows", Row * 8), ("held", u8)]


class Table(c.Structure):
    _fields_ = [("queues", Queue * 6)]


class Stored(c.Structure):
    _fields_ = [("refusal", Refusal), ("table", Table)]


class Looked(c.Structure):
    _fields_ = [("refusal", Refusal), ("found", u8), ("ems", u8), ("suite", u16)]


class Withdrawn(c.Structure):
    _fields_ = [("refusal", Refusal), ("withdrawn", u8), ("table", Table)]


class Held(c.Structure):
    _fields_ = [("refusal", Refusal), ("count", u8)]


class Cleared(c.Structure):
    _fields_ = [("refusal", Refusal), ("table", Table)]


sizeof_table = c.sizeof(Table)
table_fresh = declare("axle_table_fresh", Table)
table_store = declare("axle_table_store", Stored, Table, u8, BYTES, u8, u16, BYTES)
table_look_up = declare("axle_table_look_up", Looked, Table, u8, BYTES, LENT)
table_withdraw = declare("axle_table_withdraw", Withdrawn, Table, u8, BYTES)
table_held = declare("axle_table_held", Held, Table, u8)
table_clear = declare("axle_table_clear", Cleared, Table)


# HMAC and the master secrets


class Tagged(c.Structure):
    _fields_ = [("refusal", Refusal), ("tag", u8 * 32)]


class Tagged384(c.Structure):
    _fields_ = [("refusal", Refusal), ("tag", u8 * 48)]


hmac = declare("axle_hmac", Tagged, BYTES, BYTES)
hmac_sha384 = declare("axle_hmac_sha384", Tagged384, BYTES, BYTES)
extended_master_secret = declare("axle_extended_master_secret", Refusal, u8, BYTES, BYTES, LENT)
master_secret = declare("axle_master_secret", Refusal, u8, BYTES, BYTES, LENT)


# The message log


class Transcript(c.Structure):
    _fields_ = [("sha256", Hash), ("sha384", Hash384), ("choice", u8)]


class Log(c.Structure):
    _fields_ = [
        ("hash", Transcript),
        ("place", u8),
        ("session", u8 * 48),
        ("client", u8 * 12),
        ("server", u8 * 12),
        ("kind", u8),
        ("next", u8),
        ("sha384", u8),
        ("left", u16),
    ]


class Told(c.Structure):
    _fields_ = [("resumes", u8), ("sha384", u8)]


class Accepted(c.Structure):
    _fields_ = [("refusal", Refusal), ("log", Log)]


class Blocks(c.Structure):
    _fields_ = [("sha256", size), ("sha384", size)]


class Fed(c.Structure):
    _fields_ = [("refusal", Refusal), ("log", Log), ("taken", size), ("blocks", Blocks)]


class SessionHash(c.Structure):
    _fields_ = [("refusal", Refusal), ("length", u8), ("hash", u8 * 48)]


class Expected(c.Structure):
    _fields_ = [("refusal", Refusal), ("value", u8 * 12)]


sizeof_log = c.sizeof(Log)
log_fresh = declare("axle_log_fresh", Log)
log_accept = declare("axle_log_accept", Accepted, Log, BYTES, Told)
log_feed = declare("axle_log_feed", Fed, Log, BYTES, size, Told)
log_session_hash = declare("axle_log_session_hash", SessionHash, Log)
log_finish = declare("axle_log_finish", Accepted, Log, BYTES, BYTES)
log_expected_finished = declare("axle_log_expected_finished", Expected, Log, BYTES)


def told(t=OracleTold()):
    """What the second program is told, as a struct."""
    return Told(*t)


# Decisions and completion


class Connection(c.Structure):
    _fields_ = [("completed", u8), ("indication", u8), ("barred", u8), ("client", u8 * 12), ("server", u8 * 12)]


class Switches(c.Structure):
    _fields_ = [("indication_required", u8), ("legacy_full", u8), ("legacy_resumption", u8)]


class Decision(c.Structure):
    _fields_ = [
        ("refusal", Refusal),
        ("resumes", u8),
        ("ems", u8),
        ("indication", u8),
        ("bar", u8),
        ("bars_export", u8),
        ("bars_verify_data", u8),
        ("reply_length", size),
    ]


connection_fresh = declare("axle_connection_fresh", Connection)
decide_server = declare("axle_decide_server", Decision, BYTES, u8, Table, Connection, Switches, LENT)
decide_client = declare("axle_decide_client", Decision, BYTES, BYTES, u8, BYTES, u8, u16, Connection, Switches)
complete = declare("axle_complete", Refusal, c.POINTER(Connection), Log, Decision)


def connection(record):
    """The second program's record as a struct."""
    return Connection(record.completed, record.indication, record.barred, (u8 * 12)(*record.client), (u8 * 12)(*record.server))


def switches(s):
    return Switches(s.indication_required, s.legacy_full, s.legacy_resumption)


def plain_decision(d):
    """(refusal, the second program's decision, length of the reply)"""
    flags = (d.resumes, d.ems, d.indication, d.bar, d.bars_export, d.bars_verify_data)
    assert all(f in (0, 1) for f in flags)
    return d.refusal.plain(), oracle.Decision(d.refusal.number, d.refusal.place, *map(bool, flags)), d.reply_length


def decision(d):
    """The second program's decision as a struct."""
    refused, flags = refusal(d.number), (d.resumes, d.ems, d.indication, d.bar, d.bars_export, d.bars_verify_data)
    refused.place = d.place
    return Decision(refused, *flags, 0)
