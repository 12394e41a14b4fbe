"""Random bytes and random struct values into every call of the C face, between guard pages.

Each lent slice stands flush against a page that may not be touched, behind it or before it, so that a read or a write
outside ends the run; what stands around it in its own pages must be as it was, and so must every slice that is only read.
What a writer of hellos wrote is read again.

  tests/soak.py [SECONDS [SEED]]      ten minutes and seed 1 where nothing is said
"""

import ctypes as c
import itertools
import mmap
import pathlib
import random
import sys
import time

sys.path.insert(0, str(pathlib.Path(__file__).resolve().parent.parent))

from tests import face, hellos, values  # noqa: E402

PAGE = mmap.PAGESIZE
LONGEST = 16_390
LENT_AT_ONCE = max(sum(isinstance(kind, tuple) for kind in kinds) for _, kinds in face.CALLS.values())
ROOM = -(-LONGEST // PAGE) * PAGE
LIBC = c.CDLL(None, use_errno=True)
LIBC.mprotect.argtypes = [c.c_void_p, c.c_size_t, c.c_int]
TABLE_NUMBERS = range(13)
# which of its lent slices is the message that the place of a 1 or 2 counts in; other calls answer place 0 alone
MESSAGES = {
    "axle_read_client_hello": 0,
    "axle_read_server_hello": 0,
    "axle_decide_server": 0,
    "axle_decide_client": 0,
    "axle_log_accept": 0,
    "axle_log_feed": 0,
    "axle_log_finish": 1,
}
# what a writer takes, and the reader of what it wrote
WRITERS = {
    "axle_write_client_hello": (hellos.Client, face.read_client_hello),
    "axle_write_server_hello": (hellos.Server, face.read_server_hello),
}


class Guarded:
    """Pages of our own with an untouchable one on either side; slices are laid against one of the two."""

    def __init__(self):
        self.map = mmap.mmap(-1, ROOM + 2 * PAGE)
        self.base = c.addressof(c.c_char.from_buffer(self.map))
        for at in (self.base, self.base + PAGE + ROOM):
            if LIBC.mprotect(at, PAGE, 0):
                raise OSError(c.get_errno(), "mprotect")

    def lay(self, data, at_end):
        self.fill = 0xA5 if at_end else 0x5A
        self.map[PAGE : PAGE + ROOM] = bytes([self.fill]) * ROOM
        self.at = PAGE + (ROOM - len(data) if at_end else 0)
        self.length = len(data)
        self.map[self.at : self.at + len(data)] = data
        return self.base + self.at

    def now(self):
        return self.map[self.at : self.at + self.length]

    def around_untouched(self):
        before, after = self.map[PAGE : self.at], self.map[self.at + self.length : PAGE + ROOM]
        return not (before + after).strip(bytes([self.fill]))


def some_bytes(r, short):
    """Bytes that a call may get past its first test with: known lengths, short ones that were lent before, messages."""
    way = r.randrange(12)
    if way < 4:
        return r.randbytes(r.choice((0, 0, 1, 3, 4, 12, 31, 32, 32, 33, 47, 48, 48, 48, 49, 63, 64, 65)))
    if way == 4 and short:
        return r.choice(short)
    if way == 5:
        return r.randbytes(r.randrange(300))
    if way == 6:
        return r.randbytes(r.choice((16_387, 16_388, 16_389, 512, 513)))
    if way == 7:
        return hellos.message(r.choice((0, 1, 2, 11, 14, 16, 20, 20, 20, r.randrange(256))), r.randbytes(r.choice((0, 12, 12, 40))))
    whole = hellos.some(r)
    return whole if way < 11 else hellos.damaged(r, whole)[:LONGEST]


def some_number(r, kind):
    """Of that width."""
    return r.choice((0, 1, 2, 3, 6, 7, *((0x0303, 0x0303) if kind is face.u16 else ()), r.randrange(2 ** (8 * c.sizeof(kind)))))


def drawn(r, name):
    """Arguments that go together: for a writer the fields of a hello, one of them spoilt at times; for a decision the hello and the
    session that it names, at times of another suite; for a Finished the value that the log expects, or nearly so; for a later part as
    many bytes as are left, or nearly so. None is left to chance, and so is what is not there."""
    suite = r.choice((0x002F, 0x002F, 0x2F00))
    if name == "axle_decide_server" and r.random() < 0.3:
        named, axle, ems = r.randbytes(r.randrange(1, 33)), r.randrange(1, 7), r.randrange(2)
        table = face.table_store(values.some(r, face.Table), axle, named, ems, suite, r.randbytes(48)).table
        return [hellos.client_hello(named, extensions=r.choice((None, hellos.ri() + hellos.ems()))), axle, table]
    if name == "axle_decide_client" and r.random() < 0.3:
        named = r.randbytes(r.randrange(33))
        return [hellos.server_hello(named, extensions=hellos.ri() + hellos.ems()), named, 1, named, 1, suite]
    if name == "axle_log_finish" and r.random() < 0.3:
        log, secret = values.some(r, face.Log), r.randbytes(48)
        value = bytes(face.log_expected_finished(log, secret).value)
        return [log, secret, hellos.message(20, r.choice((value, value[1:] + value[:1])))]
    if name == "axle_log_feed" and r.random() < 0.5:
        log = values.some(r, face.Log)
        log.left = r.randrange(1, r.choice((200, LONGEST)))
        return [log, r.randbytes(log.left + r.choice((0, 0, 0, -1, 1))), r.choice((1, 2, 256, 257))]
    if name not in WRITERS or r.random() < 0.2:
        return []
    given = [bytes(face.numbers(value)) if isinstance(value, tuple) else value for value in hellos.some_fields(r, WRITERS[name][0])]
    if r.random() < 0.5:
        at = r.randrange(len(given))
        old = given[at]
        # of a list of types the last two ways make repeats
        ways = (None, r.randbytes(len(old)), old[:2] * (len(old) // 2), old[-2:] + old[2:]) if isinstance(old, bytes) else (None,)
        given[at] = r.choice(ways)
    return given


def soak(seconds, seed, calls=float("inf")):
    """How many calls were made, and the numbers that each was answered."""
    r = random.Random(seed)
    pages = [Guarded() for _ in range(LENT_AT_ONCE)]
    kept = {}  # structs that calls answered, to be handed in again
    short = []  # the last short slices that were lent
    made, numbers = 0, {}
    end = time.monotonic() + seconds
    names = sorted(face.CALLS)
    while made < calls and time.monotonic() < end:
        name = r.choice(names)
        f, kinds = face.CALLS[name]
        passed, lent, records = [], [], []
        given = drawn(r, name)
        for kind, value in itertools.zip_longest(kinds, given):
            if isinstance(kind, tuple):
                page = pages[len(lent)]
                data = value if value is not None else lent[-1][2] if lent and r.random() < 0.2 else some_bytes(r, short)
                if len(data) <= 64 and value is None:
                    short.append(data)
                    del short[:-20]
                width = 2 if kind is face.NUMBERS else 1
                data = data[: len(data) // width * width]
                place = page.lay(data, r.random() < 0.5)
                # no bytes: any pointer, NULL too
                passed += [c.c_void_p(place if data or r.random() < 0.5 else None), len(data) // width]
                lent.append((page, kind is face.LENT, data))
            elif issubclass(kind, c.Structure) and value is not None:
                passed.append(value)
            elif issubclass(kind, c.Structure):
                passed.append(r.choice(kept[kind]) if kind in kept and r.random() < 0.7 else values.some(r, kind))
            elif issubclass(kind, c._Pointer):
                record = values.some(r, kind._type_)
                records.append((record, bytes(record)))
                passed.append(c.byref(record))
            else:
                passed.append(some_number(r, kind) if value is None else value)
        argtypes, f.argtypes = f.argtypes, None
        f.argtypes = [c.c_void_p if t in (c.c_char_p, c.POINTER(face.u16)) else t for t in argtypes]
        answer = f(*passed)
        f.argtypes = argtypes
        made += 1
        refusal = getattr(answer, "refusal", answer if isinstance(answer, face.Refusal) else None)
        if refusal is not None and name != "axle_refusal":
            assert refusal.number in TABLE_NUMBERS, (name, refusal.number)
            numbers.setdefault(name, set()).add(refusal.number)
            placed = name in MESSAGES and refusal.number in (1, 2)
            assert refusal.place <= (len(lent[MESSAGES[name]][2]) if placed else 0), (name, refusal.plain())
        refused = refusal is not None and refusal.number and name != "axle_refusal"
        if refused:  # the state is the one that was passed, and a lent record is as it was
            for state in (s for s in passed if isinstance(s, c.Structure)):
                for field, kind in getattr(answer, "_fields_", ()):
                    if kind is type(state):
                        assert face.plain(getattr(answer, field)) == face.plain(state), name
            assert all(bytes(record) == before for record, before in records), name
        for page, written, data in lent:
            assert page.around_untouched(), name
            if not written or refused:
                assert page.now() == data, name
        if name == "axle_log_feed":  # the rest, and how many blocks it may work
            worked = max(face.plain(answer.blocks))
            assert answer.taken <= len(lent[0][2]) and worked <= (0 if refused else passed[3]), name
        if name in WRITERS and not refused:
            message = page.now()[: answer.length]
            assert WRITERS[name][1](message).refusal.number == 0 and page.now()[answer.length :] == data[answer.length :], name
        for field, kind in getattr(answer, "_fields_", ()):
            if isinstance(getattr(answer, field), c.Structure) and kind is not face.Refusal:
                kept.setdefault(kind, []).append(kind.from_buffer_copy(getattr(answer, field)))
                del kept[kind][:-50]
        if isinstance(answer, c.Structure):
            kept.setdefault(type(answer), []).append(answer)
            del kept[type(answer)][:-50]
    return made, numbers


if __name__ == "__main__":
    seconds = float(sys.argv[1]) if len(sys.argv) > 1 else 600
    seed = int(sys.argv[2]) if len(sys.argv) > 2 else 1
    print(f"{soak(seconds, seed)[0]} calls in {seconds:.0f} s, seed {seed}: nothing read or written outside, every call ended")
