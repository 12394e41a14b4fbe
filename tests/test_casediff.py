"""Order 8 of document 02, 'Compare two cases': program `casediff` against the second program, on pairs of cases, on files that are
none and on real handshakes. Where the text is short it stands here as well."""

import collections
import fcntl
import itertools
import os
import pathlib
import random
import re
import resource
import shutil
import subprocess
import sys
import tempfile
import termios
import time
import tty

from oracle.casediff import FIELDS, casediff
from oracle.hello import MESSAGE_LIMIT, write_client_hello, write_server_hello
from oracle.loglist import LIMIT, contents
from tests import hellos
from tests.handshakes import full_and_resumed
from tests.test_loglist import case

ROOT = pathlib.Path(__file__).resolve().parent.parent
PROGRAM = ROOT / "target/bin/casediff"
CAPTURES = ROOT / "tests/data/captures"
FOLDER = tempfile.TemporaryDirectory()
FIRST, SECOND = (pathlib.Path(FOLDER.name, name) for name in ("a", "b"))

NOTHING = hellos.message(0, b"")
HELLO = hellos.client_hello(extensions=hellos.ri())
CASE = case([HELLO, NOTHING, b""])  # a good one; OTHER differs from it, so that a comparison with it prints a line
OTHER, DIFFERENT = case([HELLO, hellos.message(14, b""), b""]), "2 byte 0\n"


def run(*arguments, **how):
    """What it prints. Exit status and standard error are not used."""
    said = subprocess.run([PROGRAM, *arguments], stdin=subprocess.DEVNULL, capture_output=True, **how)
    assert said.returncode == 0 and said.stderr == b"", said
    return said.stdout.decode()


def compare(first, second):
    """What it prints for two files that hold these bytes; the second program says the same."""
    FIRST.write_bytes(first)
    SECOND.write_bytes(second)
    said = run(FIRST, SECOND)
    assert said == casediff(first, second), (first[:100].hex(), second[:100].hex(), said[:400])
    return said


def of_messages(first, second):
    return compare(case(first), case(second))


def either_way(a, b, text):
    """Two messages whose text is the same whichever case has which."""
    assert of_messages([a], [b]) == of_messages([b], [a]) == text, (a.hex(), b.hex(), text)


def turned(text):
    """What is printed for the two the other way round."""
    return re.sub("first|second", lambda found: "second" if found[0] == "first" else "first", text)


# ---- The lines and their order


def test_lines_of_the_order():
    """The five that the order names, each in the whole text for its pair."""
    certificate, changed = hellos.message(11, bytes(20)), hellos.message(11, bytes(13) + b"\x01" + bytes(6))
    other_suite, with_ems = hellos.client_hello(suites=b"\x00\x3b"), hellos.client_hello(extensions=hellos.ri() + hellos.ems())
    for first, second, text in (
        ([HELLO], [], "3 first\n"),
        ([], [HELLO], "3 second\n"),
        ([certificate], [changed], "3 byte 17\n"),
        ([hellos.client_hello()], [other_suite], "3 byte 42\n3 field suites\n"),
        ([HELLO], [with_ems], "3 byte 3\n3 extension 23\n"),
    ):
        assert of_messages([NOTHING, b"", *first], [NOTHING, b"", *second]) == text


def test_the_order_of_lines():
    """All of a message before the next one; of a message the byte, then the fields, then the extensions."""
    client = hellos.client_hello(b"", b"\x00\x2f", extensions=hellos.extension(16, b"h2") + hellos.extension(0))
    client_too = hellos.client_hello(b"session", b"\xc0\x2f", extensions=hellos.ems() + hellos.extension(16, b"h3"))
    server = hellos.server_hello(b"1", method=b"\x00", extensions=hellos.ri())
    server_too = hellos.server_hello(b"2", method=b"\x01", extensions=hellos.ri(b"0"))
    first = [client, b"same", hellos.message(11, b"abc"), server, NOTHING, NOTHING, b""]
    second = [client_too, b"same", hellos.message(11, b"abd"), server_too, NOTHING]
    text = (
        "1 byte 3\n1 field identifier\n1 field suites\n1 extension 0\n1 extension 16\n1 extension 23\n"
        "3 byte 6\n"
        "4 byte 3\n4 field identifier\n4 field methods\n4 extension 65281\n"
        "6 first\n7 first\n"
    )
    assert of_messages(first, second) == text
    assert of_messages(second, first) == turned(text) == text.replace("first", "second")


def test_equal_cases():
    """Nothing is printed, not one byte; and something as soon as a byte differs."""
    for good in (b"\x00", CASE, OTHER, case([b""] * 255), case([HELLO] * 255), case([bytes(LIMIT - 3)])):
        assert compare(good, good) == "" and run(FIRST, FIRST) == ""
    unequal = 0
    for at in range(len(CASE)):
        changed = CASE[:at] + bytes([CASE[at] ^ 1]) + CASE[at + 1 :]
        unequal += compare(CASE, changed) != "" and compare(changed, CASE) != ""
    assert unequal == len(CASE)


# ---- Fields

BASE = dict(identifier=b"id", extensions=hellos.ri())
CLIENT = {  # of each field: its name as an argument, another value, and the place of the first byte that differs then
    "version": ("version", 0x0304, 5),
    "random": ("hello_random", bytes(range(31)) + b"\xff", 37),
    "identifier": ("identifier", b"i?", 40),
    "suites": ("suites", b"\x00\x3b", 44),
    "methods": ("methods", b"\x01", 46),
}
SERVER = CLIENT | {"suites": ("suite", b"\x00\x3b", 42), "methods": ("method", b"\x01", 43)}


def test_every_set_of_fields():
    """Of a ServerHello without the version: one that does not say 03 03 is not readable, and has the byte line alone."""
    for make, changes in ((hellos.client_hello, CLIENT), (hellos.server_hello, SERVER)):
        for bits in itertools.product((False, True), repeat=5):
            names = list(itertools.compress(FIELDS, bits))
            other = make(**BASE | {changes[name][0]: changes[name][1] for name in names})
            lines = [f"1 byte {changes[name][2]}" for name in names[:1]]
            if make is hellos.client_hello or "version" not in names:
                lines += [f"1 field {name}" for name in names]
            either_way(make(**BASE), other, "".join(f"{line}\n" for line in lines))


def test_fields_of_other_lengths():
    """One that begins the other differs from it."""
    client, server = hellos.client_hello, hellos.server_hello
    either_way(client(b"ab"), client(b"abc"), "1 byte 3\n1 field identifier\n")
    either_way(server(b"ab"), server(b"abc"), "1 byte 3\n1 field identifier\n")
    either_way(client(b""), client(bytes(32)), "1 byte 3\n1 field identifier\n")
    either_way(client(suites=b"\x00\x2f"), client(suites=b"\x00\x2f\x00\x35"), "1 byte 3\n1 field suites\n")
    either_way(client(methods=b"\x00"), client(methods=bytes(255)), "1 byte 2\n1 field methods\n")


def test_a_field_that_only_moved():
    """It is the same field; and bytes that stayed where they were may be another one's now."""
    extensions, moved = hellos.ri() + hellos.ems(), hellos.ri()
    for make in (hellos.client_hello, hellos.server_hello):
        a, b = make(b"", extensions=extensions), make(b"four", extensions=moved)
        assert len(a) == len(b)
        either_way(a, b, "1 byte 38\n1 field identifier\n1 extension 23\n")
    a = hellos.client_hello(b"", suites=b"\x00\x02\x00\x02", methods=b"\x00")
    b = hellos.client_hello(b"\x00\x04", suites=b"\x00\x02", methods=b"\x00")
    assert a[39:43] == b[39:43]
    either_way(a, b, "1 byte 38\n1 field identifier\n1 field suites\n")


# ---- Extensions


def block(extensions):
    return b"".join(hellos.extension(kind, data) for kind, data in extensions)


def test_extensions_ascend_as_numbers():
    """Whatever their order in the hellos. Type 10 has the same data in both, wherever it stands."""
    first = [(65535, b""), (256, b"x"), (5, b"one"), (10, b"same"), (65281, b"\x00"), (0, b"")]
    second = [(10, b"same"), (23, b""), (5, b"two"), (65281, b"\x01\x00"), (255, b""), (0, b"\x00"), (4096, b"far")]
    text = "1 byte 3\n" + "".join(f"1 extension {kind}\n" for kind in (0, 5, 23, 255, 256, 4096, 65281, 65535))
    r = random.Random(1)
    for make in (hellos.client_hello, hellos.server_hello):
        for _ in range(20):
            either_way(make(extensions=block(first)), make(extensions=block(second)), text)
            r.shuffle(first)
            r.shuffle(second)


STATES = {  # of an extension in the two hellos
    kind: [(None, None), (None, data), (data, None), (data, data), (data, other), (data, data + other), (b"", data), (None, b"")]
    for kind, data, other in ((0, b"a", b"b"), (5, b"\x00", b"\x00\x00"), (256, b"ab", b"cd"), (65535, bytes(300), b"\x01"))
}
STATES[23] = [(None, None), (None, b""), (b"", None), (b"", b"")]  # EMS has no data
RI = [None, b"\x00", b"\x01\x00", b"\x01\x01", b"\x02\x01\x01"]
STATES[65281] = list(itertools.product(RI, RI))


def test_every_state_of_an_extension():
    """Each state of each of six types, beside some state of some others, in any order."""
    r, seen = random.Random(2), collections.Counter()
    for kind, states in STATES.items():
        for state in states * 4:
            chosen = {other: r.choice(of) for other, of in STATES.items() if r.random() < 0.7} | {kind: state}
            sides = [[(other, of[side]) for other, of in chosen.items() if of[side] is not None] for side in (0, 1)]
            make = r.choice((hellos.client_hello, hellos.server_hello))
            a, b = (make(extensions=block(r.sample(side, len(side)))) for side in sides)
            said = of_messages([a], [b]).splitlines()
            assert said[1:] == [f"1 extension {other}" for other in sorted(chosen) if chosen[other][0] != chosen[other][1]]
            assert bool(said) == (a != b)
            seen.update(said[1:])
    assert len(seen) == 6 and min(seen.values()) > 20, seen


def test_every_extension_type():
    """All 65,536, in one hello alone: 128 a hello, 32 hellos a case."""
    bare = [hellos.server_hello(extensions=b"")] * 32
    for start in range(0, 65_536, 32 * 128):
        parts = [range(at, at + 128) for at in range(start, start + 32 * 128, 128)]
        full = [hellos.server_hello(extensions=block((kind, b"\x00" if kind == 65281 else b"") for kind in part)) for part in parts]
        lines = [[f"{i} byte 2\n", *(f"{i} extension {kind}\n" for kind in part)] for i, part in enumerate(parts, 1)]
        assert of_messages(full, bare) == of_messages(bare, full) == "".join(itertools.chain(*lines))


# ---- The byte line alone


def test_the_same_in_another_order():
    a, b = hellos.extension(10, b"x"), hellos.extension(16, b"y")
    for make, at in ((hellos.client_hello, 48), (hellos.server_hello, 45)):
        either_way(make(extensions=a + b), make(extensions=b + a), f"1 byte {at}\n")
        either_way(make(extensions=hellos.ri() + hellos.ems()), make(extensions=hellos.ems() + hellos.ri()), f"1 byte {at - 1}\n")
        either_way(make(), make(extensions=b""), "1 byte 3\n")


def test_hellos_that_are_not_readable():
    """Malformed, a type twice, below 03 03, longer than a message may be: against a readable one and against one another."""
    client, server = hellos.client_hello, hellos.server_hello
    either_way(client(version=0x0302), client(version=0x0301), "1 byte 5\n")
    either_way(server(version=0x0304), server(version=0x0303), "1 byte 5\n")
    either_way(client(version=0x0303), client(version=0x0302), "1 byte 5\n")
    for make in (client, server):
        readable = [make(b"other", extensions=hellos.ems()), make(extensions=None)]
        faulty = [
            make(extensions=hellos.extension(10) * 2),
            make(extensions=hellos.extension(10, b"x") + hellos.ems() + hellos.extension(10, b"y")),
            make(extensions=hellos.ri() * 2),
            make(extensions=hellos.extension(23, b"\x00")),
            make(extensions=hellos.extension(65281, b"")),
            make(extensions=hellos.extension(65281, b"\x01")),
            make(extensions=hellos.extension(10)[:-1]),
            make(identifier=bytes(33)),
            make(version=0x0302),
            make(extensions=hellos.extension(10, bytes(16_388))),
            make()[:-1],
            make() + b"\x00",
            make()[:4],
            make()[:1],
        ]
        for a, b in itertools.chain(itertools.product(faulty, readable), itertools.combinations(faulty, 2)):
            assert re.fullmatch(r"1 byte \d+\n", of_messages([a], [b])), (a.hex(), b.hex())
    either_way(client(suites=b"\x00\x2f\x00"), client(suites=b"\x00\x2f\x01"), "1 byte 43\n")


def test_the_longest_hellos():
    """16,388 bytes are read, one more is not; both begin alike but for the random."""
    for make in (hellos.client_hello, hellos.server_hello):
        room = MESSAGE_LIMIT - len(make(extensions=hellos.extension(10)))
        for more, text in ((0, "1 byte 6\n1 field random\n1 extension 10\n"), (1, "1 byte 6\n")):
            a, b = (make(hello_random=one * 32, extensions=hellos.extension(10, one * (room + more))) for one in (b"a", b"b"))
            assert len(a) == len(b) == MESSAGE_LIMIT + more
            either_way(a, b, text)


def test_versions_that_are_read():
    for a, b in itertools.permutations((0x0303, 0x0304, 0x03FF, 0x0400, 0xFFFF), 2):
        said = of_messages([hellos.client_hello(version=a)], [hellos.client_hello(version=b)])
        assert said == f"1 byte {4 if a >> 8 != b >> 8 else 5}\n1 field version\n"


def test_messages_of_other_types():
    """A ClientHello against a ServerHello, and what would be readable under another type."""
    for extensions in (None, hellos.ri()):
        client, server = hellos.client_hello(extensions=extensions), hellos.server_hello(b"id", extensions=extensions)
        either_way(client, server, "1 byte 0\n")
        for kind in (0, 3, 11, 20, 129, 255):
            a, b = (bytes([kind]) + body for body in (client[1:], hellos.client_hello(b"id", extensions=extensions)[1:]))
            either_way(a, b, "1 byte 3\n")
            either_way(client, a, "1 byte 0\n")
            either_way(server, a, "1 byte 0\n")


# ---- Byte places


def test_every_place():
    """Of the first byte that differs, where further ones do as well; and the shorter one's length where it begins the longer."""
    for whole in (HELLO, bytes(range(60))):
        for at in range(len(whole)):
            changed = whole[:at] + bytes(byte ^ 0x80 for byte in whole[at:])
            assert of_messages([whole], [changed]).splitlines()[0] == f"1 byte {at}"
            assert of_messages([whole[:at]], [whole]) == of_messages([whole], [whole[:at]]) == f"1 byte {at}\n"
            assert of_messages([whole[:at]], [changed]) == f"1 byte {at}\n"


def test_places_of_every_width():
    """To the last byte of the longest message that a case has room for."""
    longest = bytes(LIMIT - 3)
    for at in (0, 9, 10, 99, 100, 101, 999, 1000, 1009, 1010, 9999, 10_000, 10_001, 20_000, 30_300, 32_763, 32_764):
        changed = longest[:at] + b"\x01" + longest[at + 1 :]
        assert len(case([changed])) == LIMIT
        either_way(longest, changed, f"1 byte {at}\n")
        either_way(longest, longest[:at], f"1 byte {at}\n")


# ---- Messages in one only


def test_none_against_all():
    """Whatever they hold."""
    for held in (b"", HELLO, b"\x01", hellos.server_hello()):
        all_of_them = "".join(f"{number} first\n" for number in range(1, 256))
        assert of_messages([held] * 255, []) == all_of_them
        assert of_messages([], [held] * 255) == turned(all_of_them)


def test_numbers_of_every_width():
    for fewer, more in ((0, 1), (8, 9), (9, 10), (9, 11), (99, 100), (98, 101), (199, 201), (254, 255)):
        text = "".join(f"{number} first\n" for number in range(fewer + 1, more + 1))
        assert of_messages([NOTHING] * more, [NOTHING] * fewer) == text
        assert of_messages([NOTHING] * fewer, [NOTHING] * more) == turned(text)
        last = [NOTHING] * (more - 1)
        assert of_messages([*last, b"a"], [*last, b"b"]) == f"{more} byte 0\n"


def test_messages_are_not_aligned():
    """One that was put in front moves the numbers of all others."""
    rest = [hellos.message(kind, b"") for kind in (2, 11, 14)]
    assert of_messages([NOTHING, *rest], rest) == "1 byte 0\n2 byte 0\n3 byte 0\n4 first\n"


# ---- Bad contents


def refused(bad):
    """As the first beside a good case, another bad one and itself; as the second beside a good case."""
    assert compare(bad, CASE) == compare(bad, b"\x00\x00") == compare(bad, bad) == compare(b"", bad) == "first refused\n"
    assert compare(CASE, bad) == "second refused\n"


def test_contents():
    refused(b"")
    refused(b"\x00\x00")
    refused(CASE + b"\x00")
    refused(bytes([CASE[0] + 1]) + CASE[1:])
    refused(bytes([CASE[0] - 1]) + CASE[1:])
    refused(b"\xff")
    refused(b"\xff" * 511)
    refused(b"\x01\xff\xff" + bytes(LIMIT - 3))
    for cut in range(len(CASE)):
        refused(CASE[:cut])
    assert compare(b"\x00", b"\x00") == "" and compare(b"\x00", CASE) == "1 second\n2 second\n3 second\n"


def test_the_size_of_a_case():
    full, more = case([bytes(16_384), bytes(16_379)]), case([bytes(16_384), bytes(16_380)])
    assert len(full) == LIMIT and compare(full, CASE) == "1 byte 0\n2 byte 4\n3 second\n"
    assert compare(CASE, full) == "1 byte 0\n2 byte 4\n3 first\n"
    refused(more)
    refused(full + b"\x00")
    refused(bytes(LIMIT + 1))
    refused(full + bytes(100_000))


def spent():
    """Seconds that the processes which were run, and have ended, had a processor: other work on the machine does not count."""
    used = resource.getrusage(resource.RUSAGE_CHILDREN)
    return used.ru_utime + used.ru_stime


def quickest(first, second):
    """The shortest time of three."""
    FIRST.write_bytes(first)
    SECOND.write_bytes(second)
    times = [spent()]
    for _ in range(3):
        run(FIRST, SECOND)
        times.append(spent())
    return min(b - a for a, b in zip(times, times[1:]))


def test_large_files():
    """Of a file that does not end, no more is read than it takes to see that it is no case."""
    large = CASE + bytes(8_000_000)
    refused(large)
    assert quickest(large, CASE) < 0.1 and quickest(CASE, large) < 0.1
    assert run("/dev/zero", FIRST, timeout=10) == "first refused\n" and run(FIRST, "/dev/zero", timeout=10) == "second refused\n"


# ---- Files


def unreadable(name, **how):
    """As the first, whatever the second is, and as the second."""
    FIRST.write_bytes(CASE)
    SECOND.write_bytes(OTHER)
    assert run(FIRST, SECOND) == DIFFERENT
    assert run(name, SECOND, **how) == run(name, name, **how) == run(name, "/none", **how) == "first refused\n", name
    assert run("/none", name, **how) == "first refused\n" and run(FIRST, name, **how) == "second refused\n", name


def test_unreadable_files():
    loop = pathlib.Path(FOLDER.name, "loop")
    loop.symlink_to(loop)
    for name in ("/none", "/", FOLDER.name, "", "/dev/null", FIRST / "below", loop, "/proc/self/mem", "x" * 256):
        unreadable(name)


def test_missing_arguments():
    FIRST.write_bytes(CASE)
    assert run() == run("/none") == run("") == "first refused\n"
    assert run(FIRST) == "second refused\n"


def test_a_file_without_permission():
    """Root reads it all the same, so that root's tests run the program as nobody."""
    nobody = dict(user=65534, group=65534, extra_groups=()) if os.geteuid() == 0 else {}
    with tempfile.TemporaryDirectory() as folder:
        os.chmod(folder, 0o755)
        program, names = shutil.copy(PROGRAM, folder), [pathlib.Path(folder, name) for name in "ab"]
        for name, held in zip(names, (CASE, OTHER)):
            name.write_bytes(held)
        for closed, text in ((None, DIFFERENT), (0, "first refused\n"), (1, "second refused\n")):
            for i, name in enumerate(names):
                name.chmod(0 if i == closed else 0o644)
            said = subprocess.run([program, *names], capture_output=True, **nobody)
            assert (said.returncode, said.stdout.decode(), said.stderr) == (0, text, b""), (closed, said)


def test_names():
    """Two arguments are names, whatever they look like, and further ones are nothing."""
    folder = pathlib.Path(FOLDER.name)
    longest_name = f"{folder}/".ljust(4_094, "/") + "a"
    assert len(longest_name) == 4_095
    SECOND.write_bytes(OTHER)
    for name in ("-", "--", "--help", "-h", "two words", "line\nfeed", "\u20ac", "x" * 255):
        (folder / os.fsdecode(name)).write_bytes(OTHER)
        FIRST.write_bytes(CASE)
        assert run("a", name, cwd=folder) == run(name, "a", cwd=folder) == DIFFERENT, name
        assert run("a", "b", name, cwd=folder) == run("a", "b", name, "/none", "", cwd=folder) == DIFFERENT, name
    no_text = b"\xff\xfe"  # std's paths are UTF-8: no other name is that of a file
    (folder / os.fsdecode(no_text)).write_bytes(OTHER)
    assert run(no_text, "a", cwd=folder) == "first refused\n" and run("a", no_text, cwd=folder) == "second refused\n"
    assert run(longest_name, SECOND) == run(SECOND, longest_name) == run(FIRST, SECOND, "/none", "--help") == DIFFERENT
    unreadable("/" + longest_name)
    unreadable("/".ljust(100_000, "/") + "a")


# ---- Reads that are short, or fail


def waits(program, end):
    """Has it read all that was written there, and does it sleep until more comes?"""
    left = int.from_bytes(fcntl.ioctl(end, termios.FIONREAD, bytes(4)), sys.byteorder)
    state = pathlib.Path(f"/proc/{program.pid}/stat").read_text().rpartition(")")[2].split()[0]
    return left == 0 and state == "S"


def until_it_waits(program, end):
    while program.poll() is None and not waits(program, end):
        time.sleep(0.0005)
    assert program.poll() is None, program.communicate()


def started(*arguments):
    return subprocess.Popen([PROGRAM, *arguments], stdout=subprocess.PIPE, stderr=subprocess.PIPE)


def test_a_case_and_then_a_failed_read():
    """A terminal gives the whole case. While the program waits for more, the other end is closed: its read fails."""
    FIRST.write_bytes(CASE)
    for name, arguments in (("first", lambda terminal: (terminal, FIRST)), ("second", lambda terminal: (FIRST, terminal))):
        other, terminal = os.openpty()
        tty.setraw(terminal)
        os.write(other, CASE)
        with started(*arguments(os.ttyname(terminal))) as program:
            until_it_waits(program, terminal)
            os.close(other)
            said = program.communicate()
        os.close(terminal)
        assert said == (f"{name} refused\n".encode(), b""), said


def test_a_case_in_pieces():
    """A short read is not the end: what comes byte by byte from a pipe is the same case, cut or whole."""
    pipe = pathlib.Path(FOLDER.name, "pipe")
    os.mkfifo(pipe)
    SECOND.write_bytes(OTHER)
    for held, place in itertools.product((CASE, CASE[:-1]), (0, 1)):
        end = os.open(pipe, os.O_RDWR)  # so that opening it waits for nobody
        with started(*((pipe, SECOND), (SECOND, pipe))[place]) as program:
            for byte in held:
                os.write(end, bytes([byte]))
                until_it_waits(program, end)
            os.close(end)
            said = program.communicate()
        text = DIFFERENT if held == CASE else ("first refused\n", "second refused\n")[place]
        assert said == (text.encode(), b""), said


def test_what_commands_write():
    """As a shell hands it over, by names of pipes."""
    FIRST.write_bytes(CASE)
    SECOND.write_bytes(OTHER)
    for words, text in (('<(cat "$1") <(cat "$2")', DIFFERENT), ('<(cat "$1" "$1") <(cat "$2")', "first refused\n")):
        said = subprocess.run(["bash", "-c", f'"$0" {words}', PROGRAM, FIRST, SECOND], capture_output=True)
        assert (said.stdout.decode(), said.stderr) == (text, b""), said


# ---- At random


def some_message(r):
    """A readable hello as its fields, or the bytes of anything."""
    if r.random() < 0.5:
        return hellos.some_fields(r)
    other = hellos.message(r.choice((0, 11, 14, 20, 99)), r.randbytes(r.choice((0, 1, 12, 30))))
    return r.choice((hellos.some(r), hellos.damaged(r, hellos.some(r)), other, other, b"", r.randbytes(5)))


def written(message):
    if isinstance(message, bytes):
        return message
    write = write_client_hello if isinstance(message, hellos.Client) else write_server_hello
    number, made = write(*message, room=MESSAGE_LIMIT)
    assert number == 0
    return made


def extensions_of(fields):
    ends = [*itertools.accumulate(fields.lengths, initial=0)]
    return {kind: fields.data[a:b] for kind, a, b in zip(fields.types, ends, ends[1:])}


def nearly(r, fields):
    """A hello of the same type: some fields and extensions are another's, the extensions stand in any order."""
    other = hellos.some_fields(r, type(fields))
    changes = {name: getattr(other, name) for name in fields._fields[:5] if r.random() < 0.25}
    if r.random() < 0.7:
        kept = {kind: data for kind, data in extensions_of(fields).items() if r.random() < 0.8}
        added = {kind: data for kind, data in extensions_of(other).items() if r.random() < 0.3}
        both = list((kept | added).items())
        changes |= hellos.listed(r.sample(both, len(both))) | dict(block=1 if both else r.randrange(2))
    return fields._replace(**changes)


def changed(r, held):
    """The messages with some changed, dropped, put in or swapped; or all of them as they are."""
    held = list(held)
    for _ in range(r.choice((0, 1, 2, 4, 8))):
        at, to, way = r.randrange(len(held) + 1), r.randrange(len(held) + 1), r.choice(("in", "out", "swap", *["change"] * 5))
        if way == "in":
            held.insert(at, some_message(r))
        elif max(at, to) == len(held):
            continue
        elif way == "out":
            del held[at]
        elif way == "swap":
            held[at], held[to] = held[to], held[at]
        elif isinstance(held[at], bytes):
            held[at] = hellos.damaged(r, held[at])
        else:
            held[at] = nearly(r, held[at])
    return held


def test_500_random_pairs():
    """Both ways round. Of two good cases the text is empty exactly where their bytes are equal."""
    r, seen = random.Random(3), collections.Counter()
    for _ in range(500):
        held = [some_message(r) for _ in range(r.choice((0, 1, 2, 2, 4, 4, 12)))]
        first, second = (case([written(m) for m in side]) for side in (held, changed(r, held)))
        if r.random() < 0.1:
            first = r.choice((first[:-1], first + b"\x00", hellos.damaged(r, first)))
        if r.random() < 0.1:
            second = r.choice((second[:-1], second + b"\x00", hellos.damaged(r, second), first))
        text, good = compare(first, second), contents(first) is not None and contents(second) is not None
        again = compare(second, first)
        if good:
            assert (text == "") == (first == second) and again == turned(text)
        else:
            assert re.fullmatch("(first|second) refused\n", text) and re.fullmatch("(first|second) refused\n", again)
        seen["no line" if good and not text else "lines" if good else text.strip()] += 1
        seen.update(re.sub(r"^\d+ |(?<=byte|sion) \d+$", "", line) for line in set(text.splitlines()) if good)
    kinds = {"first", "second", "byte", "extension", *(f"field {name}" for name in FIELDS)}
    assert set(seen) == {"no line", "lines", "first refused", "second refused", *kinds} and min(seen.values()) > 20, seen
    return ", ".join(f"{count} with {kind}" for kind, count in seen.items() if kind not in kinds)


# ---- The longest texts, and the time that they take


def many(count, kinds, **fields):
    """A ServerHello with so many empty extensions, of the next types."""
    return hellos.server_hello(extensions=block((next(kinds), b"") for _ in range(count)), **fields)


def widest():
    """As many extensions as two cases have room for, in two ServerHellos each, every one of another type of five digits."""
    kinds = itertools.count(30_000)
    return [case([many(4_086, kinds, hello_random=one * 32), many(4_082, kinds, identifier=one * 3)]) for one in (b"a", b"b")]


def longest():
    """Numbers of three digits besides: 253 messages of which one case has a byte and the other none stand before such hellos."""
    kinds, pair = itertools.count(10_000), []
    for side, one in enumerate((b"a", b"b")):
        before = [one if number % 2 == side else b"" for number in range(253)]
        fields = dict(hello_random=one * 32, identifier=one, suite=one * 2, method=one)
        pair.append(case([*before, many(4_000, kinds, **fields), many(4_010, kinds, **fields)]))
    return pair


def most_fields():
    """255 hellos that differ in all their fields and in some extensions."""
    pair = []
    for side, one in enumerate((b"a", b"b")):
        fields = dict(identifier=one, suites=one * 2, methods=one, hello_random=one * 32, version=0x0303 + side)
        kinds = [(10, one), (16, b"same"), (65281, b"\x01" + one), (60_000 + side, b"")]
        pair.append(case([hellos.client_hello(extensions=block(kinds), **fields)] * 255))
    return pair


def other_order():
    """The same extensions, the last one first: each is to be looked for from end to end."""
    pair = []
    for kinds in (range(30_000, 34_084), range(34_083, 29_999, -1)):
        pair.append(case([many(4_084, iter(kinds)), many(4_084, iter(kinds))]))
    return pair


def test_the_longest_texts():
    """Nothing is cut off."""
    for make, byte, field, extension, size in (
        (widest, 2, 2, 2 * 8_168, 290_000),
        (longest, 255, 8, 2 * 8_010, 320_000),
        (most_fields, 255, 255 * 5, 255 * 4, 40_000),
    ):
        first, second = make()
        text = compare(first, second)
        assert [text.count(f" {kind} ") for kind in ("byte", "field", "extension")] == [byte, field, extension], make
        assert size < len(text) < 358_280 and run(SECOND, FIRST) == text, (make, len(text))
    assert compare(*other_order()) == "1 byte 44\n2 byte 44\n"


def test_the_time_it_takes():
    """The dearest pairs that are known, and the handshakes of every day."""
    took = {make.__name__: quickest(*make()) for make in (widest, longest, most_fields, other_order)}
    assert max(took.values()) < 2, took
    (full, resumed), (other, _) = full_and_resumed(True), full_and_resumed(False, False)
    for a, b in ((full, resumed), (full, other)):
        ordinary = quickest(*(case([m for _, m in h.messages]) for h in (a, b)))
        assert ordinary < 0.1, ordinary
    return ", ".join(f"{name} {1000 * seconds:.0f} ms" for name, seconds in {**took, "handshakes": ordinary}.items())


# ---- Real handshakes


def test_handshakes_of_openssl():
    """Each with each. Their randoms always differ; EMS does where one end went without it."""
    made = [*full_and_resumed(True), *full_and_resumed(False), *full_and_resumed(False, False)]
    for a, b in itertools.product(made, made):
        first, second = (case([m for _, m in h.messages]) for h in (a, b))
        lines = compare(first, second).splitlines()
        assert (lines == []) == (a is b)
        if a is not b:
            assert {"1 field random", "2 field random"} < set(lines)
            assert ("1 extension 23" in lines) == ("2 extension 23" in lines) == (a.ems != b.ems)
            assert ("1 field identifier" in lines) == (a.resumed or b.resumed)
            counts = len(a.messages), len(b.messages)
            only = [f"{i} {'first' if counts[0] > counts[1] else 'second'}" for i in range(min(counts) + 1, max(counts) + 1)]
            assert lines[len(lines) - len(only) :] == only and "1 field suites" not in lines


def case_of(path):
    return subprocess.run([ROOT / "tools/make-case", path], capture_output=True, check=True).stdout


# the clients of OpenSSL 3.0.19 and GnuTLS 3.7.9, captured with the same server
TWO_MAKERS = """\
1 byte 3
1 field random
1 field suites
1 extension 0
1 extension 5
1 extension 10
1 extension 11
1 extension 13
1 extension 28
1 extension 65281
2 byte 6
2 field random
4 byte 3
6 byte 3
7 byte 10
"""


def test_captures_of_two_makers():
    first, second = case_of(CAPTURES / "openssl-client.pcap"), case_of(CAPTURES / "gnutls-client.pcap")
    assert [[m[0] for m in contents(made)] for made in (first, second)] == [[1, 2, 11, 12, 14, 16, 4]] * 2
    assert compare(first, second) == compare(second, first) == TWO_MAKERS


def test_one_handshake_by_other_ways():
    """Two captures of it give one case; the list has the two Finished as well, which a capture has not in clear text."""
    captured, again = case_of(CAPTURES / "text2pcap.pcapng"), case_of(CAPTURES / "scapy-overlaps-qinq.pcap")
    listed = case_of(ROOT / "examples/cases/full-handshake.txt")
    assert compare(captured, again) == "" and compare(captured, listed) == "9 second\n10 second\n"


# ---- The second program as a program


def test_the_second_program_by_itself():
    FIRST.write_bytes(CASE)
    SECOND.write_bytes(OTHER)
    for arguments in ((FIRST, SECOND), (FIRST,), (), (FIRST, "/"), ("/none", FIRST), (FIRST, SECOND, "/none")):
        said = subprocess.run([sys.executable, "-m", "oracle.casediff", *arguments], cwd=ROOT, capture_output=True, text=True)
        assert (said.returncode, said.stdout, said.stderr) == (0, run(*arguments), "") and said.stdout, said
