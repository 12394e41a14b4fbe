"""tools/explain: what casediff prints stands on the left as it is, and beside it are words."""

import os
import pathlib
import random
import shutil
import subprocess
import sys
import tempfile

from oracle.casediff import casediff
from oracle.loglist import LIMIT
from tests import hellos, wire
from tests.test_casediff import TWO_MAKERS, block, changed, some_message, widest, written
from tests.test_tools import FLIGHTS, case, frames

ROOT = pathlib.Path(__file__).resolve().parent.parent
TOOL, CAPTURES, LISTS = ROOT / "tools/explain", ROOT / "tests/data/captures", ROOT / "examples/cases"
MAKERS = CAPTURES / "openssl-client.pcap", CAPTURES / "gnutls-client.pcap"
NOTE = "The lines on the left are casediff's, which is proved. The words on the right are not proved."
FOLDER = tempfile.TemporaryDirectory()

sys.path.insert(0, str(ROOT / "tools"))
import explain  # noqa: E402  (the path above leads to it)
import names  # noqa: E402


def run(*arguments, shell="", tool=TOOL, **how):
    command = ["bash", "-c", f'"$0" "$@" {shell}', tool, *map(str, arguments)]
    return subprocess.run(command, stdin=subprocess.DEVNULL, capture_output=True, text=True, **how)


def holding(name, data):
    path = pathlib.Path(FOLDER.name, name)
    path.write_bytes(data)
    return path


def parts(said):
    """What the two files were taken for, and the lines of the table without and with their words."""
    heads, table, note = said.stdout.split("\n\n")
    assert note == NOTE + "\n", said
    lines = table.splitlines()
    at = lines[0].index("in words")
    assert lines[0].rstrip() == f"{'casediff':{at}}in words"
    return heads.splitlines(), [line[:at].rstrip() for line in lines[1:]], [line[at:] for line in lines[1:]]


def compared(first, second):
    """The table for two good cases of these messages."""
    said = run(holding("first", case(first)), holding("second", case(second)))
    assert said.returncode == 0 and said.stderr == "", said
    return list(zip(*parts(said)[1:]))


# ---- The words


def test_two_makers():
    said = run(*MAKERS)
    assert said.returncode == 0 and said.stderr == "", said
    heads, lines, words = parts(said)
    assert heads == [f"{name}: {path}: a capture, made into a case" for name, path in zip(("first", "second"), MAKERS)]
    assert lines == TWO_MAKERS.splitlines()
    told = dict(zip(lines, words))
    assert told["1 byte 3"] == "ClientHello: first b3, second d3 (in the header)"
    assert told["1 extension 0"] == "ClientHello, server_name: only in the second"
    assert told["1 extension 11"] == "ClientHello, ec_point_formats: first 03000102, second 0100"
    suites = "first c02c c030 009f cca9 .. (28 suites), second c02c cca9 c0ad c00a .. (25 suites)"
    assert told["1 field suites"] == f"ClientHello, cipher suites: {suites}"
    assert told["7 byte 10"] == "NewSessionTicket: first a2, second 3b"


def test_the_words_of_a_client_hello():
    extensions = [(5, b""), (10, b"a"), (0x1A1A, b""), (60_000, b"")]
    first = hellos.client_hello(b"", b"\x00\x2f", b"\x00", block(extensions), 0x0303, bytes(32))
    second = hellos.client_hello(b"id", b"\x00\x3b\x00\xff", b"\x01\x00", block([(10, bytes(9)), (65281, b"\x00")]), 0x0304, b"r" * 32)
    assert compared([first], [second]) == [
        ("1 byte 3", "ClientHello: first 3c, second 42 (in the header)"),
        ("1 field version", "ClientHello, version: first 0303, second 0304"),
        ("1 field random", "ClientHello, random: first 0000000000000000.. (32 bytes), second 7272727272727272.. (32 bytes)"),
        ("1 field identifier", "ClientHello, session identifier: first empty, second 6964"),
        ("1 field suites", "ClientHello, cipher suites: first 002f, second 003b 00ff"),
        ("1 field methods", "ClientHello, compression methods: first 00, second 0100"),
        ("1 extension 5", "ClientHello, status_request: only in the first"),
        ("1 extension 10", "ClientHello, supported_groups: first 61, second 0000000000000000.. (9 bytes)"),
        ("1 extension 6682", "ClientHello, GREASE: only in the first"),
        ("1 extension 60000", "ClientHello, a type without a name: only in the first"),
        ("1 extension 65281", "ClientHello, renegotiation_info: only in the second"),
    ]


def test_the_words_of_other_messages():
    certificate, done = hellos.message(11, b"abc"), hellos.message(14, b"")
    server, server_too = hellos.server_hello(suite=b"\x00\x2f"), hellos.server_hello(suite=b"\xc0\x2f", method=b"\x01")
    first = [server, certificate, certificate, done, b"", b"\x07\x00\x00\x00", certificate, done]
    second = [server_too, certificate, certificate[:6], certificate, done, b"\x07\x00\x00\x01"]
    assert compared(first, second) == [
        ("1 byte 39", "ServerHello: first 00, second c0"),
        ("1 field suites", "ServerHello, cipher suite: first 002f, second c02f"),
        ("1 field methods", "ServerHello, compression method: first 00, second 01"),
        ("3 byte 6", "Certificate: first 63, second ends here"),
        ("4 byte 0", "ServerHelloDone against Certificate: first 0e, second 0b (in the header)"),
        ("5 byte 0", "no bytes against ServerHelloDone: first ends here, second 0e (in the header)"),
        ("6 byte 3", "a type without a name: first 00, second 01 (in the header)"),
        ("7 first", "Certificate: only in the first"),
        ("8 first", "ServerHelloDone: only in the first"),
    ]


def test_names_of_extensions():
    named = {0: "server_name", 13: "signature_algorithms", 16: "application_layer_protocol_negotiation", 23: "extended_master_secret"}
    named |= {22: "encrypt_then_mac", 35: "session_ticket", 0x0A0A: "GREASE", 0xFAFA: "GREASE", 0x0A1A: names.UNKNOWN}
    assert {kind: names.extension(kind) for kind in named} == named
    assert sum(names.extension(kind) == "GREASE" for kind in range(65_536)) == 16  # RFC 8701, section 2


def test_random_pairs():
    """Every line of casediff's has words, and stands there unchanged."""
    r, lines = random.Random(1), 0
    for _ in range(300):
        held = [some_message(r) for _ in range(r.choice((1, 2, 4, 8)))]
        pair = [case([written(m) for m in side]) for side in (held, changed(r, held))]
        text = casediff(*pair)
        if text:
            table = explain.table(text.splitlines(), [explain.Taken("a case", one, "") for one in pair]).splitlines()
            at = table[0].index("in words")
            assert [line[:at].rstrip() for line in table[1:]] == text.splitlines() and all(line[at:].strip() for line in table)
            lines += len(table) - 1
    assert lines > 500
    return f"{lines} lines"


def test_the_longest_table():
    said = run(*(holding(name, made) for name, made in zip(("first", "second"), widest())))
    assert said.returncode == 0 and said.stderr == "", said.stderr
    _, lines, words = parts(said)
    assert len(lines) == 2 * 8_168 + 4 and lines[0] == "1 byte 6" and lines[-1].startswith("2 extension 4")
    assert words.count("ServerHello, a type without a name: only in the first") > 8_000


# ---- What the files are taken for


def test_what_files_are_taken_for():
    """One handshake as a case, as a list and as a capture, which has not its Finished."""
    listed, captured = LISTS / "full-handshake.txt", CAPTURES / "text2pcap.pcapng"
    made = subprocess.run([ROOT / "tools/make-case", listed], capture_output=True, check=True).stdout
    kinds = {
        holding("own", made): "a case",
        listed: "a list of messages in hex, made into a case",
        captured: "a capture, made into a case",
    }
    for first in kinds:
        for second in kinds:
            said = run(first, second)
            heads = f"first: {first}: {kinds[first]}\nsecond: {second}: {kinds[second]}\n\n"
            assert said.returncode == 0 and said.stderr == "" and said.stdout.startswith(heads), said
            if (first == captured) == (second == captured):
                equal = "the two cases are equal: casediff prints nothing"
                assert said.stdout == f"{heads}{equal}\n\n{NOTE}\n", said
            else:
                alone = "first" if second == captured else "second"
                assert parts(said)[1:] == ([f"9 {alone}", f"10 {alone}"], [f"Finished: only in the {alone}"] * 2), said


def test_what_commands_write():
    """Each pipe is read once."""
    said = subprocess.run(["bash", "-c", '"$0" <(cat "$1") <(cat "$2")', TOOL, *MAKERS], capture_output=True, text=True)
    assert said.returncode == 0 and said.stderr == "" and parts(said)[1:] == parts(run(*MAKERS))[1:]


def test_refused():
    good = holding("good", case([b"\x00\x00\x00\x00"]))
    text = holding("text", b"0100\n01zz\n")
    long, many = holding("long", b"00" * (LIMIT - 2) + b"\n"), holding("many", b"00\n" * 256)
    captured = wire.pcap(frames(wire.talk([(True, b"GET / HTTP/1.0\r\n\r\n")])))
    for path, taken, reasons in (
        ("/none", "cannot be read", ("No such file or directory",)),
        ("/", "cannot be read", ("Is a directory",)),
        ("", "cannot be read", ("No such file or directory",)),
        (holding("empty", b""), "neither a good case nor", ("it is empty", "no message in it")),
        (holding("cut", b"\x09\x00"), "neither a good case nor", ("name 9 messages, and it ends before their lengths do",)),
        (holding("more", b"\x01\x00\x02abc"), "neither a good case nor", ("1 messages of 2 bytes together, and 3 bytes follow",)),
        (text, "neither a good case nor", ("line 2 is not a message in hex: '01zz'",)),
        (many, "neither a good case nor", ("256 messages; a case has room for 255",)),
        (long, "a list of messages in hex, made into a case", ("it has 32,769 bytes, and a case has at most 32,768",)),
        (holding("http", captured), "a capture that gives no case", ("has a ClientHello",)),
        (holding("short", captured[:20]), "a capture that gives no case", ("24 bytes",)),
    ):
        for arguments, name in (((path, good), "first"), ((good, path), "second"), ((path, "/none"), "first")):
            said = run(*arguments)
            heads, lines, words = parts(said)
            assert said.returncode == 1 and lines == [f"{name} refused"] and "Traceback" not in said.stderr, said
            shown = str(path) or "the empty name"
            assert heads[name == "second"].startswith(f"{name}: {shown}: {taken}"), said
            assert all(reason in words[0] for reason in reasons), said


# ---- No verdict


def no_verdict(said, reason, lines=1):
    assert said.returncode == 1 and said.stdout == "" and said.stderr.count("\n") == lines, said
    assert said.stderr.splitlines()[-1].startswith("explain: ") and reason in said.stderr, said


def test_bytes_that_are_missing():
    """In clear text: no verdict. Where all is protected: it is said, and the two are compared."""
    talk = wire.talk(FLIGHTS)
    ends = [i for i, segment in enumerate(talk) if segment.payload]
    whole = holding("whole.pcap", wire.pcap(frames(talk)))
    for lost, status in ((ends[6], 1), (ends[-1], 0)):
        lacking = holding("lacking.pcap", wire.pcap(frames(talk[:lost] + talk[lost + 1 :])))
        for pair in ((lacking, whole), (whole, lacking)):
            said = run(*pair)
            assert said.returncode == status and f"explain: {lacking}: warning: " in said.stderr, said
            if status:
                assert said.stdout == "" and said.stderr.endswith(f"explain: no verdict: bytes are missing in {lacking}\n"), said
            else:
                assert "the two cases are equal" in said.stdout, said


def test_a_casediff_that_is_missing_or_says_something_else():
    """In a copy of the tools, without the program and with others in its place."""
    with tempfile.TemporaryDirectory() as folder:
        for part in ("tools", "oracle"):
            shutil.copytree(ROOT / part, pathlib.Path(folder, part))
        tool, program = pathlib.Path(folder, "tools/explain"), pathlib.Path(folder, "target/bin/casediff")
        no_verdict(run(*MAKERS, tool=tool), "target/bin/casediff is missing: 'tools/build casediff' proves and builds it")
        program.parent.mkdir(parents=True)
        for script, reason in (
            ("echo 'casediff: standard output: No space left on device' >&2", "status 0: casediff: standard output: No space"),
            ("exit 3", "casediff ended with status 3"),
            ("kill -9 $$", "casediff ended with status -9"),
            ("exit 0", "do not print the same"),
            ("echo 1 byte 3", "do not print the same"),
            ("printf '\\377'", "do not print the same"),
        ):
            program.write_text(f"#!/bin/sh\n{script}\n")
            program.chmod(0o755)
            no_verdict(run(*MAKERS, tool=tool), reason)
        program.chmod(0o644)
        no_verdict(run(*MAKERS, tool=tool), "Permission denied")


def test_missing_python():
    with tempfile.TemporaryDirectory() as bare:
        for tool in ("bash", "sh", "dirname", "readlink"):
            pathlib.Path(bare, tool).symlink_to(shutil.which(tool))
        no_verdict(subprocess.run([TOOL, *MAKERS], env={"PATH": bare}, capture_output=True, text=True), "python3 is not installed")


def test_what_cannot_be_written():
    no_verdict(run(*MAKERS, shell=">/dev/full"), "standard output: No space left on device")
    no_verdict(run(*MAKERS, shell=">&-"), "standard output: it is closed")
    no_verdict(run("--help", shell=">/dev/full"), "standard output: No space left on device")
    assert run(*MAKERS, shell="2>&-").stdout == run(*MAKERS).stdout != ""
    said = run(*MAKERS, shell="| true; exit ${PIPESTATUS[0]}")
    assert said.returncode in (0, 1) and "Traceback" not in said.stderr


def test_usage():
    for arguments in ((), ("a",), ("a", "b", "c"), ("--what", "a", "b")):
        said = run(*arguments)
        assert said.returncode == 2 and said.stdout == "" and said.stderr.startswith("usage: tools/explain FIRST SECOND\n"), said
    for asked in ("--help", "-h"):
        said = run(asked)
        assert said.returncode == 0 and NOTE in said.stdout and "tools/explain FIRST SECOND" in said.stdout, said


def test_where_it_is_called_from():
    said = run("openssl-client.pcap", "gnutls-client.pcap", cwd=CAPTURES, env={"PATH": os.environ["PATH"]})
    assert said.returncode == 0 and parts(said)[1] == TWO_MAKERS.splitlines()
