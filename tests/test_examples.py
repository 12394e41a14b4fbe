"""examples/: the C programs, as tools/build left them, and examples/run with what it says."""

import re
import contextlib
import hashlib
import os
import pathlib
import shutil
import subprocess
import sys
import tempfile

from oracle.loglist import loglist
from tests import wire
from tests.test_tools import FLIGHTS, frames

ROOT = pathlib.Path(__file__).resolve().parent.parent
BUILT, RUN, CAPTURES = ROOT / "target/examples", ROOT / "examples/run", ROOT / "tests/data/captures"
SAMPLE = ROOT / "examples/cases/full-handshake.txt"


def test_sha256_of_files():
    for data in (b"", b"abc", bytes(range(256)) * 100):
        with tempfile.NamedTemporaryFile() as file:
            file.write(data)
            file.flush()
            said = subprocess.run([BUILT / "sha256", file.name], capture_output=True, text=True, check=True).stdout
        assert said == f"{hashlib.sha256(data).hexdigest()}  {file.name}\n"


def test_sha256_refuses_what_is_too_long():
    with tempfile.NamedTemporaryFile() as file:
        file.write(bytes(1_048_577))
        file.flush()
        run = subprocess.run([BUILT / "sha256", file.name], capture_output=True, text=True)
    assert run.returncode == 1 and run.stdout == "" and "refused with 10" in run.stderr


def test_handshake():
    said = subprocess.run([BUILT / "handshake"], capture_output=True, text=True, check=True).stdout
    assert said.splitlines() == [
        "full handshake, 11 bytes of reply",
        "completed: 1, axle 3 holds 1",
        "resumed handshake, 11 bytes of reply",
        "completed: 1",
    ]


# ---- examples/run. Only the first test has the kit prove; in the others a stand-in for `rt` notes that it was called.


def in_words(text):
    """The lines of the table without and with their words."""
    lines = text.split("\n\n")[0].splitlines()
    at = lines[0].index("in words")
    return [line[:at].rstrip() for line in lines], [line[at:] for line in lines]


def test_run_on_the_sample():
    said = subprocess.run([RUN], capture_output=True, text=True)
    assert said.returncode == 0, said
    plain, words = in_words(said.stdout)
    made = subprocess.run([ROOT / "tools/make-case", SAMPLE], capture_output=True, check=True).stdout
    assert plain == loglist(made).splitlines() and plain[-2:] == ["9 20 8 -", "10 20 8 -"]
    assert words[1] == "ClientHello: accepted; the server's decision: done" and words[-1] == "Finished: refused, 8: Finished value differs"
    assert said.stdout.count("\n\n") == 1 and "48 zero bytes" in said.stdout.splitlines()[-1]
    assert said.stderr.startswith("proving loglist: ")


@contextlib.contextmanager
def stand_in(script='echo "rt: running out/loglist"'):
    """A folder with an `rt` of these lines, which leaves the file `called` there."""
    with tempfile.TemporaryDirectory() as folder:
        rt = pathlib.Path(folder, "rt")
        rt.write_text(f"#!/bin/sh\n: >'{folder}/called'\n{script}\n")
        rt.chmod(0o755)
        yield pathlib.Path(folder)


def run(*arguments, path, cwd=ROOT, shell=""):
    command = ["bash", "-c", f'"$0" "$@" {shell}', RUN, *map(str, arguments)]
    return subprocess.run(
        command, cwd=cwd, env={**os.environ, "PATH": f"{path}:{os.environ['PATH']}"}, capture_output=True, text=True
    )


def test_captures_and_where_it_is_called_from():
    with stand_in() as path:
        for name, last in (("tcpdump-ethernet.pcap", "9 15 0 -"), ("dumpcap-two-interfaces.pcapng", "5 16 0 -")):
            said = run(name, path=path, cwd=CAPTURES)
            assert said.returncode == 0 and in_words(said.stdout)[0][-1] == last, said
        said = run("tcpdump-http-first.pcap", "--connection", "3", path=path, cwd=CAPTURES)
        assert in_words(said.stdout)[0] == ["message type log hello", "1 1 0 0", "2 2 0 -"], said
        shutil.copy(SAMPLE, path / "own.txt")
        said = run("own.txt", path=path, cwd=path)
        assert said.returncode == 0 and in_words(said.stdout)[0][-1] == "10 20 8 -", said
        said = run(SAMPLE.with_name("resumed-handshake.txt"), path=path)
        assert in_words(said.stdout)[0][-2:] == ["3 20 7 -", "4 20 7 -"] and "resumes" in said.stdout.splitlines()[-1], said


def test_a_failed_input_is_no_verdict():
    """It is judged before anything is proved, and nothing stands on standard output."""
    talk = wire.talk(FLIGHTS)
    with stand_in() as path:
        files = {
            "empty": b"",
            "bad": b"01zz\n",
            "zip": b"PK\x03\x04",
            "long": b"00" * 40_000 + b"\n",
            "gap.pcap": wire.pcap(frames(talk[:30] + talk[31:])),
            "cut.pcap": wire.pcap(frames(talk))[:2000],
        }
        for name, data in files.items():
            (path / name).write_bytes(data)
        for name in (*files, "none", path, CAPTURES / "tcpdump-snap200.pcap"):
            said = run(name, path=path, cwd=path)
            assert said.returncode == (3 if name in ("gap.pcap", "cut.pcap") else 1), (name, said)
            assert said.stdout == "" and "examples/run: no verdict: " in said.stderr and "Traceback" not in said.stderr, said
        assert run(SAMPLE, "more", path=path).returncode == 2
        assert not (path / "called").exists()
        last = max(
            i for i, s in enumerate(talk) if s.payload
        )  # lost where everything is protected: said, and listed all the same
        (path / "late.pcap").write_bytes(wire.pcap(frames(talk[:last] + talk[last + 1 :])))
        said = run("late.pcap", path=path, cwd=path)
        assert said.returncode == 0 and "what is in clear text is whole" in said.stderr and said.stdout, said


def test_missing_tools():
    with stand_in() as path:
        bare = path / "bare"
        bare.mkdir()
        for tool in ("bash", "sh", "dirname", "readlink", "mktemp", "rm", "mkdir", "tee", "cat", "wc"):
            (bare / tool).symlink_to(shutil.which(tool))
        for missing in ("python3", "rt"):
            if missing == "rt":
                (bare / "python3").symlink_to(sys.executable)
            said = subprocess.run([RUN], env={"PATH": str(bare)}, capture_output=True, text=True)
            assert said.returncode == 1 and said.stdout == "" and said.stderr.count("\n") == 1, said
            assert said.stderr.startswith(f"examples/run: no verdict: {missing}") and "PATH" in said.stderr


def test_progress():
    lines = []
    for name, checked, verdict in (("seqs", 0, "proved functions=0"), ("refusal", 3, "proved functions=2"), ("message", 5, "not-proved")):
        lines += [f"crate {name}: modules loaded=9 checked={checked}", f"logic={verdict}"]
    with stand_in("\n".join(f"echo '{line}'" for line in lines) + "\necho crash >&2\nexit 1") as path:
        said = run(path=path)
        assert said.returncode == 1 and said.stdout == "" and "loglist is not proved" in said.stderr
        told = said.stderr.splitlines()
        assert (
            told[0].startswith("proving loglist: ")
            and re.match(r"  refusal proved \(\d+ s\); ", told[1])
            and told[1].endswith(" loglist")
        )
        crates = int(told[0].split()[2])
        assert f"; {crates - 2} left: " in told[1] and re.search(r"message NOT PROVED \(\d+ s\); ", told[2])
        assert len(told[1].split("left: ")[1].split()) == crates - 2
        assert told[3] == "  1 of them were proved before and are unchanged"
        assert (ROOT / "target/run.log").read_text().endswith("crash\n")


def test_failed_writes_of_run():
    with stand_in() as path:
        for shell, reason in ((">/dev/full", "No space left on device"), (">&-", "standard output is closed")):
            said = run(path=path, shell=shell)
            assert said.returncode == 1 and reason in said.stderr and "Traceback" not in said.stderr, said


def test_words():
    """Every number and type has its words, and what is no list of loglist's gets none."""

    def words(text):
        return subprocess.run([ROOT / "examples/words"], input=text, capture_output=True, text=True)

    header = "message type log hello"
    columns = ["0", "1:3", "2:51", *(str(n) for n in range(3, 13))]
    rows = [
        f"{i} {kind} {log} {hello}"
        for i, (kind, log, hello) in enumerate(
            [("-", "1:0", "-"), *((k, columns[k % 13], "-") for k in range(256)), *((1, 0, column) for column in columns)], 1
        )
    ]
    said = words("\n".join([header, *rows]) + "\n")
    plain, told = in_words(said.stdout)
    assert said.returncode == 0 and plain == [header, *rows]
    assert (
        told[1] == "no bytes: refused, 1: malformed message, at place 0"
        and told[2] == "HelloRequest: accepted"
        and told[9] == "a type without a name: refused, 7: out of turn"
    )
    ours = "ClientHello: accepted; the server's decision: "
    assert told[-11] == ours + "refused, 2: extension type twice in a hello, at place 51"
    assert told[-2] == ours + "refused, 11: axle not 1 to 6, or identifier not 1 to 32 bytes"
    assert told[-1] == ours + "refused, 12: suite of a resuming ServerHello differs from the session's"
    notes_of = {"1 20 0 -": (), "1 2 7 -": (), "1 20 1:1 -": (), "1 20 7 -": ("resumes",), "1 20 8 -": ("48 zero bytes",)}
    for row, notes in notes_of.items():
        _, *told = words(f"{header}\n{row}\n").stdout.split("\n\n")
        assert len(told) == len(notes) and all(note in text for note, text in zip(notes, told)), row
    header_text = (ROOT / "include/axle_gateway.h").read_text()
    numbers = re.findall(r"AXLE_\w+ = (\d+)", header_text[header_text.index("AXLE_DONE = 0") :].split("};")[0])
    assert numbers == [str(n) for n in range(13)]
    for text in (
        "",
        "hello\n",
        f"{header}\n1 1 0\n",
        f"{header}\n1 1 13 -\n",
        f"{header}\n1 1 1 -\n",
        f"{header}\n1 1 0 2\n",
        f"{header}\n1 1 0 1:\n",
        f"{header}\n1 1 7:0 -\n",
        f"{header}\n1 1 0 0 \n",
        f"{header}\ncontents refused\n",
    ):
        said = words(text)
        assert said.returncode == 1 and said.stdout == "" and said.stderr.startswith("words: "), (text, said)
