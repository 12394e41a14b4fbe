"""What the programs say where a read or a write fails. `loglist`, `replay` and `casediff` end with status 0 all the same, and say it
on standard error alone; nothing then stands on standard output that could be taken for an answer. Where `casediff` cannot read a
file, that case is refused (tests/test_casediff.py)."""

import os
import pathlib
import subprocess
import tty

ROOT = pathlib.Path(__file__).resolve().parent.parent
LOGLIST, REPLAY, CASEDIFF = (ROOT / "target/bin" / name for name in ("loglist", "replay", "casediff"))
SHA256 = ROOT / "target/examples/sha256"
CASE = (ROOT / "crates/loglist/stdin").read_bytes()


def run(program, redirection, data=b""):
    """The program as a shell runs it with these redirections."""
    return subprocess.run(["bash", "-c", f'"$0" {redirection}', program], input=data, capture_output=True)


def test_failed_reads():
    for program, name in ((LOGLIST, "loglist"), (REPLAY, "replay")):
        for redirection, reason in (("</", "Is a directory"), ("<&-", "Bad file descriptor")):
            said = run(program, redirection)
            assert said.stdout == b"" and said.stderr.decode() == f"{name}: standard input: {reason}\n", said


def test_half_a_case_and_then_a_failed_read():
    """A terminal whose other end is closed: what was written is read, and the next read fails."""
    for data in (b"", CASE[:-4], CASE):
        terminal, other = os.openpty()
        tty.setraw(other)
        os.write(other, data)
        os.close(other)
        said = subprocess.run([LOGLIST], stdin=terminal, capture_output=True)
        os.close(terminal)
        assert said.stdout == b"" and said.stderr == b"loglist: standard input: Input/output error\n", (data, said)


def test_a_case_in_pieces():
    """A short read is not the end: a case that comes byte by byte is the same case."""
    with subprocess.Popen([LOGLIST], stdin=subprocess.PIPE, stdout=subprocess.PIPE, stderr=subprocess.PIPE) as program:
        for i in range(len(CASE)):
            program.stdin.write(CASE[i : i + 1])
            program.stdin.flush()
        said = program.communicate()
    assert said == ((ROOT / "crates/loglist/stdout").read_bytes(), b"")


def test_failed_writes():
    script = (ROOT / "crates/replay/stdin").read_bytes()
    for program, name, arguments, data in (
        (LOGLIST, "loglist", "", CASE),
        (REPLAY, "replay", "", script),
        (CASEDIFF, "casediff", "/none /none", b""),  # first refused
        (CASEDIFF, "casediff", f"'{ROOT}/crates/loglist/stdin' <(printf '\\0')", b""),  # the messages of the first alone
    ):
        for redirection, reason in ((">/dev/full", "No space left on device"), (">&-", "Bad file descriptor")):
            said = run(program, f"{arguments} {redirection}", data)
            assert said.stderr.decode() == f"{name}: standard output: {reason}\n", said


def test_sha256():
    for arguments, reason in (
        ("/", "/: Is a directory"),
        ("/none", "/none: No such file or directory"),
        ("/dev/null >/dev/full", "standard output: No space left on device"),
        ("/dev/null >&-", "standard output: Bad file descriptor"),
    ):
        said = run(SHA256, arguments)
        assert said.returncode == 1 and said.stdout == b"" and said.stderr.decode() == reason + "\n", said
