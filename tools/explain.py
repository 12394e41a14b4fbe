"""Two cases side by side: what `casediff` prints for them, and beside each line in words what it is about.

  tools/explain FIRST SECOND

Each of the two is a case in the layout of `loglist`, which is used as it is; or, where it is no good case, whatever tools/make-case
takes: a list of messages in hex or a capture (the first connection that has a ClientHello). It is said what it was taken for.

The lines on the left are casediff's, which is proved. The words on the right are not proved.

Exit status: 0 compared, whatever came out; 1 no verdict, for the reason said; 2 usage.
"""

import argparse
import contextlib
import functools
import io
import pathlib
import subprocess
import sys
import tempfile
from typing import NamedTuple

ROOT = pathlib.Path(__file__).resolve().parent.parent
sys.path.insert(0, str(ROOT))

import make_case  # noqa: E402  (the paths lead to these)
import names  # noqa: E402
from oracle.casediff import casediff, readable  # noqa: E402
from oracle.loglist import LIMIT, contents  # noqa: E402

PROGRAM = ROOT / "target/bin/casediff"
NOTE = "The lines on the left are casediff's, which is proved. The words on the right are not proved."
ABOUT = {  # the fields in a ClientHello and in a ServerHello
    "version": ("version", "version"),
    "random": ("random", "random"),
    "identifier": ("session identifier", "session identifier"),
    "suites": ("cipher suites", "cipher suite"),
    "methods": ("compression methods", "compression method"),
}
SHOWN = 8  # bytes of a value


class NoVerdict(Exception):
    """The two are not compared, and the text says why."""


def say(text):
    if sys.stderr is not None:
        print(f"explain: {text}", file=sys.stderr)


# ---- What a file is taken for


class Taken(NamedTuple):
    words: str
    held: bytes  # the case; where there is none, what the file has; None where it cannot be read
    fault: str  # why casediff refuses it, or nothing


def fault(data):
    """Why the contents are bad, or nothing."""
    if contents(data) is not None:
        return ""
    if not data:
        return "it is empty"
    if len(data) > LIMIT:
        return f"it has {len(data):,} bytes, and a case has at most {LIMIT:,}"
    count, start = data[0], 1 + 2 * data[0]
    if len(data) < start:
        return f"its contents name {count} messages, and it ends before their lengths do"
    stated = sum(int.from_bytes(data[at : at + 2], "big") for at in range(1, start, 2))
    return f"its contents name {count} messages of {stated:,} bytes together, and {len(data) - start:,} bytes follow them"


def take(path):
    try:
        data = make_case.read(path)
    except make_case.Refused as refused:
        return Taken("cannot be read", None, str(refused))
    if contents(data) is not None:
        return Taken("a case", data, "")
    capture, said = make_case.is_capture(data), io.StringIO()
    words = "a capture" if capture else "a list of messages in hex"
    try:
        with contextlib.redirect_stderr(said):
            case, status = make_case.from_capture(data, None) if capture else (make_case.case(make_case.from_hex(data)), 0)
    except (make_case.Refused, make_case.Unreadable) as refused:
        if capture:
            return Taken("a capture that gives no case", data, str(refused))
        return Taken("neither a good case nor a list nor a capture", data, f"as a case: {fault(data)}; as a list: {refused}")
    finally:
        for line in said.getvalue().splitlines():
            say(f"{make_case.shown(path)}: {line.removeprefix('make-case: ')}")
    if status == make_case.SHORT:
        raise NoVerdict(f"bytes are missing in {make_case.shown(path)}")
    return Taken(f"{words}, made into a case", case, fault(case))


# ---- What casediff prints


def compared(taken):
    """Its lines for the two. The second program must print them too: of these the words are made."""
    with tempfile.TemporaryDirectory() as folder:
        paths = [pathlib.Path(folder, name) for name in ("first", "second")]
        for path, (_, held, _) in zip(paths, taken):
            if held is not None:
                path.write_bytes(held)
        try:
            said = subprocess.run([PROGRAM, *paths], capture_output=True)
        except FileNotFoundError:
            raise NoVerdict("target/bin/casediff is missing: 'tools/build casediff' proves and builds it") from None
    if said.returncode or said.stderr:
        raise NoVerdict(f"casediff ended with status {said.returncode}: {ascii(said.stderr.decode('latin-1').strip())[1:-1]}")
    if said.stdout.decode("latin-1") != casediff(*(held for _, held, _ in taken)):
        raise NoVerdict("casediff and the second program (python3 -m oracle.casediff) do not print the same")
    return said.stdout.decode().splitlines()


# ---- The words

hello = functools.cache(readable)  # there is a line for each of thousands of extensions, maybe


@functools.cache
def extensions(message):
    return dict(hello(message).extensions)


def named(*messages):
    """The message's name; both where they differ."""
    return " against ".join(dict.fromkeys(names.message(m[0] if m else None) for m in messages))


def in_hex(value):
    """All of a short value, the beginning of a long one."""
    return f"{value[:SHOWN].hex()}.. ({len(value)} bytes)" if len(value) > SHOWN else value.hex() or "empty"


def in_suites(value):
    """The same in numbers of two bytes."""
    return value[:SHOWN].hex(" ", 2) + (f" .. ({len(value) // 2} suites)" if len(value) > SHOWN else "")


def byte_words(messages, place):
    first, second = (m[place : place + 1].hex() or "ends here" for m in messages)
    return f": first {first}, second {second}{' (in the header)' if place < 4 else ''}"


def field_words(messages, name):
    values = [getattr(hello(m), name) for m in messages]
    show = {"version": "{:04x}".format, "suites": in_suites}.get(name, in_hex)
    return f", {ABOUT[name][messages[0][0] - 1]}: first {show(values[0])}, second {show(values[1])}"


def extension_words(messages, kind):
    first, second = (extensions(m).get(int(kind)) for m in messages)
    about = f", {names.extension(int(kind))}: "
    if first is None or second is None:
        return f"{about}only in the {'first' if second is None else 'second'}"
    return f"{about}first {in_hex(first)}, second {in_hex(second)}"


def words(line, cases):
    """What a line of casediff's says. cases: the messages of either."""
    number, kind, *rest = line.split()
    messages = [case[int(number) - 1] for case in cases if int(number) <= len(case)]
    if kind in ("first", "second"):
        said = f": only in the {kind}"
    elif kind == "byte":
        said = byte_words(messages, int(*rest))
    else:
        said = (field_words if kind == "field" else extension_words)(messages, *rest)
    return named(*messages) + said


def table(lines, taken):
    if not lines:
        return "the two cases are equal: casediff prints nothing\n"
    bad = dict(zip(("first refused", "second refused"), (fault for _, _, fault in taken)))
    if lines[0] in bad:
        rows = [(lines[0], bad[lines[0]])]
    else:
        cases = [contents(held) for _, held, _ in taken]
        rows = [(line, words(line, cases)) for line in lines]
    width = max(len(line) for line in [*lines, "casediff"]) + 2
    return "".join(f"{line:{width}}{said}\n" for line, said in [("casediff", "in words"), *rows])


def explained(paths):
    """What goes to standard output, and the status."""
    taken = [take(path) for path in paths]
    lines = compared(taken)
    heads = [f"{name}: {make_case.shown(path)}: {of.words}\n" for name, path, of in zip(("first", "second"), paths, taken)]
    refused = any(line.endswith("refused") for line in lines)
    return f"{''.join(heads)}\n{table(lines, taken)}\n{NOTE}\n", 1 if refused else 0


def arguments():
    parser = argparse.ArgumentParser(prog="tools/explain", usage="%(prog)s FIRST SECOND", add_help=False)
    parser.add_argument("files", nargs="*")
    parser.add_argument("-h", "--help", action="store_true")
    asked = parser.parse_args()
    if not asked.help and len(asked.files) != 2:
        parser.error("two files, please")
    return asked


def main():
    asked = arguments()
    try:
        text, status = (__doc__, 0) if asked.help else explained(asked.files)
        return status if make_case.write(text.encode(), say) else 1
    except NoVerdict as reason:
        say(f"no verdict: {reason}")
    except MemoryError:
        say("no verdict: too large for this machine's memory")
    except KeyboardInterrupt:
        say("no verdict: interrupted")
    except OSError as failure:
        say(f"no verdict: {failure.filename or 'a file in between'}: {failure.strerror}")
    return 1


if __name__ == "__main__":
    sys.exit(main())
