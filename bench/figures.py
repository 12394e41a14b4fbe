#!/usr/bin/env python3
"""The figures of bench/run as tables, on standard output; with --write into docs/PERFORMANCE.md, and drawn in docs/plots.

    bench/figures.py [--write] target/bench/figures.tsv

A figure is the median of the runs, with the lowest and the highest of them. In docs/PERFORMANCE.md all that stands between
`<!-- bench: NAME -->` and `<!-- bench: end -->` is written here, and nothing else."""

import pathlib
import re
import statistics
import sys
import textwrap

from plot import plot

ROOT = pathlib.Path(__file__).resolve().parent.parent
DOCUMENT = ROOT / "docs/PERFORMANCE.md"
PLOTS = ROOT / "docs/plots"
HEADER = ROOT / "include/axle_gateway.h"

OURS, BEARSSL, MBEDTLS, BEFORE = "this library", "BearSSL", "mbedTLS", "before"
OPENSSL, MASKED = "OpenSSL, SHA instructions", "OpenSSL, no SHA instructions"
LENGTHS = {"64": "64 B", "1024": "1 KiB", "16384": "16 KiB"}
LENGTHS_384 = {"64": "64 B", "128": "128 B", "1024": "1 KiB", "16384": "16 KiB"}
SECRET, SECRET_384 = "extended master secret", "extended master secret, SHA-384"
LIBRARIES = [OURS, BEARSSL, OPENSSL, MASKED, MBEDTLS, BEFORE]
READERS = [OURS, "tls-parser", "rustls", BEFORE]
WRITERS = [*READERS[:-1], "by hand", BEFORE]
UNITS = [(1e6, "ms"), (1e3, "µs"), (1, "ns")]


class Figures:
    """What bench/run left: facts, the others' stack, and for each work, size and contestant a pair of each run, time and ratio."""

    def __init__(self, path):
        self.facts, self.stack, runs = {}, {}, {}
        for kind, *fields in (line.split("\t") for line in path.read_text().splitlines()):
            if kind == "fact":
                self.facts[fields[0]] = fields[1]
            elif kind == "stack":
                call, who, _, depth = fields
                self.stack[call, who] = max(int(depth), self.stack.get((call, who), 0))
            else:
                work, size, who, time, ratio = fields
                runs.setdefault((work, size, who), {}).setdefault(kind, (float(time), float(ratio)))
        self.runs = {key: list(of_run.values()) for key, of_run in runs.items()}
        self.number = max(map(len, self.runs.values()))

    def spread(self, work, size, who, ratio=False):
        """Median, lowest, highest of the runs; None where there is no such figure."""
        values = [pair[ratio] for pair in self.runs.get((work, size, who), [])]
        return (statistics.median(values), min(values), max(values)) if values else None

    def sizes(self, work):
        return sorted({size for of, size, _ in self.runs if of == work}, key=int)


def digits(value):
    """Three digits that count."""
    return f"{value:.0f}" if value >= 100 else f"{value:.1f}" if value >= 10 else f"{value:.2f}"


def time(spread):
    factor, unit = next(pair for pair in UNITS if spread[0] >= pair[0] or pair[1] == "ns")
    middle, lowest, highest = (digits(value / factor) for value in spread)
    return f"{middle} {unit} ({lowest} to {highest})"


def share(spread):
    """A ratio."""
    middle, lowest, highest = (f"{value:.2f}" if spread[0] >= 0.1 else f"{value:.4f}" for value in spread)
    return f"{middle} ({lowest} to {highest})"


def tick(ns):
    factor, unit = next((pair for pair in UNITS if ns >= pair[0]), UNITS[-1])
    return f"{ns / factor:g} {unit}"


def table(head, rows):
    lines = ["| " + " | ".join(row) + " |" for row in [head, *rows]]
    return "\n".join([lines[0], "|" + "---|" * len(head), *lines[1:]])


def contest(figures, first, rows, columns):
    """A row for each (words, work, size): our time, the others' ratios; a column for each contestant that has a figure."""
    keys = [(work, size) for _, work, size in rows]
    there = [who for who in columns if any(figures.spread(*key, who) for key in keys)]

    def cell(key, who):
        spread = figures.spread(*key, who, ratio=who != OURS)
        return "" if spread is None else time(spread) if who == OURS else share(spread)

    return table([first, *there], [[words, *(cell(key, who) for who in there)] for (words, _, _), key in zip(rows, keys)])


def growth(figures, first, work, columns):
    return contest(figures, first, [(f"{int(size):,}", work, size) for size in figures.sizes(work)], columns)


# ---- What stands in the document ---------------------------------------------------------------------------------------


def machine(figures):
    said = figures.facts
    libraries = ", ".join(f"{name} {said[name]}" for name in ("BearSSL", "OpenSSL", "mbedTLS", "tls-parser", "rustls"))
    counts = {name[len("SHA in ") :]: int(count) for name, count in said.items() if name.startswith("SHA in ")}
    having = " and ".join(name for name, count in counts.items() if count) or "none"
    lacking = ", ".join(name for name, count in counts.items() if not count)
    uses = OPENSSL in {who for _, _, who in figures.runs}
    where = "has them, and OpenSSL uses them in all of its rows but those of the column that says otherwise"
    paragraphs = [
        f"{figures.number} runs on {said['date']}: {said['processor']}, {said['cores']} cores, {said['memory']}, load {said['load']}"
        f" when they began and {said['load at the end']} when they ended (the bench itself makes 1); {said['system']}, gcc {said['gcc']},"
        f" rustc {said['rustc']}. This library is that of commit {said['commit']}. The others are Debian's packages: {libraries}.",
        f"SHA instructions (`sha256rnds2`, for SHA-256 alone) stand in the code of {having}; in that of {lacking} there are none. This"
        f" processor {where if uses else 'has none, so no row uses them'}.",
    ]
    return "\n\n".join(textwrap.fill(paragraph, 135, break_on_hyphens=False, break_long_words=False) for paragraph in paragraphs)


def work(figures):
    rows = [(f"SHA-256 of {words}", "SHA-256", size) for size, words in LENGTHS.items()]
    rows += [("HMAC-SHA-256 of 64 B", "HMAC-SHA-256", "64"), ("extended master secret, SHA-256", SECRET, "")]
    rows += [(f"SHA-384 of {words}", "SHA-384", size) for size, words in LENGTHS_384.items()]
    rows += [("HMAC-SHA-384 of 64 B", "HMAC-SHA-384", "64"), (SECRET_384, SECRET_384, "")]
    return contest(figures, "work", rows, LIBRARIES)


def hello(figures):
    rows = [
        ("reading a ClientHello of 300 B with 10 extensions", "reading a ClientHello", "300"),
        ("writing that ClientHello", "writing a ClientHello", "300"),
        ("writing one of 16,388 B with 4,085 extensions", "writing a ClientHello", "16388"),
    ]
    return contest(figures, "work", rows, WRITERS)


def sessions(figures):
    works = [
        "look-up in a full table, each session in turn",
        "store in a full table, the axle's own oldest goes",
        "store in a full table of 8, 8, 8, 8, 0, 0 by axle 6",
        "store in an empty table",
        "withdrawal from a full table, each session in turn",
        "number held in a full table, each axle in turn",
    ]
    return contest(figures, "work", [(name, name, "") for name in works], LIBRARIES)


def left(figures):
    name = "quiet sessions left"
    whose = [who for of, _, who in figures.runs if of == name]
    rows = [[size, *(f"{figures.spread(name, size, who)[0]:.0f}" for who in dict.fromkeys(whose))] for size in figures.sizes(name)]
    return table(["sessions of the quiet five", *dict.fromkeys(whose)], rows)


def aims(figures):
    fast = [("SHA-256", size, f"SHA-256 of {words}", 1.05) for size, words in LENGTHS.items()]
    fast += [("SHA-384", "128", "SHA-384 of 128 B", 1.0), ("SHA-384", "16384", "SHA-384 of 16 KiB", 1.05)]
    fast += [(SECRET, "", "extended master secret, SHA-256", 1.05), (SECRET_384, "", SECRET_384, 1.05)]
    rows = []
    for of, size, words, least in fast:
        met = sum(pair[1] >= least for pair in figures.runs[of, size, BEARSSL])
        aim = f"{words}: BearSSL takes {least:.2f} of our time or more"
        rows.append([aim, share(figures.spread(of, size, BEARSSL, True)), f"{met} of {figures.number}"])
    reading = "reading a ClientHello", "300", OURS
    met = sum(pair[0] < 2000 for pair in figures.runs[reading])
    rows.append(["a hello of 300 B in under 2 µs", time(figures.spread(*reading)), f"{met} of {figures.number}"])
    return table(["aim", "measured", "runs that meet it"], rows)


def by_extensions(figures):
    return growth(figures, "extensions", "reading by extensions", READERS)


def by_length(figures):
    return growth(figures, "bytes", "feeding a hash", LIBRARIES)


def by_message(figures):
    """A message that a log accepts: with both hashes, and with the one that was chosen; each beside an earlier build, where it has that."""
    works = {"both hashes": "a log before the choice", "SHA-256": "a log with SHA-256", "SHA-384": "a log with SHA-384"}
    sizes = figures.sizes(works["both hashes"])
    head, rows = ["bytes"], [[f"{int(size):,}"] for size in sizes]
    for words, work in works.items():
        earlier = figures.spread(work, sizes[0], BEFORE) is not None
        head += [words, BEFORE] if earlier else [words]
        for row, size in zip(rows, sizes):
            row.append(time(figures.spread(work, size, OURS)))
            row += [share(figures.spread(work, size, BEFORE, True))] if earlier else []
    return table(head, rows)


def by_parts(figures):
    """A message that enters the log by parts, beside the single call, with either hash."""
    rows = []
    for name in ("SHA-256", "SHA-384"):
        work = f"a Certificate by parts, {name}"
        for size in figures.sizes(work):
            calls = figures.spread(f"parts of a Certificate, {name}", size, OURS)[0]
            longest, all_calls = (time(figures.spread(of, size, OURS)) for of in (f"the longest part, {name}", work))
            rows.append([name, size, f"{calls:.0f}", longest, all_calls, share(figures.spread(work, size, OURS, True))])
        single = time(figures.spread(work, rows[-1][1], "single call"))
        rows.append([name, "single call", "1", single, single, ""])
    return table(["hash", "allowance, blocks", "calls", "the longest call", "all calls", "all calls over the single call"], rows)


def by_sessions(figures):
    works = ["store by axle 6", "look-up of the youngest", "number held"]
    rows = [[size, *(time(figures.spread(work, size, OURS)) for work in works)] for size in figures.sizes(works[0])]
    others = [share(figures.spread(works[1], row[0], who, True)) for row in rows for who in (BEARSSL, MBEDTLS)]
    rows = [[*row, *others[2 * i : 2 * i + 2]] for i, row in enumerate(rows)]
    return table(["sessions", *works, f"{BEARSSL}'s look-up", f"{MBEDTLS}'s look-up"], rows)


def worst(figures):
    spread = figures.spread("reading by extensions", "4085", OURS)
    second = f"{1e9 / spread[0]:,.0f} of them a second fill a core"
    return f"4,085 extensions in one ClientHello of 16,388 bytes take {time(spread)} to read: {second}."


def stack(figures):
    """The limits are the header's; the column of what was before is taken over as it stands."""
    limits = re.findall(r"\bAXLE_STACK_(\w+) = (\d+)", HEADER.read_text())
    before = dict(re.findall(r"^\| `(axle_\w+)` \| [\d,]+ \| ([\d,]*) \|", DOCUMENT.read_text(), re.M))
    rows = []
    for name, limit in limits:
        call = f"axle_{name.lower()}"
        others = (figures.stack.get((call, who)) for who in (BEARSSL, MBEDTLS))
        rows.append([f"`{call}`", f"{int(limit):,}", before.get(call, ""), *(f"{depth:,}" if depth else "" for depth in others)])
    return table(["call", "limit, bytes", "before order 5", BEARSSL, MBEDTLS], rows)


PARTS = {
    "machine": machine,
    "work": work,
    "hello": hello,
    "sessions": sessions,
    "left": left,
    "aims": aims,
    "extensions": by_extensions,
    "worst": worst,
    "length": by_length,
    "message": by_message,
    "parts": by_parts,
    "held": by_sessions,
    "stack": stack,
}


# ---- Plots -------------------------------------------------------------------------------------------------------------


def line(figures, work, who):
    return [(int(size), figures.spread(work, size, who)) for size in figures.sizes(work) if figures.spread(work, size, who)]


def plots(figures):
    def of(work, columns):
        return {who: line(figures, work, who) for who in columns if who != BEFORE and line(figures, work, who)}

    held = {"store by axle 6": line(figures, "store by axle 6", OURS), "number held": line(figures, "number held", OURS)}
    held |= {f"look-up, {who}": line(figures, "look-up of the youngest", who) for who in (OURS, BEARSSL, MBEDTLS)}
    return {
        "extensions.svg": plot("Reading a ClientHello", "extensions", tick, of("reading by extensions", READERS)),
        "length.svg": plot("Hashing: fresh, absorb, digest", "bytes", tick, of("feeding a hash", LIBRARIES)),
        "sessions.svg": plot("The session table", "sessions held", tick, held, log=False),
    }


def write(figures):
    text = DOCUMENT.read_text()
    for name, part in PARTS.items():
        whole = re.compile(rf"(<!-- bench: {name} -->\n).*?(<!-- bench: end -->)", re.S)
        text, found = whole.subn(lambda match: f"{match[1]}{part(figures)}\n{match[2]}", text)
        if found != 1:
            sys.exit(f"bench/figures.py: {DOCUMENT.name} has {found} places for `{name}`")
    PLOTS.mkdir(exist_ok=True)
    for name, picture in plots(figures).items():
        (PLOTS / name).write_text(picture)
    DOCUMENT.write_text(text)


def main(arguments):
    figures = Figures(pathlib.Path(arguments[-1]))
    if "--write" in arguments:
        write(figures)
    for part in PARTS.values():
        print(part(figures), end="\n\n")


if __name__ == "__main__":
    main(sys.argv[1:])
