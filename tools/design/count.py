#!/usr/bin/env python3
"""Counts the places of docs/DESIGN-PASS.md in crates/*/src: tools/design/count.py [COMMIT], of a commit or of the files here.

Each point is a list of `file:line: text` (-l shows it); a place that stays has a comment beside it that begins `// Kept:`, which this doesn't look at."""
import difflib
import glob
import re
import subprocess
import sys


def sources(commit):
    if commit is None:
        return {p: open(p).read() for p in sorted(glob.glob("crates/*/src/*.rt"))}
    names = subprocess.check_output(["git", "ls-tree", "-r", "--name-only", commit, "crates"], text=True).split()
    return {p: subprocess.check_output(["git", "show", f"{commit}:{p}"], text=True) for p in names if re.match(r"crates/[^/]*/src/.*\.rt$", p)}


GHOST = re.compile(r"^\s*(ghost|requires|ensures|//)")
LINES = {
    "1 own enums": r"\benum [A-Z]",
    "1 a flag with a value beside it": r"^\s*(pub )?(indicated|found|lent|failed|withdrawn|complete)\b.*: (u8|bool)",
    "1 numbers for refusals": r"\brefuse(_at)?\((\d|number)|return (1|2|3|5|7|9|10|11|12);|unexpected\(\d|answer\(number|number != 0",
    "1 numbers for none or outside": r"return 0;|NOWHERE|Part \{ at: 0, length: 0 \}|row\.size == 0|Row::blank\(\)|TYPES\b|place != 0|\.at != 0",
    "1 numbers for kinds": r"^(pub\(crate\) )?const [A-Z_0-9]+: (u8|usize) = \d+;$|^\s*(_|\d+|[A-Z_]+) => ",
    "3 loops": r"^\s*('[a-z]+: )?(while|loop)\b",
    "4 by hand": r"fn (same|is_[a-z_]*|uses_ems|number_of|decimal_of|digit|flag|byte|yes)\b|if [a-z_.]+ == 0 \{ 0 \} else \{ 1 \}|if [a-z_]+ \{ 1 \} else \{ 0 \}",
    "6 a buffer with its length beside": r"^\s*pub (bytes|rows|identifier|tail|hash): \[",
    "7 a switch on a step": r"^\s*match [a-z_.]+ \{",
}


def functions(text):
    """name, first line, text of each function with a body, without comments and clauses; not those of an `impl` of a trait, whose
    methods are what the trait's instances have of their own"""
    lines = text.split("\n")
    of_trait = False
    for i, line in enumerate(lines):
        if re.match(r"^(pub )?(impl|trait)\b", line):
            of_trait = bool(re.match(r"^(pub )?trait\b|^impl\b.* for ", line))
        elif line == "}":
            of_trait = False
        m = re.match(r"^(\s*)(pub(\(crate\))? )?(extern \"C\" )?fn ([a-z_0-9]+)", line)
        if not m or of_trait:
            continue
        body = []
        for j in range(i, len(lines)):
            if not GHOST.match(lines[j]):
                body.append(lines[j].strip())
            if lines[j] == m.group(1) + "}" or (j > i and lines[j].startswith(m.group(1) + "}")):
                break
        yield m.group(5), i + 1, " ".join(body)


def plain(body):
    body = re.sub(r"0x[0-9a-f]+|\b\d+\b", "N", body)
    body = re.sub(r"\b(u8|u16|u32|u64|usize)\b", "T", body)
    return re.sub(r"(?<=[A-Za-z_])(256|384|8|16|32|64)\b", "", body)


def twins(files):
    """pairs of functions that differ in names of types, sizes and numbers alone, or nearly so"""
    every = [(p, n, l, plain(b)) for p, t in files.items() for n, l, b in functions(t)]
    every = [e for e in every if len(e[3]) > 60]
    for i, (p, n, l, b) in enumerate(every):
        for q, m, k, c in every[i + 1 :]:
            x, y = re.sub(r"\b(Server|Client|server|client)\w*", "S", b), re.sub(r"\b(Server|Client|server|client)\w*", "S", c)
            if abs(len(x) - len(y)) < 0.2 * len(x) and difflib.SequenceMatcher(None, x, y, False).ratio() > 0.9:
                yield f"{p}:{l}: {n}, {q}:{k}: {m}"


TOGETHER = [("out", "at"), ("types", "lengths", "data"), ("connection", "switches"), ("indicated", "indication"), ("label", "seed"), ("a", "b", "c"), ("axle", "identifier"), ("message", "at"), ("worked256", "worked384"), ("kind", "place", "sha384")]


def facts(files):
    """facts that stand in the `requires` of three functions or more"""
    where = {}
    for path, text in files.items():
        for m in re.finditer(r"requires (?:\w+ )?\{ (.*) \}", text):
            for fact in m.group(1).split(" × "):
                where.setdefault(fact.strip().strip("()"), []).append(f"{path}:{text.count(chr(10), 0, m.start()) + 1}: {fact}")
    return [place for places in where.values() if len(places) >= 3 for place in places]


def together(files):
    """functions whose parameters hold a group that always travels together"""
    for path, text in files.items():
        if "/gateway/" in path:
            continue  # C passes each by itself
        for m in re.finditer(r"fn (\w+)(?:<[^>]*>)?\(([^)]*)\)", text, re.S):
            names = re.findall(r"(\w+):", m.group(2))
            for group in TOGETHER:
                if set(group) <= set(names):
                    yield f"{path}:{text.count(chr(10), 0, m.start()) + 1}: {m.group(1)}({', '.join(group)})"


def count(files):
    found = {point: [] for point in LINES}
    for path, text in files.items():
        lines = text.split("\n")
        for i, line in enumerate(lines):
            for point, pattern in LINES.items():
                if not GHOST.match(line) and re.search(pattern, line):
                    found[point].append(f"{path}:{i + 1}: {line.strip()}")
    found["2 twins"] = list(twins(files))
    found["5 facts in three contracts or more"] = facts(files)
    found["5 parameters together"] = list(together(files))
    return found


if __name__ == "__main__":
    full = "-l" in sys.argv
    words = [w for w in sys.argv[1:] if w != "-l"]
    found = count(sources(words[0] if words else None))
    for point in sorted(found):
        print(f"{point}: {len(found[point])}")
        if full:
            print("".join(f"    {place}\n" for place in found[point]), end="")
