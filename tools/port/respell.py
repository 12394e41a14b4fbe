#!/usr/bin/env python3
"""Brings the names of this repository's definitions and lemmas to today's spelling: words in snake case, types in camel case.

usage: python3 tools/port/respell.py        at the top of the repository, once, right after /opt/rattle/port/port.py

Names of src/ stay, and so do names that Rattle makes for goals. The table of names, old and new, is written to
tools/port/names.tsv, and the kit's snake.py turns by it the code of .antt files, the clauses of .rt files and code spans of pages;
this script itself turns the edits of must-fail/.
"""

import collections
import glob
import os
import re
import subprocess
import sys

KIT = "/opt/rattle/port/notes/2026-11-18-names-are-in-snake-case/snake.py"
NAME = r"[^\s(){}\[\].;,@\"«»:λ]+"
WORD = re.compile(r'[^\s(){}.;,@"«»]+')
DEFINES = re.compile(r"^\s*(?:(?:unfoldable|abbrev|pub|data|record|mutual)\s+)*(" + NAME + r")(?: \{[^{}\n]*\}| \([^()\n]*\))* :(?=\s|$)(.*)")
# names of lists that lemmas join to others by a dash
JOINED = set("length take drop append set replicate map sum get_or paste".split())


def files():
    for p in sorted(glob.glob("crates/**/*.antt", recursive=True)):
        if "/out/" not in p:
            yield p


def code_of(text):
    text = re.sub(r"\{-.*?-\}", " ", text, flags=re.S)
    return re.sub(r"(?<![^\s(){}.;,])--[^\n]*", " ", text)


def definitions():
    """name -> set of files, of what the texts declare; the goals of a function's own proof are left out"""
    found = collections.defaultdict(set)
    for p in files():
        for line in code_of(open(p, encoding="utf8").read()).split("\n"):
            m = DEFINES.match(line)
            if m and not re.match(r"\s*(tie|goal)\.|.*\bstatement M$", m.group(2)):
                found[m.group(1)].add(p)
    return found


def humps(word):
    if word[:1].isupper():
        return word
    return re.sub(r"(?<=[a-z0-9])([A-Z])", lambda m: "_" + m.group(1).lower(), word)


def snake(name, functions):
    if re.search(r"[^\w'-]", name.replace("ℕ", "n")) or name.startswith("-"):
        return name
    parts = [humps(p) for p in name.split("-")]
    out = parts[0]
    for p in parts[1:]:
        left_is_type = out[:1].isupper() and "_" not in out
        joined = left_is_type or (out in JOINED or "_" in out and out in functions) and p in functions
        out += ("-" if joined else "_") + p
    return out


def tokens():
    seen = {}
    for p in files():
        seen[p] = set(WORD.findall(code_of(open(p, encoding="utf8").read())))
    return seen


def imported(p):
    names = set()
    for path, items in re.findall(r"^(?:pub )?use ([\w.+'-]+)\.\{([^}]*)\}", open(p, encoding="utf8").read(), flags=re.M):
        if path.startswith("Rattle.std") or not path.startswith("Rattle."):
            names |= set(items.replace(",", " ").split())
    return names


def main():
    found = definitions()
    functions = set(JOINED)
    for n, where in found.items():
        if any("/specs/" in p for p in where) and "-" not in n:
            functions.add(humps(n))
    table = {}
    for n in sorted(found):
        new = snake(n, functions)
        if new != n:
            table[n] = new
    # What falls together in one file: the definition has the name, and the lemma gets _lem.
    for p, words in sorted(tokens().items()):
        by = collections.defaultdict(set)
        for w in words:
            if w in found or w in imported(p):
                by[table.get(w, w)].add(w)
        for new, olds in sorted(by.items()):
            foreign = [w for w in olds if w not in found]
            if foreign:
                for w in olds - set(foreign):
                    if w in table:
                        table[w] = new + "_lem"
                        print(f"together with an import: {w} in {p}: {table[w]}")
            elif len(olds) > 1:
                keeps = sorted(olds, key=lambda w: (humps(w) == w, not any("/specs/" in q for q in found[w]), "-" in w, w))[0]
                for w in olds - {keeps}:
                    if not table.get(w, "").endswith("_lem"):
                        table[w] = new + "_lem"
                        print(f"together with {keeps}: {w} in {p}: {table[w]}")
    os.makedirs("tools/port", exist_ok=True)
    with open("tools/port/names.tsv", "w", encoding="utf8") as f:
        for n in sorted(table):
            f.write(f"{n}\t{table[n]}\n")
    print(f"{len(table)} names")
    if "--table" in sys.argv:
        return
    pages = ["README.md", "CHANGELOG.md", "CONTRIBUTING.md"] + sorted(glob.glob("docs/**/*.md", recursive=True))
    subprocess.run([sys.executable, KIT, "--table", "tools/port/names.tsv", "--only", "antt,rt", "crates"], check=True)
    subprocess.run([sys.executable, KIT, "--table", "tools/port/names.tsv", "--only", "md"] + [p for p in pages if os.path.exists(p)], check=True)
    for p in sorted(glob.glob("crates/*/must-fail/*.edit")):
        t = open(p, encoding="utf8").read()
        new = WORD.sub(lambda m: table.get(m.group(0), m.group(0)), t)
        if new != t:
            open(p, "w", encoding="utf8").write(new)


main()
