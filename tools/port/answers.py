#!/usr/bin/env python3
"""Turns the Proof.antt of each function of a crate into Invariants.antt and Answers.antt.

usage: python3 tools/port/answers.py CRATE [FUNCTION..]      at the top of the repository

It asks `rt check --generated DIR --old-names` for the names of goals and steps, old and new. Answers that only call a tactic that the
check tries itself are left out. A line that begins 'look:' names what has to be read by hand. Where a Proof.antt was moved aside
already, it is taken from git (HEAD).
"""

import json
import os
import re
import subprocess
import sys
import tempfile

TRIVIAL = {"search rules", "omega arith", "refl", "tt"}
TOK = r"[^\s(){}\[\].;,@\"«»:]+"


def parameters(crate, path):
    """the names of the parameters of the function at path, from src/"""
    parts = path.split("/")
    fn = parts[-1].lstrip("+")
    files = sorted(os.listdir(f"crates/{crate}/src"), key=lambda p: p[:-3] not in parts)
    for p in files:
        t = open(f"crates/{crate}/src/{p}", encoding="utf8").read()
        m = re.search(rf"\bfn {re.escape(fn)}(?:<[^>]*>)?\(([^)]*)\)", t)
        if m:
            names = []
            for a in m.group(1).split(","):
                a = a.strip()
                if a:
                    names.append("self" if a.replace("&", "").replace("mut ", "").strip() == "self" else a.split(":")[0].replace("mut ", "").strip())
            clauses = re.findall(r"\brequires (\w+) \{", t[m.end() :].split("\n{\n")[0].split("\n    {\n")[0])
            return names, clauses
    return [], []


def canon(name):
    return name.replace("_", "-").replace("overflow-", "")


def split(text):
    """comment lines, use lines, blocks"""
    lines = text.split("\n")
    i = 0
    head = []
    while i < len(lines) and lines[i].startswith("--"):
        head.append(lines[i])
        i += 1
    uses = []
    while i < len(lines) and (lines[i].startswith("use ") or not lines[i].strip()):
        if lines[i].strip():
            uses.append(lines[i])
        i += 1
    blocks, cur, pend = [], None, []
    for l in lines[i:]:
        if l.startswith("--"):
            pend.append(l)
            continue
        m = re.match(r"(?:(?:pub|abbrev|unfoldable) )*(" + TOK + r")(?: \{[^}]*\}| \([^)]*\))* :(\s|$)", l)
        if m and not l.startswith(" "):
            cur = {"name": m.group(1), "lines": [l], "comment": pend}
            pend = []
            blocks.append(cur)
        elif cur is None:
            if l.strip():
                cur = {"name": None, "lines": [l], "comment": pend}
                pend = []
                blocks.append(cur)
        else:
            if l.strip() and not l.startswith(" ") and (l.startswith("module ") or l.startswith("data ") or l.startswith("pub record") or l.startswith("record ")):
                cur = {"name": None, "lines": [l], "comment": pend}
                pend = []
                blocks.append(cur)
            else:
                if pend:
                    cur["lines"] += pend
                    pend = []
                cur["lines"].append(l)
    for b in blocks:
        while b["lines"] and not b["lines"][-1].strip():
            b["lines"].pop()
    return head, uses, blocks


class Names:
    def __init__(self, j):
        self.needs = {canon(o): n for o, n in j["needs"]}
        self.params = []
        self.places = {canon(p[0]): q for p, q in zip(j["places"], j["places_by_name"])}
        self.loops = {}
        for (names, vars_), changed in zip(j["loops"], j["changed"]):
            self.loops[canon(names[0]).replace("-", "")] = (names[1], vars_, changed)
        self.steps = {}
        self.arms = {}
        self.callee = {}
        params = j["params"]
        for place, arm in zip(j["places"], j["arms"]):
            old, new = place[2]
            if old:
                key = canon(old).replace("-", "")
                # a step that stands at two places keeps its first name; a clash is shown
                if not arm:
                    if key in self.steps and self.steps[key] != new:
                        self.clash = getattr(self, "clash", set()) | {old}
                    self.steps.setdefault(key, new)
                if place[3]:
                    self.callee[key] = params.get(place[3], [])
            if arm:
                for field, olds, path in arm[2]:
                    self.arms[(canon(olds).replace("-", ""), tuple(path))] = (arm[0], field)


def by_parameter(comps, params):
    """.new.1.1.0 is .new of the third parameter"""
    if len(comps) >= 2 and comps[0] in ("new", "auto"):
        k = 1
        while k < len(comps) and comps[k] == "1":
            k += 1
        if k < len(comps) and comps[k] == "0" and k - 1 < len(params):
            return [comps[0], params[k - 1]] + comps[k + 1 :]
    return comps


def convert_path(path, names, said):
    """path: list of components behind the root"""
    out = []
    comps = [p for p in path if p != "before"]
    if not comps:
        return comps
    key = canon(comps[0]).replace("-", "")
    if key not in names.steps and comps[0].endswith("_lem"):
        comps[0] = comps[0][:-4]
        key = canon(comps[0]).replace("-", "")
    if comps[0] == "requires" and len(comps) > 1 and comps[1].isdigit() and int(comps[1]) < len(names.clauses):
        return ["requires", names.clauses[int(comps[1])]] + comps[2:]
    if comps[0] == "args":
        return comps
    # an arm of a match: match.keys1, match.some.x ..
    for n in range(len(comps), 0, -1):
        arm = names.arms.get((key, tuple(comps[1:n])))
        if arm:
            return [arm[0], arm[1]] + comps[n:]
    if key in names.steps:
        out = [names.steps[key]] + comps[1:]
        if key in names.callee:
            out = out[:1] + by_parameter(out[1:], names.callee[key])
        if out[0].startswith("wrapping_") and out[1:] == ["ensures"]:
            out.append("value")
        return out
    return comps


PATH = re.compile(r"(?<![\w.'-])([a-zκ]\w*'?)((?:\.[^\s(){}\[\];,.]+)+)")
LET = re.compile(r"\blet (\w+'?) = ([a-z]\w*'?)((?:\.[^\s(){}\[\];,.]+)*) in\b")


def convert_body(text, names, said):
    """Roots are c and what a let binds to an earlier place of c, which goes, or to c.args."""
    roots, args, steps = {"c"}, set(), {}
    for m in LET.finditer(text):
        name, root, path = m.group(1), m.group(2), [x for x in m.group(3).split(".") if x]
        rest = [x for x in path if x != "before"]
        if root in roots and not rest:
            roots.add(name)
        elif (root in roots and rest == ["args"]) or (root in args and not rest):
            args.add(name)
        elif root in roots and len(rest) == 1 and canon(rest[0]).replace("-", "") in names.callee:
            steps[name] = names.callee[canon(rest[0]).replace("-", "")]

    def argument(comps):
        if comps and comps[0] not in names.params and comps[0].replace("-", "_").replace("_lem", "") in names.params:
            return [comps[0].replace("-", "_").replace("_lem", "")] + comps[1:]
        m = re.fullmatch(r"t(\d+)", comps[0]) if comps else None
        if m and comps[0] not in names.params and 0 < int(m.group(1)) <= len(names.params):
            return [names.params[int(m.group(1)) - 1]] + comps[1:]
        return comps

    def one(m):
        root, path = m.group(1), m.group(2)[1:].split(".")
        if root in args:
            comps = argument([x for x in path if x != "before"])
        elif root in roots:
            comps = convert_path(path, names, said)
            if comps and comps[0] == "args":
                comps = ["args"] + argument(comps[1:])
        elif root in steps:
            comps = by_parameter(path, steps[root])
        else:
            return m.group(0)
        return root + "".join("." + c for c in comps)

    out = []
    for line in text.split("\n"):
        code, comment = line, ""
        k = re.search(r"(?<!\S)--", line)
        if k:
            code, comment = line[: k.start()], line[k.start() :]
        out.append(PATH.sub(one, code) + comment)
    text = "\n".join(out)
    # let l = c in: the new record is flat
    while True:
        m = re.search(r"\blet (\w+'?) = (\w+'?) in[ \n]\s*", text)
        if not m or m.group(2) not in roots:
            break
        a, b = m.group(1), m.group(2)
        rest = re.sub(rf"(?<![\w.'-]){re.escape(a)}(?![\w'-])", b, text[m.end() :])
        text = text[: m.start()] + rest
    # a test of `!x` speaks of x itself now
    text = re.sub(r"\(not-(?:true|false) [\w.]+ (c\.if-not[^\s()]*\.(?:true|false))\)", r"\1", text)
    text = re.sub(r"\bnot-(?:true|false) _ (c\.if-not[^\s()]*\.(?:true|false))(?=[\s)])", r"\1", text)
    return text


def substitute(body, table):
    return re.sub(r"(?<![\w.'₀-])(" + "|".join(sorted((re.escape(k) for k in table), key=len, reverse=True)) + r")(?![\w'₀₁₂-])", lambda m: table[m.group(1)], body) if table else body


def turn(crate, path, j, said):
    folder = f"crates/{crate}/proofs/{path}"
    proof = os.path.join(folder, "Proof.antt")
    text = open(proof, encoding="utf8").read()
    names = Names(j)
    names.params, names.clauses = parameters(crate, path)
    fn = path.replace("/", ".")
    head, uses, blocks = split(text)
    uses = [u for u in uses if ".Statement." not in u and not u.endswith(" as tie")]
    invs, answers, helpers, placed = [], [], [], {}
    for b in blocks:
        sig = b["lines"][0]
        n = 1
        while n < len(b["lines"]) and re.match(r"\s+(\S.*)?$", b["lines"][n]) and not re.match(re.escape(b["name"] or "") + r"\b", b["lines"][n]):
            sig += " " + b["lines"][n].strip()
            n += 1
        b["sig"], b["n"] = sig, n
        if re.search(r"statement M$", sig.strip()):
            continue
        m = re.search(r": tie\.(\S+)", sig)
        if m and (m.group(1).startswith("invariant-") or m.group(1).startswith("decreases-")):
            kind, loop = m.group(1).split("-", 1)
            key = canon(loop).replace("-", "")
            if key not in names.loops:
                said.append(f"look: {fn}: loop {loop} is not known; loops {list(names.loops)}")
                continue
            new, vars_, changed = names.loops[key]
            body = "\n".join(b["lines"][n:])
            unf = [l for l in b["lines"][1:] if l.startswith("unfolding")]
            body = "\n".join(l for l in b["lines"][n:] if not l.startswith("unfolding"))
            eq = body.index(" =")
            lhs, rhs = body[:eq].split(), body[eq + 2 :].lstrip("\n")
            args = lhs[1:]
            want = len(vars_) + sum(changed)
            if len(args) > want:
                args = [a for a in args if not re.fullmatch(r"t\d+₀?", a)]
            if len(args) != want:
                said.append(f"look: {fn}: {m.group(1)} takes {len(args)} names, {want} are known: {args} / {vars_} {changed}")
            table = {}
            for k, a in enumerate(args):
                if a == "_":
                    continue
                if k < len(vars_):
                    table[a] = f"l.initial.{vars_[k]}" if changed[k] else f"l.{vars_[k]}"
                else:
                    ch = [v for v, c in zip(vars_, changed) if c]
                    if k - len(vars_) < len(ch):
                        table[a] = f"l.{ch[k - len(vars_)]}"
            rhs = substitute(rhs, table)
            one = rhs.strip()
            label = f"{kind}-{new}"
            sep = " " if "\n" not in rhs.strip("\n") else "\n"
            invs.append((b["comment"], f"abbrev pub {label} : goal.{label}\n" + "".join(u + "\n" for u in unf) + f"{label} l ={sep}{rhs.rstrip() if sep == chr(10) else one}"))
            continue
        if m and m.group(1).startswith("Need-"):
            old = m.group(1)[5:]
            new = names.needs.get(canon(old)) or names.needs.get(canon(old).replace("slice-bounds-", "part-"))
            body = "\n".join(l for l in b["lines"][n:] if not l.startswith("unfolding"))
            unf = [l for l in b["lines"][1:] if l.startswith("unfolding")]
            eq = re.search(r" =(?=\s|$)", body)
            lhs, rhs = body[: eq.start()].split(), body[eq.end() :]
            plain = " ".join(rhs.split())
            if not unf and (plain in TRIVIAL or re.fullmatch(r"\((?:omega arith|search rules|refl|tt)(?:, (?:omega arith|search rules|refl|tt))*,?\)", plain.replace("( ", "(").replace(" )", ")").replace(", )", ")"))):
                continue
            if new is None:
                said.append(f"look: {fn}: goal {old} is gone; its answer was: {plain[:100]}")
                continue
            args = [a for a in lhs[1:] if a != "κs"]
            rhs = convert_body(rhs, names, said)
            answers.append((b["comment"], f"pub {new} : goal.{new}\n" + "".join(u + "\n" for u in unf) + " ".join([new] + args) + " =" + rhs))
            continue
        whole = "\n".join(b["lines"])
        whole = re.sub(r"(\(c : tie\.[^\s)]+)(?: (?:invariant|decreases)-[^\s)]+)+\)", r"\1)", whole)
        m = re.search(r"\(c : tie\.([^\s)]+)\)", whole)
        if m and canon(m.group(1)) in names.places:
            placed[b["name"]] = names.places[canon(m.group(1))]
            whole = re.sub(r"\(c : tie\.([^\s)]+)\)", lambda m: f"(c : {names.places.get(canon(m.group(1)), m.group(1))})", whole)
        if "tie." in whole:
            said.append(f"look: {fn}: the helper {b['name']} speaks of a record of the proof")
        whole = convert_body(whole, names, said)
        helpers.append((b["name"], b["comment"], whole))
    if getattr(names, "clash", None):
        said.append(f"look: {fn}: steps of one name at two places: {sorted(names.clash)}")
    top = "Rattle." + crate + ".proofs." + fn
    inv_text = "\n".join(t for _, t in invs)

    def word_in(w, t):
        return w and re.search(r"(?<![\w.'-])" + re.escape(w) + r"(?![\w'-])", t)

    low = set()
    changed = True
    while changed:
        changed = False
        for n, c, t in helpers:
            if n and n not in low and (word_in(n, inv_text) or any(word_in(n, t2) for n2, _, t2 in helpers if n2 in low)):
                low.add(n)
                changed = True
    # a helper over the record of a place is passed that record
    if placed:
        again = re.compile(r"(?<![\w.'-])(" + "|".join(re.escape(k) for k in placed if k) + r") c(?![\w.'-])")
        done = []
        for c, t in answers:
            goal = re.match(r"pub (\S+) :", t).group(1)
            done.append((c, again.sub(lambda m: f"{m.group(1)} (goal.at.{goal} c).{placed[m.group(1)]}", t)))
        answers = done
        for n, c, t in helpers:
            for m in again.finditer(t):
                if n in placed and placed[m.group(1)] != placed[n]:
                    said.append(f"look: {fn}: {n} passes another place to {m.group(1)}")
    ends = []
    if invs:
        out = head + uses + ([f"use {top}.Given as goal"])
        out += [""]
        for n, c, t in helpers:
            if n in low:
                if not re.match(r"((abbrev|unfoldable) )?pub ", t) and not re.match(r"pub ", t):
                    t = re.sub(r"^((?:abbrev |unfoldable )?)", r"\1pub ", t)
                out += c + [t, ""]
        for c, t in invs:
            out += c + [t, ""]
        ends.append(("Invariants.antt", "\n".join(out).rstrip() + "\n"))
    rest = [h for h in helpers if h[0] not in low]
    if answers or rest:
        out = head + uses + ([f"use {top}.Invariants.{{{', '.join(sorted(low))}}}"] if low and invs else []) + [f"use {top}.Goals as goal"] + ([f"use {top}.Goals.{{{', '.join(sorted(set(placed.values())))}}}"] if placed else []) + [""]
        for n, c, t in rest:
            out += c + [t, ""]
        for c, t in answers:
            out += c + [t, ""]
        if answers:
            ends.append(("Answers.antt", "\n".join(out).rstrip() + "\n"))
    for name, t in ends:
        open(os.path.join(folder, name), "w", encoding="utf8").write(t)
    os.remove(proof)
    if not ends:
        try:
            os.removedirs(folder)
        except OSError:
            pass


def main():
    crate = sys.argv[1]
    only = sys.argv[2:]
    with tempfile.TemporaryDirectory() as d:
        r = subprocess.run(["rt", "check", "--generated", d, "--old-names"], cwd=f"crates/{crate}", capture_output=True, text=True)
        if not os.path.exists(d + "/names.json"):
            print(r.stdout[-3000:], r.stderr[-2000:])
            sys.exit(2)
        j = json.load(open(d + "/names.json"))
    said = []
    for folder, _, fs in sorted(os.walk(f"crates/{crate}/proofs")):
        if "Proof.antt" not in fs:
            continue
        path = os.path.relpath(folder, f"crates/{crate}/proofs")
        if only and path not in only:
            continue
        key = f"Rattle-{crate}-proofs.{path.replace('/', '.')}.Lts"
        if key not in j:
            said.append(f"look: {path}: no names ({[k for k in j if path.split('/')[-1] in k]})")
            continue
        try:
            turn(crate, path, j[key], said)
        except Exception as e:
            said.append(f"look: {path}: {type(e).__name__}: {e}")
            if os.environ.get("DEBUG"):
                raise
    print("\n".join(said))


main()
