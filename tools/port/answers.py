#!/usr/bin/env python3
"""Turns the hand walks of a crate, proofs/F/Proof.antt, into Invariants.antt and Answers.antt.

usage: python3 tools/port/answers.py CRATE_FOLDER NAMES_JSON

NAMES_JSON is what `rt check --generated DIR --old-names` writes in that crate. Goals, points and steps get today's names, points that were found by
`let p : tie.Point = search in` become `c`, a tuple that answers several clauses becomes a record, and an answer that the check finds by itself goes.
It prints what it left for a reader: 'left: PATH: ..'. Proofs of cycles of calls are passed over.
"""

import json
import os
import re
import sys

NAME = r"[A-Za-z_μ][\w'₀-₉]*"
WORDS = dict(pre="requires", inv="invariant", taken="true", last="new", kept="auto", came="branch", fits="ranges", typed="type_inv", good="well_formed", given="given")
EASY = re.compile(r"(search rules|omega arith|refl|tt|search|\(omega arith\))\Z")


def read(path):
    with open(path, encoding="utf-8") as f:
        return f.read()


def norm(name):
    return name.replace("_", "-").lower()


def items(text):
    """Declarations at the margin, each with the comment above it."""
    out, now = [], []
    for line in text.split("\n"):
        starts = line and not line[0].isspace()
        if starts and now and not now[-1].strip():
            out.append("\n".join(now).rstrip())
            now = []
        now.append(line)
    out.append("\n".join(now).rstrip())
    return [i for i in out if i.strip()]


def closing(t, i):
    depth = 0
    for k in range(i, len(t)):
        depth += t[k] in "([{"
        depth -= t[k] in ")]}"
        if not depth:
            return k
    return len(t) - 1


def parts(t):
    """A tuple's parts, with a tuple in its last place laid flat; None if the text is no tuple."""
    t = t.strip()
    if not t.startswith("(") or closing(t, 0) != len(t) - 1:
        return None
    inner, depth, cuts, at = t[1:-1], 0, [], 0
    for k, ch in enumerate(inner):
        depth += ch in "([{"
        depth -= ch in ")]}"
        if ch == "," and not depth:
            cuts.append(inner[at:k])
            at = k + 1
    cuts.append(inner[at:])
    cuts = [c.strip() for c in cuts if c.strip()]
    return cuts if len(cuts) > 1 else None


def flat(t, n):
    """The first n parts of a right-nested tuple."""
    p = parts(t)
    if p is None:
        return None
    while len(p) < n:
        more = parts(p[-1])
        if more is None:
            return None
        p = p[:-1] + more
    if len(p) > n:
        p = p[: n - 1] + ["(" + ", ".join(p[n - 1 :]) + ")"]
    return p


def clause_names(repo):
    """Of each function the names of its clauses: (requires, ensures)."""
    found = {}
    for crate in sorted(os.listdir(os.path.join(repo, "crates"))):
        src = os.path.join(repo, "crates", crate, "src")
        for f in sorted(os.listdir(src)) if os.path.isdir(src) else []:
            if not f.endswith(".rt"):
                continue
            mod = [] if f in ("lib.rt", "main.rt") else [f[:-3]]
            name = None
            for line in read(os.path.join(src, f)).split("\n"):
                m = re.match(r"\s*(?:pub )?(?:extern \"C\" )?fn (\w+)", line)
                if m:
                    name = "::".join([crate] + mod + [m[1]])
                    found[name] = ([], [])
                m = re.match(r"\s*(requires|ensures) (\w+)? ?\{", line)
                if m and name:
                    found[name][m[1] == "ensures"].append(m[2])
    return found


def positions(fields, path):
    """The clause that .0, .1.0, .1.1 .. names in a right-nested tuple, and what of the path is left."""
    if not fields or fields == [None] or len(fields) < 2:
        return None, path
    k, whole = 0, path
    while True:
        if not path:
            return None, whole
        if path[0] == "0":
            return fields[k], path[1:]
        if path[0] == "1":
            k += 1
            path = path[1:]
            if k == len(fields) - 1:
                return fields[k], path
            continue
        return None, whole


class Function:
    def __init__(self, key, table, clauses):
        self.key, self.t, self.clauses = key, table, clauses
        self.places = {norm(p[0]): p for p in table["places"]}
        self.new_place = {norm(o): n for (o, *_), n in zip(table["places"], table["places_by_name"])}
        self.steps, self.fields, self.callee = {}, {}, {}
        for place, _, (old, new), callee, fields in table["places"]:
            self.steps.setdefault(norm(old), set()).add(new)
            for a, b in fields:
                self.fields[(norm(old), a)] = b
            if callee:
                self.callee[new] = callee
        self.keys = {}
        for arm in table["arms"]:
            for field, step, keys in arm[2] if arm else []:
                if field == "is" and keys:
                    self.keys[keys[0]] = arm[0]
        self.exported = {norm(o): n for o, n in table["asked_at"]}
        self.needs = table["needs"]
        self.asked = {norm(o): v for o, v in table["asked"].items()}

    def need(self, name):
        n = norm(name)
        for old, new in self.needs:
            if n in (norm(old), norm(new), "overflow-" + norm(old)):
                return old, new
        return None

    def path(self, words):
        """words: what follows c, as ['before', 'if1', 'true']. Returns today's."""
        words = list(words)
        while words and words[0] == "before":
            words = words[1:]
        if not words:
            return None
        head = words[0]
        if head in ("pre", "requires"):
            clause, rest = positions((self.t["pre"] or {"fields": []})["fields"], words[1:])
            return ["requires"] + ([clause] if clause else []) + rest
        if head in ("args", "ranges", "type_inv", "well_formed", "lifetimes"):
            return words
        if head == "match" and len(words) > 1 and words[1] in self.keys:
            return [self.keys[words[1]], "is"] + words[2:]
        n = norm(head)
        if n not in self.steps and norm(head.rstrip("'")) in self.steps:
            n = norm(head.rstrip("'"))
        if n not in self.steps:
            return words
        new = self.steps[n]
        if len(new) > 1:
            return None
        step = next(iter(new))
        rest = words[1:]
        if rest:
            f = rest[0]
            f = WORDS.get(f, f)
            if f == "left":
                f = "false"
            f = self.fields.get((n, f), f)
            rest = [f] + rest[1:]
            if f == "ensures" and step in self.callee:
                names = self.clauses.get(self.callee[step], ([], []))[1]
                clause, more = positions(names, rest[1:])
                if clause:
                    rest = ["ensures", clause] + more
        return [step] + rest


def lets(text):
    """The points bound by `let v : tie.P .. = search in`."""
    return re.findall(rf"let ({NAME}) : tie\.([\w'-]+)[^=\n]*= search in\s*", text)


def turn_term(f, term, var, left):
    # points become c
    points = {}
    for v, place in lets(term):
        points[v] = place
    term = re.sub(rf"let {NAME} : tie\.[\w'-]+[^=\n]*= search in[ \t]*\n?[ \t]*", "", term)
    for v in points:
        if v != var:
            term = re.sub(rf"(?<![\w'.-]){re.escape(v)}(?=\.)", var, term)
            term = re.sub(rf"(?<![\w'.-]){re.escape(v)}(?![\w'.-])", var, term)
    # aliases of points: let a = c in, let b = a.before in
    while True:
        m = re.search(rf"let ({NAME}) = {re.escape(var)}((?:\.before)*) in[ \t]*\n?[ \t]*", term)
        if not m:
            break
        term = term[: m.start()] + re.sub(rf"(?<![\w'.-]){re.escape(m[1])}(?![\w'-])", var, term[m.end() :])
    # aliases of steps: let L = c.loop in
    alias = {}

    def path_of(words):
        new = f.path(words)
        if new is None:
            left.append("path c." + ".".join(words))
            return None
        return new

    def c_path(m):
        words = m[1].split(".")[1:]
        new = path_of(words)
        return m[0] if new is None else var + "." + ".".join(new)

    term = re.sub(rf"(?<![\w'.-]){re.escape(var)}((?:\.[\w'-]+)+)", c_path, term)
    for v, p in re.findall(rf"let ({NAME}) = {re.escape(var)}((?:\.[\w'-]+)*) in", term):
        alias[v] = p.split(".")[1:]

    def a_path(m):
        v, rest = m[1], m[2].split(".")[1:]
        base = alias[v]
        if base == ["requires"]:
            clause, more = positions((f.t["pre"] or {"fields": []})["fields"], rest)
            return v + "." + ".".join(([clause] if clause else []) + more)
        if base and base[-1] == "ensures" and base[0] in f.callee:
            names = f.clauses.get(f.callee[base[0]], ([], []))[1]
            clause, more = positions(names, rest)
            return v + "." + ".".join(([clause] if clause else []) + more) if clause else m[0]
        if len(base) == 1 and rest:
            return v + "." + ".".join([WORDS.get(rest[0], rest[0])] + rest[1:])
        return m[0]

    for v in alias:
        term = re.sub(rf"(?<![\w'.-])({re.escape(v)})((?:\.[\w'-]+)+)", a_path, term)
    if "tie." in term:
        left.append("a point of the walk: " + re.search(r"tie\.[\w'-]+", term)[0])
    return term


def recorded(f, old, term):
    """A tuple that answers several clauses, as a record of them."""
    names = f.asked.get(norm(old))
    if not names or len(names) < 2:
        return term
    at = 0
    while True:
        m = re.compile(r"\s*let [^\n]*? in\b").match(term, at)
        if not m:
            break
        at = m.end()
    head, body = term[:at], term[at:]
    stripped = body.rstrip()
    if stripped.lstrip().startswith("rw ") and stripped.endswith(")"):
        for k in range(len(stripped) - 1, -1, -1):
            if stripped[k] == "(" and closing(stripped, k) == len(stripped) - 1:
                if flat(stripped[k:], len(names)):
                    head, body = head + stripped[:k], stripped[k:]
                break
    p = flat(body, len(names))
    if p is None:
        return term
    fields = []
    for n, v in zip(names, p):
        fields.append(f"{n} = {v}")
    return head + " record { " + "; ".join(fields) + " }"


def convert(path, f, modname, left):
    text = read(path)
    head_comment = ""
    m = re.match(r"((?:--[^\n]*\n)+)", text)
    if m:
        head_comment = m[1]
    uses = re.findall(r"(?m)^use [^\n]*$", text)
    body = re.sub(r"(?m)^use [^\n]*\n", "", text[len(head_comment) :])
    invs, helpers, answers, spec_order = [], [], [], []
    loops = {}
    for (old, new), vars_ in f.t["loops"]:
        loops[norm(old)] = (new, vars_)
    changed = {norm(l[0][0]): ch for l, ch in zip(f.t["loops"], f.t["changed"])}
    kinds = {}
    for it in items(body):
        lines = it.split("\n")
        k = 0
        while k < len(lines) and lines[k].startswith("--"):
            k += 1
        com, decl = "\n".join(lines[:k]), "\n".join(lines[k:])
        m = re.match(rf"(?:abbrev )?(?:pub )?(?:abbrev )?({NAME}[\w'-]*) : tie\.(invariant|decreases)-([\w'-]+)", decl)
        if m:
            name, kind, loop = m[1], m[2], m[3]
            kinds[name] = 1
            new, vars_ = loops.get(norm(loop), (None, None))
            if new is None:
                left.append(f"{kind}-{loop}: no such loop")
                helpers.append(it)
                continue
            ch = changed[norm(loop)]
            rest = decl.split("\n", 1)[1]
            mm = re.match(rf"(?:unfolding [^\n]*\n)?{re.escape(name)}((?:\s+[^\s=]+)*?)\s*=(.*)", rest, re.S)
            ps = mm[1].split()
            names = [v for v, c in zip(vars_, ch) if c]
            # parameters: one for each variable as the loop began, then one for each that it changes
            want = list(vars_) + names
            if len(ps) != len(want):
                left.append(f"{kind}-{new}: {len(ps)} parameters, {len(want)} wanted")
            term = mm[2]
            subst = {}
            for i, p in enumerate(ps):
                if i < len(vars_):
                    subst[p] = ("l.initial." if i < len(ch) and ch[i] else "l.") + vars_[i]
                elif i - len(vars_) < len(names):
                    subst[p] = "l." + names[i - len(vars_)]
            subst.pop("_", None)
            for p in sorted(subst, key=len, reverse=True):
                term = re.sub(rf"(?<![\w'.₀-₉\-\1]){re.escape(p)}(?![\w'₀-₉\-])", "\0" + subst[p].replace(".", "\1"), term)
            term = term.replace("\0", "").replace("\1", ".")
            invs.append((com, f"abbrev pub {kind}-{new} : goal.{kind}-{new}\n{kind}-{new} l ={term}"))
            continue
        m = re.match(rf"({NAME}[\w'-]*) : tie\.Need-([\w'-]+)", decl)
        if m:
            answers.append((m[1], m[2], com, decl))
            continue
        if re.match(rf"pub ({NAME}[\w'-]*) : \{{M : Type 1\}} → statement M|pub ({NAME}[\w'-]*_spec) :", decl):
            mm = re.search(r"tie\.spec(.*)\)", decl, re.S)
            spec_order = re.findall(rf"{NAME}[\w'-]*", mm[1]) if mm else []
            continue
        helpers.append(it)
    order = [n for n in spec_order if n not in kinds]
    by_order = dict(zip(order, f.needs)) if len(order) == len(f.needs) else {}
    if not by_order:
        left.append(f"{len(order)} answers for {len(f.needs)} goals")
    out, dropped = [], 0
    renamed = {}
    for name, need, com, decl in answers:
        on = by_order.get(name) or f.need(need)
        if not on:
            left.append(f"no goal for {name} (Need-{need})")
            continue
        renamed[name] = on
    for name, need, com, decl in answers:
        if name not in renamed:
            out.append("-- LEFT: no goal of today's for this\n" + "\n".join("-- " + l for l in decl.split("\n")))
            continue
        old, new = renamed[name]
        rest = decl.split("\n", 1)[1]
        mm = re.match(rf"((?:unfolding [^\n]*\n)?){re.escape(name)}((?:\s+[^\s=]+)*?)\s*=(.*)", rest, re.S)
        unf, ps, term = mm[1], mm[2].split(), mm[3]
        ps = [p for p in ps if p != "κs"]
        t = " ".join(term.split())
        if EASY.match(t) and not unf:
            dropped += 1
            continue
        var = ps[-1] if ps else "c"
        term = turn_term(f, term, var, left)
        term = recorded(f, old, term)
        if EASY.match(" ".join(term.split())) and not unf:
            dropped += 1
            continue
        for other, (o, n) in renamed.items():
            term = re.sub(rf"(?<![\w'.-]){re.escape(other)}(?![\w'-])", n, term)
        out.append((com + "\n" if com else "") + f"pub {new} : goal.{new}\n{unf}{new} {' '.join(ps)} ={term}")
    uses = [u for u in uses if not re.search(r"\.Statement\.|\.Tie( as|\.\{)", u)]
    folder = os.path.dirname(path)
    help_text = "\n\n".join(helpers)
    # helpers that the invariants name stand in Invariants.antt
    inv_text = "\n\n".join((c + "\n" if c else "") + t for c, t in invs)
    made = []
    if invs:
        needed, rest_h = [], []
        names_in = set(re.findall(rf"{NAME}[\w'-]*", inv_text))
        decls = []
        for h in helpers:
            m = re.search(rf"(?m)^(?:(?:pub |abbrev |unfoldable |record |data )*)({NAME}[\w'-]*)\b", re.sub(r"(?m)^--[^\n]*\n", "", h + "\n"))
            decls.append(m[1] if m else None)
        take = set()
        grow = True
        while grow:
            grow = False
            for d, h in zip(decls, helpers):
                if d and d not in take and d in names_in and not h.lstrip().startswith("module"):
                    take.add(d)
                    names_in |= set(re.findall(rf"{NAME}[\w'-]*", h))
                    grow = True
        inv_h = [h for d, h in zip(decls, helpers) if d in take]
        rest_h = [h for d, h in zip(decls, helpers) if d not in take]
        pub_text = []
        for h in inv_h:
            lines = h.split("\n")
            for i, l in enumerate(lines):
                if l.startswith("--"):
                    continue
                if l.startswith("abbrev ") and not l.startswith("abbrev pub"):
                    lines[i] = "abbrev pub " + l[7:]
                elif l.startswith("record "):
                    lines[i] = "pub " + l
                elif l.startswith("data "):
                    lines[i] = "pub " + l
                elif not l.startswith(("pub ", "abbrev pub", "unfoldable")):
                    lines[i] = "pub " + l
                break
            if lines and any(l.startswith("pub record") for l in lines):
                lines = [re.sub(r"^  (?!pub )(?=\w[\w']* :)", "  pub ", l) for l in lines]
            pub_text.append("\n".join(lines))
        inv_file = head_comment + "\n".join(uses) + f"\nuse {modname}.Given as goal\n\n" + "\n\n".join(pub_text + [inv_text]) + "\n"
        made.append(("Invariants.antt", inv_file))
        helpers = rest_h
        if take:
            uses = uses + [f"use {modname}.Invariants.{{{', '.join(sorted(take))}}}"]
        help_text = "\n\n".join(helpers)
    fixed = []
    for h in helpers:
        m = re.search(rf"(?m)^({NAME}[\w'-]*) : \(({NAME}) : tie\.([\w'-]+)[^)]*\) → (.*)", h, re.S)
        if m and norm(m[3]) in f.exported:
            v = m[2]
            new = h.replace(h[m.start() : m.start(4)], f"{m[1]} : ({v} : goal.{f.exported[norm(m[3])]}) → ", 1)
            new = turn_term(f, new, v, left)
            fixed.append(new)
        else:
            fixed.append(h)
    helpers = fixed
    help_text = "\n\n".join(helpers)
    if "tie." in help_text:
        left.append("a lemma names points: " + ", ".join(sorted(set(re.findall(r"tie\.[\w'-]+", help_text)))))
    if out:
        file = head_comment + "\n".join(uses) + f"\nuse {modname}.Goals as goal\n\n" + (help_text + "\n\n" if help_text else "") + "\n\n".join(out) + "\n"
        made.append(("Answers.antt", file))
    elif help_text:
        left.append("helpers alone were left: " + str(len(helpers)))
    os.rename(path, os.path.join(folder, "Proof.antt.old"))
    for name, t in made:
        with open(os.path.join(folder, name), "w", encoding="utf-8") as g:
            g.write(t)
    return len(answers), dropped, len(out)


def main():
    crate, names = sys.argv[1].rstrip("/"), json.load(open(sys.argv[2]))
    repo = os.path.dirname(os.path.dirname(os.path.abspath(crate)))
    name = os.path.basename(os.path.abspath(crate))
    clauses = clause_names(repo)
    only = set(sys.argv[3:])
    for folder, dirs, files in os.walk(os.path.join(crate, "proofs")):
        dirs.sort()
        rel = os.path.relpath(folder, os.path.join(crate, "proofs"))
        if "Proof.antt" not in files or "+" in rel:
            continue
        if only and rel not in only:
            continue
        key = f"Rattle-{name}-proofs.{rel.replace(os.sep, '.')}.Lts"
        path = os.path.join(folder, "Proof.antt")
        if key not in names:
            print(f"left: {path}: no names")
            continue
        f = Function(key, names[key], clauses)
        left = []
        try:
            n, d, o = convert(path, f, f"Rattle.{name}.proofs.{rel.replace(os.sep, '.')}", left)
            print(f"{rel}: {n} answers, {d} found by the check, {o} kept" + "".join(f"\n  left: {l}" for l in dict.fromkeys(left)))
        except Exception as e:
            print(f"left: {path}: {type(e).__name__}: {e}")


main()
