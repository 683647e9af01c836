#!/usr/bin/env python3
"""Brings this repository's own names to today's spelling. Run once, at the top, right after the kit's port.py.

usage: python3 tools/port/spelling.py

A name with a dash becomes `snake_case`, a type's `CamelCase`; names of libraries and names that Rattle makes stay. In a clause of src/ `was x` and `after x`
become `x.old`, `x.new`, or `x.now` of a `&`. crates/moments then speaks of a `&mut`. Each root file gets `#![tactic(auto)]`.
Functions of src/, exported names, strings, inputs and outputs keep theirs. It prints what a reader should look at.
"""

import collections
import os
import re
import sys

NAME = r"[A-Za-z_][\w']*"
DASHED = re.compile(rf"(?<![\w'·\-])({NAME}(?:-[\w']+)+)(?![\w'])")
USE = re.compile(r"(?:^|\n)\s*(?:pub )?(?:ghost )?use ([^;{\n]*?)(?:\.\{([^}]*)\}|(?=[;\n]))")
OWN = set(sorted(os.listdir("crates")))
# In queue two laws would fall together with the library's functions that they are about.
APART = {"bit-or": "bit_of_or", "bit-xor": "bit_of_xor"}


def read(path):
    with open(path, encoding="utf-8") as f:
        return f.read()


def write(path, text):
    with open(path, "w", encoding="utf-8") as f:
        f.write(text)


def files(*endings):
    for folder, dirs, names in os.walk("crates"):
        dirs[:] = sorted(d for d in dirs if d != "out")
        for name in sorted(names):
            if name.endswith(endings):
                yield os.path.join(folder, name)


def is_own(module):
    parts = module.strip().split(".")
    return parts[0] == "Rattle" and len(parts) > 1 and parts[1] in OWN


def foreign(texts):
    """The names that come from a library."""
    found = set()
    for text in texts:
        for m in USE.finditer(text):
            if not is_own(m[1]):
                found |= {w.split(" as ")[0].strip() for w in (m[2] or "").split(",")}
                found |= set(m[1].strip().split(".")[-1:])
    return {w for w in found if "-" in w}


def respelled(name):
    if name in APART:
        return APART[name]
    if name[0].isupper():
        return "".join(part[:1].upper() + part[1:] for part in name.split("-"))
    return name.replace("-", "_")


def turn(text, stays):
    def new(m):
        before = text[max(0, m.start() - 4) : m.start()]
        return m[1] if m[1] in stays or before.endswith(("tie.", "ᴰ.")) else respelled(m[1])

    return DASHED.sub(new, text)


def comment_turned(text, own):
    """In a comment a name is turned where it stands in backticks."""
    return re.sub(r"`[^`\n]*`", lambda t: DASHED.sub(lambda m: respelled(m[1]) if m[1] in own else m[1], t[0]), text)


def by_lines(text, mark, stays, own):
    """Code is turned, comments by `comment_turned`; an import of Rattle's own modules of a function stays."""
    out = []
    for line in text.split("\n"):
        at = re.search(rf"(?:^|(?<=\s)){mark}(?=\s|$)", line)
        code, comment = (line[: at.start()], line[at.start() :]) if at else (line, "")
        if not re.search(r"\.(Tie|Needs|Goals|Given)\.\{", code):
            code = turn(code, stays)
        out.append(code + comment_turned(comment, own))
    return "\n".join(out)


def source_turned(text, stays, own):
    """Of a source the ghost lines and the clauses alone: elsewhere a dash with no space is in a comment or a string."""
    out = []
    for line in text.split("\n"):
        if re.match(r"\s*(?:pub )?(?:ghost|requires|ensures)\b", line):
            out.append(turn(line, stays))
        else:
            out.append(comment_turned(line, own) if line.lstrip().startswith("//") else line)
    return "\n".join(out)


def moments_turned(text, path):
    """`was x` and `after x` in the clauses of each function."""
    out, kinds, took = [], {}, False
    for line in text.split("\n"):
        if re.match(r"\s*(?:pub )?(?:extern \"C\" )?fn ", line) or re.search(r"\bfn \w+", line):
            kinds = {}
        for name, kind in re.findall(r"(\w+): (&(?:'\w+ )?(?:mut )?)", line):
            kinds[name] = "mut" if "mut" in kind else "shared"
        if re.match(r"\s*(?:requires|ensures)\b", line):

            def new(m):
                word, name = m[1] or m[3], m[2] or m[4]
                if name not in kinds:
                    print(f"look: {path}: {m[0]}: no reference of that name")
                    return m[0]
                if kinds[name] == "mut":
                    return f"{name}.{'old' if word == 'was' else 'new'}"
                if word == "after":
                    print(f"look: {path}: {m[0]}: not lent to be changed")
                return f"{name}.now"

            turned = re.sub(r"\((was|after) (\w+)\)|\b(was|after) (\w+)", new, line)
            took |= turned != line
            line = turned
        out.append(line)
    text = "\n".join(out)
    if took:

        def left(m):
            names = [w.strip() for w in m[1].split(",")]
            rest = re.sub(r"ghost use [^;]*;", "", text)
            names = [w for w in names if re.search(rf"\b{w}\b", rest)]
            return f"ghost use Rattle.moments.specs.Lent.{{{', '.join(names)}}};\n" if names else ""

        text = re.sub(r"ghost use Rattle\.moments\.specs\.Lent\.\{([^}]*)\};\n", left, text)
    return text


LENT = """-- A lent array at the two moments of a call: `was x` is what stood behind it as the function was called, `after x` what stands there
-- as it returns. A clause says `x.old` and `x.new`, and `x.now` of what is lent to be read; a definition that is given the whole says `was x` and `after x`.
use Rattle.std.specs.Prelude.{List, ℕ}
use Rattle.std.specs.Borrow.{MutBor}
use denote.Triple.Both.{Both}

abbrev pub was : {X Y : Type 0} → Both (MutBor X) Y → X
was x = x.entry.now

abbrev pub after : {X Y : Type 0} → Both X (MutBor Y) → Y
after x = x.exit.now

-- a lent array of numbers
abbrev pub Lent : Type 0
Lent = Both (MutBor (List ℕ)) (MutBor (List ℕ))
"""


def rooted(text):
    """`#![tactic(auto)]` above the first item."""
    if "#![tactic(" in text:
        return text
    lines = text.split("\n")
    at = next((k for k, line in enumerate(lines) if not line.startswith("//") and line.strip()), len(lines))
    head = lines[:at]
    while head and not head[-1].strip():
        head.pop()
    return "\n".join(head + ["#![tactic(auto)]"] + ([""] if lines[at:] else []) + lines[at:]).rstrip("\n") + "\n"


def main():
    if not os.path.isdir("crates"):
        sys.exit("spelling.py: run it at the top of the repository")
    antt, rt, edits = (list(files(e)) for e in (".antt", ".rt", ".edit"))
    stays = foreign(read(p) for p in antt + rt)
    own = set()
    for path in antt:
        code = re.sub(r"(?m)(?:^|(?<=\s))--(?=\s|$).*", "", read(path))
        code = re.sub(r"\btie\.[\w'-]+", "", code)
        code = "\n".join(l for l in code.split("\n") if not re.search(r"\.(Tie|Needs|Goals|Given)\.\{", l))
        own |= {m[1] for m in DASHED.finditer(code)} - stays
    together = collections.defaultdict(set)
    for name in own:
        together[respelled(name)].add(name)
    for new, names in sorted(together.items()):
        if len(names) > 1:
            print(f"look: these fall together as {new}: {', '.join(sorted(names))}")
    for path in antt:
        text = read(path)
        words = set(re.findall(NAME, re.sub(r"(?m)(?:^|(?<=\s))--(?=\s|$).*", "", text)))
        for name in sorted({m[1] for m in DASHED.finditer(text)} & own):
            if respelled(name) in words and name not in stays:
                print(f"look: {path}: {name} becomes {respelled(name)}, which stands there already")
        write(path, by_lines(text, "--", stays, own))
    for path in rt:
        text = moments_turned(source_turned(read(path), stays, own), path)
        if path.endswith(("src/lib.rt", "src/main.rt")):
            text = rooted(text)
        write(path, text)
    for path in edits:
        text = re.sub(r"(?m)^(old|new): .*", lambda m: turn(m[0], stays), read(path))
        write(path, text)
    write("crates/moments/specs/Lent.antt", LENT)
    pages = ["README.md", "CONTRIBUTING.md"]
    for folder, _, names in os.walk("docs"):
        pages += [os.path.join(folder, n) for n in sorted(names) if n.endswith(".md")]
    for path in pages:
        write(path, comment_turned(read(path), own))
    print(f"{len(own)} names of this repository's, {len(stays)} of libraries with a dash")


main()
