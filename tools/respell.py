#!/usr/bin/env python3
"""Brings the repository's own names in clauses, specs/ and proofs/ to the library's spelling: words in snake case, types in camel case.

usage: python3 tools/respell.py          after /opt/rattle/port/port.py, once
       python3 tools/respell.py --list   says what it would rename, and which names would fall together; changes nothing

Names that Rattle makes (goals, places in the code) and names of the library keep their hyphens. Functions of src/, strings, inputs and
outputs are not touched.
"""

import glob
import os
import re
import sys

TOP = os.path.join(os.path.dirname(os.path.realpath(__file__)), "..")
NAME = re.compile(r"(?<![\w'\u00b7-])[A-Za-z_][\w'\u00b7]*(?:-[\w'\u00b7]+)+(?![\w'\u00b7-])")
WORD = re.compile(r"[\w'\u00b7-]+")
DECLARED = re.compile(r"^\s*(?:(?:abbrev|unfoldable|pub|record|data|let|deriving)\s+)*((?:[A-Za-z_][\w'-]*\s+)*[A-Za-z_][\w'-]*)(?:\s*[({].*)?\s+:(?:\s|$)")
LET = re.compile(r"\blet\s+([A-Za-z_][\w'-]*)")
BOUND = re.compile(r"[({]((?:[A-Za-z_][\w'-]*\s+)*[A-Za-z_][\w'-]*)\s+:\s")


def files():
    for pattern in ("crates/*/specs/**/*.antt", "crates/*/proofs/**/*.antt", "crates/*/src/**/*.rt", "crates/*/must-fail/*.edit"):
        for p in sorted(glob.glob(os.path.join(TOP, pattern), recursive=True)):
            if "/out/" not in p:
                yield p


def pages():
    return [os.path.join(TOP, "README.md"), *sorted(glob.glob(os.path.join(TOP, "docs", "*.md")))]


def read(p):
    with open(p, encoding="utf-8") as f:
        return f.read()


def bare(p, line):
    """The line without its comment."""
    mark = "--" if p.endswith(".antt") else "//"
    at = re.search(r"(?:^|\s)" + re.escape(mark) + r"(?:\s|$)", line)
    return (line[: at.start()], line[at.start():]) if at else (line, "")


def goals(p):
    return os.path.basename(p) in ("Answers.antt", "Invariants.antt", "Choices.antt")


def declared(p, text):
    for line in text.split("\n"):
        code, _ = bare(p, line)
        if goals(p) and (re.search(r":\s+goal\.", code) or re.match(r"\s*abbrev pub (invariant|measure|ghost)-", code)):
            continue
        m = DECLARED.match(code)
        if m and not re.match(r"\s*(use|pub use|module)\b", code):
            yield from m.group(1).split()
        for m in LET.finditer(code):
            yield m.group(1)
        for m in BOUND.finditer(code):
            yield from m.group(1).split()


def spelled(name):
    parts = name.split("-")
    if name[0].isupper():
        return "".join(q[0].upper() + q[1:] for q in parts)
    return "_".join(parts)


def library(text):
    """The names that a file imports from the library."""
    found = set()
    for m in re.finditer(r"use\s+((?:Rattle\.(?:std|core|io)|borrow|mathlib|native|lib)[\w.+-]*)\.\{([^}]*)\}", text):
        found |= {w.split(" as ")[-1].strip() for w in m.group(2).split(",")}
    return found


def main():
    texts = {p: read(p) for p in files()}
    own = set()
    for p, t in texts.items():
        if p.endswith(".antt"):
            own |= {n for n in declared(p, t) if "-" in n and NAME.fullmatch(n)}
            own |= set(re.findall(r" as ([A-Za-z_][\w'\u00b7]*(?:-[\w'\u00b7]+)+)", " ".join(re.findall(r"^\s*(?:pub )?use .*", t, re.M))))
    words = {p: set(WORD.findall(t)) for p, t in texts.items()}
    renamed = {n: spelled(n) for n in own}
    if "--list" in sys.argv:
        for n, s in sorted(renamed.items()):
            also = [os.path.relpath(p, TOP) for p in texts if s in words[p] and n in words[p]]
            lib = [os.path.relpath(p, TOP) for p in texts if n in library(texts[p])]
            print(n, s, *(["TOGETHER", *also[:4]] if also else []), *(["LIBRARY", *lib[:4]] if lib else []))
        return

    def turn(t, kept):
        return NAME.sub(lambda m: renamed.get(m.group(0), m.group(0)) if m.group(0) not in kept else m.group(0), t)

    for p, t in texts.items():
        kept = library(t)
        out = []
        for line in t.split("\n"):
            code, note = bare(p, line) if not p.endswith(".edit") else (line, "")
            pieces = re.split(r'("(?:[^"\\]|\\.)*")', code)
            out.append("".join(q if q.startswith('"') else turn(q, kept) for q in pieces) + note)
        new = "\n".join(out)
        if new != t:
            with open(p, "w", encoding="utf-8") as f:
                f.write(new)
    for p in pages():
        t = read(p)
        new = re.sub(r"`[^`\n]*`", lambda m: turn(m.group(0), set()), t)
        if new != t:
            with open(p, "w", encoding="utf-8") as f:
                f.write(new)


main()
