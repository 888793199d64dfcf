#!/usr/bin/env python3
"""Brings the names that this repository gives in its specs/ and proofs/ to snake case.

usage: python3 tools/respell.py [--list]     at the top of the repository, once, after port.py

Renamed are definitions, lemmas, constructors, fields of records and local names of .antt files whose names are in
lower camel case or joined by dashes. Types and facts keep their capitals; names of src/, of the library and of goals
(what Rattle makes of the code) keep theirs. Two names that would fall together stop it.
"""
import os
import re
import sys

WORD = r"[A-Za-z_À-￿][A-Za-z0-9_'À-￿]*(?:-[A-Za-z0-9_'À-￿]+)*"
TOKEN = re.compile(r"«[^»]*»|" + WORD)
HEAD = re.compile(r"^\s*(?:(?:abbrev|unfoldable|pub)\s+)*(" + WORD + r")\s*:(?!:)")
LET = re.compile(r"\blet (" + WORD + r")\s*[:=]")
BINDERS = re.compile(r"[({]((?:" + WORD + r"\s+)*" + WORD + r")\s*:\s")
LAMBDA = re.compile(r"λ ((?:" + WORD + r"\s+)*" + WORD + r")\.")
# Lemmas that would get the name of a definition, and one named after a word that the library has renamed.
APART = {
    "at-end": "at_end_lem",
    "can-put": "can_put_lem",
    "count-of": "count_of_lem",
    "in-pool": "in_pool_lem",
    "in-records": "in_records_lem",
    "in-row": "in_row_lem",
    "key-of": "key_of_lem",
    "layout-fixed": "layout_fixed_lem",
    "no_size": "no_size_lem",
    "set-fixed": "set_fixed_lem",
    "getD-either": "get_or_either",
}


def old_form(name):
    return (name[0].islower() and any(c.isupper() for c in name)) or "-" in name


def snake(name):
    parts = []
    for part in name.split("-"):
        if part and part[0].isupper():
            return None
        parts.append(re.sub(r"(?<=[a-z0-9'])([A-Z])", lambda m: "_" + m.group(1).lower(), part))
    return "_".join(parts)


def files(end):
    for folder, dirs, names in os.walk("crates"):
        dirs[:] = sorted(d for d in dirs if d != "out")
        for n in sorted(names):
            if n.endswith(end):
                yield os.path.join(folder, n)


def of_function(path):
    """A file of one function's proof, whose names are mostly Rattle's."""
    return os.path.basename(path) in ("Answers.antt", "Invariants.antt", "Proof.antt")


def code(line):
    """The line without its comment."""
    return re.sub(r"(^|\s)--\s.*$", "", line)


def given(path, text):
    """The names that a file gives."""
    names = set()
    for line in text.splitlines():
        line = code(line)
        if line.startswith("use "):
            continue
        m = HEAD.match(line)
        if m and not re.search(r":\s*goal\.", line):
            names.add(m.group(1))
        if not of_function(path) or not (m and re.search(r":\s*goal\.", line)):
            names.update(LET.findall(line))
            for pattern in (BINDERS, LAMBDA):
                for group in pattern.findall(line):
                    names.update(group.split())
    return names


def respelled(text, names):
    def one(m):
        return names.get(m.group(0), m.group(0))

    return TOKEN.sub(one, text)


def clauses_only(text, names):
    """A .rt file: strings and comments stay."""
    parts = re.split(r'("(?:[^"\\]|\\.)*"|//[^\n]*)', text)
    return "".join(p if i % 2 else respelled(p, names) for i, p in enumerate(parts))


def main():
    texts = {p: open(p, encoding="utf-8").read() for p in [*files(".antt"), *files(".rt")]}
    old, taken = {}, set()
    for p, t in texts.items():
        if p.endswith(".antt"):
            for n in given(p, t):
                if n in APART or old_form(n) and snake(n):
                    old[n] = APART.get(n) or snake(n)
                elif not old_form(n):
                    taken.add(n)
    into = {}
    for a, b in sorted(old.items()):
        into.setdefault(b, []).append(a)
    together = {b: a for b, a in into.items() if len(a) > 1 or b in taken}
    if "--list" in sys.argv:
        for a, b in sorted(old.items()):
            print(a, b, "MEETS " + " ".join(together[b]) if b in together else "")
        return
    if together:
        sys.exit("these names would fall together: " + "; ".join(" ".join(a) + " as " + b for b, a in together.items()))
    for p, t in texts.items():
        new = clauses_only(t, old) if p.endswith(".rt") else respelled(t, old)
        if new != t:
            with open(p, "w", encoding="utf-8") as f:
                f.write(new)


main()
