#!/usr/bin/env python3
"""Respells the repository's own definitions and lemmas: words in snake case, types in camel case.

usage: python3 tools/respell.py    at the top of the repository, once, right after the kit's port.py

It reads the files of specs/ and proofs/ for the names that they define (not for those that Rattle makes, such as a goal's), and turns
each that has a hyphen or a capital inside wherever it stands: in those files, and in the clauses and ghost items of src/.
Code, comments and strings keep their words. It writes nothing where two names would fall together in one file.
"""

import collections
import os
import re

ID = r"[A-Za-z_][A-Za-z0-9_'\-]*"
TOKEN = re.compile(r"(?<![A-Za-z0-9_'\-])" + ID)
SIGNATURE = re.compile(r"^\s*(?:(?:abbrev|unfoldable|pub)\s+)*(" + ID + r")(?:\s*[\{\(][^:]*:[^\}\)]*[\}\)])*\s*:\s+(.*)$")
RECORD = re.compile(r"^\s*(?:pub\s+)?(?:record|data)\s+(" + ID + r")")
ALIAS = re.compile(r"\bas (" + ID + ")")
# Answers to goals, invariants and measures: Rattle gives them their names.
OF_RATTLE = re.compile(r"^(?:invariant|decreases|loop|returns|overflow)-|-requires$")

# A type whose name was a word, and lemmas whose names would fall together with the definitions that they are about.
BY_HAND = {
    "distinct": "Distinct",
    "ban-words": "ban_pieces_words",
    "last-marks": "last_words_marks",
    "read-of": "read_some_item",
    "target-kind": "target_kinds",
}

# Names that stand beside their like in a file and stay apart there: a function's folder or what a call of it made, and a name under an alias.
APART = {"InRange", "hub_text", "link_of", "make_text", "shares_with", "survey_text"}


def spelled(name):
    if name in BY_HAND:
        return BY_HAND[name]
    if name[0].isupper():
        return "".join(w[:1].upper() + w[1:] for w in name.split("-"))
    return re.sub(r"(?<=[a-z0-9])([A-Z])", r"_\1", name).replace("-", "_").lower()


def files(ending):
    for folder, dirs, names in os.walk("crates"):
        dirs[:] = sorted(d for d in dirs if d != "out")
        for n in sorted(names):
            if n.endswith(ending):
                yield os.path.join(folder, n)


def read(path):
    with open(path, encoding="utf-8") as f:
        return f.read()


def defined(text):
    """The names that a file of specs/ or proofs/ defines, its aliases with them."""
    for line in text.split("\n"):
        if line.lstrip().startswith("--"):
            continue
        if line.lstrip().startswith(("use ", "pub use ")):
            yield from (a for a in ALIAS.findall(line) if "-" in a)
            continue
        m = RECORD.match(line)
        if m:
            yield m.group(1)
            continue
        m = SIGNATURE.match(line)
        if m and not OF_RATTLE.search(m.group(1)) and not m.group(2).startswith("goal."):
            yield m.group(1)


def turned(text, turn):
    return TOKEN.sub(lambda m: turn.get(m.group(0), m.group(0)), text)


def in_source(text, turn):
    """The text of a file of src/ with the names turned in its ghost items and clauses alone."""
    out, inside = [], False
    for line in text.split("\n"):
        ghost = inside or re.match(r"\s*(?:ghost|ensures|requires)\b", line)
        if ghost and not line.lstrip().startswith("//"):
            line = turned(line, turn)
            inside = line.count("{") != line.count("}") and (inside or not line.rstrip().endswith(";"))
            if inside and line.rstrip().endswith("}"):
                inside = False
        out.append(line)
    return "\n".join(out)


def together(path, old, turn):
    """Pairs of names of a file that would fall together."""
    at = collections.defaultdict(set)
    for line in old.split("\n"):
        if not line.lstrip().startswith("--"):
            for w in TOKEN.findall(line):
                at[turn.get(w, w)].add(w)
    return [f"{path}: {' '.join(sorted(ws))} -> {n}" for n, ws in sorted(at.items()) if len(ws) > 1 and n not in APART]


def main():
    own = set()
    for p in files(".antt"):
        own |= set(defined(read(p)))
    turn = {n: spelled(n) for n in own if spelled(n) != n}
    new, bad = {}, []
    for p in files(".antt"):
        text = read(p)
        bad += together(p, text, turn)
        new[p] = turned(text, turn)
    for p in files(".rt"):
        new[p] = in_source(read(p), turn)
    for b in bad:
        print("together: " + b)
    if bad:
        return 1
    for p, text in new.items():
        if text != read(p):
            with open(p, "w", encoding="utf-8") as f:
                f.write(text)
    print(f"respell: {len(turn)} names")
    return 0


if __name__ == "__main__":
    raise SystemExit(main())
