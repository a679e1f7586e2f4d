#!/usr/bin/env python3
"""respell.py [FOLDER]: brings the repository's own definitions and lemmas to snake case, after port.py.

A word that begins with a small letter and has a capital inside, as `firstStep`, becomes `first_step`: in each .antt file, in the ghost lines, clauses and
comments of each .rt file, and in what stands between backquotes in README.md and docs/ (docs/CHANGES.md and docs/PORT.md are history and stay).
The parts of a name that a dash joins are words of their own: `headUnder-length` becomes `head_under-length`. Types, and facts named as types, keep
their capitals. Text between double quotes stays. Functions of src/ have no such names.
"""

import collections
import os
import re
import sys

NAME = re.compile(r"[^\W\d][\w'₀-₉]*(?:-[\w'₀-₉→≡≤<+*]+)*")
CAMEL = re.compile(r"[a-z_][a-z0-9_'₀-₉]*(?:[A-Z][a-z0-9_'₀-₉]*)+")
STRING = re.compile(r'"(?:[^"\\\n]|\\.)*"')


def word(part):
    if part == "getD":
        return "get_or"
    if not CAMEL.fullmatch(part):
        return part
    return re.sub(r"(?<=[a-z0-9'₀-₉])[A-Z]", lambda m: "_" + m[0].lower(), part).lower() if not re.search(r"[A-Z]{2}", part) else re.sub(
        r"([a-z0-9])([A-Z]+)", lambda m: m[1] + "_" + m[2].lower(), part
    )


def respelled(name):
    return "-".join(word(part) for part in name.split("-"))


def turned(text, seen):
    def each(m):
        new = respelled(m[0])
        if new != m[0]:
            seen[m[0]] = new
        return new

    out, at = [], 0
    for m in STRING.finditer(text):
        out += [NAME.sub(each, text[at : m.start()]), m[0]]
        at = m.end()
    return "".join(out) + NAME.sub(each, text[at:])


# Lemmas whose dash port.py took, and which would fall together with a definition: they have it again.
DASHES = {
    "blank_join": "crates/format/proofs/Parts.antt crates/query/proofs/Shape.antt",
    "entry_read": "crates/parsing/proofs/Positions.antt crates/parsing/proofs/read_entries/Proof.antt crates/parsing/proofs/ReadingRows.antt",
    "first_found": "crates/join_testing/proofs/Finding.antt crates/join_testing/proofs/Choosing.antt crates/join_search/proofs/Turns.antt crates/join_search/proofs/+extend/Proof.antt",
    "least_above": "crates/text/proofs/Occurring.antt",
    "place_at": "crates/comparison/proofs/filled_pair/Proof.antt crates/record/proofs/Record/put/Proof.antt crates/record/proofs/Refusals.antt crates/reduction/proofs/reduce/Proof.antt",
    "row_word": "crates/join_testing/proofs/+choose/Proof.antt crates/join_testing/proofs/Arranging.antt",
    "same_row": "crates/candidates/proofs/table/repeats/Proof.antt crates/join_step/proofs/Rows.antt",
    "row_has": "crates/limits/proofs/rows_have/Proof.antt crates/join_testing/proofs/Arranging.antt",
}


def main():
    root = sys.argv[1] if len(sys.argv) > 1 else "."
    for name, paths in DASHES.items():
        for path in paths.split():
            path = os.path.join(root, path)
            with open(path, encoding="utf-8") as f:
                text = f.read()
            with open(path, "w", encoding="utf-8") as f:
                f.write(re.sub(rf"(?<![.\w-]){name}(?![\w-])", name.replace("_", "-"), text))
    seen, tokens = {}, collections.defaultdict(set)
    files = []
    for folder, folders, names in os.walk(os.path.join(root, "crates")):
        folders[:] = sorted(f for f in folders if f not in ("out", "must-fail"))
        files += [os.path.join(folder, n) for n in sorted(names) if n.endswith((".rt", ".antt"))]
    for path in files:
        with open(path, encoding="utf-8") as f:
            text = f.read()
        for m in NAME.finditer(text):
            tokens[m[0]].add(path)
        new = turned(text, seen)
        if new != text:
            with open(path, "w", encoding="utf-8") as f:
                f.write(new)
    pages = [os.path.join(root, "README.md")]
    docs = os.path.join(root, "docs")
    pages += [os.path.join(docs, n) for n in sorted(os.listdir(docs)) if n.endswith(".md") and n not in ("CHANGES.md", "PORT.md")]
    for path in pages:
        with open(path, encoding="utf-8") as f:
            text = f.read()
        new = re.sub(r"`[^`\n]*`", lambda m: turned(m[0], {}) if not m[0].startswith("`$") else m[0], text)
        if new != text:
            with open(path, "w", encoding="utf-8") as f:
                f.write(new)
    for old, new in sorted(seen.items()):
        both = tokens[old] & tokens.get(new, set())
        if both:
            print(f"look: {old} and {new} in {len(both)} files: {', '.join(sorted(os.path.relpath(p, root) for p in both)[:4])}")
    print(f"{len(seen)} names respelled; a line that begins with look names one that a function of src/, a module or another name is spelled like")


main()
