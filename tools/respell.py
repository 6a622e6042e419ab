#!/usr/bin/env python3
"""Turns the repository's own names in antt to snake case. Run once at the top, right after the kit's port.py.

A word of a definition, a field, a label or a variable is joined by `_`. In a lemma's name a dash stays only between two names of
definitions, as in `length-row_fields`. Names that Rattle makes and those of the library are left alone, and so is Rust code.
"""
import os
import re
import sys

# Definitions of the library that lemma names speak of.
LIBRARY = {"length", "map", "take", "drop", "reverse", "sum", "div", "min"}
# Names that would fall together with another name, or read badly, once their dashes go.
OTHERWISE = {
    "at-jobs-free": "at_jobs_free",
    "ended-length": "ended_length",
    "free-at-jobs": "free_at_jobs",
    "isOk-then": "IsOk-then",
    "placed-length": "placed_length",
    "records-ended": "records_ended",
}

WORD = r"[A-Za-z_][\w'₀-₉]*(?:-[\w'₀-₉]+)+"
TOKEN = re.compile(r"(?<![\w'₀-₉-])" + WORD + r"(?![\w'₀-₉-])")
DEFINED = re.compile(r"^\s*((?:(?:abbrev|unfoldable|pub|record|data)\s+)*)(" + WORD + r")\s*(?:\([^)]*\)\s*)*:(?!:)\s*(.*)$")
BOUND = [
    re.compile(r"λ\s+((?:[\w'₀-₉-]+\s+)*[\w'₀-₉-]+)\."),
    re.compile(r"[({]((?:[\w'₀-₉-]+\s+)*[\w'₀-₉-]+)\s+:"),
    re.compile(r"let\s+([\w'₀-₉-]+)\s*[:=]"),
]


def texts(top):
    for folder, dirs, files in os.walk(os.path.join(top, "crates")):
        dirs[:] = sorted(d for d in dirs if d not in ("out", "must-fail", "data"))
        for f in sorted(files):
            if f.endswith((".antt", ".rt")):
                yield os.path.join(folder, f)


def is_lemma_file(path, top):
    parts = os.path.relpath(path, os.path.join(top, "crates")).split(os.sep)
    return parts[1] == "proofs" or parts[-1].endswith("Lemmas.antt")


def is_goal_file(path, top):
    parts = os.path.relpath(path, os.path.join(top, "crates")).split(os.sep)
    return parts[1] == "proofs" and len(parts) > 3


def gather(top):
    """The names that are defined here: words, whose dashes all go, and lemmas."""
    words, lemmas = set(), set()
    for path in texts(top):
        if not path.endswith(".antt"):
            continue
        with open(path, encoding="utf-8") as f:
            lines = f.read().split("\n")
        indent_is_field = False
        for line in lines:
            if line.strip().startswith("--"):
                continue
            m = DEFINED.match(line)
            if m and not m.group(3).startswith("goal."):
                marks, name = m.group(1), m.group(2)
                is_field = line.startswith(" ") and not marks.strip().startswith("abbrev")
                is_definition = "abbrev" in marks or "unfoldable" in marks or is_field
                if is_lemma_file(path, top) and not is_definition:
                    lemmas.add(name)
                else:
                    words.add(name)
            for form in BOUND:
                for b in form.finditer(line):
                    words.update(w for w in b.group(1).split() if "-" in w and not w.startswith("-"))
    return words, lemmas - words


def snake(name):
    return OTHERWISE.get(name, name.replace("-", "_"))


def lemma(name, known):
    """The longest known names first; a dash only between two of them."""
    if name in OTHERWISE:
        return OTHERWISE[name]
    parts, pieces, i = name.split("-"), [], 0
    while i < len(parts):
        for j in range(len(parts), i, -1):
            piece = "_".join(parts[i:j])
            if piece in known or j == i + 1:
                pieces.append(piece)
                i = j
                break
    out = pieces[0]
    for before, piece in zip(pieces, pieces[1:]):
        out += ("-" if before in known and piece in known else "_") + piece
    return out


def main():
    top = sys.argv[1] if len(sys.argv) > 1 else "."
    words, lemmas = gather(top)
    turned = {w: snake(w) for w in words}
    known = LIBRARY | {v for v in turned.values()} | functions(top)
    turned.update({n: lemma(n, known) for n in lemmas})
    if "--list" in sys.argv:
        for name in sorted(turned):
            print(name, "->", turned[name])
        return
    for path in texts(top):
        with open(path, encoding="utf-8") as f:
            text = f.read()
        new = TOKEN.sub(lambda m: turned.get(m.group(), m.group()), text)
        if new != text:
            with open(path, "w", encoding="utf-8") as f:
                f.write(new)


def functions(top):
    """The definitions of specs/ whose names have no dash."""
    found = set()
    for path in texts(top):
        if os.sep + "specs" + os.sep in path and path.endswith(".antt"):
            with open(path, encoding="utf-8") as f:
                for line in f:
                    m = re.match(r"\s*(?:abbrev|unfoldable) pub ([a-z][\w]*) :", line)
                    if m:
                        found.add(m.group(1))
    return found


if __name__ == "__main__":
    main()
