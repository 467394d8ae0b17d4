#!/usr/bin/env python3
"""Gives the definitions and lemmas of the crates the spelling of today's Rattle, by the table beside this script.

usage: python3 tools/respell.py [FOLDER]      (the top of the repository)

A row of respell.tsv is an old name, a tab, the new one, and for the field of a record a third word, `field`. What turns, word by word:
  .antt  code and comments. What a file imports from a library of the toolchain stays there. A name with a dash behind a lower-case word and a dot
         turns only if it is a field, and in no Proof.antt: else it is a step that the check names
  .rt    comments, `ghost use` items and clauses: only names that hold a capital behind a small letter turn there, which no name of the source does
  .edit  as .rt, or as .antt where the edit is of a definition
  .md    code spans and fenced blocks, below docs/ and in the README
Run it once: nine of the new names are also old ones, and a second run would turn them again. A word that a file would then use for two things is printed.
"""

import os
import re
import sys

HERE = os.path.dirname(os.path.realpath(__file__))
WORD = re.compile(r'[^\s(){}.;,@"«»`]+')
SPAN = re.compile(r"```.*?```|`[^`\n]+`", re.S)
STRING = re.compile(r'"(?:[^"\\\n]|\\.)*"')


def table():
    with open(os.path.join(HERE, "respell.tsv"), encoding="utf-8") as f:
        rows = [line.rstrip("\n").split("\t") for line in f if line.strip()]
    return {r[0]: r[1] for r in rows}, {r[0] for r in rows if len(r) > 2}


def is_of_source(name):
    """A name that the source could hold itself: it has no capital behind a small letter."""
    return not re.search(r"[a-z0-9][A-Z]", name) or "-" in name


def turned(text, rows, fields, may):
    def one(m):
        word, before = m[0], text[max(0, m.start() - 40) : m.start()]
        if word not in rows or not may(word):
            return word
        if "-" in word and word not in fields and re.search(r"[^\s(){;,]\.$", before) and not re.search(r"[A-Z][A-Za-z0-9]*\.$", before):
            return word
        return rows[word]

    out, at = [], 0
    for s in STRING.finditer(text):
        out += [part(text, at, s.start(), one), s[0]]
        at = s.end()
    out.append(part(text, at, len(text), one))
    return "".join(out)


def part(text, a, b, one):
    out, at = [], a
    for m in WORD.finditer(text, a, b):
        out += [text[at : m.start()], one(m)]
        at = m.end()
    out.append(text[at:b])
    return "".join(out)


def imported(text, own):
    """What a file imports from libraries that are no crate of the repository."""
    found = set()
    for m in re.finditer(r"(?m)^(?:pub )?use ([^\s{]+?)\.?\{([^}]*)\}", text):
        path = m[1].split(".")
        if path[0] != "Rattle" or path[1] not in own:
            found |= {re.sub(r" as .*", "", w.strip()) for w in m[2].split(",")}
    return found


def rendered(path, text, rows, fields, own):
    if path.endswith(".antt"):
        kept = imported(text, own)
        return turned(text, rows, set() if path.endswith("/Proof.antt") else fields, lambda w: w not in kept)
    if path.endswith(".rt"):
        return turned(text, rows, fields, lambda w: not is_of_source(w))
    if path.endswith(".edit"):
        of_source = re.search(r"(?m)^file: src/", text)
        return turned(text, rows, fields, (lambda w: not is_of_source(w)) if of_source else (lambda w: True))
    return SPAN.sub(lambda m: turned(m[0], rows, fields, lambda w: "_" not in w), text)


def files(root):
    for folder, dirs, names in os.walk(root):
        dirs[:] = sorted(d for d in dirs if d not in ("out", ".git", "target"))
        for n in sorted(names):
            path = os.path.join(folder, n)
            below = os.path.relpath(path, root)
            if os.path.islink(path):
                continue
            if below.startswith("crates/") and n.endswith((".antt", ".rt", ".edit")):
                yield path
            elif n.endswith(".md") and (below.startswith("docs/") or below == "README.md") and n != "PORT.md":
                yield path


def main(argv):
    root = argv[0] if argv else os.path.dirname(HERE)
    rows, fields = table()
    own = set(os.listdir(os.path.join(root, "crates")))
    for path in files(root):
        with open(path, encoding="utf-8") as f:
            text = f.read()
        new = rendered(path, text, rows, fields, own)
        if path.endswith(".antt"):
            words = set(WORD.findall(re.sub(r"--[^\n]*", "", text)))
            # A segment of a path is no word that the file uses.
            for w in sorted(words):
                if w in rows and rows[w] in words and rows[w] not in rows and re.search(r"(?<![\w.'-])" + re.escape(rows[w]) + r"(?![\w'-])(?!\.[A-Z])", re.sub(r"--[^\n]*", "", text)):
                    print(f"look: {os.path.relpath(path, root)}: {w} and {rows[w]}")
        if new != text:
            with open(path, "w", encoding="utf-8") as f:
                f.write(new)
    return 0


if __name__ == "__main__":
    raise SystemExit(main(sys.argv[1:]))
