#!/usr/bin/env python3
"""Counts the places of the eight points of docs/DESIGN-PASS.md: tools/places.py [-v] [POINT ..], at the top of the repository. With -v each place is printed."""
import collections
import glob
import re
import sys

SOURCES = sorted(glob.glob("crates/*/src/**/*.rt", recursive=True))
WORD = re.compile(r"[A-Za-z_][A-Za-z_0-9]*|\d[0-9A-Za-z_]*|b?'(?:\\.|[^'\\])'|b?\"(?:\\.|[^\"\\])*\"|\S")
KEYWORDS = set("as break const continue else enum false fn for if impl in let loop match mut pub ref return self struct true type use where while".split())


def code_lines(path):
    for number, line in enumerate(open(path, encoding="utf-8"), 1):
        yield number, re.sub(r"^\s*//.*", "", line.rstrip("\n"))


def functions():
    """Each function: its place, its name, its parameters, its clauses and its body."""
    for path in SOURCES:
        text = open(path, encoding="utf-8").read()
        for found in re.finditer(r"^( *)(?:pub )?(?:extern \"C\" )?fn (\w+)", text, re.M):
            end = text.find("\n" + found.group(1) + "}", found.start())
            whole = text[found.start():end + 1]
            clauses = []
            rest = whole
            head = re.match(r"(?s).*?\)(?: -> [^\n{]+)?(?=\n| \{)", rest)
            body_at = whole.find("\n" + found.group(1) + "{\n")
            if body_at < 0:
                body_at = whole.find(" {\n")
            clause_text = whole[:body_at]
            for kind, clause in re.findall(r"(?s)(requires|ensures)[^{\n]*\{(.*?)\}(?=\n|$)", clause_text):
                clauses.append((kind, " ".join(clause.split())))
            parameters = re.findall(r"(\w+): (&?'?\w* ?(?:mut )?[^,()\n]+)", head.group(0).split(")")[0] if head else "")
            line = text.count("\n", 0, found.start()) + 1
            yield path, line, found.group(2), parameters, clauses, whole[body_at:]


def conjuncts(clause):
    parts, depth, at = [], 0, 0
    for i, c in enumerate(clause):
        depth += c in "({[" and 1 or (c in ")}]" and -1 or 0)
        if c == "×" and depth == 0:
            parts.append(clause[at:i])
            at = i + 1
    parts.append(clause[at:])
    return [re.sub(r"^\((.*)\)$", r"\1", p.strip()) for p in parts]


def skeleton(body):
    """The body with names, numbers and texts left out, so that twins are alike."""
    words = WORD.findall(re.sub(r"//[^\n]*", "", body))
    return " ".join(w if w in KEYWORDS else ("N" if w[0].isdigit() else "S" if w[0] in "'\"" or w[:2] in ("b'", 'b"') else "I" if w[0].isalpha() or w[0] == "_" else w) for w in words)


def matching(pattern):
    for path in SOURCES:
        for number, line in code_lines(path):
            if re.search(pattern, line):
                yield f"{path}:{number}: {line.strip()}"


def comments(pattern):
    for path in SOURCES:
        for number, line in enumerate(open(path, encoding="utf-8"), 1):
            if line.lstrip().startswith("//") and re.search(pattern, line):
                yield f"{path}:{number}: {line.strip()}"


def point1():
    yield "enums", list(matching(r"^\s*(pub )?enum "))
    yield "fields that are flags", list(matching(r"^\s*(pub )?\w+: bool,$"))
    yield "answers that are 0 or a length for none", list(comments(r"; or 0\b|, or 0\b|, 0 (past|where|for)|, or n\.|or the (number|length)\b.* where there is none|, or the table's end"))
    yield "answers compared with that", list(matching(r"if \w+(\.found)? [!=]= 0 \{"))


def point2():
    groups = collections.defaultdict(list)
    for path, line, name, _, _, body in functions():
        shape = skeleton(body)
        if len(shape.split()) >= 24:
            groups[shape].append(f"{path}:{line}: {name}")
    yield "functions with a body of the same shape, of 24 words or more", [" | ".join(g) for g in groups.values() if len(g) > 1]


def point3():
    yield "loops that are no `for`", list(matching(r"^\s*(while |loop \{)"))


def point4():
    yield "widening casts", list(matching(r"\bas (u16|u32|u64|usize|i32|i64)\b"))
    yield "`match` to true and false", [f"{p}:{n}: {name}" for p, n, name, _, _, body in functions() if re.search(r"=> (true|false),\s*_ => (true|false)|=>\s*true,\s*_ => false", body)]
    yield "functions that compare, copy or convert by hand", [f"{p}:{n}: {name}" for p, n, name, _, _, _ in functions() if re.match(r"(same|widen|copy_\w+|is_same|is_below|list_all|lower|add_if|count_of|one_if|more|whole_entries|behind_name|code_of|form_at|put_text)$", name)]


def point5():
    facts = collections.defaultdict(set)
    groups = collections.defaultdict(set)
    for path, line, name, parameters, clauses, _ in functions():
        crate = path.split("/")[1]
        for kind, clause in clauses:
            if kind == "requires":
                for fact in conjuncts(clause):
                    facts[fact].add(f"{crate}::{name}")
        plain = [f"{a}: {b.strip()}" for a, b in parameters]
        for i in range(len(plain)):
            for j in range(i + 1, len(plain)):
                groups[(plain[i], plain[j])].add(f"{crate}::{name}")
    yield "facts required by three functions or more", [f"{len(v)} {k}" for k, v in sorted(facts.items(), key=lambda e: -len(e[1])) if len(v) >= 3]
    yield "two parameters together in five functions or more", [f"{len(v)} ({', '.join(k)})" for k, v in sorted(groups.items(), key=lambda e: -len(e[1])) if len(v) >= 5]


def point6():
    found = []
    for path, line, name, parameters, _, _ in functions():
        slices = [a for a, b in parameters if re.match(r"&'?\w* ?(mut )?\[", b)]
        counts = [a for a, b in parameters if b.strip() == "usize" and a in ("n", "k", "at", "end", "count", "procs", "threads")]
        if slices and counts:
            found.append(f"{path}:{line}: {name} ({', '.join(slices)}; {', '.join(counts)})")
    yield "functions with a slice and a length or a place of it beside", found
    yield "columns side by side", [f"{p}:{n}: {name}" for p, n, name, ps, _, _ in functions() if {"masks", "codes"} <= {a for a, _ in ps} or {"choices", "rows"} <= {a for a, _ in ps} or {"choices", "masks"} <= {a for a, _ in ps}]


def point7():
    yield "a `match` on a step, a request or what is shown", list(matching(r"match (step|shown|request|visit)\b"))


def point8():
    answers = sorted(glob.glob("crates/*/proofs/**/Answers.antt", recursive=True))
    lone, lines = [], collections.defaultdict(list)
    for path in answers:
        crate = path.split("/")[1]
        for number, line in enumerate(open(path, encoding="utf-8"), 1):
            if re.match(r"\S+( \w+)* = search rules$", line):
                lone.append(f"{path}:{number}: {line.strip()}")
            found = re.match(r"[^\s-]\S*(?: \w+)* = (.+)$", line)
            if found and not line.startswith("pub "):
                lines[(crate, found.group(1).strip())].append(path)
    yield "answers `search rules`", lone
    yield "answers given three times or more in a crate", [f"{len(v)} {k[0]}: {k[1]}" for k, v in sorted(lines.items(), key=lambda e: -len(e[1])) if len(v) >= 3]
    texts = {p: open(p, encoding="utf-8").read() for p in glob.glob("crates/*/**/*.antt", recursive=True) + SOURCES if "/out/" not in p}
    uses = collections.Counter(w for t in texts.values() for w in re.findall(r"[^\s(){}\[\],;.:`]+", t))
    unused = []
    for path in sorted(p for p in texts if "/proofs/" in p and not re.search(r"/(Answers|Invariants|Lib)\.antt$", p)):
        for name in re.findall(r"(?m)^\s*(?:pub |abbrev |abbrev pub )?([^\s(){}]+) : ", texts[path]):
            if uses[name] <= 2:
                unused.append(f"{path}: {name}")
    yield "names of proofs/ that stand nowhere but where they are defined", unused


def main():
    arguments = sys.argv[1:]
    verbose = "-v" in arguments
    for point in [a for a in arguments if a != "-v"] or "12345678":
        for title, places in globals()["point" + point]():
            print(f"{point}  {len(places):4}  {title}")
            if verbose:
                for place in places:
                    print("        " + place)


main()
