#!/usr/bin/env python3
"""Spells this repository's own definitions, lemmas, fields and variables in snake case: `ceilDiv` as `ceil_div`, `cells-more` as
`cells_more`. It ran once, after the kit's script that brought the older spelling to today's; docs/PORT.md says when.

usage: tools/respell.py [--check]     at the top of the repository; --check writes nothing and prints the table

Names of the libraries, of types and of modules keep their spelling. A lemma or a field that would get a definition's name ends in `_lem`.
"""

import os
import re
import sys

TOKEN = re.compile(r'[^\s(){}.;,@"«»]+')
OWN = re.compile(r"Rattle\.(?:exact|settlement|exports|book|text|lister|listing|demonstration|trial)\.")
IMPORT = re.compile(r"^(?:pub )?use ([^\s{;]+)\.\{([^}]*)\}", re.M)
GHOST_IMPORT = re.compile(r"^ghost use ([^\s{;]+)\.\{([^}]*)\};", re.M)
COMMENT = re.compile(r"--[^\n]*")
SPAN = re.compile(r"`[^`\n]+(?<!\.feed)`")

# Two functions whose laws have these names in snake case.
GIVEN = {"readAgain": "reading_of", "writeAgain": "writing_of"}
# A field that the kit's script had spelled already, beside a definition that gets its name here.
FIELD = [
    (re.compile(r"(?<=pub )is_open(?= : isOpen)"), "is_open_lem"),
    (re.compile(r"(?<=record \{ )is_open(?= = )"), "is_open_lem"),
    (re.compile(r"(?<=\bo\.)is_open(?![\w-])"), "is_open_lem"),
]


def files(*ends):
    for top in ("crates", "docs", "README.md"):
        if os.path.isfile(top):
            if top.endswith(ends):
                yield top
            continue
        for folder, dirs, names in os.walk(top):
            dirs[:] = sorted(d for d in dirs if d != "out")
            for name in sorted(names):
                if name.endswith(ends):
                    yield os.path.join(folder, name)


def read(path):
    with open(path, encoding="utf-8") as f:
        return f.read()


def snake(name):
    name = re.sub(r"(?<=[a-z0-9])([A-Z])", lambda m: "_" + m.group(1).lower(), name)
    name = name.replace("-", "_")
    return name if re.match(r"[A-Z]", name) else re.sub(r"_([A-Z])", lambda m: "_" + m.group(1).lower(), name)


def is_old(name):
    return re.match(r"[a-zμ]", name) and (re.match(r"[a-z][a-z0-9]*[A-Z]", name) or "-" in name)


def library():
    found = set()
    for path in files(".antt", ".rt"):
        for m in list(IMPORT.finditer(read(path))) + list(GHOST_IMPORT.finditer(read(path))):
            if not OWN.match(m.group(1) + "."):
                found.update(n.strip().split(" as ")[0] for n in m.group(2).split(","))
    return found


def table():
    kept = library()
    olds, seen = set(), {}
    for path in files(".antt"):
        tokens = set(TOKEN.findall(COMMENT.sub("", read(path))))
        olds.update(n for n in tokens if is_old(n) and n not in kept)
        if not re.search(r"/Proof(/\w+)?\.antt$", path):
            for n in tokens:
                seen.setdefault(n, set()).add(path)
    rows = {}
    for old in olds:
        new = GIVEN.get(old, snake(old))
        if "-" in old and old in seen and any("-" not in c and snake(c) == new for c in olds):
            new += "_lem"
        rows[old] = new
    return rows, seen


def turn_code(text, rows):
    return TOKEN.sub(lambda m: rows.get(m.group(0), m.group(0)), text)


def turn_spans(text, rows):
    return SPAN.sub(lambda m: turn_code(m.group(0).strip("`"), rows).join("``"), text)


def turn(text, rows, comment):
    lines = []
    for line in text.split("\n"):
        at = re.search(r"(?:^|(?<=\s))" + comment, line)
        at = at.start() if at else len(line)
        lines.append(turn_code(line[:at], rows) + turn_spans(line[at:], rows))
    return "\n".join(lines)


def turn_file(path, rows):
    text = read(path)
    if path.endswith(".antt"):
        for pattern, new in FIELD:
            text = pattern.sub(new, text)
        return turn(text, rows, "--")
    if path.endswith(".rt"):
        return turn(text, rows, "//")
    if path.endswith(".edit"):
        return re.sub(r"^(old|new): .*$", lambda m: turn_code(m.group(0), rows), text, flags=re.M)
    return turn_spans(text, rows)


def main(check):
    rows, seen = table()
    # A page may name what the kit's script has turned in the code.
    told = {n: snake(n) for path in files(".md") for span in SPAN.findall(read(path)) for n in TOKEN.findall(span.strip("`"))}
    pages = {n: new for n, new in told.items() if is_old(n) and n not in rows and new in seen}
    taken = {}
    for old, new in rows.items():
        taken.setdefault(new, set()).add(old)
    for new, olds in sorted(taken.items()):
        where = [seen.get(o, set()) for o in olds]
        if len(olds) > 1 and set.intersection(*where):
            print("meet:", new, sorted(olds))
        both = seen.get(new, set()) & set.union(*where) if where else set()
        if both and new not in olds:
            print("meets:", new, sorted(olds), sorted(both)[:3])
    if check:
        for old in sorted(rows):
            print(old, rows[old], sep="\t")
        return
    for path in files(".antt", ".rt", ".edit", ".md"):
        old = read(path)
        new = turn_file(path, {**rows, **pages} if path.endswith(".md") else rows)
        if new != old:
            with open(path, "w", encoding="utf-8") as f:
                f.write(new)


if __name__ == "__main__":
    main("--check" in sys.argv[1:])
