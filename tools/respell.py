#!/usr/bin/env python3
"""Spells the repository's own definitions, lemmas, fields and constructors as Rattle's library does: words in snake case.

usage: python3 tools/respell.py     at the top of the repository, once, after /opt/rattle/port/port.py

A name that is declared in specs/ or proofs/ (but in no proof of a function alone, whose names Rattle gives) and has a dash or
a capital inside is spelled with underscores; a dash stays beside a part that is spelled like a type, as in `drop-Bytes`, and
a type keeps its capitals. Where a definition and a law about it would fall together, the law gets `_lem` at its end. What is
imported from a library, functions of src/, exported names, strings, inputs and outputs stay as they are. It turns .antt
files, clauses of .rt files, edits of must-fail/, and code spans of comments and pages.
"""

import collections
import glob
import re

NAME = r"[^\s(){}.;,@\"«»\x60]+"
DECLARED = re.compile(
    rf"^( *)((?:(?:unfoldable|abbrev|pub|data|record|ruleset) )*)({NAME}(?: {NAME})*)((?: \{{[^{{}}]*\}})*(?: \([^()]*\))*) :(?= |$)",
    re.M,
)
IMPORTED = re.compile(r"\buse (?!Rattle\.(?:%s)\b)([\w.]+)\.\{([^}]*)\}")
TOKEN = re.compile(rf"(?<![^\s(){{}}.;,@\"«»\x60])({NAME})")
SPAN = re.compile(r"\x60[^\x60\n]*\x60")


def proofs_of_functions(path):
    return path.endswith("/Proof.antt")


def texts(*patterns):
    for pattern in patterns:
        for path in sorted(glob.glob(pattern, recursive=True)):
            if "/out/" not in path:
                with open(path, encoding="utf-8") as f:
                    yield path, f.read()


def snake(part):
    return re.sub(r"(?<=[a-z0-9])([A-Z])", lambda m: "_" + m[1].lower(), part)


def respelled(name):
    if name[0].isupper():
        # a type: no dash, and capitals for its words
        return "".join(p[:1].upper() + p[1:] for p in name.split("-"))
    parts = name.split("-")
    out = snake(parts[0])
    for before, part in zip(parts, parts[1:]):
        joint = "-" if part[:1].isupper() or before[:1].isupper() else "_"
        out += joint + (part if part[:1].isupper() else snake(part))
    return out


def table():
    crates = "|".join(sorted(p.split("/")[1] for p in glob.glob("crates/*/")))
    imported = re.compile(IMPORTED.pattern % crates)
    declared = set()
    library = set()
    for path, text in texts("crates/*/specs/**/*.antt", "crates/*/proofs/**/*.antt"):
        for m in imported.finditer(text):
            for item in m[2].split(","):
                library.add(item.split(" as ")[0].strip())
        if not proofs_of_functions(path):
            declared |= {n for m in DECLARED.finditer(text) for n in m[3].split() if not m[3].startswith("--")}
    rows = {}
    for name in sorted(declared):
        if name in library or name.startswith("--"):
            continue
        new = respelled(name)
        if new != name:
            rows[name] = new
    met = collections.defaultdict(list)
    for name, new in rows.items():
        met[new].append(name)
    for new, names in met.items():
        # a law by its dash, where a definition or another law has the name
        if len(names) > 1 or new in declared:
            for name in names:
                if "-" in name and (new in declared or any("-" not in n for n in names)):
                    rows[name] = new + "_lem"
                elif new in declared:
                    rows[new] = new + "_lem"
    return rows


def turn(text, rows, antt=True):
    def one(m):
        name = m[1]
        if text[max(0, m.start() - 4) : m.start()] == "tie.":
            return name
        # a law that leaves its name to a definition: behind a dot and in src/ the name is that of a function
        if respelled(name) == name and (not antt or text[m.start() - 1 : m.start()] == "."):
            return name
        return rows.get(name, name)

    return TOKEN.sub(one, text)


def turn_code(path, text, rows, comment):
    """Code turns whole; of a comment its code spans, and names with a capital inside."""
    lines = []
    for line in text.split("\n"):
        at = re.search(r"(?:(?<=\s)|^)" + re.escape(comment) + r"(?:\s|$)", line)
        code, said = (line, "") if not at else (line[: at.start()], line[at.start() :])
        said = SPAN.sub(lambda m: turn(m[0], rows, comment == "--"), said)
        said = TOKEN.sub(lambda m: rows[m[1]] if m[1] in rows and snake(m[1]) != m[1] and "-" not in m[1] else m[1], said)
        lines.append(turn(code, rows, comment == "--") + said)
    return "\n".join(lines)


def main():
    rows = table()
    for path, text in list(
        texts(
            "crates/*/specs/**/*.antt",
            "crates/*/proofs/**/*.antt",
            "crates/*/src/**/*.rt",
            "crates/*/must-fail/*.edit",
            "README.md",
            "docs/*.md",
            "tests/**/*.md",
        )
    ):
        if path.endswith(".antt"):
            new = turn_code(path, text, rows, "--")
        elif path.endswith(".rt"):
            new = turn_code(path, text, rows, "//")
        elif path.endswith(".edit"):
            new = turn(text, rows, "file: src/" not in text)
        else:
            new = SPAN.sub(lambda m: turn(m[0], rows, False), text)
        if new != text:
            with open(path, "w", encoding="utf-8") as f:
                f.write(new)
    print(f"{len(rows)} names")


if __name__ == "__main__":
    main()
