#!/usr/bin/env python3
"""Counts the places of src/ that docs/DESIGN-PASS.md speaks of, point by point; with -v it prints each place.

    tools/places.py [-v] [POINT ..]
"""
import collections
import glob
import re
import sys

def files():
    return sorted(glob.glob("crates/*/src/**/*.rt", recursive=True))


def code(text):
    """The text without comments, with as many lines."""
    return re.sub(r"//[^\n]*", "", text)


def items(text):
    """(kind, name, line, text) of each top-level function, struct and enum, and of the functions of impl blocks."""
    lines = text.split("\n")
    found = []
    for i, line in enumerate(lines):
        m = re.match(r"^(\s*)(?:pub(?:\([a-z]+\))? )?(?:extern \"C\" )?(fn|struct|enum) (\w+)", line)
        if not m:
            continue
        end = i
        while not line.rstrip().endswith((";", "}")) and lines[end].rstrip() != m[1] + "}":
            end += 1
        found.append((m[2], m[3], i + 1, "\n".join(lines[i:end + 1])))
    return found


def body(item):
    """What stands behind a function's clauses."""
    lines = item.split("\n")
    for i, line in enumerate(lines):
        if re.match(r"^\s*\{$", line):
            return "\n".join(lines[i + 1:])
        if i == 0 and line.rstrip().endswith("{"):
            return "\n".join(lines[1:])
    return ""


def every(kind):
    for f in files():
        for k, name, line, text in items(code(open(f).read())):
            if k == kind:
                yield f, line, name, text


def shaped():
    """1: enums of the shape of Option or Result."""
    for f, line, name, text in every("enum"):
        if re.search(r"^\s*(Refused|Nothing|Nowhere|Accepted|Alike)\b", text, re.M):
            yield f, line, name


def flags():
    """1: a flag with a value beside it."""
    for f, line, name, text in every("struct"):
        if re.search(r"\b(writes|differ|whole|twice): bool|verdict: Verdict|error: Option", text):
            yield f, line, name


def numbers():
    """1: numbers for kinds or refusals: constants, fields, answers and literals."""
    for f in files():
        for i, line in enumerate(code(open(f).read()).split("\n"), 1):
            if re.search(r"number: \d+\b", line):
                yield f, i, "literal"
            if re.search(r"^\s*(pub )?(phase|mark|flag): u8,", line):
                yield f, i, "field"
            if re.search(r"^(pub )?const \w+: (u8|usize) = \d+;", line):
                yield f, i, "constant"
            if re.search(r"fn \w*(refusal|try_)\w*\(.*-> u8", line):
                yield f, i, "answer"
            if re.search(r"\bnumber: u8\b", line):
                yield f, i, "number"


KEEP = set("fn let mut if else while for in match return pub struct enum as true false loop break Some None Ok Err".split())


def shape(text):
    """The text with each name and number replaced by the place of its first use."""
    seen = {}
    out = []
    for token in re.findall(r"\w+|b'.'|b\"[^\"]*\"|[^\s\w]", text):
        if re.match(r"\w|b['\"]", token) and token not in KEEP:
            token = "#%d" % seen.setdefault(token, len(seen))
        out.append(token)
    return " ".join(out)


def twins():
    """2: functions or types of one shape. The names differ, and types, sizes, constants."""
    groups = collections.defaultdict(list)
    for f in files():
        for kind, name, line, text in items(code(open(f).read())):
            inner = body(text) if kind == "fn" else text.split("{", 1)[-1]
            small = len(re.findall(r"\w+", inner))
            if small >= (12 if kind == "fn" else 3):
                groups[kind, shape(inner)].append((f, line, name))
    for group in groups.values():
        if len(group) > 1:
            for place in group[1:]:
                yield place[0], place[1], place[2] + " as " + group[0][2]


def loops():
    """3: loops that count an index by hand."""
    for f in files():
        lines = code(open(f).read()).split("\n")
        for i, line in enumerate(lines):
            m = re.match(r"^(\s*)while (.*) \{$", line)
            if not m:
                continue
            end = i
            while not lines[end].rstrip() == m[1] + "}":
                end += 1
            inside = "\n".join(lines[i + 1:end])
            counted = [v for v in re.findall(r"\b(\w+)\b", m[2]) if re.search(r"\b%s (\+= 1;|= %s \+ 1;|= repeat_after)" % (v, v), inside)]
            if counted:
                yield f, i + 1, m[2]


def ladders():
    """4: tests that return true or false one by one."""
    for f in files():
        text = code(open(f).read())
        for m in re.finditer(r"if [^\n]* \{\n\s*return (true|false);\n\s*\}", text):
            yield f, text.count("\n", 0, m.start()) + 1, m[0].split("\n")[0]


OWN = "same larger least wide low signed bits_of clear cap one_or_two same_flag one_decided write_cell with_total zero_pair zero_cell".split()


def written():
    """4: equality, order, copying and conversion written by hand."""
    for f, line, name, text in every("fn"):
        if name in OWN:
            yield f, line, name


def casts():
    """4: widening by `as`."""
    for f in files():
        for i, line in enumerate(code(open(f).read()).split("\n"), 1):
            for m in re.finditer(r"\bas (u16|u32|u64)\b", line):
                yield f, i, m[0]


def facts():
    """5: a fact that stands in the contracts of three functions or more."""
    seen = collections.defaultdict(list)
    for f in files():
        for i, line in enumerate(code(open(f).read()).split("\n"), 1):
            m = re.match(r"^\s*requires (?:\w+ )?\{ (.*) \}$", line)
            for fact in re.split(r" × ", m[1]) if m else []:
                fact = re.sub(r"\.(now|old)\b", "", fact.strip("()"))
                seen[fact].append((f, i, fact))
    for places in seen.values():
        if len(places) > 2:
            yield from places


def groups():
    """5: parameters that always travel together, in functions of five parameters or more."""
    for f, line, name, text in every("fn"):
        m = re.match(r".*?\((.*?)\)\s*(->|$|\n|\{)", " ".join(text.split("\n    ")).split(" requires")[0].split(" ensures")[0], re.S)
        if m and len(re.findall(r"\w+: ", m[1])) >= 5:
            yield f, line, name


def buffers():
    """6: buffers with a length or a place beside them."""
    for f, line, name, text in every("struct"):
        if re.search(r": \[u8; \d+\],?\s*\n\s*(pub )?(len|from): usize", text):
            yield f, line, name
    for f, line, name, text in every("fn"):
        if re.search(r"bytes: &mut \[u8; 512\],\s*at: usize", text):
            yield f, line, name


def steps():
    """7: a switch on which step to run: three tests of one value or more, each answered by another call."""
    for f, line, name, text in every("fn"):
        tests = re.findall(r"if (\w+(?:\.\w+)?) == [A-Z_]+ \{", text) + re.findall(r"if (same)\(word, ", text)
        arms = re.findall(r"^\s*\w+::\w+.* => \w+\(", text, re.M)
        if len(tests) >= 3 or len(arms) >= 3:
            yield f, line, name


def answers():
    """8: answers of proofs/, and those that say no more than what the check finds alone."""
    for f in sorted(glob.glob("crates/*/proofs/**/Answers.antt", recursive=True)):
        for i, line in enumerate(open(f), 1):
            if re.search(r"= search (rules|\(\))$", line.rstrip()):
                yield f, i, line.strip()


POINTS = [shaped, flags, numbers, twins, loops, ladders, written, casts, facts, groups, buffers, steps, answers]

if __name__ == "__main__":
    long = "-v" in sys.argv
    wanted = [a for a in sys.argv[1:] if a != "-v"]
    for point in POINTS:
        if wanted and point.__doc__[0] not in wanted:
            continue
        places = list(point())
        print("%4d  %s" % (len(places), point.__doc__))
        for place in places if long else []:
            print("      %s:%d %s" % place)
