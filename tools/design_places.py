#!/usr/bin/env python3
"""Counts the places that docs/DESIGN-PASS.md speaks of, in the sources and proofs of crates/. Usage: tools/design_places.py [-v]

A count is of what a pattern finds, and no judgement: the page says what each place is. With -v every place is listed.
"""

import re
import sys
from collections import defaultdict
from pathlib import Path

VERBOSE = "-v" in sys.argv[1:]
SOURCES = sorted(Path("crates").glob("*/src/**/*.rt"))


def show(name, places):
    print(f"{name}: {len(places)}")
    if VERBOSE:
        for place in places:
            print(f"    {place}")


def lines(pattern):
    found = []
    for path in SOURCES:
        for number, line in enumerate(path.read_text().splitlines(), 1):
            if re.search(pattern, line) and not line.lstrip().startswith("//"):
                found.append(f"{path}:{number}: {line.strip()}")
    return found


def functions():
    """Each function as (path, name, parameters, body)."""
    found = []
    for path in SOURCES:
        text = re.sub(r"//[^\n]*", "", path.read_text())
        for match in re.finditer(r"\bfn (\w+)(?:<[^>]*>)?\(([^)]*)\)", text):
            start = body_start(text, match.end())
            if start:
                parameters = [p.strip() for p in match.group(2).split(",") if ":" in p or "self" in p]
                found.append((path, match.group(1), parameters, text[start : closing(text, start)]))
    return found


def body_start(text, at):
    """Where the body begins: the brace that stands alone at the start of a line, or right after the result's type."""
    match = re.compile(r"\n *\{\n|(?<=[\w\])>]) \{\n").search(text, at)
    return match.end() - 2 if match else None


def closing(text, start):
    depth = 0
    for at in range(start, len(text)):
        depth += {"{": 1, "}": -1}.get(text[at], 0)
        if depth == 0:
            return at + 1
    return len(text)


def shape(parameters, body):
    """A function without its names, types, sizes and constants: twins have the same."""
    names = {}

    def rename(match):
        word = match.group()
        if word in ("if", "else", "while", "for", "in", "return", "let", "mut", "match", "loop", "as", "true", "false"):
            return word
        return names.setdefault(word, f"n{len(names)}")

    text = re.sub(r"\b(u8|u16|u32|u64|usize|bool)\b", "T", " ".join(parameters) + body)
    text = re.sub(r"b?\"[^\"]*\"|b?'[^']*'|\b\d+(u8|u16)?\b|\b[A-Z]\w*::[A-Z_]+\b", "K", text)
    return re.sub(r"\s+", " ", re.sub(r"[A-Za-z_]\w*", rename, text))


def twins():
    groups = defaultdict(list)
    for path, name, parameters, body in functions():
        if "K" not in name:
            groups[shape(parameters, body)].append(f"{path}: {name}")
    return [", ".join(group) for group in groups.values() if len(group) > 1]


def pairs(*words):
    """Functions that take all of these parameters."""
    found = []
    for path, name, parameters, _ in functions():
        given = {p.split(":")[0].replace("mut ", "").strip() for p in parameters}
        if all(word in given for word in words):
            found.append(f"{path}: {name}")
    return found


show("1 own enums", lines(r"^(pub(\(in crate\))? )?enum "))
show("1 flags beside a value (fields that are bool)", lines(r"^    (pub )?[a-z_]+: bool,"))
show(
    "1 numbers for kinds and refusals (tags, codes, classes, marks, files, rules as u8)",
    lines(r"\b(left_tag|right_tag|tags?|code|class|number|file|rule|marks|mark|taken|comparison): &?(mut )?(u8\b|\[u8; (4|32|256)\])"),
)
show("2 groups of functions of one shape", twins())
show("2 widening and narrowing functions", [f"{p}: {n}" for p, n, q, b in functions() if len(q) == 1 and re.fullmatch(r"\{\s*[\w.]+ as \w+\s*\}", b)])
show("3 loops by while or loop", lines(r"^ *('\w+: )?(while|loop)\b"))
show("3 loops by for", lines(r"^ *for "))
show("4 bytes of numbers by hand", lines(r"% 256|/ 256|256 \*"))
show("4 lesser and greater by hand", [f"{p}: {n}" for p, n, q, b in functions() if re.fullmatch(r"\{\s*if (\S+) <=? (\S+) \{\s*(return )?\S+;?\s*\}(\s*else \{)?\s*\S+( - \S+)?\s*(\})?\s*\}", b)])
show("4 derives", lines(r"#\[derive\("))
show("4 impls of From, TryFrom, Display", lines(r"^impl.*\b(From|TryFrom|Display)\b"))
show("5 functions of six parameters and more", [f"{p}: {n} ({len(q)})" for p, n, q, _ in functions() if len(q) >= 6])
show("5 functions of twelve parameters and more", [f"{p}: {n} ({len(q)})" for p, n, q, _ in functions() if len(q) >= 12])
show("5 functions that take class and arity", pairs("class", "arity"))
show("5 functions that take book, at and left", pairs("book", "at", "left"))
show("6 functions that take the parallel arrays kind and numbers", pairs("kind", "numbers"))
show("6 functions that take the parallel arrays of made facts", pairs("made_kind", "made_numbers"))
show("6 functions that take a buffer and its length (list and top, tests and count)", sorted(set(pairs("list", "top") + pairs("tests", "count"))))
show("7 tests of one word after another", lines(r"is_word\("))
show("7 matches on numbers", lines(r"^ *\d+(\.\.=\d+)? => "))
answers = sum(len(re.findall(r"^pub ", p.read_text(), re.M)) for p in Path("crates").glob("*/proofs/**/Answers.antt"))
lemmas = sum(len(re.findall(r"^(?:    )*pub (?!mod|use)", p.read_text(), re.M)) for p in Path("crates").glob("*/proofs/*.antt"))
proofs = sum(len(p.read_text().splitlines()) for p in Path("crates").glob("*/proofs/**/*.antt"))
print(f"8 answers: {answers}\n8 lemmas in proofs/*.antt: {lemmas}\n8 lines of proofs: {proofs}")
