#!/usr/bin/env python3
"""Respells the repository's own definitions and lemmas as today's Rattle spells names: in snake case.

usage: respell.py [--check] FOLDER      (FOLDER has crates/; run it once, right after the toolchain's own script for old repositories)

A name `boardAfter` becomes `board_after`. A dash stays where it joins the names of two definitions, as in `fit_from-none`; before or after a plain word
it becomes `_`, and in a field always. Names of src/, of modules and types, and names that the checker makes stay. A lemma whose new name would be that of
a definition gets `_lem`. What is left of names that fall together is printed. With --check it only says what it would do, a name a line.
"""
import collections
import os
import re
import sys

WORD = re.compile(r"[^\s(){}.;,@\"«»]+")
COMMENT = re.compile(r"(?m)(?<!\S)--[^\n]*")
DECLARED = re.compile(r"(?m)^[ ]*(abbrev |unfoldable |ruleset )?(?:pub )?(abbrev |unfoldable |ruleset )?([^\s(){}.;,@\"«»:=λ]+)(?: \{[^}\n]*\}| \([^)\n]*\))* :(?= |\n)")
MADE = re.compile(r"(?m)^[ ]*(?:pub )?(?:record|data) ([^\s(){}]+)")
IMPORTED = re.compile(r"(?m)^(?:pub )?use (Rattle\.std|mathlib|lib|native|borrow|Prim|denote)[^{;\n]*\{([^}]*)\}")
CAMEL = re.compile(r"[a-z][a-z0-9_]*[A-Z]")
GHOST_USE = re.compile(r"ghost\s+use\b[^;]*;")
CLAUSE = re.compile(r"(?:requires|ensures)\s*\*?\s*(?:\w+\s*)?\{|ghost\s*(?:\w+\s*(?::\s*|=\s*))?\{")


def files(top):
    for folder, dirs, names in os.walk(os.path.join(top, "crates")):
        dirs[:] = sorted(d for d in dirs if d not in ("out", "must-fail"))
        for name in sorted(names):
            if name.endswith((".antt", ".rt")):
                yield os.path.join(folder, name)


def snake(part):
    """One part of a name, from boardAfter to board_after. A part that begins with a capital is a fact, and stays."""
    return re.sub(r"(?<=[a-z0-9₀-₉'_])([A-Z])", lambda m: "_" + m.group(1).lower(), part) if CAMEL.match(part) else part


def block_end(text, start):
    """The end of a clause whose brace opens just before start."""
    depth = 1
    for i in range(start, len(text)):
        depth += {"{": 1, "}": -1}.get(text[i], 0)
        if depth == 0:
            return i
    return len(text)


def ghost_spans(text):
    """The parts of a source file that are clauses or imports of definitions."""
    spans = [m.span() for m in GHOST_USE.finditer(text)]
    for m in CLAUSE.finditer(text):
        if "//" not in text[text.rfind("\n", 0, m.start()) + 1 : m.start()]:
            spans.append((m.end(), block_end(text, m.end())))
    spans.sort()
    whole = []
    for a, b in spans:
        if not whole or a >= whole[-1][1]:
            whole.append((a, b))
    return whole


def read(top):
    texts = {}
    for path in files(top):
        with open(path, encoding="utf-8") as f:
            texts[path] = f.read()
    return texts


def laws_file(path):
    """A file of definitions or lemmas, and not the answers of one function."""
    return path.endswith(".antt") and re.search(r"/(specs|proofs)/[^/]+\.antt$", path)


def names_of(texts):
    """declared lemmas and definitions, definitions and constructors, fields, and names that come from outside"""
    declared, definitions, fields, outside = set(), set(), set(), set()
    for path, text in texts.items():
        if not path.endswith(".antt"):
            continue
        code = COMMENT.sub("", text)
        for m in IMPORTED.finditer(code):
            for item in m.group(2).split(","):
                outside.update(item.split(" as ")[0].split())
        if not laws_file(path):
            outside.update(m.group(3) for m in DECLARED.finditer(code))
            continue
        definitions.update(MADE.findall(code))
        inside = None
        for line in code.split("\n"):
            head = re.match(r"( *)(?:pub )?(record|data) ", line)
            if head:
                inside = (head.group(2), len(head.group(1)))
                continue
            if line.strip() and inside and len(line) - len(line.lstrip()) <= inside[1]:
                inside = None
            m = DECLARED.match(line + "\n")
            if not m:
                continue
            name = m.group(3)
            declared.add(name)
            if inside and inside[0] == "record":
                fields.add(name)
            elif inside or m.group(1) or m.group(2):
                definitions.add(name)
    return declared, definitions, fields, outside


def spelled(name, definitions, fields, outside):
    """The name as it is to be spelled."""
    parts = name.split("-")
    if len(parts) == 1 or name in fields:
        return "_".join(snake(p) for p in parts)
    joined = len(parts) == 2 and set(parts) <= definitions | outside
    return ("-" if joined else "_").join(snake(p) for p in parts)


def table(texts):
    declared, definitions, fields, outside = names_of(texts)
    words = collections.Counter()
    for path, text in texts.items():
        if path.endswith(".antt"):
            words.update(WORD.findall(COMMENT.sub("", text)))
        else:
            for a, b in ghost_spans(text):
                words.update(WORD.findall(text[a:b]))
    rows = {}
    for name in sorted(words):
        if name in outside and name not in declared:
            continue
        turned = name
        if name in declared and re.search(r"[a-z0-9'₀-₉]-[a-zA-Z]", name):
            if name not in outside:
                turned = spelled(name, definitions, fields, outside)
        elif CAMEL.match(name):
            turned = "-".join(snake(p) for p in name.split("-"))
        if turned != name:
            rows[name] = turned
    olds = collections.defaultdict(list)
    for old, new in rows.items():
        olds[new].append(old)
    for new, old in olds.items():
        # a lemma gives way to a definition or a field: both from a dash, and one that was spelled so already
        lemmas = [o for o in old if "-" in o] if len(old) > 1 or new in definitions else []
        if new in declared and new not in definitions and new not in fields and new not in rows and any("-" not in o for o in old):
            lemmas.append(new)
        for o in lemmas:
            rows[o] = new + "_lem"
    together = collections.defaultdict(set)
    for name in words:
        together[rows.get(name, name)].add(name)
    said = [(new, sorted(old)) for new, old in sorted(together.items()) if len(old) > 1]
    return rows, said


def turn_words(text, rows):
    return WORD.sub(lambda m: rows.get(m.group(0), m.group(0)), text)


def turned(path, text, rows):
    if path.endswith(".antt"):
        out, last = "", 0
        for m in COMMENT.finditer(text):
            out += turn_words(text[last : m.start()], rows) + re.sub(r"`([^`\n]*)`", lambda s: "`" + turn_words(s.group(1), rows) + "`", m.group(0))
            last = m.end()
        return out + turn_words(text[last:], rows)
    out, last = "", 0
    for a, b in ghost_spans(text):
        out += text[last:a] + turn_words(text[a:b], rows)
        last = b
    return out + text[last:]


def main(argv):
    check = "--check" in argv
    top = [a for a in argv if not a.startswith("--")][0]
    texts = read(top)
    rows, said = table(texts)
    for new, old in said:
        print(f"together: {new} <- {' '.join(old)}")
    for path, text in texts.items():
        if path.endswith(".rt"):
            used = {rows[w] for a, b in ghost_spans(text) for w in WORD.findall(text[a:b]) if w in rows}
            for name in sorted(used & set(re.findall(r"\b(?:let (?:mut )?|for )?(\w+)(?=: |\s*=[^=])", text))):
                print(f"hidden: {name} in {path}")
    if check:
        for old, new in sorted(rows.items()):
            print(f"{old}\t{new}")
        return
    for path, text in texts.items():
        new = turned(path, text, rows)
        if new != text:
            with open(path, "w", encoding="utf-8") as f:
                f.write(new)
    print(f"{len(rows)} names respelled")


main(sys.argv[1:])
