#!/usr/bin/env python3
"""Respells this repository's own definitions, lemmas, fields and constructors as today's Rattle spells them: words in snake case, types
and facts in upper camel case.

usage: python3 tools/respell.py            at the top of the repository, once, on files in the older spelling
       python3 tools/respell.py --dry      says what falls together and what it would turn, and writes nothing

The names are those that files of specs/ and proofs/ themselves declare or bind; names that Rattle makes for goals and steps keep their
spelling, and so do the functions of src/, comments outside backticks and text. Nothing is proved by it: rt check decides.
"""

import collections
import os
import re
import sys

TOKEN = re.compile(r"[^\s(){}\[\],;.@\"`]+")
PLAIN = re.compile(r"^[A-Za-z][A-Za-z0-9'_-]*$")
DECLARED = re.compile(r"^\s*(?:(?:abbrev|unfoldable|pub|record|data)\s+)*([^\s(){}\[\],;.@\"]+)\s*(?:[({][^(){}]*(?:\([^()]*\)[^(){}]*)*[)}]\s*)*:\s*(.*)$")
# Names that would fall together with another name of their crate.
CHOSEN = {"isFull": "outcome_is_full", "arc-number": "arc_number_lem"}
# Words of the library that bare hyphenated tokens of ours must not be taken for: they stand in `use` lines of Rattle.std.
LIBRARY = re.compile(r"^\s*(?:ghost )?use (?:Rattle\.std|Rattle\.core|mathlib|lib|native|Prim|denote|borrow|Lib)\b")


def files(root, ends):
    for folder, dirs, names in os.walk(root):
        dirs[:] = sorted(d for d in dirs if d not in ("out", ".git", "target"))
        for name in sorted(names):
            if name.endswith(ends):
                yield os.path.join(folder, name)


def read(path):
    with open(path, encoding="utf-8") as f:
        return f.read()


def code(line):
    """The line without its comment."""
    return re.sub(r"(^|\s)--(\s.*)?$", "", line)


def is_answer(path):
    return path.endswith(("/Answers.antt", "/Invariants.antt", "/Choices.antt", "/Proof.antt")) and path.count("/proofs/") == 1 and path.split("/proofs/")[1].count("/") > 0


def shaped(token):
    return PLAIN.match(token) and ("-" in token[1:] or re.search(r"^[a-z].*[a-z][A-Z]", token))


def functions(root):
    """The names of the functions of src/."""
    return {n for p in files(os.path.join(root, "crates"), (".rt",)) for n in re.findall(r"\bfn ([a-z_0-9]+)", read(p))}


def names(root):
    """What is ours, what of it is a type or a fact, and what is a lemma."""
    ours, types, library, made, lemmas = set(), set(), set(), set(), set()
    for path in files(os.path.join(root, "crates"), (".antt",)):
        for line in read(path).split("\n"):
            line = code(line)
            if LIBRARY.match(line):
                library.update(t for t in TOKEN.findall(line) if shaped(t))
                continue
            declared = DECLARED.match(line)
            if is_answer(path):
                if declared and re.match(r"(goal|need|given)\.", declared.group(2)):
                    made.add(declared.group(1))
                elif declared and shaped(declared.group(1)) and not line.startswith("      "):
                    ours.add(declared.group(1))
            else:
                ours.update(t for t in TOKEN.findall(line) if shaped(t))
            if declared and "/proofs/" in path:
                lemmas.add(declared.group(1))
            if declared and (re.search(r"→ Type 0\s*$", declared.group(2)) or re.match(r"Type 0\b", declared.group(2))):
                types.add(declared.group(1))
    return {t for t in ours if t not in library and t not in made}, types, lemmas


def respelled(name, types):
    parts = name.split("-")
    if name in types or name[0].isupper():
        return "".join(p[:1].upper() + p[1:] for p in parts)
    words = [re.sub(r"([a-z0-9])([A-Z])", r"\1_\2", p).lower() for p in parts]
    return "_".join(words)


def fresh(ours, types, lemmas, taken):
    """The new names. A lemma that would have the name of a function or of a definition gets `_lem`."""
    new = {}
    defined = {respelled(n, types) for n in ours if n not in lemmas}
    for n in sorted(ours):
        m = CHOSEN.get(n) or respelled(n, types)
        if n in lemmas and n not in CHOSEN and (m in taken or m in defined):
            m += "_lem"
        if m != n:
            new[n] = m
    return new


def turned(text, new, answer=False):
    def one(m):
        # in an answer the names behind c, l and w are those of steps and variables
        if answer and re.search(r"(?:^|[^\w'.-])(?:[clw]|l\.fn|goal|need|given)\.$", text[: m.start()]):
            return m.group(0)
        return new.get(m.group(0), m.group(0))

    return TOKEN.sub(one, text)


def ticked(text, new):
    return re.sub(r"`[^`\n]*`", lambda m: turned(m.group(0), new), text)


def turn(path, text, new):
    if path.endswith(".md"):
        return ticked(text, new)
    mark = "//" if path.endswith(".rt") else "--"
    lines = []
    for line in text.split("\n"):
        at = re.search(r"(^|\s)" + mark + r"(\s|$)", line)
        before, after = (line[: at.start()], line[at.start():]) if at else (line, "")
        if '"' in before and path.endswith(".rt"):
            lines.append(line)
        else:
            lines.append(turned(before, new, is_answer(path)) + ticked(after, new))
    return "\n".join(lines)


def main():
    root, dry = ".", "--dry" in sys.argv
    ours, types, lemmas = names(root)
    new = fresh(ours, types, lemmas, functions(root))
    if dry:
        tokens = collections.Counter()
        for path in files(os.path.join(root, "crates"), (".antt", ".rt")):
            tokens.update(TOKEN.findall("\n".join(code(l) for l in read(path).split("\n"))))
        back = collections.defaultdict(set)
        for n, m in new.items():
            back[m].add(n)
        for m, ns in sorted(back.items()):
            if len(ns) > 1:
                print("together:", m, sorted(ns))
            elif m in tokens:
                print("there already:", m, "from", sorted(ns), tokens[m])
    count = 0
    for path in files(root, (".antt", ".rt", ".md", ".edit")):
        if path.endswith("PORT.md"):
            continue
        text = read(path)
        after = turn(path, text, new)
        if after != text:
            count += 1
            if not dry:
                with open(path, "w", encoding="utf-8") as f:
                    f.write(after)
    print(f"{len(new)} names, {count} files")
    if dry:
        for n, m in new.items():
            print(n, "->", m)


main()
