#!/usr/bin/env python3
"""Respells the repository's own definitions, constructors, fields and lemmas in snake case, as today's Rattle writes them.

usage: tools/respell.py [FOLDER]     once, in the tree that port.py has turned

A name is one that a file of specs/ or proofs/ declares with a small first letter and that holds a capital. Each becomes the same words joined by _. Types,
facts and modules keep their capitals; functions of src/, strings, inputs and outputs keep their names. Where a definition gets the name that a lemma has
already, the lemma gets _lem behind it. A name that an import gives by `as` is turned in its file in the same way.
"""
import glob
import os
import re
import sys

ALIAS = re.compile(r"\bas ([a-z][a-z0-9_]*[A-Z]\w*)")
DECLARED = re.compile(r"(?m)^\s*(?:abbrev |unfoldable )?(?:pub )?((?:[^\s:()\[\]{},.\"]+ )*[^\s:()\[\]{},.\"]+) :(?=\s)")
WORD = re.compile(r"[^\W\d][\w'′-]*")


def snake(name):
    parts = []
    for part in name.split("-"):
        if part[:1].islower():
            part = re.sub(r"([A-Z])(?=[A-Z][a-z])", lambda m: "_" + m.group(1).lower(), part)
            part = re.sub(r"(?<=[a-z0-9])([A-Z])", lambda m: "_" + m.group(1).lower(), part)
        parts.append(part)
    return "-".join(parts)


def files(root):
    for folder in ("specs", "proofs", "src"):
        for p in sorted(glob.glob(os.path.join(root, "crates", "*", folder, "**", "*.*t"), recursive=True)):
            if p.endswith((".antt", ".rt")) and "/out/" not in p:
                yield p


def outside_strings(text, turn):
    """Turns what stands outside string literals; a comment is turned too."""
    out, at = [], 0
    for m in re.finditer(r'(?m)(?<!\')"(?:[^"\\\n]|\\.)*"', text):
        line = text[text.rfind("\n", 0, m.start()) + 1 : m.start()]
        if "--" in line or "//" in line:
            continue
        out += [turn(text[at : m.start()]), m.group(0)]
        at = m.end()
    return "".join(out + [turn(text[at:])])


def main(root):
    declared = set()
    texts = {}
    for p in files(root):
        with open(p, encoding="utf-8") as f:
            texts[p] = f.read()
        if p.endswith(".antt"):
            for m in DECLARED.finditer(texts[p]):
                declared |= set(m.group(1).split())
    names = {n: snake(n) for n in declared if WORD.fullmatch(n) and n[0].islower() and snake(n) != n}
    turned = list(names.values())
    lemmas = {n: n + "_lem" for n in declared if n in turned}
    for n in sorted(set(turned) | set(lemmas.values())):
        if turned.count(n) > 1 or (n in declared and n not in lemmas):
            raise SystemExit(f"respell: two names become {n}")
    for n, l in sorted(lemmas.items()):
        print(f"respell: {n}, a lemma, is {l}")
    # A declared name inside a longer one, as `eqZ` in `eqZ-false`, is turned with the longer one, which is declared too.
    token = pattern(names)
    lemma = re.compile(r"(?<![\w.'′-])(" + "|".join(sorted(map(re.escape, lemmas), key=len, reverse=True)) + r")(?![\w'′]|-\w)")
    for p, text in texts.items():
        new = text
        if p.endswith(".antt"):
            new = outside_strings(new, lambda s: lemma.sub(lambda m: lemmas[m.group(1)], s))
        new = outside_strings(new, lambda s: token.sub(lambda m: names[m.group(1)], s))
        if new != text:
            with open(p, "w", encoding="utf-8") as f:
                f.write(new)
    print(f"respell: {len(names)} names")
    turn_aliases(root)


def turn_aliases(root):
    """Turns the names that a file gives to what it imports."""
    turned = 0
    for p in files(root):
        with open(p, encoding="utf-8") as f:
            text = f.read()
        names = {n: snake(n) for n in ALIAS.findall(text)}
        for n, s in names.items():
            if re.search(rf"(?<![\w'.]){s}(?![\w'])", text):
                raise SystemExit(f"respell: {p}: {n} would fall together with {s}")
        if names:
            with open(p, "w", encoding="utf-8") as f:
                f.write(re.sub(r"(?<![\w'.])(" + "|".join(names) + r")(?![\w'])", lambda m: names[m.group(1)], text))
            turned += len(names)
    print(f"respell: {turned} names of imports")


def pattern(names):
    return re.compile(r"(?<![\w'′-])(" + "|".join(sorted(map(re.escape, names), key=len, reverse=True)) + r")(?![\w'′]|-\w)")


main(next((a for a in sys.argv[1:] if not a.startswith("-")), "."))
