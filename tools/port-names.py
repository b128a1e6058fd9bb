#!/usr/bin/env python3
"""Brings the repository's own definitions to today's spelling: snake case for what is no type or module.

usage: tools/port-names.py    at the top, once, after port.py
Names of src/ functions, exported C names, strings, inputs and outputs keep theirs: only words that some .antt file
declares in camel case are turned, in clauses, specs, proofs, edits and docs.
"""
import collections, glob, re, sys

# Lemmas that have the snake form of a definition's name already.
LEMMAS = {"act_by", "apart_from", "entry_value", "goes_on", "lies_in", "no_room", "no_target", "none_named", "too_long"}
LEMMA = re.compile(r"(?<![\w'.\u00b7-])(" + "|".join(sorted(LEMMAS)) + r")(?![\w'\u00b7-])")
# Definitions that a script of the kit imported with a dot in their names, since a function has the same.
DOTTED = re.compile(r"(?<![\w'])(?:(\w+) as )?[A-Z]\w*\u00b7(\w+)")

TEXTS = [p for g in ("crates/**/*.antt", "crates/**/*.rt", "crates/**/*.edit", "docs/*.md", "README.md") for p in glob.glob(g, recursive=True)]
TOKEN = re.compile(r"(?<![\w'-])([a-z][\w'-]*)")


def snake(n):
    n = re.sub(r"([a-z0-9])([A-Z])", r"\1_\2", n)
    return re.sub(r"([A-Z])([A-Z][a-z])", r"\1_\2", n).lower()


def main():
    declared = set()
    words = collections.Counter()
    read = {}
    for p in TEXTS:
        with open(p, encoding="utf-8") as f:
            read[p] = f.read()
        if p.endswith(".antt"):
            declared |= {n for n in re.findall(r"(?<![\w'.\u00b7/-])([a-z]\w*)(?![\w'\u00b7-])", re.sub(r"--.*", "", read[p])) if re.search(r"[a-z0-9][A-Z]", n)}
        if p.endswith((".antt", ".rt")):
            words.update(TOKEN.findall(read[p]))
    to = {n: snake(n) for n in declared}
    twice = [m for m, k in collections.Counter(to.values()).items() if k > 1]
    for n, m in sorted(to.items()):
        if words[m] and m not in LEMMAS:
            print(f"look: {n} becomes {m}, a function's name or another's: {words[m]} times")
    if twice:
        sys.exit(f"two names become one: {twice}")
    changed = 0
    for p, text in read.items():
        new = text
        if p.endswith(".antt"):
            new = LEMMA.sub(r"\1_lem", new)
        if "/proofs/" not in p or "/Reports.antt" in p:
            new = DOTTED.sub(lambda m: m.group(2) if not m.group(1) or m.group(1) == m.group(2) else m.group(0), new)
        new = TOKEN.sub(lambda m: to.get(m.group(1), m.group(1)), new)
        if new != text:
            changed += 1
            if "--check" not in sys.argv:
                with open(p, "w", encoding="utf-8") as f:
                    f.write(new)
    print(f"{len(to)} names, {changed} files")


main()
