#!/usr/bin/env python3
"""Brings the repository's own definitions and lemmas to snake case: `placeAt` becomes `place_at`.

usage: python3 tools/respell_names.py        at the top of the repository, once, right after the kit's own script

A name is respelled where a file of specs/ or proofs/ declares it, and it begins small and has a capital further on. It
is then respelled as a whole word in every .antt and .rt file and on every page of docs/. Types, facts, functions of
src/, strings and goals keep their names.
"""
import glob
import re

DECLARED = re.compile(r"^\s*(?:(?:abbrev|unfoldable|pub) )*([a-z][\w']*[A-Z][\w']*) :", re.M)
TOKEN = r"(?<![\w'-]){}(?![\w'-])"
# Lemmas that would fall together with a definition in snake case: the crate, the lemma, and its new name.
APART = [("image", "node_at", "node_at-table_of"), ("neighbours", "in_reach", "in_reach-counts")]


def snake(name):
    """The name in snake case; a type's name behind small letters keeps its digits: `nearestU32` is `nearest_u32`."""
    return re.sub(r"(?<=[a-z0-9])([A-Z])", lambda m: "_" + m.group(1), name).lower()


def read(path):
    with open(path, encoding="utf-8") as f:
        return f.read()


def main():
    sources = [p for kind in ("specs/**/*.antt", "proofs/**/*.antt", "src/**/*.rt") for p in glob.glob("crates/*/" + kind, recursive=True)]
    pages = glob.glob("docs/*.md")
    texts = {p: read(p) for p in sorted(sources) + sorted(pages)}
    for crate, old, new in APART:
        for p in texts:
            if p.startswith(f"crates/{crate}/") and p.endswith(".antt"):
                texts[p] = re.sub(TOKEN.format(old), new, texts[p])
    names = sorted({n for p, t in texts.items() if p.endswith(".antt") for n in DECLARED.findall(t)})
    for old in names:
        new = snake(old)
        for p, t in texts.items():
            if re.search(TOKEN.format(old), t) and re.search(TOKEN.format(new), t):
                print(f"look: {p} has {old} and {new}")
    for p, t in texts.items():
        turned = t
        for old in names:
            turned = re.sub(TOKEN.format(re.escape(old)), snake(old), turned)
        if turned != read(p):
            with open(p, "w", encoding="utf-8") as f:
                f.write(turned)
    print(f"{len(names)} names")


main()
