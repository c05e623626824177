#!/usr/bin/env python3
"""Brings this repository's own names to the spelling of today's Rattle, after port.py, once.

usage: tools/respell.py        at the top of the repository

A definition in camel case that is no type gets snake case (clausesOf: clauses_of); a field of a record has underscores
for dashes (now-at: now_at), and the ending `_ok` where a definition has that name. Where a file already has a lemma or
a field of the new name, that one is renamed as MOVED says.
Names of Rattle code, exported names, strings, inputs and outputs stay. It prints each name and its new one.
"""

import collections
import glob
import re

TOKEN = re.compile(r"\"(?:[^\"\\]|\\.)*\"|[^\s(){}.;,@\"«»\[\]\\:→×λ`|!?*/=<>&]+")
CAMEL = re.compile(r"^[a-z][a-z0-9]*[A-Z]")
MOVED = {
    "first_step": "of_first_step",
    "flag_at": "flag_at_lem",
    "is_true": "is_true_lem",
    "join_cells": "join_cells_lem",
    "same_row": "same_row_lem",
    "same_size": "same_size_lem",
    "too_many": "too_many_lem",
}
OLD_KIT = {"getD": "get_or", "toZ": "to_z", "ofZ": "of_z"}


def read(path):
    with open(path, encoding="utf-8") as it:
        return it.read()


def files(*endings):
    found = []
    for e in endings:
        found += glob.glob(f"crates/**/*{e}", recursive=True)
    return sorted(f for f in found if "/out/" not in f)


def snake(word):
    for old, new in OLD_KIT.items():
        word = re.sub(rf"(?<![A-Za-z]){old}(?![A-Za-z])", new, word)
    return re.sub(r"(?<=[a-z0-9])([A-Z])", lambda m: "_" + m.group(1).lower(), word)


def uncommented(text):
    return re.sub(r"--[^\n]*", "", text)


def record_fields(text):
    """The names of the fields of the records that a file declares."""
    inside = None
    for line in uncommented(text).split("\n"):
        start = re.match(r"(\s*)(?:pub )?record [A-Z]\S*\s.*", line)
        if start and "=" not in line.split("where")[0].replace("≡", ""):
            inside = len(start.group(1))
            continue
        if inside is None or not line.strip():
            continue
        if len(line) - len(line.lstrip()) <= inside:
            inside = None
            continue
        field = re.match(r"\s+(?:pub )?([^\s(){}]+) :", line)
        if field:
            yield field.group(1)


def from_the_kit(texts):
    names = set()
    for t in texts:
        for module, them in re.findall(r"use ([^\s{}]+)\.\{([^}]*)\}", t):
            if not module.startswith("Rattle.") or module.startswith(("Rattle.std", "Rattle.core")):
                names |= {n.split(" as ")[0].strip() for n in them.split(",")}
    return names


def names():
    theory = {f: uncommented(read(f)) for f in files(".antt")}
    every = [*theory.values(), *(read(f) for f in files(".rt"))]
    kit = from_the_kit(every)
    tokens = {w for t in every for w in TOKEN.findall(t)}
    fields = {w for t in theory.values() for w in record_fields(t)}
    old = {w for w in tokens if CAMEL.match(w) and w not in kit and "_" not in w and not w.startswith('"')}
    to = {w: snake(w) for w in sorted(old)}
    taken = set(to.values())
    for w in sorted(w for w in fields if "-" in w and w not in kit and w not in to):
        n = w.replace("-", "_")
        to[w] = n + "_ok" if n in taken else n
    if kit & set(to.values()):
        raise SystemExit(f"names of the kit: {kit & set(to.values())}")
    counts = collections.Counter(to.values())
    if max(counts.values()) > 1:
        raise SystemExit(f"names that fall together: {[n for n, k in counts.items() if k > 1]}")
    return to


def respelled(text, to, moved):
    def new(m):
        word = m.group(0)
        after_a_point = text[m.start() - 1 : m.start()] == "." and word != "first_step"
        return to.get(word) or (not after_a_point and moved.get(word)) or word

    return TOKEN.sub(new, text)


def main():
    to = names()
    for f in files(".antt", ".rt", ".edit"):
        t = read(f)
        new = respelled(t, to, {} if f.endswith((".rt", ".edit")) else MOVED)
        if new != t:
            with open(f, "w", encoding="utf-8") as it:
                it.write(new)
    for old, new in sorted({**to, **MOVED}.items()):
        print(f"{old}\t{new}")


if __name__ == "__main__":
    main()
