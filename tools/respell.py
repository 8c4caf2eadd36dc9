#!/usr/bin/env python3
"""Writes the repository's own words in snake case: definitions, lemmas, fields, constructors and variables of the .antt files,
where clauses of .rt files and must-fail edits cite them too.

usage: python3 tools/respell.py [--list]      at the top of the repository

A part of a name that begins in lower case and has a capital is parted before it: withBit is with_bit, bitOf-power bit_of-power. A part that
begins with a capital is a type's name and stays. A dash of a lemma's name stays, since it joins names; a word that specs/ declares has none:
none-available is none_available, unless a word with a capital comes to that name (inForm is in_form, the field in-form stays). A lemma
that a definition's new name would meet ends in _lem (LEMMAS). Strings stay, and so do the names of functions in src/, which have no
capital. --list prints the names, and what falls together, and writes nothing.
"""

import collections
import os
import re
import sys

TOKEN = re.compile(r'"(?:[^"\\\n]|\\.)*"|«[^»]*»|[^\s(){}.;,@"«»\[\]\\:`|]+')
DECLARED = re.compile(r"^\s*(?:(?:unfoldable|abbrev|pub|pattern)\s+)*([a-z][^\s(){}.;,@\"«»\[\]\\:|]*)\s*(?:\{[^}]*\}\s*)?:\s", re.M)
PART = re.compile(r"([-_]+)")
CAMEL = re.compile(r"[a-z][a-z0-9₀-₉']*[A-Z]")

# Lemmas that had, but for spelling, their function's name.
LEMMAS = set(
    "all_digits by_call every_in in_order in_use index_in is_live listed_in new_line of_number own_origin owned_in owner_at places_row"
    " some_one told_with with_two".split()
)


def files():
    for folder, dirs, names in os.walk("crates"):
        dirs[:] = sorted(d for d in dirs if d not in ("out", "target"))
        for name in sorted(names):
            if name.endswith((".antt", ".rt", ".edit")):
                yield os.path.join(folder, name)


def snake(name):
    parts = PART.split(name)
    return "".join(re.sub(r"(?<=[a-z0-9₀-₉'])([A-Z])", lambda m: "_" + m.group(1).lower(), p) if CAMEL.match(p) else p for p in parts)


def tokens(text):
    return {m.group() for m in TOKEN.finditer(text) if m.group()[0] not in '"«'}


def table(texts):
    used, words = collections.defaultdict(set), set()
    for path, text in texts.items():
        if path.endswith(".antt"):
            for t in tokens(re.sub(r"--[^\n]*", "", text)):
                used[t].add(path)
            if "/specs/" in path:
                words |= {n for n in DECLARED.findall(text) if "-" in n}
    camel = {snake(name) for name in used if snake(name) != name}
    to = {}
    for name in used:
        new = snake(name)
        if name in words and new.replace("-", "_") not in camel:
            new = new.replace("-", "_")
        if new != name and re.match("[a-z]", name):
            to[name] = new
    back = collections.defaultdict(list)
    for old, new in to.items():
        back[new].append(old)
    for new, olds in sorted(back.items()):
        both = set.union(*(used[o] for o in olds))
        shared = len(olds) > 1
        clash = sorted(p for p in both & used.get(new, set()) if not p.endswith("/Proof.antt") and new not in LEMMAS)
        if shared:
            print(f"respell: shared: {olds} -> {new}")
        if clash:
            print(f"respell: used already: {olds} -> {new} in {len(clash)} files: {', '.join(clash[:6])}")
    return to


def main(argv):
    texts = {p: open(p, encoding="utf-8").read() for p in files()}
    to = table(texts)
    if argv == ["--list"]:
        for old in sorted(to):
            print(f"{old}\t{to[old]}")
        return
    for path, text in texts.items():

        def respelled(m):
            it = m.group()
            if it in LEMMAS and path.endswith(".antt") and not path.endswith("/Proof.antt") and text[m.start() - 1] != ".":
                return it + "_lem"
            return to.get(it, it)

        new = TOKEN.sub(respelled, text)
        if new != text:
            with open(path, "w", encoding="utf-8") as f:
                f.write(new)
    print(f"respell: {len(to)} names")


if __name__ == "__main__":
    main(sys.argv[1:])
