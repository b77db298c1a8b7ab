#!/usr/bin/env python3
"""Respells the repository's own definitions and lemmas: words in snake case (booked_in), types in camel case (SomeMonths).

usage: python3 tools/respell.py [--list]     at the top of the repository, once, right after the kit's port.py

A name is the repository's own if a file of specs/ or proofs/ gives it a signature, a field or a binder here, and it is no
goal's name (a signature that begins with 'goal.'). Names of functions of src/, of generated goals, of the library, text in
strings and comments of src/, inputs and outputs stay as they are. Names that would fall together are printed and stop it.
"""

import os
import re
import sys

# a dash or a prime inside a word; what Rattle itself makes is told apart below
WORD = re.compile(r"(?<![\w'′-])[A-Za-z_][\w'′]*(?:-[\w'′]+)*(?![\w'′-])")
SIGNED = re.compile(r"^ *(?:(?:abbrev|unfoldable|record|data) +)?(?:pub +)?([A-Za-z_][\w'′]*(?:-[\w'′]+)*)((?: *[({][^:]*:[^)}]*[)}])*) *:(?!:) *(\S+)", re.M)
BOUND = re.compile(r"\blet +([a-z][\w'′]*(?:-[\w'′]+)+)|[({]((?:[a-z][\w'′-]* )+):")


def files(kinds):
    for folder, dirs, names in os.walk("crates"):
        dirs[:] = sorted(d for d in dirs if d != "out")
        for name in sorted(names):
            if name.endswith(kinds):
                yield os.path.join(folder, name)


def read(path):
    with open(path, encoding="utf-8") as f:
        return f.read()


def own_names():
    """The repository's own names that have a dash or an old prime."""
    found = {}
    for path in files(".antt"):
        text = read(path)
        for m in SIGNED.finditer(text):
            if not m[3].startswith("goal."):
                found.setdefault(m[1], set()).add(path)
        for m in BOUND.finditer(text):
            for name in (m[1] or m[2]).split():
                found.setdefault(name, set()).add(path)
    return {n: p for n, p in found.items() if "-" in n or "′" in n}


def respelt(name):
    words = name.replace("′", "'").split("-")
    if name[0].isupper():
        return "".join(w[:1].upper() + w[1:] for w in words)
    return "_".join(words)


def turn(text, names):
    # a name behind a dot is ours only behind a module's name or an alias of one, never a field of a goal's record
    def one(m):
        word = m[0]
        if word not in names:
            return word
        before = text[: m.start()]
        if re.search(r"(?:\bc|\bl|\bgoal)(?:\.[\w'-]+)*\.$", before):
            return word
        return names[word]

    return WORD.sub(one, text)


def turn_source(text, names):
    """Only outside comments and strings of src/."""
    out, last = [], 0
    for m in re.finditer(r'//[^\n]*|"(?:\\.|[^"\\])*"', text):
        out += [turn(text[last : m.start()], names), m[0]]
        last = m.end()
    return "".join(out) + turn(text[last:], names)


def main():
    own = own_names()
    names = {n: respelt(n) for n in own}
    everywhere = {}
    for path in files(".antt"):
        for w in WORD.findall(read(path)):
            everywhere.setdefault(w, set()).add(path)
    clash = False
    for n, new in sorted(names.items()):
        if new in everywhere:
            print(f"both stand: {n} and {new}: {sorted(everywhere[new])[:4]}")
            clash = True
    if len(set(names.values())) < len(names):
        print("two names fall together")
        clash = True
    if "--list" in sys.argv:
        for n in sorted(names):
            print(f"{n} -> {names[n]}   {sorted(own[n])[0]}")
        return
    if clash and "--anyway" not in sys.argv:
        raise SystemExit(1)
    for path in files((".antt", ".rt")):
        text = read(path)
        new = turn(text, names) if path.endswith(".antt") else turn_source(text, names)
        if new != text:
            with open(path, "w", encoding="utf-8") as f:
                f.write(new)
    print(f"{len(names)} names respelt")


main()
