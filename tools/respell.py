#!/usr/bin/env python3
"""Brings the repository's own definitions and lemmas to the spelling of today's Rattle: words in snake case, a dash between two names.

usage: python3 tools/respell.py [--list]     at the top of the repository, once, right after /opt/rattle/port/port.py

Renamed is what specs/ and proofs/*.antt declare, everywhere in crates/, and between backticks in README.md and docs/. Functions of src/, types, modules, strings,
inputs and outputs keep their names. A lemma that would get the name of a definition gets _lem. --list prints the names, old and new, and changes nothing.
"""
import collections
import os
import re
import sys

WORD = r"[A-Za-z0-9_'₀-₉·≢≡≤∷-]"
TOKEN = re.compile(rf"(?<!{WORD})[A-Za-z]{WORD}*")
DECLARES = re.compile(r"^\s*((?:(?:pub|abbrev|unfoldable|data|record)\s+)*)([A-Za-z][^\s:(){}.;,«»]*)\s*:(?:\s|$)")
HEADS = re.compile(r"^\s*(?:(?:pub|abbrev|unfoldable|data|record)\s+)+([A-Za-z][^\s:(){}.;,«»]*)")
IMPORTS = re.compile(r"^\s*(?:ghost |pub )*use (\S+?)\.\{([^}]*)\}")
# words of the library that a lemma's name is made of
LIBRARY = {"length", "drop", "take", "append", "map", "replicate", "set", "reverse", "cons", "cond", "get_or"}


def antt_files():
    for crate in sorted(os.listdir("crates")):
        for part in ("specs", "proofs"):
            top = f"crates/{crate}/{part}"
            for folder, _, files in os.walk(top):
                for f in sorted(files):
                    if f.endswith(".antt"):
                        yield f"{folder}/{f}", part, folder == top or part == "specs"


def declared():
    """The names that specs/ and proofs/*.antt declare, fields of records aside: (those of specs/, all); and all with the fields."""
    specs, every, fields = set(), set(), set()
    for path, part, own in antt_files():
        if not own:
            continue
        record = None
        for line in open(path, encoding="utf-8"):
            if line.lstrip().startswith(("--", "use ", "let ", "mod ", "pub mod ", "module ", "in ", "→", "(")):
                continue
            depth = len(line) - len(line.lstrip())
            if line.strip() and record is not None and depth <= record:
                record = None
            if record is None and re.match(r"\s*(pub )?(record|data) ", line):
                record = depth
            for pattern, group in ((DECLARES, 2), (HEADS, 1)):
                m = pattern.match(line)
                if m:
                    if record is not None and depth > record:
                        fields.add(m.group(group))
                        continue
                    every.add(m.group(group))
                    if part == "specs":
                        specs.add(m.group(group))
    return specs, every, fields


def foreign():
    """The names that files take from libraries, and those that codec's Prelude hands on."""
    names = set()
    for path, _, _ in antt_files():
        for line in open(path, encoding="utf-8"):
            m = IMPORTS.match(line)
            if m and (not m.group(1).startswith("Rattle.") or m.group(1).startswith(("Rattle.std.", "Rattle.codec.proofs.Prelude"))):
                for n in m.group(2).split(","):
                    names.update(n.split(" as "))
    return {n.strip() for n in names}


def snake(word):
    if word[:1].isupper():
        return word
    return re.sub(r"(?<=[a-z0-9])([A-Z])", lambda m: "_" + m.group(1).lower(), word)


def renamed(name, known):
    parts = [snake(p) for p in re.split(r"[-·]", name)]
    new = parts[0]
    for before, after in zip(parts, parts[1:]):
        joins = (before in known or before[:1].isupper()) and (after in known or after[:1].isupper() or before[:1].isupper())
        new += ("-" if joins else "_") + after
    return new


def names():
    """The names to turn, old to new; and, to turn only where no dot stands before them, lemmas that have a definition's new name."""
    specs, every, fields = declared()
    library = foreign() - every
    known = {snake(n) for n in specs if "-" not in n} | LIBRARY
    fixed = {n for n in every if renamed(n, known) == n}
    taken = collections.defaultdict(list)
    for n in sorted(every - fixed, key=lambda n: (n not in specs, "-" in n, n)):
        taken[renamed(n, known)].append(n)
    new, yields = {}, {}
    for to, olds in taken.items():
        free = to not in library
        if to in fixed and olds[0] in specs and to not in specs:
            yields[to] = to + "_lem"
        elif to in fixed:
            free = False
        for n in olds:
            new[n] = to if free else to + "_lem"
            free = False
    for n in sorted(fields - every):
        if renamed(n, known) != n:
            new[n] = renamed(n, known)
    made = collections.Counter(new[n] for n in new if n in every) + collections.Counter(yields.values()) + collections.Counter(fixed - set(yields))
    twice = [n for n in made if made[n] > 1]
    if twice:
        sys.exit("names fall together still: " + ", ".join(sorted(twice)))
    return new, yields


def turn(text, new, yields):
    def word(m):
        w = m.group(0)
        if w in yields and text[m.start() - 1 : m.start()] != ".":
            return yields[w]
        return new.get(w, w)

    return TOKEN.sub(word, text)


def main():
    new, yields = names()
    if sys.argv[1:] == ["--list"]:
        for n in sorted(new):
            print(f"{n}\t{new[n]}")
        for n in sorted(yields):
            print(f"{n}\t{yields[n]}")
        return
    changed = 0
    for top in ("crates", "docs", "README.md"):
        for folder, _, files in os.walk(top) if os.path.isdir(top) else [("", [], [top])]:
            for f in files:
                path = os.path.join(folder, f)
                if not f.endswith((".antt", ".rt", ".edit", ".md")):
                    continue
                old = open(path, encoding="utf-8").read()
                if f.endswith(".md"):
                    text = re.sub(r"`[^`\n]*`", lambda m: turn(m.group(0), new, {}), old)
                else:
                    text = turn(old, new, yields if f.endswith(".antt") else {})
                if text != old:
                    changed += 1
                    open(path, "w", encoding="utf-8").write(text)
    print(f"{len(new)} names, {changed} files")


main()
