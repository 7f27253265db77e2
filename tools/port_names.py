#!/usr/bin/env python3
"""Brings the names that this repository's specs/ and proofs/ declare to today's spelling: words in snake case, and a dash only between two names.

usage: python3 tools/port_names.py [--list]        at the top of the repository, once, after port.py

Functions, fields and variants of src/ keep their names, and so do exported C names, strings, inputs and outputs. A name that would fall together with another one
that stands anywhere in these files gets `_lem`, or keeps its dash. --list prints the names and changes nothing.
"""

import glob
import os
import re
import sys

# The words of the library that lemmas join to one another: `length-take` is the length of what `take` gives.
LIBRARY = """length take drop append set get_or replicate map filter reverse sum cons nil add mul sub div mod pow min max zero one suc eq ne le lt
bit_and bit_or bit_xor cond not and or bytes_be""".split()

WORD = re.compile(r"[A-Za-zΑ-Ωα-ω_ℕ'₀-₉0-9↔≡≤≢≠<+*∷⊎◌-]+")
DECLARED = re.compile(r"\s*(?:(?:pub|abbrev|unfoldable) )*((?:[^\s:(){}=,;.λ\"]+ )+):(?: |$)")
DEFINED = re.compile(r"\s*(?:pub )?(?:abbrev|unfoldable) (?:pub )?([^\s:(){}=,;.λ\"]+) :(?: |$)")


def files(*kinds):
    return sorted(f for k in kinds for f in glob.glob(k, recursive=True) if "/out/" not in f)


def read(f):
    with open(f, encoding="utf-8") as it:
        return it.read()


def snake(part):
    """bookRefusal as book_refusal; a part that begins as a type does keeps its capital."""
    head, rest = part[:1], part[1:]
    return head + re.sub(r"(?<=[a-z0-9'])([A-Z])", lambda m: "_" + m.group(1).lower(), rest)


def declared():
    """The names that specs/ and proofs/ declare, and those among them that are definitions. The names of goals in a Proof.antt are not ours."""
    names, defined = set(), set()
    for f in files("crates/*/specs/**/*.antt", "crates/*/proofs/**/*.antt"):
        own = not f.endswith("/Proof.antt")
        for line in read(f).split("\n"):
            if line.lstrip().startswith("--"):
                continue
            m = DECLARED.match(line)
            if m and own and m.group(1).split()[0] not in ("let", "use"):
                names |= set(m.group(1).split())
            m = DEFINED.match(line)
            if m:
                defined.add(snake(m.group(1)))
    return names, defined


def spelled(name, defined):
    parts = [snake(p) for p in name.split("-")]
    known = defined | set(LIBRARY)
    out = parts[0]
    for i, p in enumerate(parts[1:], 1):
        joins = parts[i - 1] in known and p in known
        out += ("-" if joins else "_") + p
    return out


def turned():
    names, defined = declared()
    old = sorted(n for n in names if not n[0].isupper() and ("-" in n or re.search(r"[a-z0-9'][A-Z]", n)))
    there = set()
    for f in files("crates/*/specs/**/*.antt", "crates/*/proofs/**/*.antt"):
        # but for paths of modules, and for the steps of code that a proof names after the function called
        there |= set(WORD.findall(re.sub(r"--.*|Rattle\.[^\s{]*|\bc(\.[\w'-]+)+", " ", read(f))))
    # in src/ a clause reads the name of a parameter or a field before a definition's; a function may have the name of what it computes
    for f in files("crates/*/src/**/*.rt"):
        there |= set(re.findall(r"\b([a-z_][a-z0-9_]*): ", read(f)))
    to, taken = {}, set()
    # names without a dash first: a definition's spelling goes before a lemma's
    for n in sorted(old, key=lambda n: (n.count("-"), n)):
        new = spelled(n, defined)
        if new == n:
            continue
        if new in there or new in taken:
            other = "-".join(snake(p) for p in n.split("-"))
            if other == n:
                continue
            new = other if other not in there and other not in taken else new + "_lem"
            if new in there or new in taken:
                sys.exit(f"port_names: {n} falls together with {new}")
        to[n] = new
        taken.add(new)
    return to


def main():
    to = turned()
    if sys.argv[1:] == ["--list"]:
        for n in sorted(to):
            print(n, to[n])
        return
    kinds = ["crates/*/specs/**/*.antt", "crates/*/proofs/**/*.antt", "crates/*/src/**/*.rt", "crates/*/must-fail/*.edit", "README.md", "docs/*.md"]
    for f in files(*kinds):
        if os.path.basename(f) == "PORT.md":
            continue
        text = read(f)
        new = WORD.sub(lambda m: to.get(m.group(0), m.group(0)), text)
        if new != text:
            with open(f, "w", encoding="utf-8") as it:
                it.write(new)


main()
