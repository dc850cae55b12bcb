#!/usr/bin/env python3
"""Respells this repository's own names of definitions and lemmas as today's Rattle does: types and facts in camel case, all else in snake case.

usage: python3 tools/respell.py [ROOT]

It goes over specs/, proofs/ and the clauses of src/. A name is respelled where the repository itself defines it with a dash: a definition, a lemma, a field or
a constructor of an .antt file, or a name that a `let` or a λ binds there. What the library defines, and what the checker makes of the code (the goals and steps
in the folder of a function), stays. A dash stays where it joins the name of a function to the rest, as in length-put.

It was run once, in the commit that the second line of docs/PORT.md names: names of lemmas that came later have dashes that it would take away.
"""

import collections
import glob
import os
import re
import sys

ROOT = os.path.abspath(sys.argv[1] if len(sys.argv) > 1 else ".")
TOKEN = re.compile(r"[^\s(){}\[\];,.λ⌜⌝\"|]+")
DEFINED = re.compile(r"^\s*(?:(?:abbrev|unfoldable|pub|record|data|axiom)\s+)*([^\s(){};,.λ⌜⌝\"]+)\s*(?:[({].*[)}]\s*)?:\s")
BOUND = re.compile(r"(?:\blet|λ|[(\[{,|])\s*([^\s(){}\[\];,.λ\":]+-[^\s(){}\[\];,.λ\":]*)(?=\s*(?::|=|\.\s))")
MADE = re.compile(r"^(returns|loop|invariant|decreases|variant|overflow|slice-bounds|ghost|div|cast|index)(-|$)|-requires(-\d+)?$|^new-means$")
FUNCTIONS = {"length": "length", "getD": "get_or", "get_or": "get_or"}


def files(part):
    return sorted(f for f in glob.glob(f"{ROOT}/crates/*/{part}", recursive=True) if "/out/" not in f)


def own():
    found = collections.defaultdict(set)
    for f in files("specs/**/*.antt") + files("proofs/**/*.antt"):
        answers = re.search(r"/proofs/.*/(Answers|Choices|Invariants|Proof)\.antt$", f)
        for line in open(f, encoding="utf-8"):
            if line.lstrip().startswith(("--", "use ", "mod ", "pub mod ")):
                continue
            m = DEFINED.match(line)
            names = [m.group(1)] if m else []
            names += [m.group(1) for m in BOUND.finditer(line)]
            for name in names:
                if "-" not in name or name.startswith("-") or name.endswith("-") or not name[0].isalpha():
                    continue
                if answers and MADE.search(name):
                    continue
                found[name].add(os.path.relpath(f, ROOT))
    return found


def spelled(name):
    parts = name.split("-")
    if parts[0] in FUNCTIONS and len(parts) > 1:
        return FUNCTIONS[parts[0]] + "-" + "_".join(parts[1:])
    if name[0].isupper():
        return "".join(p[:1].upper() + p[1:] for p in parts)
    return "_".join(parts)


def respell(text, names):
    return TOKEN.sub(lambda m: names.get(m.group(0), m.group(0)), text)


def clauses(text, names):
    """The clauses of a source: ghost lines, and what stands between the braces of requires, ensures and ghost fields."""
    out = []
    for line in text.split("\n"):
        code = line.lstrip()
        ghost = "{ " in line and re.match(r"(requires|ensures|ghost|pub ghost|also)\b", code)
        if code.startswith("ghost use") or ghost:
            line = respell(line, names)
        out.append(line)
    return "\n".join(out)


def main():
    names = {n: spelled(n) for n in own()}
    fall = collections.defaultdict(set)
    for old, new in names.items():
        fall[new].add(old)
    taken = set()
    for f in files("specs/**/*.antt") + files("proofs/**/*.antt") + files("src/**/*.rt"):
        taken |= set(TOKEN.findall(open(f, encoding="utf-8").read()))
    for new, olds in sorted(fall.items()):
        if len(olds) > 1 or (new in taken and new not in olds):
            print(f"look: {new}: from {', '.join(sorted(olds))}{', and there already' if new in taken else ''}")
    changed = 0
    for f in files("specs/**/*.antt") + files("proofs/**/*.antt") + files("src/**/*.rt"):
        with open(f, encoding="utf-8") as h:
            old = h.read()
        new = clauses(old, names) if f.endswith(".rt") else respell(old, names)
        if new != old:
            changed += 1
            with open(f, "w", encoding="utf-8") as h:
                h.write(new)
    print(f"{len(names)} names, {changed} files")


main()
