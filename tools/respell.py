#!/usr/bin/env python3
"""Respells the repository's own definitions and lemmas: functions, fields and lemmas in snake case, facts and types in
upper camel case. Run once, at the top, after the toolchain's own respelling.

usage: tools/respell.py          rewrites specs/, proofs/, ghost text of src/ and must-fail edits
       tools/respell.py --list   prints each old name beside its new one, and changes nothing

A name is respelled only if a lemma file or a definition of this repository declares it, so that generated names, which
have dashes of their own, stay. It stops, with nothing changed, where two names would fall together.
"""

import os
import re
import sys

# what a function's proof folder holds answers goals, by names that the check makes
GOAL = re.compile(r"(?:goal|given)\.")
ANSWERS = re.compile(r"/proofs/.+/(?:Answers|Invariants|Proof)\.antt$")
DECLARED = re.compile(r"^\s*(?:(?:abbrev|unfoldable|pub|record|data|ruleset)\s+)*([^\s(){};,:λ=.]+)(\s+[({].*)?\s+:(?:\s|$)(.*)")
LETTER = r"[\w'-]"
# an operator of words keeps its places
OPERATORS = {"◌or-else◌": "◌or_else◌"}
# a fact that the toolchain's respelling took for a function
FACTS = {"Goes_on": "GoesOn"}


def texts():
    for folder, dirs, files in os.walk("crates"):
        dirs[:] = sorted(d for d in dirs if d != "out")
        for f in sorted(files):
            if f.endswith((".rt", ".antt", ".edit")):
                yield os.path.join(folder, f)


def declared():
    names = {}
    for path in texts():
        if not path.endswith(".antt"):
            continue
        answers = ANSWERS.search(path)
        with open(path, encoding="utf-8") as file:
            for line in file:
                found = DECLARED.match(line)
                if found and not (answers and GOAL.match(found.group(3).strip())):
                    names.setdefault(found.group(1), path)
    return names


def respelled(name):
    if name[0].isupper():
        return "".join(part[0].upper() + part[1:] for part in re.split("[-_]", name))
    return name.replace("-", "_")


def table():
    names = declared()
    new = {}
    for name in names:
        if "-" in name and "◌" not in name:
            new[name] = respelled(name)
    for name in FACTS:
        if name in names:
            new[name] = FACTS[name]
    taken = {}
    for name in list(new.values()) + [n for n in names if n not in new]:
        taken[name] = taken.get(name, 0) + 1
    together = [name for name in taken if taken[name] > 1]
    if together:
        sys.exit(f"respell: these names would fall together: {', '.join(together)}")
    return new


def main():
    new = table()
    if "--list" in sys.argv:
        for name in sorted(new):
            print(name, new[name])
        return
    longest_first = sorted(new, key=len, reverse=True)
    name = re.compile(rf"(?<!{LETTER})(?:{'|'.join(map(re.escape, longest_first))})(?!{LETTER})")
    for path in texts():
        with open(path, encoding="utf-8") as file:
            old = file.read()
        text = name.sub(lambda m: new[m.group(0)], old)
        for operator in OPERATORS:
            text = text.replace(operator, OPERATORS[operator])
        if text != old:
            with open(path, "w", encoding="utf-8") as file:
                file.write(text)


main()
