#!/usr/bin/env python3
"""Respells the names of this repository's own definitions and lemmas in snake case.

usage: python3 tools/respell.py    at the top of the repository, after the kit's port.py, once

A name is this repository's own where a file of specs/ or proofs/ declares it, or binds it by a let, a lambda, a case or a
parameter, or where an import gives it as another name. A dash in it becomes an underscore, but in the names of KEPT, where
it joins the names of two functions; an imported type or variant goes into camel case. Names that the checker makes, names
of the library and functions of src/ stay as they are. Comments are respelled too. Two names that would fall together stop
the script before it writes anything.
"""

import glob
import re
import sys

# lemmas on one function of another: length (paired ..) and the like
KEPT = {"length-lines", "length-paired", "length-sums", "numbers-paired"}

NAME = r"[^\W\d][\w']*(?:-[\w']+)+"
DECLARED = re.compile(r"^\s*(?:abbrev |unfoldable )?(?:pub )?(?:record |data )?(" + NAME + r")\s*(?:\([^)]*\)\s*)*:\s(?!goal\.)", re.M)
BOUND = re.compile(r"(?:\blet |\bλ |\bλ \(|\binl |\binr |\() *(" + NAME + r")(?=[ :).])")
ALIAS = re.compile(r"\bas (" + NAME + r")(?=[,}])")
TOKEN = re.compile(r"(?<![\w'\-])(" + NAME + r")(?![\w'\-])")


def texts(pattern):
    found = {}
    for path in sorted(glob.glob(pattern, recursive=True)):
        if "/out/" not in path:
            with open(path, encoding="utf-8") as file:
                found[path] = file.read()
    return found


def respelled(name):
    if name[0].isupper() and name != "Some-of":
        return "".join(part[0].upper() + part[1:] for part in name.split("-"))
    return name[0].lower() + name[1:].replace("-", "_")


def without_comments(text):
    return re.sub(r"--.*", "", text)


def imported(text):
    """The names that a file takes from the library or from what the checker makes."""
    names = set()
    for path, items in re.findall(r"^(?:ghost )?use (\S+?)\.\{([^}]*)\}", text, re.M):
        ours = re.match(r"Rattle\.(\w+)\.(specs|proofs)\.", path)
        made = re.search(r"\.(Goals|Given)$", path)
        if made or not ours or ours.group(1) == "std":
            names |= set(re.findall(r"(?<!as )" + TOKEN.pattern, items))
    return names


def main():
    antt = texts("crates/*/specs/**/*.antt") | texts("crates/*/proofs/**/*.antt")
    rt = texts("crates/*/src/**/*.rt")
    own, foreign, tokens = set(), set(), set()
    for text in antt.values():
        plain = without_comments(text)
        foreign |= imported(text)
        own |= set(DECLARED.findall(plain))
        made = set(re.findall(r"\.(" + NAME + ")", plain))
        own |= {n for n in BOUND.findall(plain) + ALIAS.findall(plain) if n not in made}
        tokens |= set(re.findall(r"[\w'\-]+", text))
    for text in rt.values():
        own |= set(ALIAS.findall(text))
    turned = {n: respelled(n) for n in own - foreign - KEPT}
    together = [f"{n} and {t}" for n, t in turned.items() if t in tokens]
    if together or len(set(turned.values())) != len(turned):
        print("names that would fall together: " + ", ".join(sorted(together)))
        return 1
    for path, text in (antt | rt).items():
        new = TOKEN.sub(lambda m: turned.get(m.group(1), m.group(1)), text)
        if new != text:
            with open(path, "w", encoding="utf-8") as file:
                file.write(new)
    print(f"{len(turned)} names respelled")
    return 0


sys.exit(main())
