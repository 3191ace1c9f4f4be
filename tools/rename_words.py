#!/usr/bin/env python3
"""Brings the repository's own definitions and lemmas to snake case, and its own types to camel case.

usage: tools/rename_words.py            at the top of the repository, once, after the kit's own scripts

A name is taken where it is declared in specs/ or proofs/, and turned wherever it is cited in code: in
.antt files and in the clauses of .rt files. Comments, strings, generated names (goals, steps) and the
kit's names stay. Names that would fall together with another are given below by hand.
"""

import os
import re

# Declared by the regular expression below, but the kit's own or generated names.
STAY = {"drop-drop", "take-append-drop", "returns-in-Some", "returns-in-Err"}
# Variables of lemmas, which no declaration shows.
VARIABLES = ["M-is", "T-is", "m-is", "w-is", "p-is", "q-is", "p-none", "q-none", "never-i", "never-j", "sum-high"]
# In camel case these would fall together with types of share_law, which are cited beside them.
BY_HAND = {"Share-bound": "WithinShare", "Pair-bound": "WithinPair", "Never-idle": "NeverIdleIn"}

PART = r"[^\s(){}\[\],;.@\"`«»⟨⟩λ]"
NAME = re.compile(PART + "+")
HYPHEN = re.compile(r"[A-Za-z0-9'_₀-₉]-[A-Za-z0-9]")
DECLARED = re.compile(
    r"(?:^\s*|\blet |\bwhere |[{(;]\s*)(?:abbrev |unfoldable |pub |private |data |record |mutual )*"
    r"((?:" + PART + r"+\s+)*?" + PART + r"+)\s+(?:\{[^}]*\}\s*|\([^)]*\)\s*)*:\s(.*)$", re.M)
LET = re.compile(r"\blet (" + PART + r"+) =")
KINDS = re.compile(r"\b(?:data|record|module) (" + PART + r"+)")


def texts(ending):
    for folder, folders, files in os.walk("crates"):
        folders[:] = sorted(f for f in folders if f != "out")
        for file in sorted(files):
            if file.endswith(ending):
                yield os.path.join(folder, file)


def read(path):
    with open(path, encoding="utf-8", newline="") as file:
        return file.read()


def pieces(text, comment):
    """The text cut into code and what is no code: (is code, piece)."""
    other = re.compile(r'"(?:[^"\\\n]|\\.)*"|' + comment, re.M)
    at = 0
    for found in other.finditer(text):
        yield True, text[at:found.start()]
        yield False, found.group(0)
        at = found.end()
    yield True, text[at:]


COMMENT = {".antt": r"(?:(?<=\s)|^)--(?:\s.*)?$", ".rt": r"//.*$"}


def code(path, ending):
    return "".join(piece if is_code else " " for is_code, piece in pieces(read(path), COMMENT[ending]))


def declared():
    names = set(VARIABLES)
    for path in texts(".antt"):
        body = re.sub(r"^use .*$", "", code(path, ".antt"), flags=re.M)
        for found in DECLARED.finditer(body):
            if not re.match(r"(goal|need)\.", found.group(2).strip()):
                names.update(found.group(1).split())
        names.update(LET.findall(body))
        names.update(KINDS.findall(body))
    return {name for name in names if HYPHEN.search(name)} - STAY


def turned(name):
    if name in BY_HAND:
        return BY_HAND[name]
    if name[0].isupper() and name not in VARIABLES:
        return "".join(word[0].upper() + word[1:] for word in name.split("-"))
    return name.replace("-", "_")


def main():
    names = {name: turned(name) for name in declared()}
    for ending in (".antt", ".rt"):
        for path in texts(ending):
            text = read(path)
            new = "".join(
                NAME.sub(lambda found: names.get(found.group(0), found.group(0)), piece) if is_code else piece
                for is_code, piece in pieces(text, COMMENT[ending]))
            if new != text:
                with open(path, "w", encoding="utf-8", newline="") as file:
                    file.write(new)
    print(f"{len(names)} names turned")


main()
