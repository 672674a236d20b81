#!/usr/bin/env python3
"""Respells the repository's own definitions and lemmas: columnValue becomes column_value.

usage: tools/spell.py [-n]      at the top, right after the kit's port.py; -n only says which names fall together

Every lower-case word with capitals inside is respelled, in specs, proofs, contracts, edits and documents. A dash stays: it joins two names.
Types and modules keep their capitals. What stands in a string or a byte stays, as do the kit's own words.
"""

import glob
import re
import sys

WORD = re.compile(r"(?<![A-Za-z0-9_'·\"])[a-z][a-z0-9]*(?:[A-Z][A-Za-z0-9]*)+(?![A-Za-z0-9_\"])")
KITS = {"getD"}
FILES = ["crates/**/*.antt", "crates/**/*.rt", "crates/**/*.edit", "docs/*.md", "README.md"]
DECLARED = re.compile(r"^\s*(?:(?:abbrev|unfoldable|pub|data|record) )*([^\s:(){}λ]+) :", re.M)


def snake(word):
    return re.sub(r"([A-Z])", lambda m: "_" + m.group(1).lower(), word)


def respell(text):
    return WORD.sub(lambda m: m.group() if m.group() in KITS else snake(m.group()), text)


def files():
    for pattern in FILES:
        for path in sorted(glob.glob(pattern, recursive=True)):
            if "/out/" not in path and "/landings/" not in path:
                yield path


def together(path, text):
    """Names that one file declares, or uses, in both spellings."""
    words = set(re.findall(r"[A-Za-z_][A-Za-z0-9_']*", text))
    return sorted(w for w in words if snake(w) != w and WORD.fullmatch(w) and w not in KITS and snake(w) in words)


def main():
    only = sys.argv[1:] == ["-n"]
    for path in files():
        with open(path, encoding="utf-8") as f:
            old = f.read()
        new = respell(old)
        for w in together(path, old):
            print(f"look: {path}: {w} and {snake(w)}")
        if new != old and not only:
            with open(path, "w", encoding="utf-8") as f:
                f.write(new)
            print(f"respelled: {path}")


main()
