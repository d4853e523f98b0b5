#!/usr/bin/env python3
"""Respells this repository's own definitions and lemmas, once, after the toolchain's port.py.

usage: python3 tools/respell.py      at the top of the repository

A dash within a name that specs/ or proofs/ define becomes an underscore, and a name that begins with a
capital loses its dashes: in-set is in_set, Same-rows is SameRows. Names that the toolchain makes
(returns-then-x, loop-at) and names of its library keep their spelling. Two names would fall together
with words of the library, bit_and and bit_or: they get an 'of'. A name that would meet another one stops the script.
"""

import re
import sys
from pathlib import Path

TOKEN = re.compile(r"[^\s(){}\[\],;:.·⟨⟩]+")
DEFINES = re.compile(r"\s*(?:(?:abbrev|unfoldable|pub|record|data|ruleset) )*([^\s(){}:,;.\[\]]+)(.*)$")
APART = {"bit-and": "bit_of_and", "bit-or": "bit_of_or"}


def respelled(name):
    if name in APART:
        return APART[name]
    if name[0].isupper():
        return "".join(part[:1].upper() + part[1:] for part in name.split("-"))
    return name.replace("-", "_")


def defined(text):
    for line in text.split("\n"):
        m = DEFINES.match(line)
        if not m or "-" not in m.group(1) or ": goal." in line:
            continue
        if re.match(r"(?: [({].*)? : ", m.group(2)):
            yield m.group(1)


def main():
    files = [p for p in sorted(Path("crates").rglob("*")) if p.suffix in (".antt", ".rt")]
    texts = {p: p.read_text(encoding="utf-8") for p in files}
    own = {n for p, t in texts.items() if p.suffix == ".antt" for n in defined(t)}
    said = {w for t in texts.values() for w in TOKEN.findall(t)}
    turned = {n: respelled(n) for n in own}
    meet = {n for n in own if turned[n] in said or list(turned.values()).count(turned[n]) > 1}
    if meet:
        sys.exit("these names would meet another one: " + ", ".join(sorted(meet)))
    for p, t in texts.items():
        new = TOKEN.sub(lambda m: turned.get(m.group(0), m.group(0)), t)
        if new != t:
            p.write_text(new, encoding="utf-8")
    print(len(own), "names respelled")


main()
