#!/usr/bin/env python3
"""Brings the repository's own definitions and lemmas to one spelling: words in snake case, types in camel case.

usage: python3 tools/respell.py            at the top of the repository, once, after the kit's port.py
       python3 tools/respell.py --list     only says what would be renamed, and what would fall together

Names of Rust items, of goals that the check makes, of files and of the kit's library stay as they are.
"""
import collections
import os
import re
import sys

ROOT = os.path.dirname(os.path.dirname(os.path.realpath(__file__)))
# Names that the plain rule would make one with another name in scope.
CHOSEN = {
    "places-of": "places_over",
}
WORD = r"[A-Za-z_α-ωΑ-Ω][\w'\-′ₐ-ₜ₀-₉≡≢≤]*"
TOKEN = re.compile(r"(?<![\w'\-′])" + WORD)
DECLARED = re.compile(r"^\s*(?:abbrev )?(?:unfoldable )?(?:pub )?(?:record |data )?(" + WORD + r") (?::|\()")


# Names of ours that the check also makes, after a dot, for a step of a function.
STEPS = {"found-is"}


def files(*ends):
    for folder, dirs, names in os.walk(os.path.join(ROOT, "crates")):
        dirs[:] = sorted(d for d in dirs if d != "out")
        for name in sorted(names):
            if name.endswith(ends):
                yield os.path.join(folder, name)


def read(path):
    with open(path, encoding="utf-8") as f:
        return f.read()


def declared():
    """The names that specs/ and proofs/ declare, but for the goals' own."""
    found = collections.defaultdict(set)
    for path in files(".antt"):
        for line in read(path).splitlines():
            m = re.match(r"^\s*(?:abbrev )?(?:unfoldable )?(?:pub )?(?:record |data )?(" + WORD + r") (?::|\()", line)
            if m and not line.lstrip().startswith("--") and not re.search(r" : (goal|need|given)\.", line):
                found[m.group(1)].add(path)
    return found


def respelled(name):
    if name in CHOSEN:
        return CHOSEN[name]
    name = name.replace("′", "'")
    if "-" in name and name[0].isupper():
        return "".join(part[:1].upper() + part[1:] for part in name.split("-"))
    if name[0].islower():
        name = re.sub(r"(?<=[a-z0-9])([A-Z])", lambda m: "_" + m.group(1).lower(), name)
        name = name.replace("-", "_")
    return name


def main():
    names = declared()
    turn = {n: respelled(n) for n in names if respelled(n) != n}
    together = []
    texts = {p: read(p) for p in files(".antt", ".rt")}
    for path, text in texts.items():
        seen = collections.defaultdict(set)
        code = "\n".join(l.split("//")[0] if path.endswith(".rt") else l.split("--")[0] if not re.search(r"\w--", l) else l for l in text.splitlines())
        for m in TOKEN.finditer(code):
            t = m.group()
            dotted = m.start() > 0 and code[m.start() - 1] == "."
            if t in turn:
                seen[turn[t]].add(t)
            elif not dotted:
                seen[t].add(t)
        together += [(new, sorted(old), path) for new, old in seen.items() if len(old) > 1]
    for new, old, path in sorted(together):
        print("together: %s from %s in %s" % (new, ", ".join(old), os.path.relpath(path, ROOT)))
    print("%d names, %d to turn, %d places where names fall together" % (len(names), len(turn), len(together)))
    if "--list" in sys.argv:
        for old in sorted(turn):
            print(old, turn[old])
        return
    for path, text in texts.items():
        def turned(m):
            if m.group() in STEPS and m.start() > 0 and text[m.start() - 1] == ".":
                return m.group()
            return turn.get(m.group(), m.group())

        new = TOKEN.sub(turned, text)
        if new != text:
            with open(path, "w", encoding="utf-8") as f:
                f.write(new)


main()
