#!/usr/bin/env python3
"""Brings the repository's own names in specs/ and proofs/ to today's spelling.

usage: python3 tools/respell.py [--list]      at the top of the repository, after the kit's port.py

A definition, lemma, field or constructor of the repository that has a dash in its name is written in snake case, one
that begins with a capital in camel case. Names of the library and names that the check makes keep their dashes. The
names stand in crates/ (.antt, .rt and must-fail/*.edit), and between backticks in the pages. With --list, nothing is
written: the renamed names are printed, with those that fall together with a name that stood before.
"""

import os
import re
import sys

NAME = r"[^\s:(){}\[\].,;«»⌜⌝λ→←×]+"
DECLARED = re.compile(r"^\s*(?:(?:abbrev|unfoldable|pub|record|data|ruleset)\s+)*(" + NAME + r")((?:\s+(?:\([^()]*\)|\{[^{}]*\}))*)\s*:(.*)$")
TOKEN = re.compile(r"(?<![\w'\-])[^\W\d_][\w']*(?:-[\w'ℕℤ*+≤<≡∷]+)+(?![\w'\-])")
MADE = re.compile(r"^\s*goal\.|Goals\b")


def files(root, ends):
    for folder, dirs, names in os.walk(root):
        dirs[:] = sorted(d for d in dirs if d not in ("out", ".git", "target"))
        for n in sorted(names):
            if n.endswith(ends):
                yield os.path.join(folder, n)


def read(path):
    with open(path, encoding="utf-8", newline="") as f:
        return f.read()


def declared():
    """The repository's own names with a dash."""
    own = set()
    for p in files("crates", ".antt"):
        for line in read(p).split("\n"):
            m = DECLARED.match(line)
            if m and "-" in m.group(1) and TOKEN.fullmatch(m.group(1)) and not MADE.search(m.group(3)):
                own.add(m.group(1))
    return own


def imported():
    """Names with a dash that come from the library."""
    names = set()
    for p in files("crates", (".antt", ".rt")):
        for m in re.finditer(r"use (Rattle\.std|Rattle\.core|borrow|mathlib|lib|native|Prim|denote|logic)\.[^{}\n]*\{([^{}]*)\}", read(p)):
            names.update(n.strip() for n in m.group(2).split(","))
    return names


def respelled(name):
    if name[0].isupper():
        return "".join(part[:1].upper() + part[1:] for part in re.split(r"[-_]", name))
    return name.replace("-", "_")


def main(argv):
    own = declared()
    library = imported()
    kept = sorted(own & library)
    new = {n: respelled(n) for n in own - library}
    standing = set()
    for p in files("crates", (".antt", ".rt")):
        standing.update(re.findall(r"[\w'][\w'\-]*", read(p)))
    if "--list" in argv:
        for old in sorted(new):
            print(old, new[old], "STANDS ALREADY" if new[old] in standing else "")
        back = {}
        for old, it in new.items():
            back.setdefault(it, []).append(old)
        for it, olds in sorted(back.items()):
            if len(olds) > 1:
                print("FALL TOGETHER", it, olds)
        print("KEPT", kept)
        return 0
    turn = lambda m: new.get(m.group(0), m.group(0))
    for p in files("crates", (".antt", ".rt", ".edit")):
        text = read(p)
        turned = TOKEN.sub(turn, text)
        if turned != text:
            with open(p, "w", encoding="utf-8", newline="") as f:
                f.write(turned)
    for p in files(".", ".md"):
        text = read(p)
        turned = re.sub(r"`[^`\n]*`", lambda m: TOKEN.sub(turn, m.group(0)), text)
        if turned != text:
            with open(p, "w", encoding="utf-8", newline="") as f:
                f.write(turned)
    return 0


if __name__ == "__main__":
    raise SystemExit(main(sys.argv[1:]))
