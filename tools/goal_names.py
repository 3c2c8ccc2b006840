#!/usr/bin/env python3
"""Brings the names of goals and steps in a crate's proof files to those that the check makes today.

usage: python3 tools/goal_names.py CRATE..      at the top of the repository

The check lists the names of every function's goals and steps (rt check --generated --old-names). A name in proofs/ that
differs from one of these by a dash or a dot where an underscore or a dash stands now is written as it is.
"""

import json
import os
import re
import subprocess
import sys
import tempfile

TOKEN = re.compile(r"(?<![\w'\-·])[^\W\d_][\w']*(?:[-·][\w']+)*(?![\w'\-·])")


def norm(name):
    return re.sub(r"[_·-]+", "-", name)


def valid_names(entry):
    names = {n[1] for n in entry.get("needs", [])}
    for place in entry.get("places", []):
        step = place[2][1]
        names.add(step)
        if step.endswith("-1"):
            names.add(step[:-2])
    for loop in entry.get("loops", []):
        for pair in loop:
            names.add(pair[1])
    loops = {n[:-len("-init")] for n in names if n.endswith("-init")}
    for loop in loops:
        names.update({"invariant-" + loop, "decreases-" + loop, loop})
    return {n for n in names if n}


def main(crates):
    for crate in crates:
        with tempfile.TemporaryDirectory() as d:
            said = subprocess.run(["rt", "check", "--generated", d, "--old-names"], cwd=os.path.join("crates", crate), capture_output=True, text=True)
            path = os.path.join(d, "names.json")
            if not os.path.exists(path):
                print(crate, "no names:", said.stdout[-500:], said.stderr[-500:])
                continue
            made = json.load(open(path))
        turned = 0
        for key, entry in made.items():
            m = re.fullmatch(r"Rattle-" + re.escape(crate) + r"-proofs\.(.*)\.Lts", key)
            if not m or not isinstance(entry, dict):
                continue
            folder = os.path.join("crates", crate, "proofs", *m.group(1).split("."))
            names = valid_names(entry)
            by_norm = {}
            for n in names:
                by_norm.setdefault(norm(n), set()).add(n)
            for f in ("Answers.antt", "Invariants.antt"):
                p = os.path.join(folder, f)
                if not os.path.exists(p):
                    continue
                text = open(p, encoding="utf-8").read()

                def turn(t):
                    nonlocal turned
                    name = t.group(0)
                    if name in names or "-" not in name and "·" not in name:
                        return name
                    found = by_norm.get(norm(name), set())
                    if len(found) == 1:
                        turned += 1
                        return next(iter(found))
                    return name

                lines = [l if l.startswith("use ") else TOKEN.sub(turn, l) for l in text.split("\n")]
                new = "\n".join(lines)
                if new != text:
                    open(p, "w", encoding="utf-8").write(new)
        print(crate, "names turned:", turned)


if __name__ == "__main__":
    main(sys.argv[1:])
