#!/usr/bin/env python3
"""Gives the goals and steps that the answers of a crate name their names of today.

usage: python3 tools/relabel.py CRATE..     at the top of the repository, once a crate's clauses are read

A dash joins the parts of a name, and a part keeps the spelling of the source: where an answer of the older Rattle says
`returns-then-bag-size-gt-LARGEST-BAG`, today's says `returns-then-bag_size-gt-LARGEST_BAG`. Words of Rattle's own of two
parts are in snake case: `in-ok-x` is `in_ok-x`.
"""

import os
import re
import sys

WORD = re.compile(r"[A-Za-z][A-Za-z0-9_'-]*")
IDENTIFIER = re.compile(r"\b[A-Za-z][A-Za-z0-9]*(?:_[A-Za-z0-9]+)+\b")
PARTS = ["in-ok", "in-err", "in-default", "type-inv", "invariant-of", "overflow-add", "overflow-sub", "overflow-mul", "overflow-cast", "overflow-step", "slice-bounds", "offset-bounds", "from-residual", "yielded-by"]


def identifiers(crate):
    found = set()
    for folder, _, names in os.walk(os.path.join("crates", crate, "src")):
        for name in names:
            with open(os.path.join(folder, name), encoding="utf-8") as file:
                found.update(IDENTIFIER.findall(re.sub(r"//.*", "", file.read())))
    return found


def main():
    for crate in sys.argv[1:]:
        parts = sorted({name.replace("_", "-") for name in identifiers(crate)} | set(PARTS), key=lambda p: -p.count("-"))
        whole = re.compile(r"(?<![A-Za-z0-9_'])(" + "|".join(map(re.escape, parts)) + r")(?![A-Za-z0-9_'])")
        for folder, _, names in os.walk(os.path.join("crates", crate, "proofs")):
            for name in names:
                if name not in ("Answers.antt", "Invariants.antt"):
                    continue
                path = os.path.join(folder, name)
                with open(path, encoding="utf-8") as file:
                    text = file.read()

                def one(m):
                    return whole.sub(lambda p: p.group(0).replace("-", "_"), m.group(0)) if "-" in m.group(0) else m.group(0)

                new = "\n".join(l if l.startswith("use Rattle.std") or l.startswith("--") else WORD.sub(one, l) for l in text.split("\n"))
                if new != text:
                    with open(path, "w", encoding="utf-8") as file:
                        file.write(new)


main()
