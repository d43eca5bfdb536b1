#!/usr/bin/env python3
"""Spells the repository's own definitions and lemmas as today's Rattle does: words in snake case.

usage: python3 tools/respell.py [--list]     at the top of the repository, right after the kit's port script, once

A name is the repository's own if a file of specs/ or proofs/ declares it and no library outside the repository
exports it. `groupCount` becomes `group_count`, `zero-list` becomes `zero_list`. Types keep their capitals, and so does
everything that Rattle makes (goals, steps of a function, members of a record that it wrote) or that src/ declares.
A lemma that would get the name of a definition, of a member or of a function of src/ gets `_lem` behind it.
With --list it writes nothing and prints the table of names.
"""

import collections
import os
import re
import sys

WORD = r"[^\s(){}\[\].,;:λ→←\"`]+"
TOKEN = re.compile(WORD)
DECLARED = re.compile(r"^\s*(?:(?:pub|abbrev|unfoldable|record|data)\s+)*(" + WORD + r")(?:\s+[({].*)?\s*:(?:\s|$)")
LATER = re.compile(r"^\s*(?:(?:pub|abbrev|unfoldable)\s+)*(" + WORD + r")\s*:(?:\s|$)")
USE = re.compile(r"^(?:ghost |pub )?use\s+([^{}]+?)\.\{([^}]*)\}")
FUNCTION = re.compile(r"\bfn ([a-z0-9_]+)")


def files(ending):
    for folder, inner, names in os.walk("crates"):
        inner[:] = sorted(d for d in inner if d != "out")
        for name in sorted(names):
            if name.endswith(ending):
                yield os.path.join(folder, name)


def read(path):
    with open(path, encoding="utf-8") as file:
        return file.read()


def snake(name):
    name = name.replace("-", "_")
    return re.sub(r"(?<=[a-z0-9])([A-Z])", lambda m: "_" + m.group(1).lower(), name)


def foreign():
    """The names that come from a library outside the repository."""
    own = {"Rattle." + crate for crate in os.listdir("crates")}
    found = set()
    for ending in (".antt", ".rt"):
        for path in files(ending):
            for line in read(path).splitlines():
                m = USE.match(line)
                if m and ".".join(m.group(1).split(".")[:2]) not in own:
                    for item in m.group(2).split(","):
                        found.update(item.split(" as ")[:1])
    return {item.strip() for item in found}


def declared():
    """The names that the files of specs/ and proofs/ declare, with the files."""
    found = collections.defaultdict(set)
    for path in files(".antt"):
        for line in read(path).splitlines():
            if line.lstrip().startswith(("--", "use ", "pub use ")):
                continue
            m = DECLARED.match(line)
            if m and not re.search(r":\s*goal\.", line):
                found[m.group(1)].add(path)
    return found


def functions():
    """The functions of src/."""
    return {name for path in files(".rt") for name in FUNCTION.findall(read(path))}


def table():
    outside = foreign()
    own = declared()
    taken = functions() | {snake(name) for name in own if "-" not in name}
    names = {}
    for name in sorted(own):
        if name in outside or name[0].isupper() or not name[0].isalpha():
            continue
        if "-" not in name and not re.search(r"[a-z0-9][A-Z]", name):
            continue
        lemma = "-" in name and snake(name) in taken
        names[name] = snake(name) + ("_lem" if lemma else "")
    return names


def together(names):
    """New spellings that another name has already, or that two names would get."""
    words = collections.Counter()
    for ending in (".antt", ".rt"):
        for path in files(ending):
            words.update(TOKEN.findall(read(path)))
    counts = collections.Counter(names.values())
    return {old: new for old, new in names.items() if counts[new] > 1 or words[new]}


def turned(text, names):
    def one(m):
        step = "-" in m.group(0) and text[: m.start()].endswith(".")  # a step of a function, as `c.key-same`
        return m.group(0) if step else names.get(m.group(0), m.group(0))

    return TOKEN.sub(one, text)


GHOST = re.compile(r"ghost use [^;]*;|^\s*(?:requires|ensures)\b[^{\n]*\{|^\s*(?:pub )?ghost [\w ]+[:=] \{|^\s*ghost [\w ]+\{|#!?\[tactic[^\]]*\]", re.M)


def ghost_turned(text, names):
    """The same, in the clauses and imports of a source file alone."""
    out, at = [], 0
    for m in GHOST.finditer(text):
        if m.start() < at:
            continue
        end = m.end()
        if m.group(0).endswith("{"):
            depth = 1
            while depth:
                depth += {"{": 1, "}": -1}.get(text[end], 0)
                end += 1
        out += [text[at : m.start()], turned(text[m.start() : end], names)]
        at = end
    return "".join(out) + text[at:]


def main():
    names = table()
    if "--list" in sys.argv:
        clash = together(names)
        for old, new in names.items():
            print(old, new, *(["FALLS TOGETHER"] if old in clash else []))
        return
    for path in files(".antt"):
        text = read(path)
        lines = [line if line.lstrip().startswith("--") else turned(line, names) for line in text.split("\n")]
        write(path, text, "\n".join(lines))
    for path in files(".rt"):
        text = read(path)
        write(path, text, ghost_turned(text, names))
    for path in files(".edit"):
        text = read(path)
        if re.search(r"^file: (?:specs|proofs)/", text, re.M) or re.search(r"^old: .*(?:ensures|requires|ghost)", text, re.M):
            write(path, text, turned(text, names))


def write(path, old, new):
    if new != old:
        with open(path, "w", encoding="utf-8") as file:
            file.write(new)


if __name__ == "__main__":
    main()
