#!/usr/bin/env python3
"""Brings the definitions and lemmas of this repository to snake case and its facts to camel case, once, after the kit's port.py.

  tools/plain_names.py list     prints each name with its new spelling, and what falls together
  tools/plain_names.py          rewrites specs/, proofs/, the clauses of src/, and the edits

A definition, lemma or field written `endAt` or `end-at` becomes `end_at`; a fact written `In-force` becomes `InForce`.
Names of src/, goals, exported names, strings and numbers stay."""
import os
import re
import sys
from collections import defaultdict

WORD = r"[^\s(){}\[\],;.:]+"
HEAD = re.compile(r"^(\s*)((?:abbrev |unfoldable |pub )*)(record |data |module |ruleset )?(" + WORD + r")\s*(.*)$")
TOKEN = re.compile(r"[^\s(){}\[\],;.:`\"λ←≡∷→×⊎⊥∙]+")


def files(endings):
    for folder, dirs, names in os.walk("crates"):
        dirs[:] = sorted(d for d in dirs if d not in ("out", "data"))
        for name in sorted(names):
            if name.endswith(endings):
                yield os.path.join(folder, name)


def defined():
    """Each name that a file of specs/ or proofs/ defines, and where."""
    found = defaultdict(list)
    for path in files(".antt"):
        for line in open(path, encoding="utf-8"):
            if line.startswith(("--", "use ")) or ": goal." in line:
                continue
            m = HEAD.match(line.rstrip("\n"))
            if m and (m.group(3) or m.group(5).startswith(":")):
                found[m.group(4)].append(path)
    return found


# a lemma that would have its function's name, and a fact that would have a variant's
APART = {"In-force": "AlertInForce", "if-apart": "if_apart_lem", "service-at": "service_at_lem", "service-past": "service_past_lem"}


def spelled(name):
    if name in APART:
        return APART[name]
    name = name.replace("′", "'")
    parts = [p for p in re.split(r"[-_]", name)]
    if name[:1].isupper():
        return "".join(p[:1].upper() + p[1:] for p in parts)
    return re.sub(r"(?<=[a-z0-9])(?=[A-Z])", "_", "_".join(parts)).lower()


def renamed():
    names = {}
    for name in defined():
        if re.fullmatch(r"[A-Za-z][\w'′-]*", name) and re.search(r"[a-z0-9][A-Z]|-|′", name):
            new = spelled(name)
            if new != name:
                names[name] = new
    return names


def turned(text, names):
    return TOKEN.sub(lambda m: names.get(m.group(0), m.group(0)), text)


def in_clauses(text, names):
    """The text of a .rt file or of an edit, but for its comments: no name of src/ is written as these are."""
    word = re.compile(r"(?<![\w'′-])[A-Za-z][\w'′-]*")
    lines = []
    for line in text.split("\n"):
        code, slashes, comment = line.partition("//")
        lines.append(word.sub(lambda m: names.get(m.group(0), m.group(0)), code) + slashes + comment)
    return "\n".join(lines)


def main():
    names = renamed()
    if sys.argv[1:] == ["list"]:
        there = defaultdict(set)
        for name in defined():
            there[names.get(name, name)].add(name)
        for name in sorted(names):
            print(name, names[name])
        for new, olds in sorted(there.items()):
            if len(olds) > 1:
                print("FALL TOGETHER", new, *sorted(olds))
        words = set()
        for path in files(".rt"):
            words |= set(re.findall(r"[A-Za-z]\w*", re.sub(r"//.*", "", open(path, encoding="utf-8").read())))
        for old in sorted(names):
            if names[old] in words:
                print("ALSO IN SRC", old, names[old])
        return
    for path in files(".antt"):
        text = open(path, encoding="utf-8").read()
        new = turned(text, names)
        if new != text:
            open(path, "w", encoding="utf-8").write(new)
    for path in files((".rt", ".edit")):
        text = open(path, encoding="utf-8").read()
        new = in_clauses(text, names)
        if new != text:
            open(path, "w", encoding="utf-8").write(new)


main()
