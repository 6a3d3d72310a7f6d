#!/usr/bin/env python3
"""Respells this repository's own definitions and lemmas: words in snake case, where they were in
kebab case or in camel case. Run it once, at the top of the repository, after port.py.

A name that a file takes from the library, a name that Rattle makes of the code (a goal, a clause, a
loop) and a type keep their spelling. Names that would fall together are in APART.
"""

import os
import re
import sys
from collections import defaultdict

TOKEN = re.compile(r"(?<![A-Za-z0-9_'\u2032.-])[A-Za-z_][A-Za-z0-9_'\u2032]*(?:-[A-Za-z0-9_'\u2032]+)*")
FIELD = re.compile(r"(?<=\.)[A-Za-z_][A-Za-z0-9_'\u2032]*(?:-[A-Za-z0-9_'\u2032]+)*")
IMPORT = re.compile(r"^\s*(?:pub |ghost )*use ([A-Za-z0-9_.']+)\.\{([^}]*)\}", re.M)

# What Rattle makes of the code.
MADE = re.compile(r"^(Need-|Lts-|invariant-|decreases-|returns-|is_IsWord$|After-known)")

# Names that would fall together with another: the lemma gets the other name.
APART = {
    "all-from": "all_from_lem",
    "behind-label": "behind_label_lem",
    "by-taken": "by_taken_lem",
    "in_bytes": "in_bytes_lem",
    "is-row": "is_a_row",
    "item-of": "item_of_lem",
    "no-field": "no_field_lem",
    "number-at": "number_at_lem",
    "or-else": "or_else_lem",
    "rows-from": "rows_from_lem",
    "to-place": "to_place_lem",
}

# SIF's rules are constructors, or records.
RULE = re.compile(r"^(S?T)-([A-Za-z]+)$")


def files(root, *endings):
    for folder, dirs, names in os.walk(root):
        dirs[:] = sorted(d for d in dirs if d not in ("out", ".git", "target"))
        for n in sorted(names):
            if n.endswith(endings):
                yield os.path.join(folder, n)


def read(path):
    with open(path, encoding="utf-8") as f:
        return f.read()


def code(text):
    """The text without its comments, for finding names."""
    return "\n".join(l.split("--", 1)[0] for l in text.splitlines())


def own(path, crates):
    parts = path.split(".")
    return parts[0] == "Rattle" and len(parts) > 1 and parts[1] in crates


def foreign(text, crates):
    """The names that a file takes from the library."""
    out = set()
    for path, names in IMPORT.findall(text):
        if not own(path, crates):
            out |= {w for w in re.split(r"[,\s]+", names) if w}
    return out


def respelled(name):
    if name in APART:
        return APART[name]
    m = RULE.match(name)
    if m:
        return (m.group(1) + "_" + re.sub(r"(?<=[a-z])(?=[A-Z])", "_", m.group(2))).lower()
    if re.match(r"^[A-Z0-9]+(-[A-Z0-9]+)*$", name):
        return name.replace("-", "_")
    if name[0].isupper():
        return name.replace("-", "_")
    out = re.sub(r"(?<=[a-z0-9])(?=[A-Z])", "_", name.replace("-", "_"))
    return re.sub(r"[A-Z]+", lambda m: m.group(0).lower(), out)


def turns(name):
    return not MADE.match(name) and respelled(name) != name


def table(root, crates):
    found = set()
    for path in files(os.path.join(root, "crates"), ".antt"):
        if "/proofs/" in path and os.path.basename(path) == "Proof.antt":
            continue
        text = read(path)
        known = foreign(text, crates)
        for t in TOKEN.findall(code(text)) + FIELD.findall(code(text)):
            if t not in known:
                found.add(t)
    return found


def apply(text, names, known, where=None):
    def put(m):
        t = m.group(0)
        return names[t] if t in names and t not in known else t

    if where is None:
        return FIELD.sub(put, TOKEN.sub(put, text))
    return where.sub(lambda m: FIELD.sub(put, TOKEN.sub(put, m.group(0))), text)


def in_source(text, names, known):
    """In comments of code only what stands in backticks, and names in camel case."""
    camel = {a: b for a, b in names.items() if "-" not in a}
    lines = []
    for l in text.split("\n"):
        mark = re.search(r"(^|\s)(//|--)", l)
        if mark:
            head, tail = l[: mark.start()], l[mark.start():]
            tail = apply(apply(tail, names, known, re.compile(r"`[^`]*`")), camel, known)
            lines.append(apply(head, names, known) + tail)
        else:
            lines.append(apply(l, names, known))
    return "\n".join(lines)


class Loose(dict):
    """Old spellings of these names, whichever they were."""

    def __init__(self, spelled):
        self.spelled = spelled

    def __contains__(self, name):
        return turns(name) and respelled(name) in self.spelled

    def __getitem__(self, name):
        return respelled(name)


def main():
    root = sys.argv[1] if len(sys.argv) > 1 else "."
    crates = set(os.listdir(os.path.join(root, "crates")))
    found = table(root, crates)
    names = {n: respelled(n) for n in found if turns(n)}
    together = defaultdict(set)
    for n in found:
        together[names.get(n, n)].add(n)
    bad = {k: v for k, v in together.items() if len(v) > 1}
    if "--list" in sys.argv or bad:
        for k, v in sorted(bad.items()):
            print("together:", k, sorted(v))
    if "--list" in sys.argv:
        for a, b in sorted(names.items()):
            print(a, b)
        return
    # port.py turned some of these names in the sources, and leaves pages and edits: there a name is turned where its
    # new spelling is one of the repository's.
    spelled = {names.get(n, n) for n in found}
    loose = Loose(spelled)
    pages = [p for d in ("docs", "examples") for p in files(os.path.join(root, d), ".md")] + [os.path.join(root, "README.md")]
    for path in list(files(os.path.join(root, "crates"), ".antt", ".rt", ".edit")) + pages:
        text = read(path)
        known = foreign(text, crates)
        if path.endswith(".md"):
            new = apply(text, loose, known, re.compile(r"`[^`]*`"))
        elif path.endswith(".edit"):
            new = apply(text, loose, known, re.compile(r"^(old|new):.*$", re.M))
        else:
            new = in_source(text, names, known)
            fallen = (set(TOKEN.findall(code(new))) - set(TOKEN.findall(code(text)))) & known
            if fallen:
                print("the library's name:", path, sorted(fallen))
        if new != text:
            with open(path, "w", encoding="utf-8") as f:
                f.write(new)


if __name__ == "__main__":
    main()
