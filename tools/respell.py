#!/usr/bin/env python3
"""Brings this repository's own definitions and lemmas to today's spelling, once, after the kit's upgrade script.

usage: python3 tools/respell.py [--dry]     at the top of the repository

A word is in snake case, so `residueOf` becomes `residue_of`. A dash stays only where it joins two names, as in `length-boundaries`;
elsewhere it becomes `_`. Types, modules, functions of src/, exported names, strings and the names of goals stay as they are.
It prints each new name that already stood in a file where its old name stands, since two names could fall together there.
"""

import collections
import os
import re
import sys

HEAD = re.compile(r"\s*(?:(?:abbrev|opaque|unfoldable|pub|instance|ruleset)\s+)*(?:(record|data)\s+)?([^\s:(){},.=|;]+)\s*(?:\{[^}]*\}\s*|\([^)]*\)\s*)*:(?:\s|$)")
TOKEN = re.compile(r"[^\s(){},.;\"]+")
STRING = re.compile(r'"(?:\\.|[^"\\])*"')
# words that are names of the library's, so that a dash may join them
LIBRARY = set("length map take drop append set get_or reverse sum concat decimal glyph min max cond mod div mul pow zero suc eqb pos".split())
# goals, steps and other names that the check makes begin so
MADE = re.compile(r"(returns|loop|invariant|decreases|overflow|bounds|index|in|if|then|else|offset|nonzero|prove|slice_bounds|match|invariant_of|index_in)(-|$)")


def files(root):
    for folder, dirs, names in os.walk(os.path.join(root, "crates")):
        dirs[:] = sorted(d for d in dirs if d != "out")
        for name in sorted(names):
            if name.endswith((".rt", ".antt", ".edit")):
                yield os.path.join(folder, name)


def parts_of(path, root):
    return os.path.relpath(path, os.path.join(root, "crates")).split(os.sep)


def is_answer(path, root):
    """A file of the proof of one function."""
    parts = parts_of(path, root)
    return parts[1] == "proofs" and len(parts) > 3


def own_names(root):
    found, specs = set(), set()
    for path in files(root):
        if not path.endswith(".antt"):
            continue
        with open(path, encoding="utf-8") as text:
            for line in text:
                m = HEAD.match(re.sub(r"\s--.*", "", line))
                if not m or m[2] in ("use", "mod", "λ", "let", "module", "elim", "where"):
                    continue
                if is_answer(path, root) and (MADE.match(m[2]) or line.startswith("pub ") or line.startswith("abbrev pub ")):
                    continue
                found.add(m[2])
                if parts_of(path, root)[1] == "specs":
                    specs.add(m[2])
    return found, specs


# lemmas that would have the name of the function that they speak of
LEMMAS = {"first-from": "first_from_lem", "by_parts": "by_parts_lem"}


def snake(name):
    return re.sub(r"(?<=[a-z0-9'])([A-Z])", lambda m: "_" + m[1].lower(), name)


def respelled(name, known):
    if name in LEMMAS:
        return LEMMAS[name]
    if not re.match(r"[a-z]", name) or "◌" in name:
        return name
    pieces = [snake(p) for p in name.split("-")]
    out = pieces[0]
    for piece in pieces[1:]:
        last = out.split("-")[-1]
        out += ("-" if last in known and piece in known else "_") + piece
    return out


def turned(text, path, root, names, members):
    """The text with each own name respelled, outside strings; what follows a dot in an answer only where it is a member of a record."""
    strings = [(m.start(), m.end()) for m in STRING.finditer(text)]
    answer, out, at = is_answer(path, root), [], 0
    aliases = set(re.findall(r"\bas (\w+)", text))
    for m in TOKEN.finditer(text):
        old = m[0]
        quoted = old.startswith("«") and old.endswith("»")
        bare = old.strip("«»")
        if bare not in names or any(a <= m.start() < b for a, b in strings):
            continue
        before = text[: m.start()]
        if answer and before.endswith(".") and bare not in members:
            head = re.search(r"([^\s(){},.;\"]+)\.$", before)
            if not head or head[1] not in aliases:
                continue
        out.append(text[at : m.start()] + ("«%s»" % names[bare] if quoted else names[bare]))
        at = m.end()
    return "".join(out) + text[at:]


def main(argv):
    root = os.getcwd()
    found, specs = own_names(root)
    known = {snake(n) for n in specs if "-" not in n} | LIBRARY
    names = {n: respelled(n, known) for n in found}
    names = {a: b for a, b in names.items() if a != b}
    taken = collections.Counter(names.values())
    for new, count in sorted(taken.items()):
        if count > 1:
            print("fall together:", [a for a, b in names.items() if b == new], new)
    members = set()
    for path in files(root):
        if path.endswith(".antt") and parts_of(path, root)[1] == "specs":
            with open(path, encoding="utf-8") as text:
                members |= {m[1] for m in re.finditer(r"(?m)^\s+pub ([^\s:(){},.=|;]+)\s*:", text.read())}
    changed = 0
    for path in files(root):
        with open(path, encoding="utf-8") as file:
            text = file.read()
        tokens = {t.strip("«»") for t in TOKEN.findall(STRING.sub("", text))}
        for old in sorted(tokens & set(names)):
            if names[old] in tokens or names[old] in found:
                print(f"look: {os.path.relpath(path, root)}: {old} -> {names[old]}, which stands there too" if names[old] in tokens else f"look: {old} -> {names[old]}, which is a name already")
        new = turned(text, path, root, names, members)
        if new != text:
            changed += 1
            if "--dry" not in argv:
                with open(path, "w", encoding="utf-8") as file:
                    file.write(new)
    if "--dry" in argv:
        for old, new in sorted(names.items()):
            print(f"{old} -> {new}")
    print(f"{len(names)} names, {changed} files")
    return 0


if __name__ == "__main__":
    sys.exit(main(sys.argv[1:]))
