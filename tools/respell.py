#!/usr/bin/env python3
"""Brings the repository's own definitions, lemmas, fields and constructors to today's spelling: words in snake case.

usage: tools/respell.py        at the top of a repository that port.py has turned, once
       tools/respell.py --map  prints old and new name, a line each, and changes nothing

`port.py` respells what stands in the library and some names of the repository; this turns the rest, in specs/, proofs/ and the clauses of src/:
a small letter and a capital (`blueHolds`) and a dash (`row-of-number`) become an underscore. Names from src/ keep theirs: they are in snake case already.
Where two names fall together the lemma gets `_lem`. Function proofs (proofs/**/Proof.antt) name the check's own goals as well: of them only those words
are turned that a file of definitions or lemmas declares.
"""

import os
import re
import sys

ROOT = os.path.join(os.path.dirname(os.path.dirname(os.path.realpath(__file__))), "crates")
DECLARED = re.compile(r"^\s*(?:(?:abbrev|unfoldable|pub|opaque|instance|private)\s+)*([^\s(){}:;,=|]+(?: [^\s(){}:;,=|]+)*) :(?: |$)")
WORD = re.compile(r"[^\s(){}\[\];,.:`\"⌜⌝⟦⟧|]+")
# fields of several records, which no scope has beside one another
FIELDS = {"grey-found", "grey-labels", "greyFound", "greyLabels"}


def files(*endings):
    for folder, inside, names in os.walk(ROOT):
        inside[:] = sorted(d for d in inside if d != "out")
        for name in sorted(names):
            if name.endswith(endings):
                yield os.path.join(folder, name)


def read(path):
    with open(path, encoding="utf-8") as f:
        return f.read()


def snake(name):
    return re.sub(r"(?<=[a-z0-9])([A-Z])", lambda m: "_" + m[1].lower(), name.replace("-", "_"))


def declared():
    names = set()
    for path in files(".antt"):
        if os.path.basename(path) == "Proof.antt":
            continue
        for line in read(path).split("\n"):
            found = None if line.lstrip().startswith("--") else DECLARED.match(line)
            if found:
                names.update(found[1].split())
    return names


def scopes():
    """For each word the files of definitions and proofs that have it."""
    found = {}
    for path in files(".antt", ".rt"):
        for word in set(WORD.findall(read(path))):
            found.setdefault(word, set()).add(path)
    return found


def renaming():
    names = declared()
    turned = {n for n in names if not n[0].isupper() and (re.search("[^-]-[^-]", n) or re.search("[a-z0-9][A-Z]", n))}
    at = scopes()
    holders = {n: at.get(n, set()) for n in names - turned}
    to = {}
    for n in sorted(turned, key=lambda n: ("-" in n, n)):
        new = snake(n)
        # fields of different records may have one name
        if holders.get(new, set()) & at[n] and n not in FIELDS:
            new += "_lem"
            if holders.get(new, set()) & at[n]:
                raise SystemExit(f"{n} has no name left")
        holders[new] = holders.get(new, set()) | at[n]
        to[n] = new
    return to


def by_words(text, to):
    return WORD.sub(lambda m: to.get(m[0], m[0]), text)


def in_comment(text, to):
    return re.sub(r"`[^`\n]*`", lambda m: by_words(m[0], to), text)


def turn(path, to):
    mark = "//" if path.endswith(".rt") else "--"
    out = []
    for line in read(path).split("\n"):
        at = re.search(r"(^|\s)" + mark + r"(\s|$)", line)
        cut = at.start() if at else len(line)
        out.append(by_words(line[:cut], to) + in_comment(line[cut:], to))
    text = "\n".join(out)
    if text != read(path):
        with open(path, "w", encoding="utf-8") as f:
            f.write(text)


def main():
    to = renaming()
    if sys.argv[1:] == ["--map"]:
        print("\n".join(f"{a} {b}" for a, b in sorted(to.items())))
        return
    for path in files(".antt", ".rt"):
        turn(path, to)


main()
