#!/usr/bin/env python3
"""Counts, in crates/*/src, the places that docs/DESIGN-PASS.md speaks of.

usage: tools/design_places.py          the count of each point
       tools/design_places.py --list   and every place, as crate/file:line and what stands there

1  own enums with a case that carries a value, and functions whose u8 is the number of a refusal (their clause cites a verdict)
2  functions whose bodies are the same text once names, types and numbers are taken out
3  `while` loops
4  functions that tell a case by a match of true and false or turn one number into another by `as` alone, and enums that cannot be compared
5  functions with eight parameters or more
6  arrays of fixed length in the programs
7  matches of which two arms or more call another function
"""

import collections
import pathlib
import re
import sys

ROOT = pathlib.Path(__file__).resolve().parent.parent
PROGRAMS = ("replay", "label_runs", "frame_cases", "frames", "input")
WORDS = "let mut if else while for in return match true false as T fn loop break continue"
FUNCTION = re.compile(r"(?m)^( *)(?:pub(?:\([a-z]+\))? )?fn (\w+)")
VERDICT = re.compile(r"Verdict|_rules|Told|verdict_of")


class Function:
    """One function of a file: its name, head and body."""

    def __init__(self, path, text, match):
        indent = match.group(1)
        end = text.find("\n" + indent + "}\n", match.end())
        whole = text[match.start():end]
        opened = re.search(r"\n" + indent + r"\{\n", whole)
        cut = opened.start() if opened else whole.find("{")
        self.place = f"{path.parts[-3]}/{path.name}:{text.count(chr(10), 0, match.start()) + 1}"
        self.name = match.group(2)
        self.head = whole[:cut]
        self.body = re.sub(r"//.*", "", whole[cut:]).strip().lstrip("{").strip()

    def signature(self):
        return re.split(r"\n\s*(?:requires|ensures)\b", self.head)[0]

    def parameters(self):
        return len(re.findall(r"[\w)]\s*:\s*[&\w\[(]", self.signature().split("(", 1)[1]))

    def shape(self):
        names = {}

        def turn(word):
            return word.group(0) if word.group(0) in WORDS.split() else names.setdefault(word.group(0), f"v{len(names)}")

        text = re.sub(r"\b\d[\d_.]*(?:[ui](?:8|16|32|64|size))?\b", "#", self.body)
        text = re.sub(r"\b(?:[uif](?:8|16|32|64)|usize)\b", "T", text)
        return re.sub(r"\s+", " ", re.sub(r"[A-Za-z_]\w*", turn, text))


def functions(path):
    text = path.read_text()
    return [Function(path, text, m) for m in FUNCTION.finditer(text)]


def enums(path):
    text = path.read_text()
    for m in re.finditer(r"(?m)((?:^#\[[^\n]*\]\n)*)^(?:pub(?:\(crate\))? )?enum (\w+)[^{]*\{(.*?)^\}", text, re.S):
        yield f"{path.parts[-3]}/{path.name}:{text.count(chr(10), 0, m.start(2)) + 1} {m.group(2)}", m.group(1), m.group(3)


def places():
    files = sorted((ROOT / "crates").glob("*/src/**/*.rt"))
    found = collections.defaultdict(list)
    shapes = collections.defaultdict(list)
    for path in files:
        for name, derives, cases in enums(path):
            if re.search(r"(?m)^\s+\w+(?:\(| \{)", cases):
                found["1 enums with a value"].append(name)
            if "PartialEq" not in derives:
                found["4 enums that cannot be compared"].append(name)
        for number, line in enumerate(path.read_text().splitlines(), 1):
            where = f"{path.parts[-3]}/{path.name}:{number} {line.strip()}"
            if re.match(r"\s*while ", line):
                found["3 while loops"].append(where)
            if path.parts[-3] in PROGRAMS and re.search(r"\[0\w*; \w+\]|; \d+\]", line):
                found["6 arrays of fixed length in programs"].append(where)
        for f in functions(path):
            where = f"{f.place} {f.name}"
            if re.search(r"-> u8\s*$", f.signature()) and VERDICT.search(f.head):
                found["1 refusals as numbers"].append(where)
            if re.fullmatch(r"\(?\w+\)? as \w+", f.body):
                found["4 casts of their own"].append(where)
            if len(re.findall(r"=> (?:true|false),", f.body)) >= 2 and not re.search(r"=> (?!true|false)[^,]*\(", f.body):
                found["4 cases by true and false"].append(where)
            if f.parameters() >= 8:
                found["5 eight parameters or more"].append(where)
            if any(len(re.findall(r"=> [^,\n]*\w\(", m)) >= 2 for m in re.findall(r"match .*?\n\s*\}", f.body, re.S)):
                found["7 matches that call"].append(where)
            if len(f.shape()) > 30:
                shapes[f.shape()].append(where)
    for same in shapes.values():
        if len(same) > 1:
            found["2 bodies that are alike"].extend(same)
    return found


def main():
    found = places()
    for point in sorted(found):
        print(f"{point}: {len(found[point])}")
        if "--list" in sys.argv[1:]:
            for place in found[point]:
                print(f"  {place}")


main()
