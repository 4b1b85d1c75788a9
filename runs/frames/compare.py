#!/usr/bin/env python3
"""The frame program beside the reading of document 01 in frames.py, on texts that are drawn: whole panels and damaged ones.

    compare.py [COUNT [SEED]] [--program PATH | --library PATH]

COUNT is 300 and SEED 1 where they are not given: the same two numbers draw the same texts. The program is proved and built first, unless
--program names a built one. --library names a shared object of this machine with the exported tsorvenk_frames, which is asked in its place:

    cc -shared -o libtsorvenk.so -Wl,--whole-archive "$(./build-library | tail -1)" -Wl,--no-whole-archive

Writes how many texts got each answer, as they were drawn, and the shortest text on which the two differ; exit status 1 if there is one.
"""
import argparse
import ctypes
import os
import random
import subprocess
import sys
from collections import Counter
from concurrent.futures import ThreadPoolExecutor

import frames

TOP = os.path.dirname(os.path.dirname(os.path.dirname(os.path.abspath(__file__))))
ROOM = 65536  # the program's buffer


class Program:
    """What answers a text: the compiled program, one process a text."""

    def __init__(self, path=None):
        if path is None:
            # proved, built and run once, or only run where nothing has changed since
            folder = os.path.join(TOP, "crates", "frames")
            subprocess.run(["rt", "run"], cwd=folder, check=True, stdin=subprocess.DEVNULL, stdout=subprocess.DEVNULL, stderr=subprocess.DEVNULL)
            path = os.path.join(folder, "out", "frames")
        self.command = [path]

    def answer(self, text):
        return subprocess.run(self.command, input=text, stdout=subprocess.PIPE, check=True).stdout


class Library:
    """The same function of the exported library, called in this process."""

    room = 8192

    def __init__(self, path):
        self.frames = ctypes.CDLL(os.path.abspath(path)).tsorvenk_frames
        self.frames.argtypes = [ctypes.c_char_p, ctypes.c_size_t] * 2 + [ctypes.POINTER(ctypes.c_size_t), ctypes.c_size_t]
        self.frames.restype = ctypes.c_uint8

    def answer(self, text):
        out, written = ctypes.create_string_buffer(self.room), ctypes.c_size_t()
        code = self.frames(text, len(text), out, self.room, ctypes.byref(written), 1)
        return out.raw[:written.value] if code == 0 else b"code %d" % code


# ---- what is drawn: each maker gives a text
def parts(text):
    return text.split(b"\n")[:-1]


def joined(lines):
    return b"".join(line + b"\n" for line in lines)


def place(draw, text):
    return draw.randrange(len(text))


def other_line(draw, text, change):
    lines = parts(text)
    k = draw.randrange(len(lines))
    return joined(change(lines, k))


def byte_changed(draw, text):
    at = place(draw, text)
    return text[:at] + bytes([draw.choice(b"0123456789abcdefABCDEF \n\r\t\x00g/:`@G\x80\xff")]) + text[at + 1:]


def digit_changed(draw, text):
    at = draw.choice([k for k, c in enumerate(text) if c != 10])
    return text[:at] + bytes([draw.choice(frames.DIGITS)]) + text[at + 1:]


def byte_dropped(draw, text):
    at = place(draw, text)
    return text[:at] + text[at + 1:]


def byte_inserted(draw, text):
    at = draw.randrange(len(text) + 1)
    return text[:at] + bytes([draw.choice(b"0123456789abcdef\n\rA \x00")]) + text[at:]


def line_doubled(draw, text):
    return other_line(draw, text, lambda lines, k: lines[:k + 1] + lines[k:])


def line_dropped(draw, text):
    return other_line(draw, text, lambda lines, k: lines[:k] + lines[k + 1:])


def lines_exchanged(draw, text):
    lines = parts(text)
    a, b = draw.sample(range(len(lines)), 2)
    lines[a], lines[b] = lines[b], lines[a]
    return joined(lines)


def case_changed(draw, text):
    letters = [k for k, c in enumerate(text) if 97 <= c]
    if not letters or not draw.randrange(3):
        return text.upper()
    at = draw.choice(letters)
    return text[:at] + text[at:at + 1].upper() + text[at + 1:]


def carriage_returns(draw, text):
    if draw.randrange(2):
        return text.replace(b"\n", b"\r\n")
    return other_line(draw, text, lambda lines, k: lines[:k] + [lines[k] + b"\r"] + lines[k + 1:])


def not_ended(draw, text):
    return text[:-1]


def cut_off(draw, text):
    return text[:place(draw, text)]


def half_a_byte(draw, text):
    return other_line(draw, text, lambda lines, k: lines[:k] + [lines[k][:-1] if draw.randrange(2) else lines[k] + b"0"] + lines[k + 1:])


def byte_pair(draw, text):
    """A whole byte too many or too few: only a group's line may still be a line."""
    more = draw.choice([b"00", b"01", b"ff", b"0201", b"00" * 9])
    return other_line(draw, text, lambda lines, k: lines[:k] + [lines[k][:-2] if draw.randrange(2) else lines[k] + more] + lines[k + 1:])


def something_behind(draw, text):
    return text + draw.choice([b"\n", b"0", b"15\n", b" ", b"\x00", parts(text)[-1] + b"\n", b"2f11\n"])


def overlong(draw, text):
    want = draw.choice([ROOM - 1, ROOM, ROOM + 1, draw.randint(12401, 70000), draw.randint(12401, 200000)])
    fill = want - len(text)
    kind = draw.randrange(6)
    if fill <= 0:
        return text
    if kind == 0:
        return text + b"0" * fill
    if kind == 1:
        return text + (text * (fill // len(text) + 1))[:fill]
    if kind == 2:
        return other_line(draw, text, lambda lines, k: lines[:k] + [lines[k] + b"0" * fill] + lines[k + 1:])
    # a group's line of whole bytes, which has a length however long it is; one of them may be wrong
    head = parts(text)[:3]
    line = bytearray(b"13" + b"0" * (want - len(joined(head))))
    if kind == 3:
        line[draw.randrange(len(line))] = draw.choice(b"0aAg\n")
    return joined(head + [bytes(line)])


def empty(draw, text):
    return b""


def noise(draw, text):
    return bytes(draw.choice(b"0123456789abcdef\n") for _ in range(draw.randint(1, 60)))


DAMAGES = [byte_changed, digit_changed, byte_dropped, byte_inserted, line_doubled, line_dropped, lines_exchanged, case_changed, carriage_returns,
           not_ended, cut_off, half_a_byte, byte_pair, something_behind, overlong, empty, noise]


def drawn(draw):
    """A text, and how it was drawn: a third whole, a fifth with a wrong value, the rest damaged."""
    p = frames.panel(draw)
    if draw.randrange(4) == 0:
        p[0], p[1] = draw.randint(1, 256), draw.randint(1, 4)
        p = sized(draw, *p[:3])
    kind = draw.randrange(15)
    if kind < 5:
        return "whole", frames.spell(*p)
    wrong = kind < 8 or draw.randrange(4) == 0
    if wrong:
        frames.wrong_value(draw, p)
    text = frames.spell(*p)
    if kind < 8:
        return "wrong value", text
    damage = DAMAGES[draw.randrange(len(DAMAGES))]
    return damage.__name__.replace("_", " "), damage(draw, text)


def sized(draw, n, d, s):
    """A panel of any size, all of them alike, where frames.panel prefers small ones."""
    size = draw.randint(2, s)
    spins = [draw.choice([1, 255]) for _ in range(s * n)]
    perms = [x for _ in range(n) for x in draw.sample(range(size), size)]
    return [n, d, s, spins, frames.lattice(draw, n, d), draw.sample(range(s), size), perms]


# ---- the comparison
def kind_of(text, said):
    if said.startswith(b"2f"):
        return said.decode().strip()
    n, _, _, spins, _, group, _ = frames.read(text)
    return "moved" if any(len({spins[t * n + i] for t in group}) > 1 for i in range(n)) else "idle"


def answered(program, count, seed):
    """Each drawn case with the program's answer, a thousand texts at a time."""
    draw = random.Random(seed)
    with ThreadPoolExecutor(os.cpu_count()) as pool:
        for start in range(0, count, 1000):
            cases = [drawn(draw) for _ in range(min(1000, count - start))]
            yield from zip(cases, pool.map(lambda case: program.answer(case[1]), cases))


def compare(program, count, seed):
    kinds, ways, bad = Counter(), {}, []
    for (way, text), got in answered(program, count, seed):
        want = frames.answer(text)
        kind = kind_of(text, want)
        kinds[kind] += 1
        ways.setdefault(way, Counter())[kind] += 1
        if got != want:
            bad.append((len(text), text, want, got))
    return kinds, ways, bad


def shown(counter):
    return ", ".join("%s: %d" % pair for pair in sorted(counter.items()))


def main():
    read = argparse.ArgumentParser(description=__doc__, formatter_class=argparse.RawDescriptionHelpFormatter)
    read.add_argument("count", nargs="?", type=int, default=300)
    read.add_argument("seed", nargs="?", type=int, default=1)
    read.add_argument("--program")
    read.add_argument("--library")
    given = read.parse_args()
    program = Library(given.library) if given.library else Program(given.program)
    kinds, ways, bad = compare(program, given.count, given.seed)
    for way in sorted(ways):
        print("%-18s %5d  %s" % (way, sum(ways[way].values()), shown(ways[way])))
    print("%-18s %5d  %s" % ("all", given.count, shown(kinds)))
    print("%d agree, %d differ" % (given.count - len(bad), len(bad)))
    if bad:
        length, text, want, got = min(bad)
        print("shortest, %d bytes: %r\n  document 01: %r\n  the program: %r" % (length, text[:400], want[:200], got[:200]))
        sys.exit(1)


if __name__ == "__main__":
    main()
