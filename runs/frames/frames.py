#!/usr/bin/env python3
"""The frame program as document 01 has it, with the counts of request 4/14 and the numbers of 7/14, in plain Python, and texts to compare it with the
proved program on.

    frames.py answer < TEXT            what the program must write
    frames.py stored > CASES           every kind of answer once or more, named in this file
    frames.py random COUNT SEED > CASES    texts that are drawn, about half of them damaged

CASES is what the program frame_cases reads: for each case the lengths of the text and of its answer, five decimal digits each, on a line
of their own, then the text and the answer.
"""
import random
import sys

DIGITS = b"0123456789abcdef"


# ---- document 01, "The frame program"
class Refused(Exception):
    pass


def frame(text, tag):
    """The bytes behind the tag of the line that the text begins with, and the text behind that line."""
    end = text.find(b"\n")
    if end < 0:
        raise Refused(11)
    line = text[:end]
    if len(line) % 2 or any(c not in DIGITS for c in line):
        raise Refused(11)
    found = bytes.fromhex(line.decode())
    if not found or found[0] != tag:
        raise Refused(11)
    return found[1:], text[end + 1:]


def exact(text, tag, count):
    found, rest = frame(text, tag)
    if len(found) != count:
        raise Refused(11)
    return found, rest


def words(found):
    return [256 * found[2 * k] + found[2 * k + 1] for k in range(len(found) // 2)]


def read(text):
    found, rest = exact(text, 0x10, 4)
    n, d, s = 256 * found[0] + found[1], found[2], found[3]
    if not (1 <= n <= 256 and 1 <= d <= 4 and 1 <= s <= 8):
        raise Refused(1)
    spins, rest = exact(rest, 0x11, s * n)
    ahead, rest = exact(rest, 0x12, 2 * n * d)
    group, rest = frame(rest, 0x13)
    if not 2 <= len(group) <= 8:
        raise Refused(1)
    perms, rest = exact(rest, 0x14, n * len(group))
    if rest:
        raise Refused(11)
    return n, d, s, spins, words(ahead), group, perms


def check(n, d, s, spins, ahead, group, perms):
    if any(x not in (1, 255) for x in spins):
        raise Refused(3)
    for e in range(d):
        if sorted(ahead[i * d + e] for i in range(n)) != list(range(n)):
            raise Refused(4)
    if any(x >= s for x in group) or len(set(group)) != len(group):
        raise Refused(5)
    size = len(group)
    for i in range(n):
        if sorted(perms[i * size:(i + 1) * size]) != list(range(size)):
            raise Refused(9)


def components(n, d, ahead, acts):
    """The components, each with its sites in rising order, by number: in the order of their smallest sites. A bond joins two sites that act,
    in either sense."""
    near = [[] for _ in range(n)]
    for i in range(n):
        for e in range(d):
            j = ahead[i * d + e]
            if acts[i] and acts[j]:
                near[i].append(j)
                near[j].append(i)
    seen, found = set(), []
    for i in range(n):
        if i not in seen:
            sites, todo = {i}, [i]
            while todo:
                for j in near[todo.pop()]:
                    if j not in sites:
                        sites.add(j)
                        todo.append(j)
            seen |= sites
            found.append(sorted(sites))
    return found


def move(n, d, s, spins, ahead, group, perms):
    old = [[1 if spins[t * n + i] == 1 else -1 for i in range(n)] for t in range(s)]
    acts = [len({old[t][i] for t in group}) > 1 for i in range(n)]
    label, counts = [None] * n, [0] * (n + 1)
    new = [row[:] for row in old]
    for number, sites in enumerate(components(n, d, ahead, acts)):
        p = perms[number * len(group):(number + 1) * len(group)]
        if acts[sites[0]]:
            counts[len(sites)] += 1
        for i in sites:
            label[i] = number
            for k, t in enumerate(group):
                if acts[i]:
                    new[t][i] = old[group[p[k]]][i]
    return label, counts, new


def line(tag, found):
    return bytes([tag]).hex().encode() + bytes(found).hex().encode() + b"\n"


def two(numbers):
    return [x for k in numbers for x in (k // 256, k % 256)]


def answer(text):
    try:
        panel = read(text)
        check(*panel)
    except Refused as r:
        return b"2f%02d\n" % r.args[0]
    label, counts, new = move(*panel)
    return line(0x20, two(label)) + line(0x21, two(counts)) + line(0x22, [x % 256 for row in new for x in row])


# ---- texts
def spell(n, d, s, spins, ahead, group, perms):
    return line(0x10, two([n]) + [d, s]) + line(0x11, spins) + line(0x12, two(ahead)) + line(0x13, group) + line(0x14, perms)


def lattice(draw, n, d):
    """Draws a table of neighbours that has a backward one: a ring, a shuffle or every site its own neighbour in each direction."""
    ahead = [0] * (n * d)
    for e in range(d):
        kind = draw.randrange(4)
        order = list(range(n))
        if kind == 0:
            draw.shuffle(order)
        elif kind == 1:
            step = draw.randrange(n)
            order = [(i + step) % n for i in range(n)]
        elif kind == 2:
            order = [(i + 1) % n for i in range(n)]
        for i in range(n):
            ahead[i * d + e] = order[i]
    return ahead


def panel(draw):
    n = draw.choice([1, 2, 3, draw.randint(1, 16), draw.randint(1, 64), draw.randint(1, 256)])
    d, s = draw.randint(1, 4), draw.randint(2, 8)
    size = draw.randint(2, s)
    same = draw.choice([0, 0, 30, 70, 90, 100])
    up = [1 if draw.randrange(2) else 255 for _ in range(n)]
    spins = [up[i] if draw.randrange(100) < same else draw.choice([1, 255]) for t in range(s) for i in range(n)]
    perms = [x for _ in range(n) for x in draw.sample(range(size), size)]
    return [n, d, s, spins, lattice(draw, n, d), draw.sample(range(s), size), perms]


def wrong_value(draw, p):
    n, d, s, spins, ahead, group, perms = p
    kind = draw.randrange(9)
    if kind == 0:
        spins[draw.randrange(len(spins))] = draw.choice([0, 2, 127, 128, 254])
    elif kind == 1:
        ahead[draw.randrange(len(ahead))] = draw.choice([n, n + 1, 255, 256, 65535])
    elif kind == 2:
        ahead[draw.randrange(len(ahead))] = draw.randrange(n)
    elif kind == 3:
        group[draw.randrange(len(group))] = draw.choice([s, s + 1, 8, 255])
    elif kind == 4:
        group[0] = group[-1]
    elif kind == 5:
        perms[draw.randrange(len(perms))] = draw.choice([len(group), 255, draw.randrange(len(group))])
    elif kind == 6:
        p[draw.randrange(3)] = draw.choice([0, 1, 4, 5, 8, 9, 255])
    elif kind == 7:
        p[0] = draw.choice([0, 256, 257, 4096, 65535])
    else:
        p[5] = [draw.randrange(s + 1) for _ in range(draw.choice([0, 1, 2, 3, 8, 9, 10, 40]))]


def damage(draw, text):
    kind = draw.randrange(12)
    at = draw.randrange(len(text)) if text else 0
    lines = text.splitlines(True)
    k = draw.randrange(len(lines)) if lines else 0
    if kind == 0:
        return text[:at] + bytes([draw.choice(b"0123456789abcdefABCDEF \n\r\x00g/:`\xff")]) + text[at + 1:]
    if kind == 1:
        return text[:at] + text[at + 1:]
    if kind == 2:
        return text[:at] + bytes([draw.choice(b"0123456789abcdef\nA ")]) + text[at:]
    if kind == 3:
        return text[:at]
    if kind == 4:
        return text[:-1]
    if kind == 5:
        return text + draw.choice([b"\n", b"0", b"15\n", lines[-1] if lines else b"", b" "])
    if kind == 6:
        return text.replace(b"\n", b"\r\n")
    if kind == 7:
        return text.upper()
    if kind == 8:
        return b"".join(lines[:k] + lines[k + 1:])
    if kind == 9:
        draw.shuffle(lines)
        return b"".join(lines)
    if kind == 10:
        return b"".join(lines[:k] + [lines[k][:-1] + draw.choice([b"0", b"00", b"f", b"0101"]) + b"\n"] + lines[k + 1:]) if lines else b""
    return b"".join(lines[:k] + [lines[k]] + lines[k:]) if lines else b""


def drawn(draw):
    p = panel(draw)
    if draw.randrange(100) < 35:
        wrong_value(draw, p)
    text = spell(p[0] % 65536, *p[1:])
    if draw.randrange(100) < 30:
        text = damage(draw, text)
    return text


# ---- the stored cases
def torus(side, d):
    """A square torus of side * side sites; beyond two directions, the diagonals."""
    steps = [(0, 1), (1, 0), (1, 1), (1, side - 1)][:d]
    return [(i // side + a) % side * side + (i + b) % side for i in range(side * side) for a, b in steps]


def tenth(n, s):
    return [1 if (7 * t + 3 * i + t * i) % 10 < 6 else 255 for t in range(s) for i in range(n)]


def rotations(n, size):
    return [(k + i) % size for i in range(n) for k in range(size)]


CASE = b"1000030102\n110101ff01ffff\n12000100020000\n130001\n14010001000100\n"


def line_of(number, new, text=CASE):
    lines = text.splitlines(True)
    lines[number - 1] = new
    return b"".join(lines)


def one_less(text, number, cut):
    lines = text.splitlines(True)
    return line_of(number, lines[number - 1][:-1 - cut] + b"\n", text)


def stored():
    yield "document 01's case", CASE, b"20000000010002\n210000000100000000\n2201ffff0101ff\n"
    # the traps that were worked by hand
    zero = line_of(2, b"110001ff01ffff\n")
    twice = line_of(3, b"12000100010000\n")
    yield "a spin of 0 and a neighbour twice", line_of(3, b"12000100010000\n", zero), b"2f03\n"
    yield "a neighbour twice", twice, b"2f04\n"
    yield "a neighbour twice and a system twice", line_of(4, b"130000\n", twice), b"2f04\n"
    yield "a system twice", line_of(4, b"130000\n"), b"2f05\n"
    yield "257 sites and nothing more", b"1001010102\n", b"2f01\n"
    yield "257 sites and anything", b"1001010102\nxyz", b"2f01\n"
    yield "upper case in the spins", line_of(2, b"110101FF01FFFF\n"), b"2f11\n"
    head = b"".join(CASE.splitlines(True)[:3])
    yield "a group of nine and no fifth line", head + b"13000102030405060708\n", b"2f01\n"
    yield "a group of nine with one wrong digit", head + b"1300010203040506070g\n", b"2f11\n"
    yield "an entry of a site that does not act is no permutation", line_of(5, b"14000001000100\n"), b"2f09\n"
    # spelling
    yield "empty", b"", b"2f11\n"
    yield "a line feed", b"\n", b"2f11\n"
    yield "sizes of 0 and no line feed", b"1000000102", b"2f11\n"
    yield "no last line feed", CASE[:-1], b"2f11\n"
    yield "carriage returns", CASE.replace(b"\n", b"\r\n"), b"2f11\n"
    yield "upper case", CASE.upper(), b"2f11\n"
    yield "a line feed too many", CASE + b"\n", b"2f11\n"
    yield "a line too many", CASE + b"150001\n", b"2f11\n"
    yield "a NUL behind", CASE + b"\0", b"2f11\n"
    yield "a space before", b" " + CASE, b"2f11\n"
    yield "lines exchanged", b"".join(CASE.splitlines(True)[k] for k in (0, 2, 1, 3, 4)), b"2f11\n"
    for k in range(1, 6):
        yield "half a byte in line %d" % k, one_less(CASE, k, 1), b"2f11\n"
        yield "line %d missing" % k, b"".join(CASE.splitlines(True)[:k - 1] + CASE.splitlines(True)[k:]), b"2f11\n"
        yield "a wrong tag in line %d" % k, line_of(k, b"9" + CASE.splitlines(True)[k - 1][1:]), b"2f11\n"
    for k in (1, 2, 3, 5):
        yield "a byte too few in line %d" % k, one_less(CASE, k, 2), b"2f11\n"
        yield "a byte too many in line %d" % k, line_of(k, CASE.splitlines(True)[k - 1][:-1] + b"01\n"), b"2f11\n"
    # sizes
    for sizes in (b"00000102", b"00030002", b"00030502", b"00030100", b"00030109", b"ffff0101", b"01010101"):
        yield "sizes " + sizes.decode(), line_of(1, b"10" + sizes + b"\n"), b"2f01\n"
    yield "a group of none", head + b"13\n", b"2f01\n"
    yield "a group of one", head + b"1300\n", b"2f01\n"
    yield "a group of nine that is not ended", head + b"13000102030405060708", b"2f11\n"
    yield "a group of nine and a half", head + b"130001020304050607080\n", b"2f11\n"
    yield "a group of 5,000", head + b"13" + b"00" * 5000 + b"\n", b"2f01\n"
    yield "a group of 5,000 and a half", head + b"13" + b"00" * 5000 + b"0\n", b"2f11\n"
    # values
    yield "a neighbour of n", line_of(3, b"12000100020003\n"), b"2f04\n"
    yield "a system of S", line_of(4, b"130002\n"), b"2f05\n"
    yield "one system", spell(3, 1, 1, [1, 1, 1], [1, 2, 0], [0, 1], [0, 1] * 3), b"2f05\n"
    yield "a permutation's byte too large", line_of(5, b"14010001000200\n"), b"2f09\n"
    yield "a spin of 127 in a system outside the group", spell(1, 1, 3, [1, 255, 127], [0], [0, 1], [1, 0]), b"2f03\n"
    # moves
    yield "idle", spell(3, 1, 2, [1, 1, 255, 1, 1, 255], [1, 2, 0], [0, 1], [1, 0] * 3), None
    yield "one site", spell(1, 1, 2, [1, 255], [0], [0, 1], [1, 0]), None
    yield "one site in four directions, eight systems", spell(1, 4, 8, [1, 255] * 4, [0] * 4, range(8), [7, 6, 5, 4, 3, 2, 1, 0]), None
    yield "only a bond back", spell(3, 1, 2, [1, 1, 1, 255, 1, 255], [1, 2, 0], [0, 1], [1, 0, 0, 1, 0, 1]), None
    yield "single sites move", spell(2, 1, 2, [1, 1, 255, 255], [0, 1], [0, 1], [1, 0, 0, 1]), None
    yield "the choice stands at the number", spell(3, 1, 2, [1, 1, 1, 1, 255, 255], [1, 2, 0], [0, 1], [0, 1, 1, 0, 0, 1]), None
    behind = spell(3, 1, 2, [1, 1, 1, 255, 255, 255], [1, 0, 2], [0, 1], [0, 1, 1, 0, 0, 1])
    yield "behind two sites a number is not its site", behind, b"20000000000001\n210000000100010000\n220101ffffff01\n"
    yield "the way round of a permutation", spell(1, 1, 3, [1, 255, 255], [0], [0, 1, 2], [2, 0, 1]), None
    yield "a group in another order", spell(2, 1, 4, [1, 255, 255, 255, 1, 1, 255, 1], [1, 0], [3, 1, 2], [1, 2, 0, 2, 0, 1]), None
    yield "a torus", spell(16, 2, 3, tenth(16, 3), torus(4, 2), [2, 0, 1], rotations(16, 3)), None
    yield "256 sites, four directions", spell(256, 4, 2, tenth(256, 2), torus(16, 4), [1, 0], rotations(256, 2)), None
    yield "256 sites, eight systems, groups of eight", spell(256, 1, 8, tenth(256, 8), torus(16, 1), range(8), rotations(256, 8)), None
    yield "the largest panel", spell(256, 4, 8, tenth(256, 8), torus(16, 4), [7, 0, 6, 1, 5, 2, 4, 3], rotations(256, 8)), None
    yield "the largest panel, idle", spell(256, 4, 8, [1] * 2048, torus(16, 4), range(8), rotations(256, 8)), None


def put(text):
    said = answer(text)
    sys.stdout.buffer.write(b"%05d %05d\n" % (len(text), len(said)) + text + said)
    return said


def main():
    if sys.argv[1:] == ["answer"]:
        sys.stdout.buffer.write(answer(sys.stdin.buffer.read()))
    elif sys.argv[1:] == ["stored"]:
        for name, text, said in stored():
            if said not in (None, answer(text)):
                sys.exit("%s: %r, and not %r" % (name, answer(text), said))
            put(text)
    elif len(sys.argv) == 4 and sys.argv[1] == "random":
        draw, kinds = random.Random(int(sys.argv[3])), {}
        for _ in range(int(sys.argv[2])):
            said = put(drawn(draw))
            kind = said[:4].decode() if said.startswith(b"2f") else "run"
            kinds[kind] = kinds.get(kind, 0) + 1
        print(" ".join("%s: %d" % k for k in sorted(kinds.items())), file=sys.stderr)
    else:
        sys.exit(__doc__)


if __name__ == "__main__":
    main()
