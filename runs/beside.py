#!/usr/bin/env python3
"""The benchmark of the code before a change beside that of the code after it, on the same cases.

    beside.py BEFORE AFTER [ROUNDS [REPETITIONS]]

BEFORE and AFTER are built programs `bench`, each linked with its own library. They run in turn, ROUNDS times (2), and of each case the shortest
median is taken. Written are the labelling's cases and those of moves and sweeps in the forms that label: before, after and their ratio; of a move
the time of the whole call, and behind it the ratio without the tests. Each table ends in the least and the largest ratio and the geometric mean.
"""
import math
import re
import subprocess
import sys

# a case as bench writes it to its standard error: its name, the port's time and, of a move, the part of it that is tests
CASE = re.compile(r"^(?P<name>.*\S) +port +(?P<all>[\d.]+)(?: = tests +(?P<tests>[\d.]+) \+ move)?")
LABELLED = re.compile(r" (SW|Wolff|observe) D=\d N=\d$")
TABLES = ["Single moves, S = N", "Single moves, S = 64", "Sweeps"]


def cases(program, repetitions):
    """The time and the tests of each case, by its table and name; moves of one name stand in three tables, in their order."""
    said = subprocess.run([program] + repetitions, check=True, stdout=subprocess.DEVNULL, stderr=subprocess.PIPE, text=True).stderr
    seen, found = {}, {}
    for line in said.splitlines():
        case = CASE.match(line)
        if case is None:
            continue
        name = case["name"]
        if LABELLED.search(name):
            table = TABLES[seen.setdefault(name, 0)]
            seen[name] += 1
        elif "| Rust" in line and case["tests"] is None:
            table = "Labelling"
        else:
            continue
        found[table, name] = float(case["all"]), float(case["tests"] or 0)
    return found


def shortest(one, other):
    return {case: min(times, other.get(case, times)) for case, times in one.items()}


def row(name, before, after):
    ratio = after[0] / before[0]
    moving = (after[0] - after[1]) / (before[0] - before[1])
    apart = "; %.2f" % moving if before[1] else ""
    print("%-32s %10.2f %10.2f  %.2f%s" % (name, before[0], after[0], ratio, apart))
    return ratio


def main():
    if len(sys.argv) not in (3, 4, 5):
        sys.exit(__doc__)
    programs, rounds, repetitions = sys.argv[1:3], int((sys.argv[3:4] or [2])[0]), sys.argv[4:5]
    before, after = {}, {}
    for _ in range(rounds):
        before = shortest(cases(programs[0], repetitions), before)
        after = shortest(cases(programs[1], repetitions), after)
    if before.keys() != after.keys():
        sys.exit("the two programs have other cases")
    for table in ["Labelling"] + TABLES:
        print(table)
        ratios = [row(case[1], before[case], after[case]) for case in before if case[0] == table]
        mean = math.exp(sum(map(math.log, ratios)) / len(ratios))
        print("%d cases: %.2f to %.2f, %.2f as a geometric mean\n" % (len(ratios), min(ratios), max(ratios), mean))


if __name__ == "__main__":
    main()
