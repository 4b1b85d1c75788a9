#!/usr/bin/env python3
"""What a step from Python costs over the same step from C: docs/BENCHMARKS.md, "Python".

    python3 bench.py [rounds]

A pair step of one cluster, a Joerg step of all clusters, and a CMR step of all clusters that keeps totals and is lent pins
and owners, which is all that a step can be lent; of two systems on a torus of 4 by 4 sites, since the smallest panels show
a call's own cost best. C is a loop over tsorvenk_step_with, compiled here by cc against the archive that ./build-library
left. Both are measured in turn, in rounds of 10 calls, since a longer one seldom ends before a busy machine takes the
processor away. Told are the quickest round and the median; the limit is on the difference of the medians.
"""
import pathlib
import statistics
import subprocess
import sys
import tempfile
import time
from array import array

HERE = pathlib.Path(__file__).resolve().parent
sys.path.insert(0, str(HERE))

import tsorvenk  # noqa: E402
from tsorvenk import Form, Keeps, Mode, _library  # noqa: E402

try:
    import numpy
except ImportError:
    numpy = None

CALLS, TURNS, LIMIT = 10, 20, 30.0
N, D = 16, 2

PROGRAM = r"""
#include "tsorvenk.h"
#include <stdio.h>
#include <stdlib.h>
#include <time.h>

enum { N = 16, D = 2, CALLS = 10 };

int main(int argc, char **argv) {
    static uint32_t fwd[N * D], bwd[N * D], labels[N], grey_labels[N], counts[N + 1], sizes[4], found[1], grey_found[1];
    static uint8_t pins[N], owners[2], greys[N];
    static int64_t totals[2];
    static int32_t couplings[N * D];
    static float cuts[N * D];
    static uint8_t flips[N];
    static int8_t spins[2 * N];
    static const uint32_t group[2] = {0, 1};
    struct timespec from, to;
    unsigned sum = 0;
    int rounds = argc > 1 ? atoi(argv[1]) : 1;
    for (uint32_t i = 0; i < N; i++) {
        uint32_t x = i % 4, y = i / 4;
        fwd[i * D] = y * 4 + (x + 1) % 4, fwd[i * D + 1] = (y + 1) % 4 * 4 + x;
        bwd[i * D] = y * 4 + (x + 3) % 4, bwd[i * D + 1] = (y + 3) % 4 * 4 + x;
        spins[i] = 1, spins[N + i] = -1, flips[i] = 1;
    }
    for (int k = 0; k < N * D; k++)
        couplings[k] = 1, cuts[k] = 1;
    for (int round = 0; round < 3 * rounds; round++) {
        int jorg = round % 3 > 0, cmr = round % 3 == 2;
        struct tsorvenk_step_args args = {
            .n = N, .d = D, .s = 2,
            .mode = cmr ? TSORVENK_CMR : jorg ? TSORVENK_JORG : TSORVENK_PAIR, .keeps = cmr, .form = jorg ? TSORVENK_SW : TSORVENK_WOLFF,
            .spins = spins, .spins_len = 2 * N, .fwd = fwd, .fwd_len = N * D, .bwd = bwd, .bwd_len = N * D,
            .couplings = jorg ? couplings : 0, .couplings_len = N * D, .group = group, .group_len = 2, .temperature = 1,
            .cuts = jorg ? cuts : 0, .cuts_len = N * D, .flips = jorg ? flips : 0, .flips_len = N,
            .labels = labels, .labels_len = N, .counts = counts, .counts_len = N + 1,
            .sizes = sizes, .sizes_len = 4, .found = found, .found_len = 1,
            .totals = cmr ? totals : 0, .totals_len = 2, .pins = cmr ? pins : 0, .pins_len = N,
            .owners = cmr ? owners : 0, .owners_len = 2,
            .greys = cmr ? greys : 0, .greys_len = N, .grey_labels = cmr ? grey_labels : 0, .grey_labels_len = N,
            .grey_found = cmr ? grey_found : 0, .grey_found_len = 1,
        };
        clock_gettime(CLOCK_MONOTONIC, &from);
        for (int k = 0; k < CALLS; k++)
            sum += tsorvenk_step_with(&args);
        clock_gettime(CLOCK_MONOTONIC, &to);
        printf("%.4f\n", ((to.tv_sec - from.tv_sec) * 1e9 + (to.tv_nsec - from.tv_nsec)) / CALLS / 1000);
    }
    return sum != 0;
}
"""


def arguments(mode, form, made):
    """A step's arguments; each of its buffers is made by a function of its name and content."""
    panel = tsorvenk.torus(4, 4)
    buffers = {
        "spins": array("b", [1] * N + [-1] * N), "fwd": panel.fwd, "bwd": panel.bwd, "group": array("I", [0, 1]),
        "labels": array("I", bytes(4 * N)), "counts": array("I", bytes(4 * N + 4)), "sizes": array("I", bytes(16)),
        "found": array("I", bytes(4)),
    }  # fmt: skip
    if mode != Mode.Pair:
        buffers.update(couplings=panel.couplings(1), cuts=array("f", [1.0] * (N * D)), flips=array("B", [1] * N))
    if mode == Mode.Cmr:
        buffers.update(totals=array("q", [0, 0]), pins=array("B", bytes(N)), owners=array("B", bytes(2)))
        buffers.update(greys=array("B", bytes(N)), grey_labels=array("I", bytes(4 * N)), grey_found=array("I", bytes(4)))
    call = {name: made(name, buffer) for name, buffer in buffers.items()}
    call["keeps"] = Keeps.Totals if mode == Mode.Cmr else Keeps.Nothing
    return dict(call, mode=mode, form=form, n=N, d=D, s=2, temperature=1.0, seed=0)


def read_only(name, buffer):
    """What a step only reads as bytes, or as a view of bytes."""
    if name not in ("fwd", "bwd", "group", "couplings", "cuts", "flips", "pins", "owners", "greys"):
        return buffer
    return bytes(buffer) if buffer.typecode == "B" else memoryview(buffer.tobytes()).cast(buffer.typecode)


def timed(call):
    """Microseconds of a step."""
    step = tsorvenk.step
    began = time.perf_counter()
    for _ in range(CALLS):
        step(**call)
    return (time.perf_counter() - began) / CALLS * 1e6


def compiled(place):
    """The C program."""
    shared = next(path for path in _library.places() if path.is_file())
    archive = shared.with_suffix(".a")
    source, program = pathlib.Path(place, "bench.c"), pathlib.Path(place, "bench")
    source.write_text(PROGRAM)
    command = ["cc", "-std=gnu99", "-O2", "-I", HERE.parents[1] / "include", source, archive, "-o", program]
    try:
        subprocess.run(list(map(str, command)), check=True)
    except (OSError, subprocess.CalledProcessError):
        sys.exit("bench: it needs cc, and the archive beside the shared object")
    return program


def measured(steps, kinds, rounds):
    """Of each step and kind of buffer, and of C, the microseconds of every round."""
    calls = {(words, kind): arguments(*step, made) for words, step in steps.items() for kind, made in kinds.items()}
    found = {key: [] for key in [*calls, *((words, "C") for words in steps)]}
    with tempfile.TemporaryDirectory() as place:
        program = compiled(place)
        for _ in range(TURNS):
            told = subprocess.run([str(program), str(rounds)], check=True, capture_output=True, text=True).stdout.split()
            for at, words in enumerate(steps):
                found[words, "C"] += map(float, told[at :: len(steps)])
            for _ in range(rounds):
                for key, call in calls.items():
                    found[key].append(timed(call))
    return found


def main():
    rounds = int(sys.argv[1]) if len(sys.argv) > 1 else 100
    steps = {
        "pair, one cluster": (Mode.Pair, Form.Wolff), "Joerg, all clusters": (Mode.Jorg, Form.Sw),
        "CMR, all clusters, totals, pins, owners": (Mode.Cmr, Form.Sw),
    }  # fmt: skip
    kinds = {"array.array": lambda name, buffer: buffer, "read-only where it is read": read_only}
    if numpy:
        kinds["NumPy"] = lambda name, buffer: numpy.array(buffer)
    found = measured(steps, kinds, rounds)
    version = f"Python {sys.version.split()[0]}" + (f", NumPy {numpy.__version__}" if numpy else "")
    print(f"{version}: microseconds of a step, quickest / median of {TURNS * rounds} rounds of {CALLS} calls\n")
    print(f"| Step of {N} sites | From | Quickest | Median | Over C, quickest | Over C, median |\n|---|---|---|---|---|---|")
    worst = 0.0
    for (words, kind), times in sorted(found.items(), key=lambda one: (one[0][0], one[0][1] != "C")):
        quickest, median = min(times), statistics.median(times)
        line = f"| {words} | {kind} | {quickest:.2f} | {median:.2f} |"
        if kind == "C":
            print(line + "  |  |")
            continue
        over = median - statistics.median(found[words, "C"])
        worst = max(worst, over)
        print(f"{line} {quickest - min(found[words, 'C']):.1f} | **{over:.1f}** |")
    print(f"\nat most {worst:.1f} over C, of {LIMIT:.0f} that are allowed")
    sys.exit(worst > LIMIT)


if __name__ == "__main__":
    main()
