"""What the tests share: buffers of the kind that is being tried, calls that are accepted, and what a refusal leaves."""
from __future__ import annotations

import copy
import os
import pathlib
import random
import sys
import unittest
from array import array

HERE = pathlib.Path(__file__).resolve().parent
TOP = HERE.parents[2]
if os.environ.get("TSORVENK_TEST_INSTALLED") != "1":
    sys.path.insert(0, str(HERE.parent))

import tsorvenk  # noqa: E402
from tsorvenk import Coding, Form, Keeps, Mode, Refused  # noqa: E402
from tsorvenk import _library  # noqa: E402
from tsorvenk._lengths import exact  # noqa: E402
from tsorvenk._tables import FUNCTIONS  # noqa: E402

# once with the arrays of the standard library, and once more with NumPy's
NUMPY = os.environ.get("TSORVENK_TEST_BUFFERS") == "numpy"
if NUMPY:
    import numpy

_LETTERS = {"i8": "b", "u8": "B", "i32": "i", "u32": "I", "i64": "q", "u64": "Q", "usize": "Q", "f32": "f"}
_NAMES = {
    "i8": "int8", "u8": "uint8", "i32": "int32", "u32": "uint32", "i64": "int64", "u64": "uint64", "usize": "uintp",
    "f32": "float32",
}  # fmt: skip

N, D = 16, 2
STEPS = ("test_sweep", "task_label", "task_choose", "task_write")
ALL = [(mode, form) for mode in Mode for form in Form]


def lent(kind, values):
    """A buffer of items of this kind."""
    if NUMPY:
        return numpy.array(list(values), dtype=_NAMES[kind])
    return array(_LETTERS[kind], values)


def kind_of(function, name):
    return next(parameter.kind for parameter in FUNCTIONS[function].parameters if parameter.name == name)


def content(buffer):
    return memoryview(buffer).tobytes()


def contents(call):
    """The bytes of every buffer of a call."""
    return {name: content(value) for name, value in call.items() if is_buffer(value)}


def is_buffer(value):
    return value is not None and not isinstance(value, (int, float, str))


def resized(function, name, value, length):
    """As many items, those that there are or 0."""
    values = (list(value) + [0] * length)[:length]
    return lent(kind_of(function, name), values)


def has_steps():
    """Whether the shared object knows the three steps. If it has one of the four functions it must have all."""
    return any(_library.has(name) for name in STEPS)


def a_row(rng, members, one):
    row = list(range(members))
    while True:
        rng.shuffle(row)
        if not one or row != sorted(row):
            return row


class Maker:
    """Calls that are accepted: on a torus of 4 by 4 sites, of which site 0 acts in every mode and site 1 in none."""

    def __init__(self, seed=1):
        self.rng = random.Random(seed)
        self.panel = tsorvenk.torus(4, 4)

    def rows(self, systems, members):
        """Rows of spins; the groups are runs of so many systems, and what is left of each run of one more."""
        spins = []
        for k in range(systems):
            row = [self.rng.choice((1, -1)) for _ in range(N)]
            row[0], row[1] = (1, -1)[k % (members + 1) % 2], 1
            spins += row
        return spins

    def values(self, function, name, length, call):
        """What stands in a buffer that a call takes."""
        rng, form = self.rng, call.get("form")
        one = form in (Form.Wolff, Form.Grow)
        members = call.get("members") or len(call["group"])
        if name in ("fwd", "bwd"):
            return getattr(self.panel, name)
        if name == "couplings":
            return [rng.randint(-3, 3) for _ in range(length)]
        if name == "cuts":
            return [rng.choice((0.0, 0.25, 1.5, 3.0)) for _ in range(length)]
        if name == "temperatures":
            return [1.0 + j for j in range(length)]
        if name == "order":
            return range(length)
        if name == "references":
            return [1] * length
        if name == "flips":
            return [rng.randint(0, 1) for _ in range(length)]
        if name == "greys":
            return [rng.randint(1 if one else 0, 3) for _ in range(length)]
        if name == "perms" and call.get("coding") == Coding.Numbers:
            return [rng.randint(1 if one else 0, 119) for _ in range(length)]
        if name == "perms":
            return sum((a_row(rng, members, one) for _ in range(length // members)), [])
        if name == "columns":
            # bit k is set where member k is +1
            spins = self.rows(members, members)
            return [sum((spins[k * N + i] == 1) << k for k in range(members)) for i in range(N)]
        return [0] * length

    def make(self, function, mode, form, coding=Coding.Rows, keeps=Keeps.Nothing, members=2, t=2):
        """The arguments of a step, packed step, sweep, its test or a task's first step: what it takes and no more."""
        call = {"mode": mode, "form": form, "n": N, "d": D}
        names = {parameter.name for parameter in FUNCTIONS[function].parameters}
        call.update({name: value for name, value in (("coding", coding), ("keeps", keeps)) if name in names})
        if "group" in names:
            call.update(s=members + 1, group=lent("u32", range(members)), spins=lent("i8", self.rows(members + 1, members)))
        else:
            call["members"] = members
        if "t" in names:
            s = t * (members + 1)
            call.update(t=t, r=members + 1, s=s, spins=lent("i8", self.rows(s, members)))
        elif "rows" in names:
            call["rows"] = lent("i8", self.rows(members, members))
        if "temperature" in names:
            call.update(temperature=1.5, reference=1, seed=0)
        for name, length in exact(function, call).items():
            if name not in call and name not in ("owners", "pins", "outcomes"):
                call[name] = lent(kind_of(function, name), self.values(function, name, length, call))
        return call


def copied(call):
    """The same call on buffers of its own."""
    return {name: copy.copy(value) for name, value in call.items()}


class Case(unittest.TestCase):
    maxDiff = None

    def refused(self, function, call, number, argument):
        """The call is refused with this number, names this argument, and leaves every buffer as it was."""
        before = contents(call)
        with self.assertRaises(Refused) as caught:
            getattr(tsorvenk, function)(**call)
        self.assertEqual((caught.exception.number, caught.exception.argument), (number, argument))
        self.assertEqual(caught.exception.words, tsorvenk.refusal_words(number))
        self.assertEqual(contents(call), before)

    def items(self, buffer):
        return list(buffer.tolist() if hasattr(buffer, "tolist") else buffer)
