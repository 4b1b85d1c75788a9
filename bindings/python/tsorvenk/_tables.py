"""The functions of include/tsorvenk.h: of each its arguments in their order, with their types and whether they are written.

This is the one place that says what is handed to the library; a test holds it to the header's prototypes. A line names
arguments and their type: ``u8`` a number, ``&u8`` a buffer that is read, ``&mut u8`` one that is written. In the header a
buffer is two arguments, its pointer and its length.
"""
from __future__ import annotations

import ctypes
import struct
import sys
from typing import Dict, NamedTuple, Tuple

_C_TYPES = {
    "i8": ctypes.c_int8, "u8": ctypes.c_uint8, "i32": ctypes.c_int32, "u32": ctypes.c_uint32,
    "i64": ctypes.c_int64, "u64": ctypes.c_uint64, "usize": ctypes.c_size_t, "f32": ctypes.c_float,
}  # fmt: skip

# the letters of the struct module that may stand for each type; which of them do is a matter of their size
_LETTERS = {"i": "bhilqn", "u": "BHILQN", "f": "fd"}
_NATIVE = "<" if sys.byteorder == "little" else ">"


def _formats(kind: str) -> frozenset[str]:
    """The formats of a buffer whose items have this type, as memoryview spells them, in the machine's byte order."""
    size, found = ctypes.sizeof(_C_TYPES[kind]), set()
    for letter in _LETTERS["u" if kind == "usize" else kind[0]]:
        for prefix in ("", "@", "=", _NATIVE):
            try:
                fits = struct.calcsize(prefix + letter) == size
            except struct.error:  # n and N are native alone
                continue
            if fits:
                found.add(prefix + letter)
    return frozenset(found)


class Parameter(NamedTuple):
    """An argument of a function. A buffer is lent, and may be written; what is not lent is a number."""

    name: str
    kind: str
    lent: bool
    written: bool
    size: int
    formats: frozenset[str]
    largest: int
    """Of a whole number the largest that its type holds, and -1 of a temperature. All of them are unsigned."""


class Function(NamedTuple):
    """A function of the library, by the name behind ``tsorvenk_``. It returns a byte."""

    name: str
    parameters: Tuple[Parameter, ...]


def _parameter(name: str, spelt: str) -> Parameter:
    kind = spelt.split()[-1].lstrip("&")
    size = ctypes.sizeof(_C_TYPES[kind])
    largest = -1 if kind == "f32" else 2 ** (8 * size) - 1
    return Parameter(name, kind, spelt[0] == "&", "mut" in spelt, size, _formats(kind), largest)


def _function(name: str, text: str) -> Function:
    found = []
    for line in filter(None, map(str.strip, text.replace("\n", ";").split(";"))):
        names, spelt = line.split(":")
        found += [_parameter(one, spelt.strip()) for one in names.split()]
    return Function(name, tuple(found))


def c_types(function: Function) -> list[type]:
    """The types of the C arguments, where a buffer is an address and a length."""
    found: list[type] = []
    for parameter in function.parameters:
        found += [ctypes.c_void_p, ctypes.c_size_t] if parameter.lent else [_C_TYPES[parameter.kind]]
    return found


# what most moves take
_BONDS = "fwd bwd: &u32; pins: &u8; couplings: &i32"
_DRAWN = "temperature: f32; cuts: &f32; reference seed: usize"
_CHOICES = "flips perms greys: &u8"
_OUTPUTS = "labels grey_labels counts sizes: &mut u32; member_sites: &mut u8; found grey_found: &mut u32"
_SWEPT = f"""{_BONDS}
    order: &u32; masks: &u8; temperatures cuts: &f32; references seeds: &u32; {_CHOICES}"""
_OWNED = "n d s: usize; team: u8; owners: &u8"

_TEXTS = {
    "step": f"""mode form coding keeps: u8; {_OWNED}
        spins: &mut i8; totals: &mut i64; {_BONDS}; group: &u32; {_DRAWN}; {_CHOICES}; {_OUTPUTS}""",
    "sweep": f"""mode form coding keeps: u8; n d s: usize; team: u8; t r members: usize; owners: &u8
        spins: &mut i8; totals: &mut i64; {_SWEPT}; {_OUTPUTS}; outcomes: &mut u32""",
    "test_sweep": f"""mode form keeps: u8; n d s: usize; team: u8; t r members: usize; owners: &u8
        spins: &i8; totals: &i64; {_SWEPT}; {_OUTPUTS.replace("&mut ", "&")}""",
    "task_label": f"""mode form: u8; n d members: usize; rows: &i8; {_BONDS}; {_DRAWN}; {_CHOICES}; {_OUTPUTS}; blue: &mut u8""",
    "task_choose": f"""mode form: u8; n d members: usize; rows: &i8; pins: &u8; reference seed: usize; {_CHOICES}
        labels grey_labels: &u32; member_sites blue: &u8; area: &mut u8""",
    "task_write": """mode form keeps: u8; n d members: usize; rows: &mut i8; totals: &mut i64
        fwd bwd: &u32; couplings: &i32; member_sites area: &u8""",
    "pack": "n members: usize; rows: &i8; columns: &mut u8",
    "unpack": "n members: usize; columns: &u8; rows: &mut i8",
    "packed_step": f"""mode form coding keeps: u8; n d members: usize; columns: &mut u8; totals: &mut i64
        {_BONDS}; {_DRAWN}; {_CHOICES}; {_OUTPUTS}""",
    "check_vendor": """mode: u8; n d members reference: usize; fwd bwd: &u32; pins: &u8
        before after: &i8; rows: &mut u8; fault: &mut u32""",
    "energy": f"{_OWNED}; spins: &i8; fwd bwd: &u32; couplings: &i32; system: usize; energy: &mut i64",
    "hand_over": f"{_OWNED}; spins: &i8; totals: &i64; fwd bwd: &u32; couplings: &i32",
    "row_of": "number: u8; row: &mut u8",
    "number_of": "row: &u8; number: &mut u8",
    "label": """n d: usize; fwd: &u32; holds counted: &u8
        labels counts sizes found: &mut u32""",
    "frames": "text: &u8; out: &mut u8; written: &mut usize",
    "word": "source word: &mut u64",
    "coin": "source: &mut u64; coin: &mut u8",
    "below": "m: u32; source: &mut u64; number: &mut u32",
    "permutation": "members: usize; source: &mut u64; row: &mut u8",
    "fill_flips": "source: &mut u64; flips: &mut u8",
    "fill_below": "m: u32; source: &mut u64; numbers: &mut u32",
    "fill_bytes_below": "m: u32; source: &mut u64; bytes: &mut u8",
    "fill_permutations": "members: usize; source: &mut u64; rows: &mut u8",
    "wolff_permutation": "members: usize; source: &mut u64; rows: &mut u8",
    "wolff_grey": "source: &mut u64; greys: &mut u8",
    "fill_numbers": "source: &mut u64; perms: &mut u8",
    "wolff_numbers": "source: &mut u64; perms: &mut u8",
    "read_edges": "n d: usize; fwd bwd: &u32; text: &u8; couplings: &mut i32",
    "write_edges": "n d: usize; fwd bwd: &u32; couplings: &i32; text: &mut u8; written: &mut usize",
}

FUNCTIONS: Dict[str, Function] = {name: _function(name, text) for name, text in _TEXTS.items()}
