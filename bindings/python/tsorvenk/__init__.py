"""Replica-overlap cluster moves: the proved library, on the caller's own arrays.

A panel is a lattice of n sites with d directions and s systems of +1 and -1 spins on it. Every function takes keyword
arguments with the names of include/tsorvenk.h. Buffers are lent and not copied: anything with the buffer protocol, of the
item type that the function's text names, contiguous and, where it is written, writable. What is none is a TypeError that
names the argument; two that overlap, where one is written, and a number that its C type does not hold are a ValueError;
all of these before the library is called. A refusal raises Refused, and leaves every buffer as it was.

Calls let other threads run. Calls on different buffers may be made at the same time; a buffer that is written by one call
must not be used by another meanwhile.

    >>> from array import array
    >>> import tsorvenk
    >>> spins = array("b", [1, 1, -1, -1])  # two sites, each the other's neighbour, and two systems that differ at both
    >>> sites, member_sites = array("I", [1, 0]), bytearray(2)
    >>> tsorvenk.step(
    ...     mode=tsorvenk.Mode.Pair, form=tsorvenk.Form.Grow, n=2, d=1, s=2, spins=spins, fwd=sites, bwd=sites,
    ...     group=array("I", [0, 1]), seed=0, member_sites=member_sites,
    ... )
    <Stepped.Moved: 0>
    >>> spins.tolist(), list(member_sites)
    ([-1, -1, 1, 1], [1, 1])
"""
from . import panel
from ._answers import (
    Accepted, Coding, Fault, Form, Keeps, Mode, NoRoom, Refused, Stepped, Swept, refusal_words
)  # fmt: skip
from ._library import FunctionMissing, LibraryMissing
from .draws import (
    Source, below, coin, fill_below, fill_bytes_below, fill_flips, fill_numbers, fill_permutations, permutation,
    wolff_grey, wolff_numbers, wolff_permutation, word,
)  # fmt: skip
from .edges import EDGES_ROOM, edges_text, read_edges, write_edges
from .framing import FRAMES_ROOM, frames, frames_answer
from .labelling import label
from .meter import energy, hand_over
from .moves import step
from .orders import number_of, row_of
from .packed import pack, packed_step, unpack
from .panel import Panel, torus
from .steps import task_choose, task_label, task_write, test_sweep
from .sweeps import sweep
from .teams import own_systems
from .vendor import check_vendor

__all__ = [
    "Accepted", "Coding", "EDGES_ROOM", "FRAMES_ROOM", "Fault", "Form", "FunctionMissing", "Keeps", "LibraryMissing", "Mode",
    "NoRoom", "Panel", "Refused", "Source", "Stepped", "Swept", "below", "check_vendor", "coin", "edges_text", "energy",
    "fill_below", "fill_bytes_below", "fill_flips", "fill_numbers", "fill_permutations", "frames", "frames_answer",
    "hand_over", "label", "number_of", "own_systems", "pack", "packed_step", "panel", "permutation", "read_edges",
    "refusal_words", "row_of", "step", "sweep", "task_choose", "task_label", "task_write", "test_sweep", "torus", "unpack",
    "wolff_grey", "wolff_numbers", "wolff_permutation", "word", "write_edges",
]  # fmt: skip
