"""Couplings from an edge list, and back. docs/EDGES.md has the form.

The list is a text: a first line "n m", then m lines "i j J", sites counted from 1, J in hundredths of a millimetre.
"""
from __future__ import annotations

import sys
from array import array
from typing import Optional

from ._buffers import Buffer, items
from ._calls import CALLS

__all__ = ["EDGES_ROOM", "edges_text", "read_edges", "write_edges"]

EDGES_ROOM = 302451
"""Bytes that are room for every list."""

_read_edges, _write_edges = CALLS["read_edges"], CALLS["write_edges"]


def one_size() -> array[int]:
    """Room for one number of bytes, of a pointer's size."""
    return array("Q" if sys.maxsize > 2**32 else "I", [0])


def read_edges(*, n: int, d: int, fwd: Buffer, bwd: Buffer, text: Buffer, couplings: Buffer) -> None:
    """Fills the couplings from an edge list.

    n, d            sites, 1 to 4096; directions, 1 to 4
    fwd, bwd        uint32, n * d, as in step
    text            uint8, of any length
    couplings       int32, n * d, in hundredths of a millimetre, written: a line belongs to the lowest bond that joins its
                    two sites and that no earlier line has. Bonds without a line get 0

    Refused with 1, 2, 4, 13 (a text that is no list of this lattice) or 6.
    """
    _read_edges(locals())


def write_edges(
    *, n: int, d: int, fwd: Buffer, bwd: Buffer, couplings: Buffer, text: Buffer, written: Optional[Buffer] = None
) -> int:
    """The couplings that are not 0 as an edge list: how many bytes of text it has.

    n, d, fwd, bwd  as in read_edges
    couplings       int32, n * d, in hundredths of a millimetre
    text            uint8, written at its front; the rest of it is kept. EDGES_ROOM bytes are enough
    written         unsigned items of a pointer's size, 1, written: what is returned. May be left out

    Refused with 1, 2, 4, 6, and last with 2 if text is shorter than the list.
    """
    if written is None:
        written = one_size()
    _write_edges(locals())
    return items(written, "usize")[0]


def edges_text(*, n: int, d: int, fwd: Buffer, bwd: Buffer, couplings: Buffer) -> bytes:
    """The list of write_edges, in bytes of its own. Refused with 1, 2, 4 or 6."""
    text = bytearray(EDGES_ROOM)
    length = write_edges(n=n, d=d, fwd=fwd, bwd=bwd, couplings=couplings, text=text)
    return bytes(text[:length])
