"""Numbers for permutations of five."""
from __future__ import annotations

from array import array
from typing import Optional

from ._buffers import Buffer, items
from ._calls import CALLS

__all__ = ["number_of", "row_of"]

_row_of, _number_of = CALLS["row_of"], CALLS["number_of"]


def row_of(*, number: int, row: Optional[Buffer] = None) -> bytes:
    """The row of a permutation of five: its place among the 120, in ascending order as words, is its number.

    number          0 to 119
    row             uint8, 5, written: what is returned. May be left out

    Refused with 2 or 9.
    """
    if row is None:
        row = bytearray(5)
    _row_of(locals())
    return items(row, "u8").tobytes()


def number_of(*, row: Buffer, number: Optional[Buffer] = None) -> int:
    """The number, 0 to 119, of a permutation of five: the one of which row_of writes it.

    row             uint8, 5: a permutation of 0 to 4
    number          uint8, 1, written: what is returned. May be left out

    Refused with 2 or 9.
    """
    if number is None:
        number = array("B", [0])
    _number_of(locals())
    return items(number, "u8")[0]
