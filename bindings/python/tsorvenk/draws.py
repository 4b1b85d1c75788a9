"""Draws that can be repeated: the choices of a day, from a seed of four words.

The generator is xoshiro256** of Blackman and Vigna. Equal sources give equal draws, everywhere. NumPy's generators have
other streams, and cuts are not drawn here. A draw is refused with 2 or 12, and then leaves source and buffer as they were.

Of every function source is uint64, 4, read and written: at first the seed, any words that are not all 0, and then what the
last draw left. Source keeps one.
"""
from __future__ import annotations

from array import array
from typing import Iterable, Optional, Tuple

from ._buffers import Buffer, items
from ._calls import CALLS

__all__ = [
    "Source", "below", "coin", "fill_below", "fill_bytes_below", "fill_flips", "fill_numbers", "fill_permutations",
    "permutation", "wolff_grey", "wolff_numbers", "wolff_permutation", "word",
]  # fmt: skip


def word(*, source: Buffer, word: Optional[Buffer] = None) -> int:
    """The next word, 64 bits. It is written to word too, uint64, 1, which may be left out."""
    if word is None:
        word = array("Q", [0])
    CALLS["word"](locals())
    return items(word, "u64")[0]


def coin(*, source: Buffer, coin: Optional[Buffer] = None) -> int:
    """The top bit of a word, 0 or 1. It is written to coin too, uint8, 1, which may be left out."""
    if coin is None:
        coin = array("B", [0])
    CALLS["coin"](locals())
    return items(coin, "u8")[0]


def below(*, m: int, source: Buffer, number: Optional[Buffer] = None) -> int:
    """A number below m, which is 1 to 4096. It is written to number too, uint32, 1, which may be left out."""
    if number is None:
        number = array("I", [0])
    CALLS["below"](locals())
    return items(number, "u32")[0]


def permutation(*, members: int, source: Buffer, row: Optional[Buffer] = None) -> bytes:
    """A permutation of 0 to members - 1, 2 to 8. It is written to row too, uint8, members, which may be left out."""
    if row is None:
        # a number of members that is none is refused before the row's length is looked at
        row = bytearray(members if 0 < members <= 8 else 0)
    CALLS["permutation"](locals())
    return items(row, "u8").tobytes()


def fill_flips(*, source: Buffer, flips: Buffer) -> None:
    """A coin into each item of flips, uint8, of any length: flips of SW."""
    CALLS["fill_flips"](locals())


def fill_below(*, m: int, source: Buffer, numbers: Buffer) -> None:
    """A number below m, 1 to 4096, into each item of numbers, uint32, of any length: seeds and references of a sweep."""
    CALLS["fill_below"](locals())


def fill_bytes_below(*, m: int, source: Buffer, bytes: Buffer) -> None:
    """A number below m, 1 to 256, into each item of bytes, uint8, of any length: with m = 4 grey numbers of SW."""
    CALLS["fill_bytes_below"](locals())


def fill_permutations(*, members: int, source: Buffer, rows: Buffer) -> None:
    """A permutation into each row of members bytes, 2 to 8, of rows, uint8, a whole number of them: permutations of SW."""
    CALLS["fill_permutations"](locals())


def wolff_permutation(*, members: int, source: Buffer, rows: Buffer) -> None:
    """As fill_permutations, into rows of members bytes, without the identity, which is drawn again: permutations of Wolff and
    grow."""
    CALLS["wolff_permutation"](locals())


def wolff_grey(*, source: Buffer, greys: Buffer) -> None:
    """1 to 3 into each item of greys, uint8, of any length: grey numbers of Wolff and grow."""
    CALLS["wolff_grey"](locals())


def fill_numbers(*, source: Buffer, perms: Buffer) -> None:
    """A number below 120 into each item of perms, uint8, of any length: permutations of five by numbers, of SW."""
    CALLS["fill_numbers"](locals())


def wolff_numbers(*, source: Buffer, perms: Buffer) -> None:
    """1 to 119 into each item of perms, uint8, of any length: permutations of five by numbers, of Wolff and grow."""
    CALLS["wolff_numbers"](locals())


class Source:
    """A source of draws that keeps its four words. Equal words give equal draws; a day goes on where they were written down."""

    __slots__ = ("_words",)

    def __init__(self, words: Iterable[int]) -> None:
        """From a seed of four words, or from the words of an earlier source. Four words of 0 are refused with 12."""
        self._words = array("Q", words)
        word(source=self._words[:])

    @property
    def words(self) -> Tuple[int, ...]:
        """The four words that the next draw starts from."""
        return tuple(self._words)

    def __repr__(self) -> str:
        return f"Source({list(self._words)})"

    def word(self) -> int:
        """The next word, 64 bits."""
        return word(source=self._words)

    def coin(self) -> int:
        """The top bit of a word, 0 or 1."""
        return coin(source=self._words)

    def below(self, m: int) -> int:
        """A number below m, which is 1 to 4096."""
        return below(m=m, source=self._words)

    def permutation(self, members: int) -> bytes:
        """A permutation of 0 to members - 1, 2 to 8."""
        return permutation(members=members, source=self._words)

    def fill_flips(self, flips: Buffer) -> None:
        """A coin into each item, uint8."""
        fill_flips(source=self._words, flips=flips)

    def fill_below(self, m: int, numbers: Buffer) -> None:
        """A number below m, 1 to 4096, into each item, uint32."""
        fill_below(m=m, source=self._words, numbers=numbers)

    def fill_bytes_below(self, m: int, bytes: Buffer) -> None:
        """A number below m, 1 to 256, into each item, uint8."""
        fill_bytes_below(m=m, source=self._words, bytes=bytes)

    def fill_permutations(self, members: int, rows: Buffer) -> None:
        """A permutation into each row of members bytes, 2 to 8, uint8."""
        fill_permutations(members=members, source=self._words, rows=rows)

    def wolff_permutation(self, members: int, rows: Buffer) -> None:
        """A permutation that is not the identity into each row of members bytes, 2 to 8, uint8."""
        wolff_permutation(members=members, source=self._words, rows=rows)

    def wolff_grey(self, greys: Buffer) -> None:
        """1 to 3 into each item, uint8."""
        wolff_grey(source=self._words, greys=greys)

    def fill_numbers(self, perms: Buffer) -> None:
        """A number below 120 into each item, uint8."""
        fill_numbers(source=self._words, perms=perms)

    def wolff_numbers(self, perms: Buffer) -> None:
        """1 to 119 into each item, uint8."""
        wolff_numbers(source=self._words, perms=perms)
