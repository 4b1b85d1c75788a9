"""What a call is asked by and what comes back: modes, forms, answers, refusals."""
from __future__ import annotations

import enum
from dataclasses import dataclass
from typing import Optional

IDLE, NO_ROOM, HELD, NO = 64, 65, 66, 67


class Mode(enum.IntEnum):
    """Which sites act, which bonds hold and what a choice does."""

    Houd = 0
    """Sites where the group's spins sum to 0 act; a flip negates every replica. It moves groups of two alone, and observes
    groups of any size."""
    Pair = 1
    """Sites where some pair (first and second, third and fourth, ..) differs act; a flip exchanges each pair's spins."""
    Perm = 2
    """Sites where the group does not all agree act; a choice permutes the replicas."""
    Gperm = 3
    """As Perm, on the spins gauged by those of a reference site."""
    Jorg = 4
    """As Pair, with bonds that are drawn."""
    Cmr = 5
    """Two replicas, blue and red bonds that are drawn; every site acts."""


class Form(enum.IntEnum):
    """What is done with the components."""

    Sw = 0
    """Every component has its own choice ("SW")."""
    Wolff = 1
    """The component of the seed moves."""
    Observe = 2
    """Components are labelled and counted, and nothing moves."""
    Grow = 3
    """As Wolff, but only what the seed's component reaches is looked at: its sites are written, and nothing is labelled."""


class Coding(enum.IntEnum):
    """How perms spells permutations, where the mode and form take them."""

    Rows = 0
    """A permutation is its row of N bytes."""
    Numbers = 1
    """A permutation of five is one byte, its number 0 to 119: see row_of and number_of."""


class Keeps(enum.IntEnum):
    """What a call keeps beside the spins."""

    Nothing = 0
    """Nothing: totals are not taken."""
    Totals = 1
    """Each system's energy, brought current by what the move changed. Couplings are then taken in every mode."""


class Stepped(enum.Enum):
    """What became of a step that is not refused. What its form writes beside the spins is written in every case."""

    Moved = 0
    """Some site acts (in CMR every site does), even if every choice was to leave the spins as they are. An observation
    answers so too, and moves nothing."""
    Idle = IDLE
    """No site acts: the spins are as they were."""
    Held = HELD
    """Some site acts, but the component of the seed (CMR: its blue one) has a pinned site: spins and totals are as they
    were. Wolff and Grow alone answer so."""


@dataclass(frozen=True)
class Swept:
    """The counts of a sweep, over the tasks of unmasked temperatures."""

    idle: int
    """How many tasks were idle: no site acts."""
    moved: int
    """How many moved, which are all others, even if every choice was to leave the spins as they are."""
    held: int
    """How many were held by a pin: 0 in Sw and Observe."""


@dataclass(frozen=True)
class Accepted:
    """A vendor's spins after are those of a move: the permutations are written."""


@dataclass(frozen=True)
class Fault:
    """A vendor's spins after are not those of a move, and no permutation is written."""

    component: int
    """The smallest number of a component at fault."""


class Refused(Exception):
    """A call that was refused. Every buffer that it was lent is as it was.

    number      1 to 10, 12 of a draw, 13 of an edge list, 14 of totals, 15 of houd with more than two
    words       what the number says is wrong
    argument    the name of an argument that is at fault, or None where the input does not tell which of several is
    """

    number: int
    words: str
    argument: Optional[str]

    def __init__(self, number: int, argument: Optional[str] = None) -> None:
        self.number = number
        self.words = refusal_words(number)
        self.argument = argument
        # these are what a copy or a pickle is made from
        super().__init__(number, argument)

    def __str__(self) -> str:
        at = f" ({self.argument})" if self.argument else ""
        return f"refused with {self.number}: {self.words}{at}"


class NoRoom(Exception):
    """The buffer for an answer to a text of frames is too short for it, and nothing is written."""

    def __str__(self) -> str:
        return refusal_words(NO_ROOM)


_WORDS = {
    0: "not refused",
    1: "a size, a group's size, the mode, the form, the coding or what is kept is out of its range",
    2: "a buffer's length is not the exact one",
    3: "a spin of a named system or a vendor's is not +1 or -1, a packed byte has a bit from N upwards, or an owner byte or "
    "the team is above 1",
    4: "a neighbour is n or more, the forward and backward tables are not inverse, or a pin byte is not 0 or 1",
    5: "a system is s or more, the other team's or stands twice",
    6: "a coupling's size is above 1,000,000",
    7: "a temperature is not from 1/1024 to 1,048,576",
    8: "a cut is below 0, infinite or not a number",
    9: "a permutation or its number, flip, grey number, reference site, mask byte, byte of holds or counted, or what a "
    "task's first step found is out of its set",
    10: "a seed is n or more, or does not act although some site does",
    11: "a frame is missing, misplaced, misspelt or of the wrong length, or there is one too many",
    12: "a source of draws is all 0, m or the members are out of range, or 64 words in a row were taken again",
    13: "a text is no edge list of this lattice: its form, n, m, a site, or a line for which no bond is left",
    14: "a total is not its system's energy at the hand-over, or is above 16,384,000,000 in size",
    15: "houd moves groups of two alone; it observes groups of any size",
    IDLE: "not refused: no site acts",
    NO_ROOM: "there is no room for the answer",
    HELD: "not refused: a pin holds the seed's component",
    NO: "not refused: the vendor's spins are not accepted, a component is at fault",
}


def refusal_words(number: int) -> str:
    """Words for each number that a call gives, and for 11, which a text of frames may be answered with: the header's."""
    return _WORDS.get(number, "a number that no call gives")
