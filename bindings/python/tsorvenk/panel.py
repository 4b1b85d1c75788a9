"""Panels: neighbour tables of tori, and what an open edge is on them."""
from __future__ import annotations

import ctypes
import operator
from array import array
from dataclasses import dataclass
from typing import Iterable, List, Optional, Tuple

from ._buffers import Buffer
from ._tables import FUNCTIONS

__all__ = ["Panel", "torus"]


@dataclass(frozen=True)
class Panel:
    """A torus: its sites, directions and neighbour tables, as every call takes them.

    Site 0 has the coordinates 0, 0, ..; the first coordinate goes fastest. Direction e leads from a site to the one whose
    coordinate e is one more, and from the last back to the first: every table wraps around.
    """

    n: int
    """Sites."""
    d: int
    """Directions, the number of sides."""
    sides: Tuple[int, ...]
    """How many sites each direction has: width, height, .."""
    fwd: array[int]
    """n * d items of 32 bits: entry i * d + e is the forward neighbour of site i in direction e."""
    bwd: array[int]
    """n * d items of 32 bits: the backward neighbours."""
    open: Tuple[int, ...]
    """The directions whose edges are open."""

    def site(self, *coordinates: int) -> int:
        """The site with these coordinates, one for each direction."""
        if len(coordinates) != self.d:
            raise ValueError(f"coordinates must be {self.d}, not {len(coordinates)}")
        found = 0
        for place, side in zip(reversed(coordinates), reversed(self.sides)):
            if not 0 <= place < side:
                raise ValueError(f"coordinates must be below {', '.join(map(str, self.sides))}, not {coordinates}")
            found = found * side + place
        return found

    def open_bonds(self) -> List[int]:
        """The entries of the bonds that wrap around an open edge, ascending."""
        return [
            i * self.d + e
            for i in range(self.n)
            for e in self.open
            if _coordinate(i, e, self.sides) == self.sides[e] - 1
        ]

    def couplings(self, coupling: int = 0) -> array[int]:
        """n * d items of 32 bits, in hundredths of a millimetre: this coupling at every bond, and 0 over open edges."""
        found = array("i", [coupling]) * (self.n * self.d)
        self.open_edges(found)
        return found

    def open_edges(self, couplings: Buffer) -> None:
        """Sets the couplings over open edges to 0, in a lent buffer: int32, n * d, in hundredths of a millimetre."""
        bonds = self.n * self.d
        try:
            view = memoryview(couplings)
            fits = view.format in _COUPLINGS.formats and view.nbytes == 4 * bonds and view.c_contiguous and not view.readonly
        except TypeError:
            fits = False
        if not fits:
            raise TypeError(f"couplings must be writable and contiguous, {bonds} signed 32-bit items")
        items = (ctypes.c_int32 * bonds).from_buffer(couplings)  # type: ignore[arg-type]
        for bond in self.open_bonds():
            items[bond] = 0


_COUPLINGS = next(one for one in FUNCTIONS["read_edges"].parameters if one.name == "couplings")


def _coordinate(site: int, direction: int, sides: Tuple[int, ...]) -> int:
    for side in sides[:direction]:
        site //= side
    return site % sides[direction]


def torus(width: int, height: Optional[int] = None, *more: int, open: Iterable[int] = ()) -> Panel:
    """A panel of width * height sites, or of more sides, up to four, whose tables wrap around.

    open names the directions whose edges are open, 0 for those between left and right, 1 for those between bottom and top.
    An open edge is a bond that wraps around with the coupling 0: the tables are the same, and Panel.couplings and
    Panel.open_edges set it. With 0 no Joerg or CMR bond is drawn there, and no energy is shared; houd, pair, perm and gperm
    do not look at couplings, and to them the panel stays closed.

    A side of 1 makes a site its own neighbour, and one of 2 joins two sites twice. height left out makes a ring, with one
    direction. ValueError if there are more than four sides or 4096 sites.
    """
    sides = tuple(map(operator.index, (width,) if height is None else (width, height, *more)))
    for name, side in zip(("width", "height", "more", "more", "more"), sides):
        if side < 1:
            raise ValueError(f"{name} must be at least 1, not {side}")
    if len(sides) > 4:
        raise ValueError(f"more must be at most 2 sides, not {len(more)}")
    n = 1
    for side in sides:
        n *= side
    if n > 4096:
        raise ValueError(f"width * height must be at most 4096 sites, not {n}")
    opened = tuple(sorted(set(map(operator.index, open))))
    if any(not 0 <= e < len(sides) for e in opened):
        raise ValueError(f"open must name directions below {len(sides)}, not {opened}")
    fwd, bwd = array("I"), array("I")
    for i in range(n):
        stride = 1
        for side in sides:
            place = i // stride % side
            fwd.append(i + ((place + 1) % side - place) * stride)
            bwd.append(i + ((place - 1) % side - place) * stride)
            stride *= side
    return Panel(n, len(sides), sides, fwd, bwd, opened)
