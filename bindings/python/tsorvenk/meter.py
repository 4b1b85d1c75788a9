"""Energies, and totals that start from them."""
from __future__ import annotations

from array import array
from typing import Optional

from ._buffers import Buffer, items
from ._calls import CALLS

__all__ = ["energy", "hand_over"]

_energy, _hand_over = CALLS["energy"], CALLS["hand_over"]


def energy(
    *,
    n: int,
    d: int,
    s: int,
    team: int = 0,
    owners: Optional[Buffer] = None,
    spins: Buffer,
    fwd: Buffer,
    bwd: Buffer,
    couplings: Buffer,
    system: int,
    energy: Optional[Buffer] = None,
) -> int:
    """The energy of one system, in the couplings' unit: minus the sum over all bonds of the coupling times both spins.

    n, d, s         sites, 1 to 4096; directions, 1 to 4; systems, 1 to 64
    team            the caller's, 0 or 1
    owners          uint8, s, each 0 or 1. Left out: one team has the whole panel
    spins           int8, s * n, system by system
    fwd, bwd        uint32, n * d, as in step
    couplings       int32, n * d, in hundredths of a millimetre
    system          below s, and the team's
    energy          int64, 1, written: what is returned. May be left out

    Refused with 1 to 6.
    """
    if energy is None:
        energy = array("q", [0])
    _energy(locals())
    return items(energy, "i64")[0]


def hand_over(
    *,
    n: int,
    d: int,
    s: int,
    team: int = 0,
    owners: Optional[Buffer] = None,
    spins: Buffer,
    totals: Buffer,
    fwd: Buffer,
    bwd: Buffer,
    couplings: Buffer,
) -> None:
    """Whether the total of each of the team's systems is its energy: asked once, before the first call that keeps them.

    totals          int64, s, in the couplings' unit; those of the other team whatever they are
    all others      as in energy

    Nothing is written. Refused with 1, 2, 3, 4, 6 or, where a total is wrong, 14.
    """
    _hand_over(locals())
