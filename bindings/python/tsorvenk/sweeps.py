"""A sweep over all systems of a team."""
from __future__ import annotations

from array import array
from typing import Optional

from ._answers import Coding, Keeps, Swept
from ._buffers import Buffer, items
from ._calls import CALLS

__all__ = ["sweep"]

_sweep = CALLS["sweep"]


def sweep(
    *,
    mode: int,
    form: int,
    coding: int = Coding.Rows,
    keeps: int = Keeps.Nothing,
    n: int,
    d: int,
    s: int,
    team: int = 0,
    t: int,
    r: int,
    members: int,
    owners: Optional[Buffer] = None,
    spins: Buffer,
    totals: Optional[Buffer] = None,
    fwd: Buffer,
    bwd: Buffer,
    pins: Optional[Buffer] = None,
    couplings: Optional[Buffer] = None,
    order: Buffer,
    masks: Buffer,
    temperatures: Optional[Buffer] = None,
    cuts: Optional[Buffer] = None,
    references: Optional[Buffer] = None,
    seeds: Optional[Buffer] = None,
    flips: Optional[Buffer] = None,
    perms: Optional[Buffer] = None,
    greys: Optional[Buffer] = None,
    labels: Optional[Buffer] = None,
    grey_labels: Optional[Buffer] = None,
    counts: Optional[Buffer] = None,
    sizes: Optional[Buffer] = None,
    member_sites: Optional[Buffer] = None,
    found: Optional[Buffer] = None,
    grey_found: Optional[Buffer] = None,
    outcomes: Optional[Buffer] = None,
) -> Swept:
    """A sweep over t temperatures of r replicas, which are all systems of the team, in groups of N = members systems.

    Temperature j owns the order's entries from j * r on; its groups are runs of N, and what is left over does not move.
    Task j * (r // N) + g is the group g of temperature j, and there are K = t * (r // N) tasks, those of masked
    temperatures too. Each task is the step that it would be alone; its areas in the buffers are at its number, and those of
    masked tasks are neither read nor written. All tests are made before anything is written.

    mode, form, coding, keeps, n, d, s, team, owners, spins, totals, fwd, bwd, pins, couplings
                    as in step; the rows of all systems of the order are spins
    t, r, members   temperatures and replicas at each, at least 1, t * r is the number of the team's systems; N, 2 to 8 and
                    at most r
    order           uint32, t * r: the team's systems, each once
    masks           uint8, t, each 0 or 1: 1 masks its temperature
    temperatures    float32, t, in the couplings' unit. Joerg, CMR, in every form
    cuts            float32, K * n * d. Joerg, CMR, in every form
    references      uint32, K. Gperm, in every form
    seeds           uint32, K. Wolff, grow
    flips           uint8, K * n. SW of houd, pair, Joerg, CMR
    perms           uint8, SW: K * n * N, Wolff and grow: K * N; by numbers SW: K * n, Wolff and grow: K. Perm, gperm
    greys           uint8, SW: K * n, Wolff and grow: K. CMR
    labels          uint32, K * n, written. SW, Wolff, observe
    grey_labels     uint32, K * n, written. SW and Wolff of CMR
    counts          uint32, K * (n + 1), written. SW, Wolff, observe
    sizes           uint32, K * 4, written, in sites. SW, Wolff, observe
    member_sites    uint8, K * n, written. Grow
    found           uint32, K, written. SW, Wolff, observe
    grey_found      uint32, K, written. SW and Wolff of CMR
    outcomes        uint32, 3, written: what is returned, how many unmasked tasks were idle, moved and held. May be left out

    Refused with 1 to 10, 14 or 15, as a whole.
    """
    if outcomes is None:
        outcomes = array("I", bytes(12))
    _sweep(locals())
    idle, moved, held = items(outcomes, "u32")
    return Swept(idle, moved, held)
