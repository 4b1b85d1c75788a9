"""One move or observation of one group."""
from __future__ import annotations

from typing import Optional

from ._answers import Coding, Keeps, Stepped
from ._buffers import Buffer
from ._calls import CALLS

__all__ = ["step"]

_step = CALLS["step"]


def step(
    *,
    mode: int,
    form: int,
    coding: int = Coding.Rows,
    keeps: int = Keeps.Nothing,
    n: int,
    d: int,
    s: int,
    team: int = 0,
    owners: Optional[Buffer] = None,
    spins: Buffer,
    totals: Optional[Buffer] = None,
    fwd: Buffer,
    bwd: Buffer,
    pins: Optional[Buffer] = None,
    couplings: Optional[Buffer] = None,
    group: Buffer,
    temperature: float = 0.0,
    cuts: Optional[Buffer] = None,
    reference: int = 0,
    seed: int = 0,
    flips: Optional[Buffer] = None,
    perms: Optional[Buffer] = None,
    greys: Optional[Buffer] = None,
    labels: Optional[Buffer] = None,
    grey_labels: Optional[Buffer] = None,
    counts: Optional[Buffer] = None,
    sizes: Optional[Buffer] = None,
    member_sites: Optional[Buffer] = None,
    found: Optional[Buffer] = None,
    grey_found: Optional[Buffer] = None,
) -> Stepped:
    """One move or observation of one group, of N = len(group) systems.

    Buffers are lent for the call and not copied. Behind each stand its items, its exact length, and which modes and forms
    take it if not all do; what is not taken is ignored and may be left out. A buffer that is taken and left out has length
    0, and is refused with 2.

    mode, form      Mode and Form
    coding          Coding: how perms spells permutations
    keeps           Keeps: whether totals are brought current
    n, d, s         sites, 1 to 4096; directions, 1 to 4; systems, 1 to 64
    team            the caller's, 0 or 1
    owners          uint8, s, each 0 or 1: whose the system is. Left out: one team has the whole panel
    spins           int8, s * n, written: the spin of site i in system k is at k * n + i, +1 or -1. The rows of systems that
                    are not of the group may hold anything, and keep it
    totals          int64, s, written: that of a system of the group changes by its energy after the move less its energy
                    before, in the couplings' unit, hundredths of a millimetre. SW, Wolff, grow where totals are kept
    fwd, bwd        uint32, n * d: entry i * d + e is the neighbour of site i in direction e, forward and backward
    pins            uint8, n, each 0 or 1: 1 pins the site, and its component does not move. Left out: nothing is pinned
    couplings       int32, n * d, at the bond's entry, in hundredths of a millimetre, up to 1,000,000 in size. Joerg, CMR,
                    in every form; totals kept, in every mode
    group           uint32, N of the team's systems, 2 to 8 (CMR: 2, houd: 2 unless it observes); their order matters
    temperature     in the couplings' unit, 1/1024 to 1,048,576; it is rounded to 32 bits. Joerg, CMR, in every form
    cuts            float32, n * d, at the bond's entry, without unit, finite and at least 0: a bond is drawn where
                    4 / temperature * strength is above its cut. Joerg, CMR, in every form
    reference       a site. Gperm, in every form
    seed            a site that acts, if any does. Wolff, grow
    flips           uint8, n, each 0 or 1. SW of houd, pair, Joerg, CMR
    perms           uint8, SW: n rows of N, Wolff and grow: one row of N that is not the identity; replica k gets the old
                    spin of replica p(k). By numbers SW: n, each 0 to 119, Wolff and grow: one, 1 to 119. Perm, gperm
    greys           uint8, SW: n, each 0 to 3, Wolff and grow: one, 1 to 3; bit 0 flips the first replica, bit 1 the
                    second. CMR
    labels          uint32, n, written: the number of each site's component (CMR: of its blue one), in the order of their
                    smallest sites; a site that does not act is a component of its own. SW, Wolff, observe
    grey_labels     uint32, n, written: the same of grey components. SW and Wolff of CMR
    counts          uint32, n + 1, written: count k is the number of acting components of k sites. SW, Wolff, observe
    sizes           uint32, 4, written: the largest sizes in sites, falling, filled with 0. SW, Wolff, observe
    member_sites    uint8, n, written: 1 at the sites of the seed's component (CMR: of its grey one), else 0. Grow
    found           uint32, 1, written: how many components there are (CMR: blue ones). SW, Wolff, observe
    grey_found      uint32, 1, written: how many grey ones. SW and Wolff of CMR

    In SW a component's choice is the entry at its number. Refused with 1 to 10, 14 or 15.
    """
    return Stepped(_step(locals()))
