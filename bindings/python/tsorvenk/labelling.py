"""The components of a table of bonds."""
from __future__ import annotations

from ._buffers import Buffer
from ._calls import CALLS

__all__ = ["label"]

_label = CALLS["label"]


def label(
    *,
    n: int,
    d: int,
    fwd: Buffer,
    holds: Buffer,
    counted: Buffer,
    labels: Buffer,
    counts: Buffer,
    sizes: Buffer,
    found: Buffer,
) -> None:
    """The components of the bonds whose byte in holds is 1.

    n, d            sites, 1 to 4096; directions, 1 to 4
    fwd             uint32, n * d, each below n; a backward table is not needed
    holds           uint8, n * d, at the bond's entry, each 0 or 1
    counted         uint8, n, each 0 or 1: a component counts where the byte at its smallest site is 1
    labels          uint32, n, written: the number of each site's component
    counts          uint32, n + 1, written: count k is how many components of k sites count
    sizes           uint32, 4, written: the largest sizes of these in sites, falling, filled with 0
    found           uint32, 1, written: how many components there are, those that do not count too

    Refused with 1, 2, 4 or 9.
    """
    _label(locals())
