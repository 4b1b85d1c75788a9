"""One byte for a site's whole group."""
from __future__ import annotations

from typing import Optional

from ._answers import Coding, Keeps, Stepped
from ._buffers import Buffer
from ._calls import CALLS

__all__ = ["pack", "packed_step", "unpack"]

_pack, _unpack, _packed_step = CALLS["pack"], CALLS["unpack"], CALLS["packed_step"]


def pack(*, n: int, members: int, rows: Buffer, columns: Buffer) -> None:
    """One byte for each site from the rows of N = members systems.

    n, members      sites, 1 to 4096; N, 2 to 8
    rows            int8, N * n: the spin of member k at site i is at k * n + i, +1 or -1
    columns         uint8, n, written: bit k of the byte of site i is set where member k is +1 there

    Refused with 1, 2 or 3.
    """
    _pack(locals())


def unpack(*, n: int, members: int, columns: Buffer, rows: Buffer) -> None:
    """The rows of N = members systems from one byte for each site: it undoes pack.

    n, members      sites, 1 to 4096; N, 2 to 8
    columns         uint8, n, without a bit from N upwards
    rows            int8, N * n, written

    Refused with 1, 2 or 3.
    """
    _unpack(locals())


def packed_step(
    *,
    mode: int,
    form: int,
    coding: int = Coding.Rows,
    keeps: int = Keeps.Nothing,
    n: int,
    d: int,
    members: int,
    columns: Buffer,
    totals: Optional[Buffer] = None,
    fwd: Buffer,
    bwd: Buffer,
    pins: Optional[Buffer] = None,
    couplings: Optional[Buffer] = None,
    temperature: float = 0.0,
    cuts: Optional[Buffer] = None,
    reference: int = 0,
    seed: int = 0,
    flips: Optional[Buffer] = None,
    perms: Optional[Buffer] = None,
    greys: Optional[Buffer] = None,
    labels: Optional[Buffer] = None,
    grey_labels: Optional[Buffer] = None,
    counts: Optional[Buffer] = None,
    sizes: Optional[Buffer] = None,
    member_sites: Optional[Buffer] = None,
    found: Optional[Buffer] = None,
    grey_found: Optional[Buffer] = None,
) -> Stepped:
    """A step on columns: what step does with the unpacked rows, with s = N, one owner and the group 0, 1 .. N - 1.

    members         N, 2 to 8 (CMR: 2, houd: 2 unless it observes)
    columns         uint8, n, read, and written after the move
    totals          int64, N, in the members' order, written, in the couplings' unit. SW, Wolff, grow where totals are kept
    all others      as in step, with the same items and lengths

    Refused with 1, 15, 2, 3 (a bit from N upwards), 4, 6, 7, 8, 9, 10 or 14, in this order.
    """
    return Stepped(_packed_step(locals()))
