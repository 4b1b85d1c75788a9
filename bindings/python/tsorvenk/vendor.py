"""The check of a vendor's moves."""
from __future__ import annotations

from array import array
from typing import Optional, Union

from ._answers import NO, Accepted, Fault
from ._buffers import Buffer, items
from ._calls import CALLS

__all__ = ["check_vendor"]

_check_vendor = CALLS["check_vendor"]


def check_vendor(
    *,
    mode: int,
    n: int,
    d: int,
    members: int,
    reference: int = 0,
    fwd: Buffer,
    bwd: Buffer,
    pins: Optional[Buffer] = None,
    before: Buffer,
    after: Buffer,
    rows: Buffer,
    fault: Optional[Buffer] = None,
) -> Union[Accepted, Fault]:
    """Whether spins of one group, of N = members systems, before and after are those of a move in perm or gperm.

    They are where each component of before that acts is turned by one permutation, and all else is as it was.

    mode            Mode.Perm or Mode.Gperm
    n, d, members   sites, 1 to 4096; directions, 1 to 4; N, 2 to 8
    reference       a site. Gperm
    fwd, bwd        uint32, n * d, as in step
    pins            uint8, n, each 0 or 1, as in step. Left out: nothing is pinned
    before, after   int8, N * n: the spin of member k at site i is at k * n + i, +1 or -1
    rows            uint8, n * N, written if accepted: in row c, from c * N on, of the component of number c that acts the
                    smallest such permutation, in all others 0 to N - 1. As perms of SW they make after of before
    fault           uint32, 1, written if not accepted: what Fault has. May be left out

    Refused with 1, 2, 3, 4 or 9, in this order.
    """
    if fault is None:
        fault = array("I", [0])
    if _check_vendor(locals()) == NO:
        return Fault(items(fault, "u32")[0])
    return Accepted()
