"""A sweep's tasks in any order: the test of the sweep, and the three steps of each task.

To run a sweep so: test it; copy each unmasked task's N rows, and its totals where they are kept, out of the panel in the
group's order; make the three steps of each task, in this order, on its rows and on its areas of the sweep's buffers; and
copy rows and totals back. Tasks may be taken in any order, their steps mixed, or run at the same time. Spins, totals and
outputs are then those of sweep, and its counts are those of what task_label answered.
"""
from __future__ import annotations

from typing import Optional

from ._answers import Keeps, Stepped
from ._buffers import Buffer
from ._calls import CALLS

__all__ = ["task_choose", "task_label", "task_write", "test_sweep"]

_test_sweep, _task_label = CALLS["test_sweep"], CALLS["task_label"]
_task_choose, _task_write = CALLS["task_choose"], CALLS["task_write"]


def test_sweep(
    *,
    mode: int,
    form: int,
    keeps: int = Keeps.Nothing,
    n: int,
    d: int,
    s: int,
    team: int = 0,
    t: int,
    r: int,
    members: int,
    owners: Optional[Buffer] = None,
    spins: Buffer,
    totals: Optional[Buffer] = None,
    fwd: Buffer,
    bwd: Buffer,
    pins: Optional[Buffer] = None,
    couplings: Optional[Buffer] = None,
    order: Buffer,
    masks: Buffer,
    temperatures: Optional[Buffer] = None,
    cuts: Optional[Buffer] = None,
    references: Optional[Buffer] = None,
    seeds: Optional[Buffer] = None,
    flips: Optional[Buffer] = None,
    perms: Optional[Buffer] = None,
    greys: Optional[Buffer] = None,
    labels: Optional[Buffer] = None,
    grey_labels: Optional[Buffer] = None,
    counts: Optional[Buffer] = None,
    sizes: Optional[Buffer] = None,
    member_sites: Optional[Buffer] = None,
    found: Optional[Buffer] = None,
    grey_found: Optional[Buffer] = None,
) -> None:
    """Whether a sweep by rows is refused, without the sweep: nothing is written.

    Every argument is that of sweep, with its items and lengths; of labels, grey_labels, counts, sizes, member_sites, found
    and grey_found the lengths alone are looked at. Refused as the sweep would be, with 1 to 10, 14 or 15.
    """
    _test_sweep(locals())


# a test runner that looks for names must not take it for one of its own
test_sweep.__test__ = False  # type: ignore[attr-defined]


def task_label(
    *,
    mode: int,
    form: int,
    n: int,
    d: int,
    members: int,
    rows: Buffer,
    fwd: Buffer,
    bwd: Buffer,
    pins: Optional[Buffer] = None,
    couplings: Optional[Buffer] = None,
    temperature: float = 0.0,
    cuts: Optional[Buffer] = None,
    reference: int = 0,
    seed: int = 0,
    flips: Optional[Buffer] = None,
    perms: Optional[Buffer] = None,
    greys: Optional[Buffer] = None,
    labels: Optional[Buffer] = None,
    grey_labels: Optional[Buffer] = None,
    counts: Optional[Buffer] = None,
    sizes: Optional[Buffer] = None,
    member_sites: Optional[Buffer] = None,
    found: Optional[Buffer] = None,
    grey_found: Optional[Buffer] = None,
    blue: Optional[Buffer] = None,
) -> Stepped:
    """The first step of a task of N = members systems: what step does beside the spins. It answers what the move will.

    rows            int8, N * n: the spin of member k at site i is at k * n + i, +1 or -1
    blue            uint8, n, written: 1 at the sites that blue bonds join to the seed, the seed too, else 0. Grow of CMR
    all others      as in step, with the same items and lengths, perms by rows

    Refused with 1, 15, 2, 3, 4, 6, 7, 8, 9 or 10, in this order.
    """
    return Stepped(_task_label(locals()))


def task_choose(
    *,
    mode: int,
    form: int,
    n: int,
    d: int,
    members: int,
    rows: Buffer,
    pins: Optional[Buffer] = None,
    reference: int = 0,
    seed: int = 0,
    flips: Optional[Buffer] = None,
    perms: Optional[Buffer] = None,
    greys: Optional[Buffer] = None,
    labels: Optional[Buffer] = None,
    grey_labels: Optional[Buffer] = None,
    member_sites: Optional[Buffer] = None,
    blue: Optional[Buffer] = None,
    area: Buffer,
) -> None:
    """The second step: the choice of each component, as the column of each of its sites after the move. No row is written.

    mode, form, n, d, members, pins, reference, seed, flips, perms, greys
                    as in the first step; of the seed, that it is a site
    rows            int8, N * n, as lent to the first step
    labels          uint32, n, each below n, as the first step wrote them. SW, Wolff
    grey_labels     uint32, n, each below n. SW and Wolff of CMR
    member_sites    uint8, n, each 0 or 1. Grow
    blue            uint8, n, each 0 or 1. Grow of CMR
    area            uint8, n, written: bit k of the byte of site i is set where member k is +1 there after the move. Grow: at
                    the member sites alone

    Refused with 1, 15, 2, 3, 4 (the pins), 9 or 10, in this order.
    """
    _task_choose(locals())


def task_write(
    *,
    mode: int,
    form: int,
    keeps: int = Keeps.Nothing,
    n: int,
    d: int,
    members: int,
    rows: Buffer,
    totals: Optional[Buffer] = None,
    fwd: Optional[Buffer] = None,
    bwd: Optional[Buffer] = None,
    couplings: Optional[Buffer] = None,
    member_sites: Optional[Buffer] = None,
    area: Buffer,
) -> None:
    """The third step: the rows become what the columns show, and the totals are brought current.

    mode, form, n, d, members
                    as in the first step
    keeps           Keeps: whether totals are brought current
    rows            int8, N * n, written: +1 where the bit of the member is set in the site's byte, else -1. Grow: at the
                    member sites alone
    totals          int64, N, in the members' order, written, in the couplings' unit. SW, Wolff, grow where totals are kept
    fwd, bwd        uint32, n * d. Where totals are kept
    couplings       int32, n * d, in hundredths of a millimetre. Where totals are kept
    member_sites    uint8, n, each 0 or 1. Grow
    area            uint8, n, without a bit from N upwards

    Refused with 1, 15, 2, 3 (the rows, then the area), 4, 6, 9 or 14, in this order.
    """
    _task_write(locals())
