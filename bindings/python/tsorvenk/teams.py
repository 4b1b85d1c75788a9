"""Two teams on one panel."""
from __future__ import annotations

from array import array

from ._answers import Refused
from ._buffers import Buffer, items

__all__ = ["own_systems"]


def own_systems(*, owners: Buffer, team: int) -> array[int]:
    """The systems of a team, ascending: the order of its sweep, for its caller to shuffle, and what its groups are made of.

    owners          uint8, one for each system, each 0 or 1
    team            0 or 1

    step, sweep, energy and hand_over take both under the same names, and refuse with 5 a system that is not the team's.
    Refused with 3 if an owner or the team is above 1, as by those.
    """
    whose = items(owners, "u8")
    if any(owner > 1 for owner in whose):
        raise Refused(3, "owners")
    if team not in (0, 1):
        raise Refused(3, "team")
    return array("I", (system for system, owner in enumerate(whose) if owner == team))
