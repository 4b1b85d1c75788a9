"""Which argument a refusal is about, where the input tells.

The number is the library's. Here it is only asked which of the arguments that it may be about is wrong: of several, the
first in the header's order, and none where a fault is in how two of them go together.
"""
from __future__ import annotations

import operator
from typing import Any, Callable, Dict, Iterable, List, Mapping, Optional

from ._answers import Coding, Form, Mode
from ._buffers import ZEROS_LENGTH, items
from ._lengths import choices_of, exact, members_of, takes_perms, task_count
from ._tables import FUNCTIONS

Given = Mapping[str, Any]

# the largest that each code may be
_CODES = {"mode": 5, "form": 3, "coding": 1, "keeps": 1}
_SIZES = {"n": 4096, "d": 4, "s": 64}


class _Input:
    """What a refused call was given."""

    def __init__(self, name: str, given: Given) -> None:
        parameters = FUNCTIONS[name].parameters
        self.name = name
        self.kinds = {one.name: one.kind for one in parameters if one.lent}
        # what is only as good as a whole number is one from here on
        whole = {one.name: operator.index(given[one.name]) for one in parameters if not one.lent and one.kind != "f32"}
        self.given = {**given, **whole}

    def has(self, *names: str) -> Optional[str]:
        """The first of these that the function takes."""
        return next((name for name in names if name in self.given), None)

    def items(self, name: str) -> Any:
        if self.given[name] is None and name in ("pins", "owners"):
            return b""
        return items(self.given[name], self.kinds[name])

    def above(self, name: str, largest: int) -> bool:
        """Whether the function takes this and one of its items is above the largest."""
        return name in self.given and any(item > largest for item in self.items(name))

    def first_above(self, limits: Mapping[str, int]) -> Optional[str]:
        """The first number that is above its limit or, of a size, 0."""
        for name, largest in limits.items():
            least = 1 if name in _SIZES else 0
            if name in self.given and not least <= self.given[name] <= largest:
                return name
        return None


def _size(it: _Input) -> Optional[str]:
    given = it.given
    found = it.first_above(_CODES) or it.first_above(_SIZES)
    if found:
        return found
    if it.name == "check_vendor" and given["mode"] not in (Mode.Perm, Mode.Gperm):
        return "mode"
    group = it.has("group", "members")
    if group:
        members, cmr = members_of(given), given.get("mode") == Mode.Cmr
        by_numbers = given.get("coding") == Coding.Numbers and takes_perms(given)
        if not 2 <= members <= (2 if cmr else 8) or (by_numbers and members != 5):
            return group
    if "t" in given:
        if not given["t"]:
            return "t"
        if not given["r"]:
            return "r"
        # how t and r go together with the number of systems is the fault of none of them
        if given["members"] > given["r"] and given["t"] * given["r"] == _own(it):
            return "members"
    return None


def _own(it: _Input) -> int:
    """How many systems the team has."""
    owners = it.items("owners") if it.given["owners"] is not None else [0] * it.given["s"]
    return sum(owner == it.given["team"] for owner in owners)


def _length(it: _Input) -> Optional[str]:
    if "owners" in it.given and it.given["owners"] is None and it.given["s"] > ZEROS_LENGTH:
        return "s"
    for name, length in exact(it.name, it.given).items():
        if it.given[name] is None and name in ("pins", "owners"):
            continue
        if len(it.items(name)) != length:
            return name
    # a fill of rows, and a list for which its text has no room
    return it.has("rows", "text")


def _spin(it: _Input) -> Optional[str]:
    given = it.given
    if it.above("owners", 1):
        return "owners"
    if given.get("team", 0) > 1:
        return "team"
    if it.name == "unpack":
        return "columns"
    for name in ("before", "after", "rows"):
        if it.kinds.get(name) == "i8" and any(spin not in (1, -1) for spin in it.items(name)):
            return name
    return it.has("spins", "columns", "area")


def _neighbour(it: _Input) -> Optional[str]:
    given = it.given
    for name in ("fwd", "bwd"):
        if it.above(name, given["n"] - 1):
            return name
    if it.above("pins", 1) and ("fwd" not in given or _inverse(it)):
        return "pins"
    # not inverse: either table may be the wrong one
    return None


def _inverse(it: _Input) -> bool:
    n, d, fwd, bwd = it.given["n"], it.given["d"], it.items("fwd"), it.items("bwd")
    return all(bwd[fwd[i * d + e] * d + e] == i and fwd[bwd[i * d + e] * d + e] == i for i in range(n) for e in range(d))


def _unmasked(it: _Input) -> List[int]:
    """The tasks of a sweep that are looked at."""
    each, masks = it.given["r"] // it.given["members"], it.items("masks")
    return [task for task in range(task_count(it.given)) if masks[task // each] != 1]


def _choice(it: _Input) -> Optional[str]:
    """9: of several lists that may be out of their sets one that is."""
    given = it.given
    if it.name in ("row_of", "number_of"):
        return "number" if it.name == "row_of" else "row"
    if it.name == "label":
        return "holds" if it.above("holds", 1) else "counted"
    if it.name == "check_vendor":
        return "reference"
    if it.name == "task_write":
        return "member_sites"
    if it.above("masks", 1):
        return "masks"
    return _choice_of_tasks(it) or _found_before(it, given["n"])


def _choice_of_tasks(it: _Input) -> Optional[str]:
    given, whole = it.given, "masks" not in it.given
    tasks: Iterable[int] = [0] if whole else _unmasked(it)
    if given["mode"] == Mode.Gperm:
        references = [given["reference"]] if whole else it.items("references")
        if any(references[task] >= given["n"] for task in tasks):
            return "reference" if whole else "references"
    for name, length in choices_of(given).items():
        part = it.items(name)
        for task in tasks:
            if not _in_set(it, name, part[task * length : (task + 1) * length]):
                return name
    return None


def _in_set(it: _Input, name: str, part: Any) -> bool:
    given, one = it.given, it.given["form"] != Form.Sw
    if name == "flips":
        return max(part) <= 1
    if name == "greys":
        return max(part) <= 3 and (not one or min(part) >= 1)
    if given.get("coding") == Coding.Numbers:
        return max(part) <= 119 and (not one or min(part) >= 1)
    members = members_of(given)
    identity = list(range(members))
    rows = [list(part[at : at + members]) for at in range(0, len(part), members)]
    return all(sorted(row) == identity and not (one and row == identity) for row in rows)


def _found_before(it: _Input, n: int) -> Optional[str]:
    """Of a task's second step what its first step found."""
    if it.name == "task_choose":
        taken = exact(it.name, it.given)
        for name, largest in {"labels": n - 1, "grey_labels": n - 1, "member_sites": 1, "blue": 1}.items():
            if name in taken and it.above(name, largest):
                return name
    return None


def _draw(it: _Input) -> Optional[str]:
    """12: else it is the words that the source gave."""
    given = it.given
    if not any(it.items("source")):
        return "source"
    if "m" in given and not 1 <= given["m"] <= (256 if it.name == "fill_bytes_below" else 4096):
        return "m"
    if "members" in given and not 2 <= given["members"] <= 8:
        return "members"
    return "source"


_AT_FAULT: Dict[int, Callable[[_Input], Optional[str]]] = {
    1: _size,
    2: _length,
    3: _spin,
    4: _neighbour,
    5: lambda it: it.has("group", "order", "system"),
    6: lambda it: it.has("text") if it.name == "read_edges" else "couplings",
    7: lambda it: it.has("temperature", "temperatures"),
    8: lambda it: "cuts",
    9: _choice,
    10: lambda it: it.has("seed", "seeds"),
    12: _draw,
    13: lambda it: "text",
    14: lambda it: "totals",
    15: lambda it: it.has("group", "members"),
}


def at_fault(name: str, number: int, given: Given) -> Optional[str]:
    """The name of an argument that this refusal is about, or None. Nothing has been written since the call was made."""
    find = _AT_FAULT.get(number)
    return find(_Input(name, given)) if find else None
