"""The exact length of every buffer that a call takes, by its mode and form: what the header says, as numbers.

The library tests lengths itself. This is for naming the buffer that it refused.
"""
from __future__ import annotations

from typing import Any, Callable, Dict, Mapping

from ._answers import Coding, Form, Keeps, Mode
from ._buffers import items

Lengths = Dict[str, int]
Given = Mapping[str, Any]

DRAWS = (Mode.Jorg, Mode.Cmr)
PERMUTES = (Mode.Perm, Mode.Gperm)


def moves(given: Given) -> bool:
    """Whether the form moves anything."""
    return given["form"] != Form.Observe


def keeps_totals(given: Given) -> bool:
    """Whether the call keeps totals: to observe keeps nothing."""
    return given.get("keeps") == Keeps.Totals and moves(given)


def takes_perms(given: Given) -> bool:
    """Whether permutations are taken, and so whether they may be numbers."""
    return given["mode"] in PERMUTES and moves(given)


def members_of(given: Given) -> int:
    """N: the members, or of a step the length of its group."""
    if "members" in given:
        return given["members"]
    return len(items(given["group"], "u32"))


def task_count(given: Given) -> int:
    """K, the number of a sweep's tasks."""
    return given["t"] * (given["r"] // given["members"]) if given["members"] else 0


def choices_of(given: Given) -> Lengths:
    """What one task's choices are lent by."""
    mode, form, n, members = given["mode"], given["form"], given["n"], members_of(given)
    found: Lengths = {}
    each = n if form == Form.Sw else 1
    if form == Form.Sw and mode not in PERMUTES:
        found["flips"] = n
    if takes_perms(given):
        found["perms"] = each * (1 if given.get("coding") == Coding.Numbers else members)
    if mode == Mode.Cmr and moves(given):
        found["greys"] = each
    return found


def outputs_of(given: Given) -> Lengths:
    """What one task writes beside spins and totals."""
    n, grey = given["n"], given["mode"] == Mode.Cmr and given["form"] in (Form.Sw, Form.Wolff)
    if given["form"] == Form.Grow:
        return {"member_sites": n}
    found = {"labels": n}
    if grey:
        found["grey_labels"] = n
    found.update(counts=n + 1, sizes=4, found=1)
    if grey:
        found["grey_found"] = 1
    return found


def _bonds(given: Given) -> Lengths:
    """The tables, the pins and, where they are taken, the couplings."""
    found = {"fwd": given["n"] * given["d"], "bwd": given["n"] * given["d"], "pins": given["n"]}
    if given["mode"] in DRAWS or keeps_totals(given):
        found["couplings"] = given["n"] * given["d"]
    return found


def _cuts(given: Given) -> Lengths:
    return {"cuts": given["n"] * given["d"]} if given["mode"] in DRAWS else {}


def _owned(given: Given) -> Lengths:
    found = {"owners": given["s"], "spins": given["s"] * given["n"]}
    if "keeps" in given and keeps_totals(given):
        found["totals"] = given["s"]
    return found


def _step(given: Given) -> Lengths:
    return {**_owned(given), **_bonds(given), **_cuts(given), **choices_of(given), **outputs_of(given)}


def _test_sweep(given: Given) -> Lengths:
    found, tasks = {**_owned(given), **_bonds(given)}, task_count(given)
    found.update(order=given["t"] * given["r"], masks=given["t"])
    if given["mode"] in DRAWS:
        found["temperatures"] = given["t"]
    areas = dict(_cuts(given))
    if given["mode"] == Mode.Gperm:
        areas["references"] = 1
    if given["form"] in (Form.Wolff, Form.Grow):
        areas["seeds"] = 1
    areas.update(choices_of(given))
    areas.update(outputs_of(given))
    return {**found, **{name: tasks * length for name, length in areas.items()}}


def _sweep(given: Given) -> Lengths:
    return {**_test_sweep(given), "outcomes": 3}


def _blue(given: Given) -> Lengths:
    return {"blue": given["n"]} if given["mode"] == Mode.Cmr and given["form"] == Form.Grow else {}


def _rows(given: Given) -> Lengths:
    return {"rows": given["members"] * given["n"]}


def _task_label(given: Given) -> Lengths:
    return {
        **_rows(given), **_bonds(given), **_cuts(given), **choices_of(given), **outputs_of(given), **_blue(given)
    }  # fmt: skip


def _task_choose(given: Given) -> Lengths:
    found = {**_rows(given), "pins": given["n"], **choices_of(given)}
    if moves(given):
        lists = outputs_of(given)
        found.update({name: lists[name] for name in ("labels", "grey_labels", "member_sites") if name in lists})
    return {**found, **_blue(given), "area": given["n"]}


def _task_write(given: Given) -> Lengths:
    found, bonds = _rows(given), given["n"] * given["d"]
    if keeps_totals(given):
        found.update(totals=given["members"], fwd=bonds, bwd=bonds, couplings=bonds)
    if given["form"] == Form.Grow:
        found["member_sites"] = given["n"]
    return {**found, "area": given["n"]}


def _packed(given: Given) -> Lengths:
    return {**_rows(given), "columns": given["n"]}


def _packed_step(given: Given) -> Lengths:
    found = {"columns": given["n"]}
    if keeps_totals(given):
        found["totals"] = given["members"]
    return {**found, **_bonds(given), **_cuts(given), **choices_of(given), **outputs_of(given)}


def _check_vendor(given: Given) -> Lengths:
    bonds, rows = given["n"] * given["d"], given["members"] * given["n"]
    return {"fwd": bonds, "bwd": bonds, "pins": given["n"], "before": rows, "after": rows, "rows": rows, "fault": 1}


def _metered(given: Given) -> Lengths:
    bonds, found = given["n"] * given["d"], _owned(given)
    if "totals" in given:
        found["totals"] = given["s"]
    found.update(fwd=bonds, bwd=bonds, couplings=bonds)
    return {**found, "energy": 1} if "energy" in given else found


def _label(given: Given) -> Lengths:
    n, bonds = given["n"], given["n"] * given["d"]
    return {"fwd": bonds, "holds": bonds, "counted": n, "labels": n, "counts": n + 1, "sizes": 4, "found": 1}


def _edges(given: Given) -> Lengths:
    bonds = given["n"] * given["d"]
    found = {"fwd": bonds, "bwd": bonds, "couplings": bonds}
    return {**found, "written": 1} if "written" in given else found


def _draw(given: Given) -> Lengths:
    found = {"source": 4}
    found.update({name: 1 for name in ("word", "coin", "number") if name in given})
    if "row" in given:
        found["row"] = given["members"]
    return found


_EXACT: Dict[str, Callable[[Given], Lengths]] = {
    "step": _step, "sweep": _sweep, "test_sweep": _test_sweep,
    "task_label": _task_label, "task_choose": _task_choose, "task_write": _task_write,
    "pack": _packed, "unpack": _packed, "packed_step": _packed_step, "check_vendor": _check_vendor,
    "energy": _metered, "hand_over": _metered, "label": _label, "read_edges": _edges, "write_edges": _edges,
    "row_of": lambda given: {"row": 5}, "number_of": lambda given: {"row": 5, "number": 1},
    "frames": lambda given: {"written": 1},
}  # fmt: skip


def exact(name: str, given: Given) -> Lengths:
    """Of each buffer that this call takes and that has one exact length, this length, in the order of the arguments."""
    return _EXACT.get(name, _draw)(given)
