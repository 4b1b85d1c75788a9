#!/usr/bin/env python3
"""A small panel through the Python package: the same program as panel.c and panel.rs. All print panel.out.

A torus of 4 by 4 sites, four systems at two temperatures, one sweep of each mode in the all-clusters form, a sweep that is
refused, and one that grows a cluster in each task. The sweeps keep each system's energy as a total, which is metered before
them, handed over, and held to the meter after each. Then a group of five is moved by permutations that are lent as numbers,
and once more by their rows, and checked as a vendor's. Then some sites are pinned; last, two of the systems go to another
team. The couplings come from an edge list, in the file that is named behind the program, or else in panel.edges beside it;
every choice is drawn from one seed, so that each run is the same.
"""
import copy
import pathlib
import sys
from array import array

try:
    import tsorvenk
except ImportError:  # not installed: the package stands in this repository
    sys.path.insert(0, str(pathlib.Path(__file__).resolve().parents[1] / "bindings" / "python"))
    import tsorvenk
from tsorvenk import Coding, Form, Keeps, Mode, Refused, Source, Stepped

FIVE, SIDE, S, T, R, MEMBERS = 5, 4, 4, 2, 2, 2
TASKS = T * (R // MEMBERS)
PANEL = tsorvenk.torus(SIDE, SIDE)
N, D = PANEL.n, PANEL.d
SOURCE = Source([0x0123456789ABCDEF, 0xFEDCBA9876543210, 0x0F1E2D3C4B5A6978, 0x8796A5B4C3D2E1F0])

# minus the logarithms of eight numbers spread over (0, 1]
CUTS = (2.7726, 1.6740, 1.1632, 0.8267, 0.5754, 0.3747, 0.2076, 0.0645)


def words(length):
    """Room for so many numbers of 32 bits."""
    return array("I", bytes(4 * length))


def coins(length):
    """So many spins, by a coin each."""
    flips = bytearray(length)
    SOURCE.fill_flips(flips)
    return array("b", (1 if coin else -1 for coin in flips))


def labels_of(tasks):
    """What every form but the one that grows writes beside the spins."""
    lengths = {"labels": N, "counts": N + 1, "sizes": 4, "found": 1}
    return {name: words(tasks * length) for name, length in lengths.items()}


class Day:
    """The panel's spins and totals, its couplings and what sweeps write."""

    def __init__(self, path):
        self.tables = {"n": N, "d": D, "fwd": PANEL.fwd, "bwd": PANEL.bwd, "couplings": PANEL.couplings()}
        self.read_couplings(path)
        self.panel = {**self.tables, "s": S, "spins": coins(S * N)}
        self.totals = array("q", bytes(8 * S))
        self.out = {**labels_of(TASKS), "grey_labels": words(TASKS * N), "grey_found": words(TASKS)}

    def read_couplings(self, path):
        """The couplings of the list in a file; then they are written back as a list."""
        text = pathlib.Path(path).read_bytes()
        tsorvenk.read_edges(text=text, **self.tables)
        how = "as they were" if tsorvenk.edges_text(**self.tables) == text else "otherwise"
        print(f"edge list\n  {len(text)} bytes, written back {how}")

    def sweep(self, **more):
        """What every sweep here takes; what only some modes take may be lent in all."""
        call = {
            "keeps": Keeps.Totals, "t": T, "r": R, "members": MEMBERS, "totals": self.totals, "order": array("I", range(S)),
            "masks": bytes(T), "temperatures": array("f", [1.0, 2.5]), **self.panel, **more,
        }  # fmt: skip
        return tsorvenk.sweep(**call)

    def meter(self):
        return array("q", (tsorvenk.energy(system=k, **self.panel) for k in range(S)))

    def print_totals(self):
        how = "as metered" if self.totals == self.meter() else "metered otherwise"
        print(f"  totals{''.join(f' {total:4}' for total in self.totals)}, {how}")

    def start_totals(self):
        """The totals are metered once, and handed over; so is one that is wrong."""
        self.totals = self.meter()
        self.print_totals()
        tsorvenk.hand_over(totals=self.totals, **self.panel)
        print(f"  handed over: {tsorvenk.refusal_words(0)}")
        self.totals[0] += 1
        try:
            tsorvenk.hand_over(totals=self.totals, **self.panel)
        except Refused as refused:
            print(f"  handed over with one too large: refused with {refused.number}")
        self.totals[0] -= 1

    def seeds(self):
        """The first site at which each task's two systems differ: there they act."""
        spins, found = self.panel["spins"], array("I")
        for first in range(0, S * N, MEMBERS * N):
            differ = (i for i in range(N) if spins[first + i] != spins[first + N + i])
            found.append(next(differ, N - 1))
        return found


def make_choices():
    """The library draws every choice but the cuts, for which an index is drawn."""
    cuts, references = bytearray(TASKS * N * D), words(TASKS)
    flips, perms, greys = bytearray(TASKS * N), bytearray(TASKS * N * MEMBERS), bytearray(TASKS * N)
    SOURCE.fill_bytes_below(8, cuts)
    SOURCE.fill_below(N, references)
    SOURCE.fill_flips(flips)
    SOURCE.fill_permutations(MEMBERS, perms)
    SOURCE.fill_bytes_below(4, greys)
    cuts = array("f", (CUTS[cut] for cut in cuts))
    return {"cuts": cuts, "references": references, "flips": flips, "perms": perms, "greys": greys}


def listed(numbers):
    return " ".join(map(str, numbers))


def print_numbers(what, found, labels):
    """How many components each task has, and the number of each site's in the first."""
    print(f"  {what} {', '.join(map(str, found))}; numbers of the first {listed(labels[:N])}")


def sweep_all(day, mode, choices):
    """A sweep of all clusters."""
    try:
        swept = day.sweep(mode=mode, form=Form.Sw, **choices, **day.out)
    except Refused as refused:
        print(f"{mode.name.lower()}: refused with {refused.number}")
        return
    sizes = ", ".join(listed(day.out["sizes"][4 * k : 4 * k + 4]) for k in range(TASKS))
    print(f"{mode.name.lower()}: {swept.idle} idle, {swept.moved} moved; largest components {sizes}")
    print_numbers("found", day.out["found"], day.out["labels"])
    if mode == Mode.Cmr:
        print_numbers("grey found", day.out["grey_found"], day.out["grey_labels"])


def refuse_one(day):
    """A fault in the last task: the first task does not move either."""
    choices = make_choices()
    choices["flips"][-1] = 2
    before = copy.deepcopy((day.panel["spins"], day.totals, day.out))
    sweep_all(day, Mode.Pair, choices)
    same = before == (day.panel["spins"], day.totals, day.out)
    print(f"  {'every buffer is as it was' if same else 'buffers were written'}")


def grow(day, cuts):
    """One cluster in each task. No labels, counts and sizes are taken."""
    sites = bytearray(TASKS * N)
    swept = day.sweep(mode=Mode.Jorg, form=Form.Grow, cuts=cuts, seeds=day.seeds(), member_sites=sites)
    members = ", ".join(str(sum(sites[k * N : k * N + N])) for k in range(TASKS))
    print(f"jorg grown: {swept.idle} idle, {swept.moved} moved; members {members}")


def move_five():
    """Five systems are moved by numbers, a byte for each choice, and once more by the rows of these, five bytes each."""
    tables = {"n": N, "d": D, "fwd": PANEL.fwd, "bwd": PANEL.bwd}
    before, numbers = coins(FIVE * N), bytearray(N)
    SOURCE.fill_numbers(numbers)
    rows = b"".join(tsorvenk.row_of(number=number) for number in numbers)
    spins, again = before[:], before[:]
    for moved, coding, perms in ((spins, Coding.Numbers, numbers), (again, Coding.Rows, rows)):
        group = array("I", range(FIVE))
        tsorvenk.step(
            mode=Mode.Perm, form=Form.Sw, coding=coding, s=FIVE, spins=moved, group=group, perms=perms, **tables, **labels_of(1)
        )
    print(f"five by {N} numbers, and by their rows: {'the same' if spins == again else 'other'} spins")
    print(f"  the first row is {listed(rows[:FIVE])}, and its number {tsorvenk.number_of(row=rows[:FIVE])}")
    check = {"mode": Mode.Perm, "members": FIVE, "before": before, "rows": bytearray(FIVE * N), **tables}
    told = tsorvenk.check_vendor(after=spins, **check)
    accepted = "accepted" if told == tsorvenk.Accepted() else "not accepted"
    print(f"  checked as a vendor's: {accepted}, by {listed(check['rows'][:FIVE])} first")
    spins[-1] = -spins[-1]
    told = tsorvenk.check_vendor(after=spins, **check)
    print(f"  with one spin turned: not accepted, for component {told.component}")


def hold_some(day, cuts):
    """Two sites do not move any more, nor does what hangs together with them."""
    pins = bytearray(N)
    pins[9] = pins[14] = 1
    seeds = day.seeds()
    swept = day.sweep(mode=Mode.Pair, form=Form.Wolff, cuts=cuts, pins=pins, seeds=seeds, **labels_of(TASKS))
    print(f"pair pinned: {swept.idle} idle, {swept.moved} moved, {swept.held} held")
    day.print_totals()
    stepped = tsorvenk.step(
        mode=Mode.Pair, form=Form.Wolff, keeps=Keeps.Totals, totals=day.totals, pins=pins, group=array("I", range(MEMBERS)),
        seed=seeds[0], **day.panel, **labels_of(1),
    )  # fmt: skip
    print(f"  from site {seeds[0]}: {tsorvenk.refusal_words(stepped.value)}")
    assert stepped is Stepped.Held
    day.print_totals()


def share(day):
    """The second team has the systems 1 and 3: it exchanges them wherever they differ, at one temperature, and a system of the
    first is none to it."""
    owners = bytes([0, 1, 0, 1])
    spins, totals = day.panel["spins"][:], day.totals[:]
    call = {"mode": Mode.Pair, "form": Form.Sw, "team": 1, "owners": owners, "t": 1, "r": 2, "masks": bytes(1)}
    call.update(flips=b"\1" * N, **labels_of(1))
    swept = day.sweep(order=tsorvenk.own_systems(owners=owners, team=1), **call)
    print(f"two teams: {swept.idle} idle, {swept.moved} moved")
    now = day.panel["spins"]
    kept = all(now[k * N : k * N + N] == spins[k * N : k * N + N] and day.totals[k] == totals[k] for k in (0, 2))
    print(f"  the first team's rows and totals {'are as they were' if kept else 'were written'}")
    try:
        day.sweep(order=array("I", [1, 2]), **call)
    except Refused as refused:
        print(f"  with a system of the first: refused with {refused.number}")
    day.print_totals()


def main():
    beside = pathlib.Path(__file__).resolve().parent / "panel.edges"
    day = Day(sys.argv[1] if len(sys.argv) > 1 else beside)
    print("start")
    day.start_totals()
    for mode in Mode:
        sweep_all(day, mode, make_choices())
        day.print_totals()
    refuse_one(day)
    day.print_totals()
    cuts = make_choices()["cuts"]
    grow(day, cuts)
    day.print_totals()
    move_five()
    hold_some(day, cuts)
    share(day)


if __name__ == "__main__":
    main()
