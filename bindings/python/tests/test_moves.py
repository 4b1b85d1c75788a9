"""Moves, growth, sweeps, totals and the packed layout, each against another of them."""
import unittest

from support import ALL, D, N, Case, Coding, Form, Keeps, Maker, Mode, content, copied, exact, kind_of, lent, tsorvenk
from tsorvenk import Stepped, Swept
from tsorvenk._tables import FUNCTIONS

OUTPUTS = ("labels", "grey_labels", "counts", "sizes", "member_sites", "found", "grey_found")


def rows_of(call, systems):
    spins = content(call["spins"])
    return b"".join(spins[k * N : k * N + N] for k in systems)


def metered(call, totals):
    """The call's totals, made by the meter."""
    panel = {name: call[name] for name in ("n", "d", "s", "spins", "fwd", "bwd", "couplings")}
    return lent("i64", [tsorvenk.energy(system=k, **panel) for k in range(totals)])


class Steps(Case):
    def test_each_mode_and_form_moves(self):
        for mode, form in ALL:
            for keeps in Keeps:
                with self.subTest((mode, form, keeps)):
                    call = Maker().make("step", mode, form, keeps=keeps)
                    before = content(call["spins"])
                    self.assertIs(tsorvenk.step(**call), Stepped.Moved)
                    if form == Form.Observe:
                        self.assertEqual(content(call["spins"]), before)
                    elif form != Form.Sw:
                        self.assertNotEqual(content(call["spins"]), before)
                    self.assertEqual(rows_of(call, [2]), before[2 * N :])

    def test_idle_and_held(self):
        for form in Form:
            call = Maker().make("step", Mode.Pair, form)
            call["spins"] = lent("i8", [1] * (3 * N))
            self.assertIs(tsorvenk.step(**call), Stepped.Idle)
        for form, answer in {Form.Sw: Stepped.Moved, Form.Observe: Stepped.Moved, Form.Wolff: Stepped.Held, Form.Grow: Stepped.Held}.items():
            call = Maker().make("step", Mode.Pair, form)
            before = content(call["spins"])
            self.assertIs(tsorvenk.step(pins=lent("u8", [1] * N), **call), answer)
            self.assertEqual(content(call["spins"]), before)

    def test_what_is_not_taken_may_be_anything(self):
        for mode, form in ALL:
            with self.subTest((mode, form)):
                call = Maker().make("step", mode, form)
                other = copied(call)
                more = {one.name for one in FUNCTIONS["step"].parameters if one.lent} - set(call) - {"owners", "pins"}
                junk = {name: lent(kind_of("step", name), [77, 77, 77]) for name in more}
                self.assertEqual(tsorvenk.step(**call), tsorvenk.step(**other, **junk))
                for name in junk:
                    self.assertEqual(self.items(junk[name]), [77, 77, 77], name)
                for name in set(call) & {"spins", *OUTPUTS}:
                    self.assertEqual(content(call[name]), content(other[name]), name)

    def test_growing_is_wolffs_move(self):
        for mode in Mode:
            wolff, grown = Maker(3).make("step", mode, Form.Wolff), Maker(3).make("step", mode, Form.Grow)
            for name in set(grown) - {"form", "member_sites"}:
                grown[name] = copied(wolff)[name]
            tsorvenk.step(**wolff)
            tsorvenk.step(**grown)
            self.assertEqual(content(wolff["spins"]), content(grown["spins"]))
            labels = self.items(wolff["grey_labels" if mode == Mode.Cmr else "labels"])
            self.assertEqual(self.items(grown["member_sites"]), [int(label == labels[0]) for label in labels])

    def test_totals_stay_metered(self):
        for mode, form in ALL:
            with self.subTest((mode, form)):
                call = Maker(5).make("step", mode, form, keeps=Keeps.Totals)
                if form == Form.Observe:
                    continue
                call["totals"] = metered(call, 3)
                tsorvenk.step(**call)
                self.assertEqual(self.items(call["totals"]), self.items(metered(call, 3)))
                panel = {name: call[name] for name in ("n", "d", "s", "spins", "totals", "fwd", "bwd", "couplings")}
                self.assertIsNone(tsorvenk.hand_over(**panel))

    def test_numbers_are_their_rows(self):
        for mode in (Mode.Perm, Mode.Gperm):
            for form in (Form.Sw, Form.Wolff, Form.Grow):
                numbers = Maker().make("step", mode, form, coding=Coding.Numbers, members=5)
                rows = {**copied(numbers), "coding": Coding.Rows}
                spelt = b"".join(tsorvenk.row_of(number=int(number)) for number in numbers["perms"])
                rows["perms"] = lent("u8", spelt)
                self.assertEqual(tsorvenk.step(**numbers), tsorvenk.step(**rows))
                self.assertEqual(content(numbers["spins"]), content(rows["spins"]))

    def test_two_teams(self):
        call = Maker().make("step", Mode.Pair, Form.Grow)
        call["owners"] = lent("u8", [1, 1, 0])
        call["spins"][2 * N] = 77
        self.assertIs(tsorvenk.step(team=1, **call), Stepped.Moved)
        self.assertEqual(call["spins"][2 * N], 77)
        self.refused("step", {**call, "team": 0}, 5, "group")
        self.assertEqual(self.items(tsorvenk.own_systems(owners=call["owners"], team=1)), [0, 1])
        self.assertEqual(self.items(tsorvenk.own_systems(owners=b"", team=0)), [])
        for change, argument in (({"owners": b"\x02", "team": 0}, "owners"), ({"owners": b"\x01", "team": 2}, "team")):
            with self.assertRaises(tsorvenk.Refused) as caught:
                tsorvenk.own_systems(**change)
            self.assertEqual((caught.exception.number, caught.exception.argument), (3, argument))


class Packed(Case):
    def test_packing_and_back(self):
        rows = lent("i8", Maker().rows(3, 3))
        columns, again = lent("u8", [0] * N), lent("i8", [0] * (3 * N))
        self.assertIsNone(tsorvenk.pack(n=N, members=3, rows=rows, columns=columns))
        self.assertEqual(columns[0], 0b101)
        self.assertIsNone(tsorvenk.unpack(n=N, members=3, columns=columns, rows=again))
        self.assertEqual(content(again), content(rows))

    def test_a_step_on_bytes_is_the_step_on_rows(self):
        for mode, form in ALL:
            with self.subTest((mode, form)):
                call = Maker(7).make("packed_step", mode, form, keeps=Keeps.Totals)
                rows = lent("i8", [0] * (2 * N))
                tsorvenk.unpack(n=N, members=2, columns=call["columns"], rows=rows)
                step = {name: value for name, value in copied(call).items() if name not in ("members", "columns")}
                step.update(s=2, group=lent("u32", [0, 1]), spins=rows)
                self.assertIs(tsorvenk.packed_step(**call), tsorvenk.step(**step))
                packed = lent("u8", [0] * N)
                tsorvenk.pack(n=N, members=2, rows=rows, columns=packed)
                self.assertEqual(content(packed), content(call["columns"]))
                for name in set(call) & {"totals", *OUTPUTS}:
                    self.assertEqual(content(call[name]), content(step[name]), name)


class Sweeps(Case):
    def task(self, call, task):
        """The step that a task of a sweep is."""
        members, each = call["members"], call["r"] // call["members"]
        j, g = divmod(task, each)
        first = j * call["r"] + g * members
        step = {name: call[name] for name in ("mode", "form", "coding", "keeps", "n", "d", "s", "spins", "fwd", "bwd")}
        step["group"] = lent("u32", self.items(call["order"])[first : first + members])
        for name in ("couplings", "totals"):
            if name in call:
                step[name] = call[name]
        one = exact("step", {**step, "group": step["group"]})
        for name in ("cuts", "flips", "perms", "greys", *OUTPUTS):
            if name in call:
                length = one[name]
                step[name] = memoryview(call[name])[task * length : (task + 1) * length]
        for name, many in (("temperature", "temperatures"), ("reference", "references"), ("seed", "seeds")):
            if many in call:
                step[name] = self.items(call[many])[j if many == "temperatures" else task]
        return step

    def test_a_sweep_is_its_tasks(self):
        for mode, form in ALL:
            for keeps in Keeps:
                with self.subTest((mode, form, keeps)):
                    call = Maker(9).make("sweep", mode, form, keeps=keeps)
                    tasks = copied(call)
                    self.assertEqual(tsorvenk.sweep(**call), Swept(idle=0, moved=2, held=0))
                    for task in range(2):
                        self.assertIs(tsorvenk.step(**self.task(tasks, task)), Stepped.Moved)
                    for name in set(call) & {"spins", "totals", *OUTPUTS}:
                        self.assertEqual(content(call[name]), content(tasks[name]), name)

    def test_counts_and_their_buffer(self):
        call = Maker().make("sweep", Mode.Pair, Form.Wolff)
        outcomes, pins = lent("u32", [9, 9, 9]), lent("u8", [1] + [0] * (N - 1))
        self.assertEqual(tsorvenk.sweep(pins=pins, outcomes=outcomes, **call), Swept(0, 0, 2))
        self.assertEqual(self.items(outcomes), [0, 0, 2])
        call["masks"][1] = 1
        self.assertEqual(tsorvenk.sweep(pins=pins, **call), Swept(0, 0, 1))
        call["spins"] = lent("i8", [1] * (6 * N))
        self.assertEqual(tsorvenk.sweep(**call), Swept(1, 0, 0))
        self.refused("sweep", {**call, "outcomes": lent("u32", [0, 0])}, 2, "outcomes")

    def test_a_team_sweeps_its_own(self):
        call = Maker().make("sweep", Mode.Pair, Form.Sw)
        owners = lent("u8", [0, 1, 0, 1, 0, 0])
        mine = tsorvenk.own_systems(owners=owners, team=1)
        call.update(t=1, r=2, order=mine, masks=lent("u8", [0]), owners=owners, team=1)
        for name, length in exact("sweep", call).items():
            if name in ("flips", *OUTPUTS):
                call[name] = lent(kind_of("sweep", name), [1] * length)
        others, first, second = (rows_of(call, systems) for systems in ([0, 2, 4, 5], [1], [3]))
        self.assertEqual(tsorvenk.sweep(**call), Swept(idle=0, moved=1, held=0))
        self.assertEqual(rows_of(call, [0, 2, 4, 5]), others)
        # at each site the two have what they had, some of it exchanged
        after = list(zip(rows_of(call, [1]), rows_of(call, [3])))
        self.assertEqual(list(map(sorted, after)), list(map(sorted, zip(first, second))))
        self.assertNotEqual(rows_of(call, [1]), first)


class Vendor(Case):
    def test_accepted_and_not(self):
        panel = tsorvenk.torus(4)
        before = [1, 1, 1, 1, -1, 1, 1, 1, 1, -1, 1, -1]
        rows, fault = lent("u8", [9] * 12), lent("u32", [9])

        def check(after, **more):
            return tsorvenk.check_vendor(
                mode=Mode.Perm, n=4, d=1, members=3, fwd=panel.fwd, bwd=panel.bwd, before=lent("i8", before),
                after=lent("i8", after), rows=rows, **more,
            )  # fmt: skip

        self.assertEqual(check([-1, 1, 1, 1, 1, -1, 1, -1, 1, 1, 1, 1]), tsorvenk.Accepted())
        self.assertEqual(self.items(rows), [1, 2, 0, 0, 1, 2, 0, 1, 2, 0, 1, 2])
        self.assertEqual(check([1, 1, -1, 1, -1, 1, 1, 1, 1, -1, 1, -1], fault=fault), tsorvenk.Fault(1))
        self.assertEqual((self.items(fault), self.items(rows)[:3]), ([1], [1, 2, 0]))
        pins = lent("u8", [1, 0, 0, 0])
        self.assertEqual(check([-1, 1, 1, 1, 1, -1, 1, -1, 1, 1, 1, 1], pins=pins), tsorvenk.Fault(0))

    def test_our_own_moves_are_accepted(self):
        for mode in (Mode.Perm, Mode.Gperm):
            for form in (Form.Sw, Form.Wolff, Form.Grow):
                call = Maker(2).make("step", mode, form, members=4)
                before = lent("i8", self.items(call["spins"])[: 4 * N])
                tsorvenk.step(**call)
                after, rows = lent("i8", self.items(call["spins"])[: 4 * N]), lent("u8", [0] * (4 * N))
                checked = tsorvenk.check_vendor(
                    mode=mode, n=N, d=D, members=4, reference=1, fwd=call["fwd"], bwd=call["bwd"], before=before,
                    after=after, rows=rows,
                )  # fmt: skip
                self.assertEqual(checked, tsorvenk.Accepted())


if __name__ == "__main__":
    unittest.main()
