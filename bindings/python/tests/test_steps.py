"""A sweep's tasks in any order: the three steps of each give what the sweep gives.

Left out only where the shared object does not have the four functions.
"""
import random
import unittest

from support import ALL, D, N, Case, Form, Keeps, Maker, Mode, content, copied, exact, has_steps, lent, resized, tsorvenk
from tsorvenk import Stepped

OUTPUTS = ("labels", "grey_labels", "counts", "sizes", "member_sites", "found", "grey_found")


class Task:
    """A task of a sweep: its own rows and totals, its parts of the sweep's buffers, and its three steps."""

    def __init__(self, sweep, task):
        self.sweep, members = sweep, sweep["members"]
        first = task // (sweep["r"] // members) * sweep["r"] + task % (sweep["r"] // members) * members
        self.group = [int(system) for system in sweep["order"][first : first + members]]
        self.rows = lent("i8", self.taken("spins", N))
        self.shape = {name: sweep[name] for name in ("mode", "form", "n", "d")}
        self.shape["members"] = members
        self.tables = {name: sweep[name] for name in ("fwd", "bwd", "couplings", "pins") if name in sweep}
        lengths = exact("task_label", {**self.shape, "rows": self.rows, "pins": None})
        self.part = {}
        for name in ("cuts", "flips", "perms", "greys", *OUTPUTS):
            if name in sweep:
                self.part[name] = memoryview(sweep[name])[task * lengths[name] : (task + 1) * lengths[name]]
        self.drawn = {"temperature": 1.0 + task // (sweep["r"] // members)}
        for name, many in (("reference", "references"), ("seed", "seeds")):
            if many in sweep:
                self.drawn[name] = int(sweep[many][task])
        self.blue, self.area = lent("u8", [0] * N), lent("u8", [0] * N)
        self.totals = lent("i64", self.taken("totals", 1)) if "totals" in sweep else None

    def taken(self, name, size):
        values = list(self.sweep[name])
        return [values[k * size + i] for k in self.group for i in range(size)]

    def label(self):
        self.answer = tsorvenk.task_label(**self.shape, rows=self.rows, **self.tables, **self.drawn, **self.part, blue=self.blue)

    def choose(self):
        own = {name: self.part[name] for name in ("flips", "perms", "greys", "labels", "grey_labels", "member_sites") if name in self.part}
        own.update({name: self.drawn[name] for name in ("reference", "seed") if name in self.drawn})
        pins = self.tables.get("pins")
        tsorvenk.task_choose(**self.shape, rows=self.rows, pins=pins, **own, blue=self.blue, area=self.area)

    def write(self):
        tables = {name: self.tables[name] for name in ("fwd", "bwd", "couplings") if name in self.tables}
        sites = self.part.get("member_sites")
        tsorvenk.task_write(
            **self.shape, keeps=self.sweep["keeps"], rows=self.rows, totals=self.totals, **tables, member_sites=sites,
            area=self.area,
        )  # fmt: skip

    def merge(self):
        for at, k in enumerate(self.group):
            self.sweep["spins"][k * N : k * N + N] = self.rows[at * N : at * N + N]
            if self.totals is not None:
                self.sweep["totals"][k] = self.totals[at]


@unittest.skipUnless(has_steps(), "the shared object does not have the three steps yet")
class ThreeSteps(Case):
    def mixed(self, call, seed):
        """The steps of all tasks in some order that keeps each task's own three in theirs."""
        tasks = [Task(call, task) for task in range(call["t"])]
        left = [step for task in tasks for step in [task] * 3]
        random.Random(seed).shuffle(left)
        done = {id(task): iter((task.label, task.choose, task.write)) for task in tasks}
        for task in left:
            next(done[id(task)])()
        for task in tasks:
            task.merge()
        answers = [task.answer for task in tasks]
        return tsorvenk.Swept(*(answers.count(one) for one in (Stepped.Idle, Stepped.Moved, Stepped.Held)))

    def test_every_order_is_the_sweep(self):
        for mode, form in ALL:
            for keeps in Keeps:
                for seed in range(4):
                    with self.subTest((mode, form, keeps, seed)):
                        call = Maker(seed).make("sweep", mode, form, keeps=keeps, t=3)
                        if seed % 2:
                            call["pins"] = lent("u8", [0] * 4 + [seed // 2] + [0] * (N - 5))
                        steps = copied(call)
                        tested = {name: value for name, value in call.items() if name not in ("coding", "outcomes")}
                        self.assertIsNone(tsorvenk.test_sweep(**tested))
                        swept = tsorvenk.sweep(**call)
                        self.assertEqual(self.mixed(steps, seed), swept)
                        for name in set(call) & {"spins", "totals", *OUTPUTS}:
                            self.assertEqual(content(call[name]), content(steps[name]), name)

    def test_a_tested_sweep_is_refused_as_the_sweep_is(self):
        for mode, form in ALL:
            call = Maker().make("sweep", mode, form)
            tested = {name: value for name, value in call.items() if name != "coding"}
            for name in set(exact("test_sweep", tested)) & set(tested):
                wrong = resized("sweep", name, call[name], len(call[name]) + 1)
                self.refused("sweep", {**call, name: wrong}, 2, name)
                self.refused("test_sweep", {**tested, name: wrong}, 2, name)

    def test_answers(self):
        for pins, spins, answer in ((0, None, Stepped.Moved), (1, None, Stepped.Held), (0, 1, Stepped.Idle)):
            call = Maker().make("task_label", Mode.Pair, Form.Wolff)
            if spins:
                call["rows"] = lent("i8", [1] * (2 * N))
            self.assertIs(tsorvenk.task_label(pins=lent("u8", [pins] * N), **call), answer)

    def chosen(self, mode, form):
        """A second and a third step that are accepted."""
        call = Maker().make("task_label", mode, form)
        call["blue"] = lent("u8", [0] * N)
        tsorvenk.task_label(**call)
        names = ("mode", "form", "n", "d", "members", "rows", "reference", "seed", "flips", "perms", "greys", "labels", "grey_labels")
        choose = {name: call[name] for name in (*names, "member_sites", "blue") if name in call}
        choose.update(area=lent("u8", [0] * N), pins=lent("u8", [0] * N))
        tsorvenk.task_choose(**choose)
        write = {name: call[name] for name in ("mode", "form", "n", "d", "members", "rows", "fwd", "bwd", "member_sites") if name in call}
        write.update(keeps=Keeps.Totals, totals=lent("i64", [0, 0]), couplings=lent("i32", [1] * (N * D)), area=choose["area"])
        tsorvenk.task_write(**copied(write))
        return choose, write

    def test_refusals_of_the_second_and_third(self):
        for mode, form in ALL:
            with self.subTest((mode, form)):
                choose, write = self.chosen(mode, form)
                for function, call in (("task_choose", choose), ("task_write", write)):
                    for name, wrong in {"n": 0, "d": 5, "members": 9, "mode": 6, "form": 4}.items():
                        self.refused(function, {**call, name: wrong}, 1, name)
                    for name, length in exact(function, call).items():
                        self.refused(function, {**call, name: resized(function, name, call[name], length + 1)}, 2, name)
                    rows = copied(call)
                    rows["rows"][3] = 0
                    self.refused(function, rows, 3, "rows")
                self.wrong_bytes(choose, write)

    def wrong_bytes(self, choose, write):
        wrong = {"pins": (4, 2), "flips": (9, 2), "perms": (9, 2), "greys": (9, 4), "labels": (9, N), "grey_labels": (9, N)}
        wrong.update(member_sites=(9, 2), blue=(9, 2))
        taken = exact("task_choose", choose)
        for name, (number, value) in wrong.items():
            if name in taken:
                call = copied(choose)
                call[name][len(call[name]) - 1] = value
                self.refused("task_choose", call, number, name)
        if choose["form"] in (Form.Wolff, Form.Grow):
            self.refused("task_choose", {**choose, "seed": N}, 10, "seed")
        if choose["mode"] == Mode.Gperm:
            self.refused("task_choose", {**choose, "reference": N}, 9, "reference")
        wrong = {"area": (3, 4, "area")}
        if write["form"] != Form.Observe:
            wrong.update(fwd=(4, N, "fwd"), couplings=(6, 1000001, "couplings"), totals=(14, 2**40, "totals"))
        if write["form"] == Form.Grow:
            wrong["member_sites"] = (9, 2, "member_sites")
        for name, (number, value, argument) in wrong.items():
            call = copied(write)
            # site 0 is a member, and the last site of a list of marks may be anything else
            call[name][0 if name != "member_sites" else N - 1] = value
            self.refused("task_write", call, number, argument)


if __name__ == "__main__":
    unittest.main()
