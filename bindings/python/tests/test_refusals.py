"""Every refusal of every function: its number, the argument that it names, and that no buffer was written."""
import unittest

from support import ALL, N, Case, Coding, Form, Keeps, Maker, Mode, copied, exact, has_steps, kind_of, lent, resized, tsorvenk

MOVES = ("step", "packed_step", "sweep") + (("test_sweep", "task_label") if has_steps() else ())


def changed(call, name, place, value):
    """The call with another value at one place of a buffer, and buffers of its own."""
    call = copied(call)
    call[name][place] = value
    return call


def changed_number(call, **numbers):
    return {**copied(call), **numbers}


class Sizes(Case):
    def test_1_the_size_or_code_is_named(self):
        for function in MOVES:
            call = Maker().make(function, Mode.Pair, Form.Wolff)
            wrong = {"n": (0, 4097, 2**64 - 1), "d": (0, 5), "s": (0, 65), "mode": (6, 255), "form": (4,), "coding": (2,)}
            wrong.update(keeps=(2,), members=(0, 1, 9), t=(0,), r=(0,))
            for name, numbers in wrong.items():
                # with another s left out owners are as many, and with another s or t the lengths are looked at later
                for number in numbers if name in call else ():
                    with self.subTest(f"{function} {name} {number}"):
                        self.refused(function, changed_number(call, **{name: number}), 1, name)

    def test_1_a_group_of_a_wrong_size(self):
        call = Maker().make("step", Mode.Pair, Form.Wolff)
        for group in ([], [0], range(9)):
            self.refused("step", changed_number(call, group=lent("u32", group)), 1, "group")
        self.refused("step", {**Maker().make("step", Mode.Cmr, Form.Sw), "group": lent("u32", [0, 1, 2])}, 1, "group")
        numbers = Maker().make("step", Mode.Perm, Form.Sw)
        self.refused("step", changed_number(numbers, coding=Coding.Numbers), 1, "group")
        self.refused("sweep", {**Maker().make("sweep", Mode.Cmr, Form.Sw), "members": 3}, 1, "members")
        self.refused("packed_step", {**Maker().make("packed_step", Mode.Cmr, Form.Sw), "members": 3}, 1, "members")

    def test_1_temperatures_and_replicas(self):
        call = Maker().make("sweep", Mode.Pair, Form.Sw)
        self.refused("sweep", changed_number(call, members=4), 1, "members")
        # how these go together is no fault of one of them
        self.refused("sweep", changed_number(call, t=3), 1, None)
        self.refused("sweep", changed_number(call, r=2), 1, None)
        self.refused("sweep", changed_number(call, owners=lent("u8", [0, 0, 0, 0, 0, 1])), 1, None)

    def test_1_of_the_others(self):
        ring = tsorvenk.torus(3)
        panel = {"n": 3, "d": 1, "fwd": ring.fwd, "bwd": ring.bwd}
        three = lent("i8", [1, 1, 1])
        label = {name: lent("u32", [0] * k) for name, k in (("labels", 3), ("counts", 4), ("sizes", 4), ("found", 1))}
        calls = {
            "energy": {**panel, "s": 1, "spins": three, "couplings": ring.couplings(), "system": 0},
            "hand_over": {**panel, "s": 1, "spins": three, "couplings": ring.couplings(), "totals": lent("i64", [0])},
            "label": {"n": 3, "d": 1, "fwd": ring.fwd, "holds": bytes(3), "counted": bytes(3), **label},
            "read_edges": {**panel, "text": b"3 0\n", "couplings": lent("i32", [9] * 3)},
            "write_edges": {**panel, "text": bytearray(9), "couplings": ring.couplings()},
            "pack": {"n": 3, "members": 2, "rows": lent("i8", [1] * 6), "columns": bytearray(3)},
            "unpack": {"n": 3, "members": 2, "columns": bytes(3), "rows": lent("i8", [1] * 6)},
            "check_vendor": {
                **panel, "mode": Mode.Perm, "members": 2, "before": lent("i8", [1] * 6), "after": lent("i8", [1] * 6),
                "rows": bytearray(6),
            },
        }  # fmt: skip
        for function, call in calls.items():
            getattr(tsorvenk, function)(**call)
            wrong = {"n": (0, 4097), "d": (0, 5), "s": (0, 65), "members": (1, 9), "mode": (0, 1, 4, 5, 9)}
            for name, numbers in wrong.items():
                for number in numbers if name in call else ():
                    with self.subTest(f"{function} {name} {number}"):
                        self.refused(function, {**call, name: number}, 1, name)
            self.lengths(function, call)

    def lengths(self, function, call):
        for name, length in exact(function, {**call, **({"written": None} if function == "write_edges" else {})}).items():
            if name in call:
                for other in (length - 1, length + 1):
                    with self.subTest(f"{function} {name} {other}"):
                        self.refused(function, {**call, name: resized(function, name, call[name], other)}, 2, name)

    def test_2_the_buffer_is_named(self):
        """Of every mode and form every buffer that is taken, one too short, one too long and left out."""
        for function in MOVES:
            for mode, form in ALL:
                for keeps in Keeps if function != "task_label" else (Keeps.Nothing,):
                    call = Maker().make(function, mode, form, keeps=keeps)
                    if function != "task_label":
                        call["keeps"] = keeps
                    if "s" in call:
                        call["owners"] = lent("u8", [0] * call["s"])
                    call["pins"] = lent("u8", [0] * N)
                    self.assertEqual(set(exact(function, call)) - {"outcomes"}, set(call) & set(exact(function, call)))
                    self.lengths(function, call)
                    for name in set(exact(function, call)) - {"owners", "pins", "outcomes"}:
                        self.refused(function, {**call, name: None}, 2, name)

    def test_2_more_systems_than_may_be_left_out(self):
        call = Maker().make("step", Mode.Pair, Form.Sw)
        self.refused("step", {**call, "s": 4097}, 2, "s")
        self.refused("step", {**call, "n": 4097}, 1, "n")


class Contents(Case):
    def test_3(self):
        for function in ("step", "sweep"):
            call = Maker().make(function, Mode.Pair, Form.Sw)
            self.refused(function, changed(call, "spins", 5, 0), 3, "spins")
            owners = lent("u8", [0] * call["s"])
            self.refused(function, changed({**call, "owners": owners}, "owners", 1, 2), 3, "owners")
            self.refused(function, {**call, "team": 2}, 3, "team")
        packed = Maker().make("packed_step", Mode.Pair, Form.Sw)
        self.refused("packed_step", changed(packed, "columns", 3, 4), 3, "columns")
        rows, columns = lent("i8", [1, 1, 1, 0]), lent("u8", [0, 4])
        self.refused("pack", {"n": 2, "members": 2, "rows": rows, "columns": lent("u8", [0, 0])}, 3, "rows")
        self.refused("unpack", {"n": 2, "members": 2, "rows": rows, "columns": columns}, 3, "columns")
        check = {"mode": Mode.Perm, "n": 2, "d": 1, "members": 2, "fwd": tsorvenk.torus(2).fwd, "bwd": tsorvenk.torus(2).bwd}
        fine = lent("i8", [1, 1, 1, 1])
        self.refused("check_vendor", {**check, "before": rows, "after": fine, "rows": bytearray(4)}, 3, "before")
        self.refused("check_vendor", {**check, "before": fine, "after": rows, "rows": bytearray(4)}, 3, "after")

    def test_4(self):
        for function in MOVES:
            call = {**Maker().make(function, Mode.Pair, Form.Sw), "pins": lent("u8", [0] * N)}
            self.refused(function, changed(call, "fwd", 3, N), 4, "fwd")
            self.refused(function, changed(call, "bwd", 3, 2**32 - 1), 4, "bwd")
            self.refused(function, changed(call, "pins", 3, 2), 4, "pins")
            # not inverse: either may be the wrong one
            self.refused(function, changed(call, "bwd", 3, 0 if call["bwd"][3] else 1), 4, None)
        ring = tsorvenk.torus(3)
        label = {name: lent("u32", [0] * k) for name, k in (("labels", 3), ("counts", 4), ("sizes", 4), ("found", 1))}
        call = {"n": 3, "d": 1, "fwd": lent("u32", [1, 3, 0]), "holds": bytes(3), "counted": bytes(3), **label}
        self.refused("label", call, 4, "fwd")
        call["fwd"] = ring.fwd
        self.refused("label", {**call, "holds": b"\0\2\0"}, 9, "holds")
        self.refused("label", {**call, "counted": b"\0\2\0"}, 9, "counted")

    def test_5(self):
        step, sweep = Maker().make("step", Mode.Pair, Form.Sw), Maker().make("sweep", Mode.Pair, Form.Sw)
        for system in (0, 3, 2**32 - 1):
            self.refused("step", changed(step, "group", 1, system), 5, "group")
        for system in (0, 6):
            self.refused("sweep", changed(sweep, "order", 1, system), 5, "order")
        ring = tsorvenk.torus(3)
        panel = {"n": 3, "d": 1, "s": 1, "fwd": ring.fwd, "bwd": ring.bwd, "spins": lent("i8", [1] * 3)}
        self.refused("energy", {**panel, "couplings": ring.couplings(), "system": 1}, 5, "system")
        self.refused("energy", {**panel, "couplings": ring.couplings(1000001), "system": 0}, 6, "couplings")
        self.refused("hand_over", {**panel, "couplings": ring.couplings(1000001), "totals": lent("i64", [0])}, 6, "couplings")

    def test_6_to_8(self):
        for function in MOVES:
            for mode in (Mode.Jorg, Mode.Cmr):
                for form in Form:
                    call = Maker().make(function, mode, form)
                    self.refused(function, changed(call, "couplings", 3, -1000001), 6, "couplings")
                    for temperature in (0.0, 1 / 1025, 1048577.0, float("inf"), float("nan")):
                        if "t" in call:
                            self.refused(function, changed(call, "temperatures", 1, temperature), 7, "temperatures")
                        else:
                            self.refused(function, {**call, "temperature": temperature}, 7, "temperature")
                    for cut in (-1.0, float("inf"), float("nan")):
                        self.refused(function, changed(call, "cuts", 3, cut), 8, "cuts")

    def test_9(self):
        for function in MOVES:
            for mode, form in ALL:
                call = Maker().make(function, mode, form)
                with self.subTest(f"{function} {mode} {form}"):
                    last = {name: len(call[name]) - 1 for name in ("flips", "perms", "greys", "references", "masks") if name in call}
                    for name, place in last.items():
                        wrong = {"flips": 2, "perms": 2, "greys": 4, "references": N, "masks": 2}[name]
                        self.refused(function, changed(call, name, place, wrong), 9, name)
                        if form in (Form.Wolff, Form.Grow) and name == "greys":
                            self.refused(function, changed(call, name, place, 0), 9, name)
                    if form in (Form.Wolff, Form.Grow) and "perms" in call:
                        self.refused(function, {**call, "perms": lent("u8", [0, 1] * (len(call["perms"]) // 2))}, 9, "perms")
                    if mode == Mode.Gperm and "t" not in call:
                        self.refused(function, {**call, "reference": N}, 9, "reference")

    def test_9_by_numbers(self):
        for function in ("step", "packed_step", "sweep"):
            for form in (Form.Sw, Form.Wolff, Form.Grow):
                call = Maker().make(function, Mode.Gperm, form, coding=Coding.Numbers, members=5)
                self.refused(function, changed(call, "perms", len(call["perms"]) - 1, 120), 9, "perms")
                if form != Form.Sw:
                    self.refused(function, changed(call, "perms", 0, 0), 9, "perms")

    def test_9_of_masked_tasks_is_not_looked_at(self):
        call = Maker().make("sweep", Mode.Gperm, Form.Sw)
        call["masks"][0], call["references"][0], call["perms"][0] = 1, N, 9
        self.assertEqual(tsorvenk.sweep(**copied(call)).moved, 1)
        self.refused("sweep", changed(call, "perms", len(call["perms"]) - 1, 9), 9, "perms")
        self.refused("sweep", changed(call, "references", 1, N), 9, "references")

    def test_9_of_the_others(self):
        self.refused("row_of", {"number": 120, "row": lent("u8", [9] * 5)}, 9, "number")
        self.refused("number_of", {"row": lent("u8", [0, 1, 2, 3, 3]), "number": lent("u8", [9])}, 9, "row")
        self.refused("row_of", {"number": 1, "row": lent("u8", [9] * 4)}, 2, "row")
        self.refused("number_of", {"row": lent("u8", [0, 1, 2, 3])}, 2, "row")
        self.refused("number_of", {"row": lent("u8", range(5)), "number": lent("u8", [9, 9])}, 2, "number")
        two = tsorvenk.torus(2)
        rows = lent("i8", [1, 1, 1, 1])
        check = {"mode": Mode.Gperm, "n": 2, "d": 1, "members": 2, "fwd": two.fwd, "bwd": two.bwd, "before": rows, "after": rows}
        self.refused("check_vendor", {**check, "reference": 2, "rows": bytearray(4)}, 9, "reference")
        self.refused("check_vendor", {**check, "rows": bytearray(4), "fault": lent("u32", [])}, 2, "fault")

    def test_10(self):
        for function in MOVES:
            for form in (Form.Wolff, Form.Grow):
                call = Maker().make(function, Mode.Pair, form)
                # site 1 does not act
                for seed in (1, N):
                    if "t" in call:
                        self.refused(function, changed(call, "seeds", 1, seed), 10, "seeds")
                    else:
                        self.refused(function, {**call, "seed": seed}, 10, "seed")

    def test_12(self):
        zero, one = lent("u64", [0] * 4), lent("u64", [1, 2, 3, 4])
        short = lent("u64", [1, 2, 3])
        for function, buffer, more, wrong in (
            ("word", "word", {}, {}), ("coin", "coin", {}, {}), ("below", "number", {"m": 7}, {"m": (0, 4097)}),
            ("permutation", "row", {"members": 2}, {"members": (0, 1, 9)}), ("fill_flips", "flips", {}, {}),
            ("fill_below", "numbers", {"m": 7}, {"m": (0, 4097)}), ("fill_bytes_below", "bytes", {"m": 7}, {"m": (0, 257)}),
            ("fill_permutations", "rows", {"members": 2}, {"members": (1, 9)}),
            ("wolff_permutation", "rows", {"members": 2}, {"members": (1, 9)}), ("wolff_grey", "greys", {}, {}),
            ("fill_numbers", "perms", {}, {}), ("wolff_numbers", "perms", {}, {}),
        ):  # fmt: skip
            with self.subTest(function):
                length = 2 if buffer in ("row", "rows") else 1
                call = {**more, buffer: lent(kind_of(function, buffer), [9] * length)}
                self.refused(function, {**call, "source": zero}, 12, "source")
                self.refused(function, {**call, "source": short}, 2, "source")
                for name, numbers in wrong.items():
                    for number in numbers:
                        self.refused(function, {**call, "source": one, name: number}, 12, name)
                if buffer in ("word", "coin", "number", "row", "rows"):
                    other = lent(kind_of(function, buffer), [9] * (length + 1))
                    self.refused(function, {**call, "source": one, buffer: other}, 2, buffer)

    def test_12_words_that_are_taken_again(self):
        """A source of which 64 words in a row are too large is not known; the name is the source's all the same."""
        from tsorvenk._faults import at_fault

        given = {"m": 7, "source": lent("u64", [1, 2, 3, 4]), "number": lent("u32", [0])}
        self.assertEqual(at_fault("below", 12, given), "source")

    def test_12_without_a_row_of_its_own(self):
        for members in (0, 1, 9, 2**64 - 1):
            self.refused("permutation", {"members": members, "source": lent("u64", [1, 2, 3, 4])}, 12, "members")

    def test_14(self):
        for function in set(MOVES) - {"task_label"}:
            for form in (Form.Sw, Form.Wolff, Form.Grow):
                call = Maker().make(function, Mode.Pair, form, keeps=Keeps.Totals)
                self.refused(function, changed(call, "totals", 1, 16384000001), 14, "totals")

    def test_15(self):
        for function in MOVES:
            for form in Form:
                call = Maker().make(function, Mode.Houd, form, members=3)
                if form == Form.Observe:
                    getattr(tsorvenk, function)(**call)
                else:
                    self.refused(function, call, 15, "group" if function == "step" else "members")


if __name__ == "__main__":
    unittest.main()
