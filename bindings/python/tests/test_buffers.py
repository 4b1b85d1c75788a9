"""Lending: what is taken as a buffer, what is not, and that nothing is copied or kept."""
import ctypes
import unittest
from array import array
from concurrent.futures import ThreadPoolExecutor

from support import NUMPY, Case, Form, Maker, Mode, content, contents, copied, lent, tsorvenk
from tsorvenk._tables import FUNCTIONS

if NUMPY:
    import numpy


def a_step(form=Form.Sw, mode=Mode.Pair):
    return Maker().make("step", mode, form)


class Lent(Case):
    def test_the_callers_own_memory_is_written(self):
        call = a_step()
        spins = call["spins"]
        call["flips"] = bytes([1] * 16)
        before = content(spins)
        self.assertIs(tsorvenk.step(**call), tsorvenk.Stepped.Moved)
        self.assertIs(call["spins"], spins)
        self.assertNotEqual(content(spins), before)

    def test_every_kind_of_buffer_gives_the_same(self):
        call = a_step(Form.Grow)
        expected = copied(call)
        tsorvenk.step(**expected)
        size = len(content(call["spins"]))
        held = bytearray(content(call["spins"]))
        kinds = {
            "a view of a bytearray": memoryview(held).cast("b"),
            "a view of two dimensions": memoryview(bytearray(held)).cast("b", [size // 16, 16]),
            "an array": array("b", held),
            "ctypes": (ctypes.c_int8 * size).from_buffer(bytearray(held)),
        }
        for words, spins in kinds.items():
            with self.subTest(words):
                sites = bytearray(16)
                tsorvenk.step(**{**call, "spins": spins, "member_sites": memoryview(sites)})
                self.assertEqual(content(spins), content(expected["spins"]))
                self.assertEqual(bytes(sites), content(expected["member_sites"]))

    def test_what_is_read_may_be_read_only(self):
        call = a_step()
        call["flips"] = content(call["flips"])
        for name in ("fwd", "bwd", "group"):
            call[name] = memoryview(content(call[name])).cast("I")
        self.assertIs(tsorvenk.step(**call), tsorvenk.Stepped.Moved)

    def test_a_part_of_a_larger_buffer(self):
        call = a_step(Form.Grow)
        expected = copied(call)
        tsorvenk.step(**expected)
        size = len(content(call["spins"]))
        large = bytearray(b"\x07" * 5 + content(call["spins"]) + b"\x07" * 3)
        call["spins"] = memoryview(large)[5 : 5 + size].cast("b")
        tsorvenk.step(**call)
        self.assertEqual(bytes(large), b"\x07" * 5 + content(expected["spins"]) + b"\x07" * 3)

    def test_nothing_is_kept_after_a_call(self):
        """A bytearray that is still lent cannot be resized."""
        call = a_step()
        flips = call["flips"] = bytearray(content(call["flips"]))
        tsorvenk.step(**call)
        flips.append(0)
        errors = []
        for words, change in {
            "a refusal, for the flips are too long now": {},
            "items of a wrong type": {"labels": flips},
            "what is written is read only": {"labels": memoryview(bytes(64)).cast("I")},
            "unaligned": {"labels": memoryview(bytearray(72))[1:65].cast("I")},
            "two that overlap": {"member_sites": flips},
            "a number that is none": {"n": -1},
        }.items():
            with self.subTest(words):
                try:
                    tsorvenk.step(**{**call, **change})
                    self.fail("it is wrong")
                except (tsorvenk.Refused, TypeError, ValueError) as error:
                    errors.append(error)
                # the error is still there, with its traceback
                flips.append(0)

    def test_a_buffer_cannot_be_taken_away_by_a_number(self):
        """Arguments are looked at one after the other; one whose index resizes a buffer meets none that is lent already."""

        class Sly:
            def __index__(self):
                flips.extend(bytes(100000))
                return 16

        flips = bytearray(16)
        call = a_step()
        with self.assertRaises(tsorvenk.Refused) as caught:
            tsorvenk.step(**{**call, "flips": flips, "n": Sly()})
        self.assertEqual(caught.exception.number, 2)

    def test_calls_on_different_buffers_at_the_same_time(self):
        call = a_step()
        expected = copied(call)
        for _ in range(3):
            tsorvenk.step(**expected)

        def day(_):
            own = copied(call)
            for _ in range(3):
                tsorvenk.step(**own)
            return contents(own)

        with ThreadPoolExecutor(4) as threads:
            for found in threads.map(day, range(64)):
                self.assertEqual(found, contents(expected))


class Unfit(Case):
    def unfit(self, error, words, call, function="step"):
        before = contents(call)
        with self.assertRaisesRegex(error, words):
            getattr(tsorvenk, function)(**call)
        self.assertEqual(contents(call), before)

    def test_each_argument_is_named(self):
        """Of every function every buffer with items of a wrong type, and every number that is none."""
        for function, table in FUNCTIONS.items():
            fitting = {one.name: lent(one.kind, []) if one.lent else 1 for one in table.parameters}
            if not tsorvenk._library.has(function):
                continue
            for one in table.parameters:
                with self.subTest(f"{function} {one.name}"):
                    wrong = array("d", [1.0]) if one.lent else "1"
                    self.unfit(TypeError, rf"^{one.name} must be ", {**fitting, one.name: wrong}, function)
                    if one.lent:
                        for wrong in ([1], "1", 1, object()):
                            with self.assertRaisesRegex(TypeError, rf"^{one.name} must be "):
                                getattr(tsorvenk, function)(**{**fitting, one.name: wrong})
                    elif one.largest > 0:
                        for wrong in (-1, one.largest + 1):
                            self.unfit(ValueError, rf"^{one.name} must be from 0 ", {**fitting, one.name: wrong}, function)
                    if one.written:
                        none = memoryview(bytes(8)).cast(lent_letter(one))
                        self.unfit(TypeError, rf"^{one.name} is written", {**fitting, one.name: none}, function)
                    # bytes have a way of their own
                    if one.lent and (one.written or one.kind != "u8"):
                        words = "is written" if one.kind == "u8" else "must be a buffer"
                        self.unfit(TypeError, rf"^{one.name} {words}", {**fitting, one.name: bytes(8)}, function)

    def test_items_of_the_same_size_and_another_type(self):
        call = a_step(mode=Mode.Jorg)
        for name, letters in {"spins": "B", "fwd": "if", "couplings": "If", "cuts": "iI", "flips": "b", "labels": "i"}.items():
            for letter in letters:
                data = array(letter, bytes(len(content(call[name]))))
                self.unfit(TypeError, f"^{name} must be a buffer of", {**call, name: data})

    def test_the_other_byte_order(self):
        class Turned(ctypes.BigEndianStructure):
            _fields_ = [("items", ctypes.c_uint32 * 32)]

        self.unfit(TypeError, "^fwd must be a buffer of", {**a_step(), "fwd": Turned().items})

    def test_contiguous(self):
        call = a_step()
        self.unfit(TypeError, "^flips must be contiguous", {**call, "flips": memoryview(bytearray(32))[::2]})
        backwards = memoryview(bytearray(16))[::-1]
        self.unfit(TypeError, "^flips must be contiguous", {**call, "flips": backwards})

    def test_aligned(self):
        call = a_step()
        large = bytearray(4 * 16 + 8)
        at = 1 + -ctypes.addressof(ctypes.c_char.from_buffer(large)) % 4
        self.unfit(TypeError, "^labels must be aligned", {**call, "labels": memoryview(large)[at : at + 64].cast("I")})
        if not NUMPY:
            frozen = memoryview(bytes(large))
            self.unfit(TypeError, "^fwd must be aligned", {**call, "fwd": frozen[1:65].cast("I")})

    def test_a_temperature_is_a_number(self):
        call = a_step(mode=Mode.Jorg)
        for wrong in ("1.0", None, [1.0], 1j):
            with self.assertRaisesRegex(TypeError, "^temperature must be a number"):
                tsorvenk.step(**{**call, "temperature": wrong})
        with self.assertRaisesRegex(ValueError, "^temperature is too large"):
            tsorvenk.step(**{**call, "temperature": 10**400})
        for number, fine in ((1, True), (True, True), (1e300, False), (float("nan"), False)):
            with self.subTest(number):
                if fine:
                    tsorvenk.step(**{**call, "temperature": number})
                else:
                    self.refused("step", {**call, "temperature": number}, 7, "temperature")

    def test_keywords_alone(self):
        with self.assertRaises(TypeError):
            tsorvenk.row_of(84)
        with self.assertRaises(TypeError):
            tsorvenk.row_of(number=84, rows=bytearray(5))


def lent_letter(parameter):
    """How a view spells the items of this buffer."""
    return next(letter for letter in "bBiIlLqQf" if letter in parameter.formats)


class Overlaps(Case):
    def meets(self, first, second, call):
        before = contents(call)
        with self.assertRaisesRegex(ValueError, f"^({first} and {second}|{second} and {first}) overlap"):
            tsorvenk.step(**call)
        self.assertEqual(contents(call), before)

    def test_the_same_buffer_twice(self):
        call = a_step()
        self.meets("labels", "fwd", {**call, "labels": call["fwd"]})
        self.meets("labels", "counts", {**call, "counts": call["labels"]})
        self.meets("spins", "flips", {**call, "flips": memoryview(call["spins"]).cast("B")})

    def test_parts_that_meet_in_one_item(self):
        call = a_step()
        room = memoryview(bytearray(4 * 33)).cast("I")
        self.meets("labels", "counts", {**call, "labels": room[:16], "counts": room[15:32]})
        fitting = {**call, "labels": room[:16], "counts": room[16:33]}
        self.assertIs(tsorvenk.step(**fitting), tsorvenk.Stepped.Moved)

    def test_one_inside_another(self):
        call = a_step()
        room = memoryview(bytearray(4 * 200)).cast("I")
        self.meets("labels", "found", {**call, "labels": room, "found": room[7:8]})
        # behind a long one stands a short one, and what meets is the long one
        self.meets("fwd", "labels", {**call, "fwd": room[:100], "bwd": room[3:4], "labels": room[90:120]})

    def test_two_that_are_read_may_overlap(self):
        call = a_step(Form.Observe)
        ring = tsorvenk.torus(2)
        spins = lent("i8", [1, 1, -1, -1])
        call.update(n=2, d=1, s=2, fwd=ring.fwd, bwd=ring.fwd, spins=spins, labels=lent("u32", [0, 0]), counts=lent("u32", [0] * 3))
        self.assertIs(tsorvenk.step(**call), tsorvenk.Stepped.Moved)

    def test_empty_ones_meet_nothing(self):
        call = a_step()
        room = memoryview(bytearray(64)).cast("I")
        tsorvenk.step(**{**call, "labels": room, "grey_labels": room[:0], "seed": 0, "grey_found": room[5:5]})

    def test_untaken_ones_are_asked_too(self):
        """The library asks that no two overlap, whatever the mode and form take."""
        call = a_step()
        self.meets("member_sites", "flips", {**call, "member_sites": call["flips"]})


@unittest.skipUnless(NUMPY, "with NumPy alone")
class NumPy(Case):
    def test_shapes(self):
        call = a_step()
        expected = copied(call)
        tsorvenk.step(**expected)
        shaped = {**call, "spins": call["spins"].reshape(-1, 16), "fwd": call["fwd"].reshape(16, 2)}
        shaped["found"] = numpy.zeros((), numpy.uint32)
        tsorvenk.step(**shaped)
        self.assertTrue((shaped["spins"].ravel() == expected["spins"]).all())
        self.assertEqual(int(shaped["found"]), int(expected["found"][0]))

    def test_what_is_not_lent(self):
        call = a_step()
        for words, change in {
            "spins must be contiguous": {"spins": numpy.ones((16, 3), numpy.int8).T},
            "flips must be a buffer": {"flips": numpy.ones(16, bool)},
            "labels must be a buffer": {"labels": numpy.zeros(16, numpy.int64)},
            "fwd must be a buffer": {"fwd": call["fwd"].astype(">u4")},
            "flips must be contiguous": {"flips": numpy.ones(32, numpy.uint8)[::2]},
        }.items():
            with self.subTest(words):
                with self.assertRaisesRegex(TypeError, words):
                    tsorvenk.step(**{**call, **change})
        frozen = call["labels"].copy()
        frozen.flags.writeable = False
        with self.assertRaisesRegex(TypeError, "labels is written"):
            tsorvenk.step(**{**call, "labels": frozen})
        unaligned = numpy.frombuffer(bytearray(65), numpy.uint32, 16, 1)
        if unaligned.ctypes.data % 4:
            with self.assertRaisesRegex(TypeError, "labels must be aligned"):
                tsorvenk.step(**{**call, "labels": unaligned})

    def test_numbers(self):
        call = a_step(mode=Mode.Jorg)
        call.update(n=numpy.int64(16), mode=numpy.uint8(4), temperature=numpy.float32(1.5))
        self.assertIs(tsorvenk.step(**call), tsorvenk.Stepped.Moved)


if __name__ == "__main__":
    unittest.main()
