"""The meter, the labelling, draws, edge lists, numbers for permutations and frames; panels; answers as values."""
import copy
import ctypes
import itertools
import pickle
import unittest
from array import array

from support import TOP, Case, Keeps, lent, tsorvenk
from tsorvenk import Refused, Source


class Meter(Case):
    ring = tsorvenk.torus(3)

    def call(self):
        panel = {"n": 3, "d": 1, "s": 2, "fwd": self.ring.fwd, "bwd": self.ring.bwd}
        return {**panel, "spins": lent("i8", [1, 1, -1, 1, 1, 1]), "couplings": lent("i32", [1, 2, -3])}

    def test_energy(self):
        energy = lent("i64", [9])
        self.assertEqual(tsorvenk.energy(system=0, energy=energy, **self.call()), -2)
        self.assertEqual(self.items(energy), [-2])
        self.assertEqual(tsorvenk.energy(system=1, **self.call()), 0)

    def test_hand_over(self):
        self.assertIsNone(tsorvenk.hand_over(totals=lent("i64", [-2, 0]), **self.call()))
        self.refused("hand_over", {**self.call(), "totals": lent("i64", [-2, 1])}, 14, "totals")
        owners = lent("u8", [0, 1])
        self.assertIsNone(tsorvenk.hand_over(totals=lent("i64", [-2, 1]), owners=owners, **self.call()))


class Labelling(Case):
    def test_a_ring_in_two(self):
        labels, counts, sizes, found = (lent("u32", [9] * length) for length in (4, 5, 4, 1))
        tsorvenk.label(
            n=4, d=1, fwd=tsorvenk.torus(4).fwd, holds=lent("u8", [1, 0, 1, 0]), counted=lent("u8", [0, 1, 1, 1]),
            labels=labels, counts=counts, sizes=sizes, found=found,
        )  # fmt: skip
        self.assertEqual((self.items(labels), self.items(found)), ([0, 0, 1, 1], [2]))
        self.assertEqual((self.items(counts), self.items(sizes)), ([0, 0, 1, 0, 0], [2, 0, 0, 0]))


class Words:
    """xoshiro256** and the draws of the header's text, in plain Python."""

    def __init__(self, words):
        self.state = list(words)

    def word(self):
        s, mask = self.state, 2**64 - 1

        def turned(x, k):
            return (x << k | x >> 64 - k) & mask

        found = turned(s[1] * 5 & mask, 7) * 9 & mask
        t = s[1] << 17 & mask
        s[2] ^= s[0]
        s[3] ^= s[1]
        s[1] ^= s[2]
        s[0] ^= s[3]
        s[2] ^= t
        s[3] = turned(s[3], 45)
        return found

    def below(self, m):
        while True:
            high = self.word() >> 32
            if high < m * (2**32 // m):
                return high % m

    def permutation(self, members):
        row = list(range(members))
        for k in range(members - 1, 0, -1):
            at = self.below(k + 1)
            row[k], row[at] = row[at], row[k]
        return row

    def moving(self, members):
        while True:
            row = self.permutation(members)
            if row != sorted(row):
                return row


class Draws(Case):
    seed = (0x0123456789ABCDEF, 0xFEDCBA9876543210, 0x0F1E2D3C4B5A6978, 0x8796A5B4C3D2E1F0)

    def setUp(self):
        self.source, self.plain = lent("u64", self.seed), Words(self.seed)

    def tearDown(self):
        self.assertEqual(self.items(self.source), self.plain.state)

    def test_single_draws(self):
        for name, kind, expected, more in (
            ("word", "u64", self.plain.word, {}),
            ("coin", "u8", lambda: self.plain.word() >> 63, {}),
            ("below", "u32", lambda: self.plain.below(4096), {"m": 4096}),
        ):
            lends = "number" if name == "below" else name
            draw, buffer = getattr(tsorvenk, name), lent(kind, [0])
            self.assertEqual(draw(source=self.source, **more), expected())
            found = draw(source=self.source, **more, **{lends: buffer})
            self.assertEqual((found, self.items(buffer)), (expected(), [found]))
        for members in range(2, 9):
            row = lent("u8", [9] * members)
            self.assertEqual(list(tsorvenk.permutation(members=members, source=self.source)), self.plain.permutation(members))
            tsorvenk.permutation(members=members, source=self.source, row=row)
            self.assertEqual(self.items(row), self.plain.permutation(members))

    def test_fills(self):
        plain = self.plain
        fills = (
            ("fill_flips", "flips", "u8", {}, lambda: [plain.word() >> 63 for _ in range(40)]),
            ("fill_below", "numbers", "u32", {"m": 1000}, lambda: [plain.below(1000) for _ in range(40)]),
            ("fill_bytes_below", "bytes", "u8", {"m": 256}, lambda: [plain.below(256) for _ in range(40)]),
            ("fill_permutations", "rows", "u8", {"members": 5}, lambda: sum((plain.permutation(5) for _ in range(8)), [])),
            ("wolff_permutation", "rows", "u8", {"members": 2}, lambda: sum((plain.moving(2) for _ in range(20)), [])),
            ("wolff_grey", "greys", "u8", {}, lambda: [1 + plain.below(3) for _ in range(40)]),
            ("fill_numbers", "perms", "u8", {}, lambda: [plain.below(120) for _ in range(40)]),
            ("wolff_numbers", "perms", "u8", {}, lambda: [1 + plain.below(119) for _ in range(40)]),
        )
        kept = Source(self.seed)
        for name, buffer, kind, more, expected in fills:
            with self.subTest(name):
                filled, again = lent(kind, [0] * 40), lent(kind, [0] * 40)
                self.assertIsNone(getattr(tsorvenk, name)(source=self.source, **more, **{buffer: filled}))
                self.assertEqual(self.items(filled), expected())
                getattr(kept, name)(*more.values(), again)
                self.assertEqual(self.items(again), self.items(filled))
                self.assertEqual(list(kept.words), self.plain.state)

    def test_a_source_that_keeps_its_words(self):
        kept = Source(self.seed)
        found = [kept.word(), kept.coin(), kept.below(7), list(kept.permutation(4))]
        expected = [self.plain.word(), self.plain.word() >> 63, self.plain.below(7), self.plain.permutation(4)]
        self.assertEqual(found, expected)
        self.assertEqual(Source(kept.words).word(), kept.word())
        self.assertEqual(repr(Source([1, 2, 3, 4])), "Source([1, 2, 3, 4])")
        for words, number in (([0] * 4, 12), ([1] * 5, 2)):
            with self.assertRaises(Refused) as caught:
                Source(words)
            self.assertEqual((caught.exception.number, caught.exception.argument), (number, "source"))
        self.plain = Words(self.seed)


class Orders(Case):
    def test_all_of_them(self):
        for number, row in enumerate(itertools.permutations(range(5))):
            room, one = lent("u8", [9] * 5), lent("u8", [9])
            self.assertEqual(tsorvenk.row_of(number=number, row=room), bytes(row))
            self.assertEqual(self.items(room), list(row))
            self.assertEqual(tsorvenk.number_of(row=lent("u8", row), number=one), number)
            self.assertEqual(self.items(one), [number])
            self.assertEqual(tsorvenk.number_of(row=tsorvenk.row_of(number=number)), number)


class Edges(Case):
    ring = {"n": 3, "d": 1, "fwd": tsorvenk.torus(3).fwd, "bwd": tsorvenk.torus(3).bwd}

    def test_there_and_back(self):
        couplings = lent("i32", [9] * 3)
        self.assertIsNone(tsorvenk.read_edges(text=b"3 2\n1 3 -7\n1 2 5\n", couplings=couplings, **self.ring))
        self.assertEqual(self.items(couplings), [5, 0, -7])
        text, written = bytearray(b"x" * 20), lent("usize", [9])
        self.assertEqual(tsorvenk.write_edges(couplings=couplings, text=text, written=written, **self.ring), 17)
        self.assertEqual((bytes(text), self.items(written)), (b"3 2\n1 2 5\n3 1 -7\nxxx", [17]))
        self.assertEqual(tsorvenk.edges_text(couplings=couplings, **self.ring), b"3 2\n1 2 5\n3 1 -7\n")

    def test_refused(self):
        couplings, text = lent("i32", [1, 1000, 1]), lent("u8", [0] * 19)
        self.refused("read_edges", {**self.ring, "text": b"3 1\n1 3 +7\n", "couplings": couplings}, 13, "text")
        self.refused("read_edges", {**self.ring, "text": b"3 1\n1 3 1000001\n", "couplings": couplings}, 6, "text")
        self.refused("write_edges", {**self.ring, "text": text, "couplings": couplings}, 2, "text")
        couplings[0] = 1000001
        self.refused("write_edges", {**self.ring, "text": text, "couplings": couplings}, 6, "couplings")


class Frames(Case):
    text = b"1000030102\n110101ff01ffff\n12000100020000\n130001\n14010001000100\n"
    answer = b"20000000010002\n210000000100000000\n2201ffff0101ff\n"

    def test_an_answer(self):
        out, written = bytearray(b"x" * 100), lent("usize", [9])
        self.assertEqual(tsorvenk.frames(text=self.text, out=out, written=written), len(self.answer))
        self.assertEqual((bytes(out[:51]), self.items(written)), (self.answer + b"xx"[: 51 - len(self.answer)], [len(self.answer)]))
        self.assertEqual(tsorvenk.frames_answer(self.text), self.answer)
        self.assertEqual(tsorvenk.frames_answer(b"10\n"), b"2f11\n")

    def test_no_room(self):
        out = bytearray(b"xxxx")
        with self.assertRaisesRegex(tsorvenk.NoRoom, "^there is no room for the answer$"):
            tsorvenk.frames(text=self.text, out=out)
        self.assertEqual(bytes(out), b"xxxx")
        self.refused("frames", {"text": self.text, "out": out, "written": lent("usize", [0, 0])}, 2, "written")


class Panels(Case):
    def test_tables_are_the_examples(self):
        panel = tsorvenk.panel.torus(4, 4)
        self.assertEqual((panel.n, panel.d, panel.sides, panel.open), (16, 2, (4, 4), ()))
        for i in range(16):
            x, y = i % 4, i // 4
            self.assertEqual(panel.fwd[2 * i : 2 * i + 2].tolist(), [y * 4 + (x + 1) % 4, (y + 1) % 4 * 4 + x])
            self.assertEqual(panel.bwd[2 * i : 2 * i + 2].tolist(), [y * 4 + (x + 3) % 4, (y + 3) % 4 * 4 + x])
            self.assertEqual(panel.site(x, y), i)

    def test_every_shape_is_accepted(self):
        for sides in ((1,), (2,), (5,), (1, 3), (3, 1), (2, 2), (64, 64), (3, 4, 5), (2, 3, 1, 4), (8, 8, 8, 8)):
            with self.subTest(sides):
                panel = tsorvenk.torus(*sides)
                text = tsorvenk.edges_text(
                    n=panel.n, d=panel.d, fwd=panel.fwd, bwd=panel.bwd, couplings=panel.couplings()
                )
                self.assertEqual((text, panel.d), (b"%d 0\n" % panel.n, len(sides)))

    def test_open_edges(self):
        panel = tsorvenk.torus(3, 2, open=(0,))
        self.assertEqual(panel.open_bonds(), [2 * panel.site(2, 0), 2 * panel.site(2, 1)])
        self.assertEqual(panel.couplings(7).tolist(), [7, 7, 7, 7, 0, 7] * 2)
        self.assertEqual(tsorvenk.torus(3, 2).couplings(7).tolist(), [7] * 12)
        both = tsorvenk.torus(3, 2, open=(1, 0))
        own = lent("i32", range(1, 13))
        both.open_edges(own)
        self.assertEqual(self.items(own), [1, 2, 3, 4, 0, 6, 7, 0, 9, 0, 0, 0])
        self.assertEqual(tsorvenk.torus(3, 2).fwd, both.fwd)
        once = (ctypes.c_int32 * 12)(*range(1, 13))
        both.open_edges(once)
        self.assertEqual(list(once), self.items(own))
        for wrong in (array("i", [0] * 11), array("b", [0] * 12), bytes(48), array("f", [1.0] * 12), [0] * 12):
            with self.assertRaisesRegex(TypeError, "^couplings must be"):
                both.open_edges(wrong)

    def test_what_is_no_panel(self):
        for words, sides, more in (
            ("width must be at least 1", (0, 3), {}),
            ("height must be at least 1", (3, 0), {}),
            ("more must be at least 1", (3, 3, -1), {}),
            ("more must be at most 2", (1, 1, 1, 1, 1), {}),
            ("at most 4096 sites", (64, 65), {}),
            ("open must name directions below 2", (3, 3), {"open": (2,)}),
        ):
            with self.assertRaisesRegex(ValueError, words):
                tsorvenk.torus(*sides, **more)
        panel = tsorvenk.torus(3, 2)
        for wrong in ((0,), (3, 0), (0, -1)):
            with self.assertRaisesRegex(ValueError, "^coordinates must be"):
                panel.site(*wrong)


class Values(Case):
    def test_a_refusal_goes_to_another_process(self):
        error = Refused(2, "labels")
        again = pickle.loads(pickle.dumps(error))
        self.assertEqual((again.number, again.argument, again.words, str(again)), (2, "labels", error.words, str(error)))
        self.assertEqual(str(error), "refused with 2: a buffer's length is not the exact one (labels)")
        self.assertEqual(str(Refused(4)), f"refused with 4: {tsorvenk.refusal_words(4)}")

    def test_answers_compare(self):
        self.assertEqual(tsorvenk.Swept(1, 2, 3), copy.copy(tsorvenk.Swept(idle=1, moved=2, held=3)))
        self.assertNotEqual(tsorvenk.Fault(1), tsorvenk.Fault(2))
        self.assertEqual([one.name for one in tsorvenk.Stepped], ["Moved", "Idle", "Held"])
        self.assertEqual(int(Keeps.Totals), 1)

    def test_the_package_says_that_it_is_typed(self):
        self.assertTrue((TOP / "bindings" / "python" / "tsorvenk" / "py.typed").is_file())


if __name__ == "__main__":
    unittest.main()
