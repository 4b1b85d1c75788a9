"""The package beside include/tsorvenk.h: every function, its arguments in their order, every code and every word."""
import inspect
import re
import typing
import unittest

from support import STEPS, TOP, Case, tsorvenk
from tsorvenk import _answers, _library
from tsorvenk._tables import FUNCTIONS

HEADER = TOP / "include" / "tsorvenk.h"
_TYPES = {
    "int8_t": "i8", "uint8_t": "u8", "int32_t": "i32", "uint32_t": "u32", "int64_t": "i64", "uint64_t": "u64",
    "size_t": "usize", "float": "f32",
}  # fmt: skip


def prototypes(text):
    """Of each function its arguments as the table has them: name, type, whether it is lent, whether it is written."""
    found = {}
    for name, inside in re.findall(r"^uint8_t tsorvenk_(\w+)\(([^;{]*)\);", text, re.M):
        arguments = [re.match(r"(const )?(\w+) (\*?)(\w+)$", " ".join(one.split())).groups() for one in inside.split(",")]
        listed, at = [], 0
        while at < len(arguments):
            const, kind, pointer, argument = arguments[at]
            listed.append((argument, _TYPES[kind], bool(pointer), bool(pointer) and not const))
            if pointer:
                at += 1
                assert arguments[at] == (None, "size_t", "", argument + "_len"), (name, argument)
            at += 1
        found[name] = listed
    return found


def words(text):
    body = text[text.index("tsorvenk_refusal_words(int number) {") :]
    numbers = {"TSORVENK_IDLE": 64, "TSORVENK_NO_ROOM": 65, "TSORVENK_HELD": 66, "TSORVENK_NO": 67}
    found = {}
    for number, spelt in re.findall(r"case (\w+):\s*return ((?:\"[^\"]*\"\s*)+);", body):
        found[numbers[number] if number in numbers else int(number)] = "".join(re.findall(r'"([^"]*)"', spelt))
    return found


@unittest.skipUnless(HEADER.is_file(), "the header is not beside an installed package")
class Header(Case):
    def setUp(self):
        self.text = HEADER.read_text()

    def test_every_function_has_the_headers_arguments(self):
        header = prototypes(self.text)
        self.assertGreaterEqual(len(header), 26)
        ours = {
            name: [(one.name, one.kind, one.lent, one.written) for one in function.parameters]
            for name, function in FUNCTIONS.items()
        }
        self.assertEqual(set(header) - set(ours), set(), "functions that the package does not have")
        for name, arguments in header.items():
            self.assertEqual(ours[name], arguments, name)

    def test_the_header_has_every_function(self):
        more = set(FUNCTIONS) - set(prototypes(self.text))
        if more == set(STEPS):
            self.skipTest("the header does not have the three steps yet")
        self.assertEqual(more, set())

    def test_the_shared_object_has_every_function_of_the_header(self):
        for name in prototypes(self.text):
            self.assertTrue(_library.has(name), name)

    def test_the_words_are_the_headers(self):
        self.assertEqual(words(self.text), _answers._WORDS)
        self.assertEqual(tsorvenk.refusal_words(63), "a number that no call gives")

    def test_codes_and_rooms_are_the_headers(self):
        def codes(first):
            inside = re.search(r"enum \{ (" + first + r"\w*[^}]*) \}", self.text).group(1)
            return [one.strip() for one in inside.split(",")]

        def named(enum, prefix):
            return [prefix + one.name.upper() for one in enum]

        self.assertEqual(codes("TSORVENK_HOUD"), named(tsorvenk.Mode, "TSORVENK_"))
        self.assertEqual(codes("TSORVENK_SW"), named(tsorvenk.Form, "TSORVENK_"))
        self.assertEqual(codes("TSORVENK_BY_ROWS"), named(tsorvenk.Coding, "TSORVENK_BY_"))
        self.assertEqual(codes("TSORVENK_KEEPS_NOTHING"), named(tsorvenk.Keeps, "TSORVENK_KEEPS_"))
        self.assertEqual(codes("TSORVENK_FRAMES_ROOM"), [f"TSORVENK_FRAMES_ROOM = {tsorvenk.FRAMES_ROOM}"])
        self.assertEqual(codes("TSORVENK_EDGES_ROOM"), [f"TSORVENK_EDGES_ROOM = {tsorvenk.EDGES_ROOM}"])
        self.assertEqual(
            codes("TSORVENK_IDLE"),
            [f"TSORVENK_{name} = {getattr(_answers, name)}" for name in ("IDLE", "NO_ROOM", "HELD", "NO")],
        )


class Signatures(Case):
    def test_every_function_is_there_under_its_own_name(self):
        for name, function in FUNCTIONS.items():
            with self.subTest(name):
                signature = inspect.signature(getattr(tsorvenk, name))
                self.assertEqual(list(signature.parameters), [one.name for one in function.parameters])
                for one in signature.parameters.values():
                    self.assertIs(one.kind, one.KEYWORD_ONLY)
                    self.assertIsNot(one.annotation, one.empty)
                self.assertIsNot(signature.return_annotation, signature.empty)
                self.assertEqual(set(typing.get_type_hints(getattr(tsorvenk, name))), {*signature.parameters, "return"})

    def test_every_text_names_every_argument(self):
        for name, function in FUNCTIONS.items():
            text = inspect.getdoc(getattr(tsorvenk, name))
            for one in function.parameters:
                if "all others" in text or "Every argument is that of" in text or one.name == "source":
                    continue
                self.assertRegex(text, rf"\b{one.name}\b", name)

    def test_what_is_exported_is_there(self):
        for name in tsorvenk.__all__:
            self.assertTrue(hasattr(tsorvenk, name), name)
        self.assertLessEqual(set(FUNCTIONS), set(tsorvenk.__all__))

    def test_a_missing_function_says_so_when_it_is_called(self):
        for name in STEPS:
            if not _library.has(name):
                with self.assertRaisesRegex(tsorvenk.FunctionMissing, "tsorvenk_" + name):
                    _library.function(name)
        with self.assertRaises(AttributeError):
            _library.library().tsorvenk_nothing


if __name__ == "__main__":
    unittest.main()
