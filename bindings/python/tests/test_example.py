"""The example prints what those in C and Rust print, the README's lines run, and the package can be installed."""
import os
import pathlib
import re
import subprocess
import sys
import tempfile
import unittest
import zipfile

from support import HERE, NUMPY, TOP, Case, tsorvenk

PACKAGE = HERE.parent
EXAMPLE = TOP / "examples" / "panel.py"


def run(*words, **more):
    done = subprocess.run([sys.executable, *map(str, words)], capture_output=True, text=True, **more)
    if done.returncode:
        raise AssertionError(done.stdout + done.stderr)
    return done.stdout


def ours():
    """The environment in which another process finds the package that is being tried."""
    if os.environ.get("TSORVENK_TEST_INSTALLED") == "1":
        return dict(os.environ)
    return {**os.environ, "PYTHONPATH": os.pathsep.join([str(PACKAGE), os.environ.get("PYTHONPATH", "")])}


@unittest.skipUnless(EXAMPLE.is_file(), "the examples are not beside an installed package")
class Example(Case):
    def test_it_prints_the_stored_text(self):
        self.assertEqual(run(EXAMPLE, env=ours()), (TOP / "examples" / "panel.out").read_text())
        self.assertEqual(
            run(EXAMPLE, TOP / "examples" / "panel.edges", env=ours(), cwd="/"), (TOP / "examples" / "panel.out").read_text()
        )

    def test_the_lines_of_the_readme(self):
        block = re.search(r"```python\n(.*?)```", (TOP / "README.md").read_text(), re.S).group(1)
        if "numpy" in block and not NUMPY:
            self.skipTest("they are with NumPy")
        self.assertLessEqual(len(block.strip().splitlines()), 10)
        self.assertIn("Swept(idle=", run("-c", block, env=ours(), cwd=TOP))


class Doctests(Case):
    def test_the_package_shows_what_it_says(self):
        import doctest

        self.assertEqual(doctest.testmod(tsorvenk).failed, 0)
        self.assertGreater(doctest.testmod(tsorvenk).attempted, 3)


@unittest.skipUnless((PACKAGE / "backend.py").is_file(), "the sources are not beside an installed package")
class Installed(Case):
    def build(self, name):
        """A wheel, or one that leads to the sources."""
        place = tempfile.mkdtemp()
        self.addCleanup(lambda: subprocess.run(["rm", "-r", place]))
        code = f"import backend; print(backend.{name}({place!r}))"
        made = run("-c", code, cwd=PACKAGE, env={**os.environ, "TSORVENK_SO": str(self.shared())})
        return pathlib.Path(place, made.strip())

    def shared(self):
        return next(path for path in tsorvenk._library.places() if path.is_file())

    def test_a_wheel_has_all_that_it_needs(self):
        wheel = self.build("build_wheel")
        with zipfile.ZipFile(wheel) as inside, tempfile.TemporaryDirectory() as place:
            names = set(inside.namelist())
            self.assertLessEqual({"tsorvenk/libtsorvenk.so", "tsorvenk/py.typed", "tsorvenk/__init__.py"}, names)
            self.assertFalse([name for name in names if "pycache" in name or "tests" in name])
            inside.extractall(place)
            bare = {name: value for name, value in os.environ.items() if name not in ("TSORVENK_SO", "PYTHONPATH")}
            code = "import tsorvenk; print(tsorvenk.__file__, list(tsorvenk.row_of(number=84)))"
            told = run("-c", code, env={**bare, "PYTHONPATH": place}, cwd="/")
            self.assertEqual(told.split(maxsplit=1), [f"{place}/tsorvenk/__init__.py", "[3, 2, 0, 1, 4]\n"])

    def test_every_file_is_recorded_once(self):
        with zipfile.ZipFile(self.build("build_wheel")) as inside:
            record = next(name for name in inside.namelist() if name.endswith("RECORD"))
            listed = [line.split(",")[0] for line in inside.read(record).decode().splitlines()]
            self.assertEqual(sorted(listed), sorted(inside.namelist()))

    def test_an_editable_wheel_leads_here(self):
        with zipfile.ZipFile(self.build("build_editable")) as inside:
            self.assertEqual(inside.read("tsorvenk.pth").decode().strip(), str(PACKAGE))

    def test_a_shared_object_in_the_folder_of_the_caller(self):
        """A bare name is that of a file here, and not one of the system's libraries."""
        with tempfile.TemporaryDirectory() as place:
            pathlib.Path(place, "own.so").write_bytes(self.shared().read_bytes())
            told = run("-c", "import tsorvenk; print(tsorvenk.row_of(number=0)[4])", cwd=place, env={**ours(), "TSORVENK_SO": "own.so"})
        self.assertEqual(told, "4\n")

    def test_without_the_shared_object_calls_say_where_it_was_looked_for(self):
        env = {**ours(), "TSORVENK_SO": "/nowhere/libtsorvenk.so"}
        code = """
import tsorvenk
assert tsorvenk.torus(4, 4).n == 16
try:
    tsorvenk.row_of(number=1)
except tsorvenk.LibraryMissing as error:
    print(error)
"""
        self.assertIn("looked for /nowhere/libtsorvenk.so", run("-c", code, env=env))


if __name__ == "__main__":
    unittest.main()
