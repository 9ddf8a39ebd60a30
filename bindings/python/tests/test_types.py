"""The package's type hints, by mypy where it is installed, and its docstrings."""

import inspect
import subprocess
import unittest

import yokecairn
from support import PACKAGE, needs_python_with, python_with


class Types(unittest.TestCase):
    @needs_python_with("mypy")
    def test_strict(self):
        words = ["--strict", "--cache-dir=/dev/null", "--no-error-summary", "yokecairn"]
        ran = subprocess.run(
            [python_with("mypy"), "-m", "mypy", *words], cwd=PACKAGE, capture_output=True, text=True
        )
        self.assertEqual((ran.returncode, ran.stdout), (0, ""), ran.stderr)

    def test_the_marker_is_there(self):
        self.assertTrue((PACKAGE / "yokecairn" / "py.typed").exists())


class Docstrings(unittest.TestCase):
    def test_each_public_name_has_one(self):
        for name in yokecairn.__all__:
            thing = getattr(yokecairn, name)
            self.assertTrue(inspect.getdoc(thing), name)
            members = vars(thing).items() if inspect.isclass(thing) else ()
            for member, value in members:
                if inspect.isfunction(value) and not member.startswith("_"):
                    self.assertTrue(value.__doc__, f"{name}.{member}")


if __name__ == "__main__":
    unittest.main()
