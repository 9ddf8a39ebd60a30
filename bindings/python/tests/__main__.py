"""Runs the tests of the package: YOKECAIRN_LIBRARY=PATH python3 bindings/python/tests [WORD..]

With words only the modules run that have one of them in their name. The last line is 'N passed, M
failed', over the tests and the rows of tables; the exit status is 0 where none failed, else 1. tests/libraries/python
runs them, in the suite `bindings` of ./check.
"""

import sys
import unittest
from pathlib import Path

HERE = Path(__file__).resolve().parent
sys.path[:0] = [str(HERE.parent), str(HERE)]


class Result(unittest.TextTestResult):
    """A result that counts what passed."""

    passed = 0

    def addSuccess(self, test):
        super().addSuccess(test)
        self.passed += 1


def main():
    loader, suite = unittest.TestLoader(), unittest.TestSuite()
    for path in sorted(HERE.glob("test_*.py")):
        if len(sys.argv) < 2 or any(word in path.stem for word in sys.argv[1:]):
            suite.addTests(loader.loadTestsFromName(path.stem))
    result = unittest.TextTestRunner(resultclass=Result).run(suite)
    for test, reason in result.skipped:
        print(f"skipped: {test.id()}: {reason}")
    failed = len(result.failures) + len(result.errors) + len(result.unexpectedSuccesses)
    rows = sys.modules.get("test_tables")
    passed = result.passed + (rows.Rows.passed if rows else 0)
    skipped = f", {len(result.skipped)} skipped" if result.skipped else ""
    print(f"{passed} passed, {failed} failed{skipped}")
    sys.exit(0 if failed == 0 and passed else 1)


main()
