"""The last line with which every test ends: 'N passed, M failed', with ', K skipped' where something was skipped."""
from __future__ import annotations

import re
from typing import NamedTuple

LAST_LINE = re.compile(r"(\d+) passed, (\d+) failed(?:, (\d+) skipped)?")
SKIPPED = "skipped: "  # so begins the line of what is skipped, which says what to install


class Counted(NamedTuple):
    """How many tests passed, failed and were skipped."""

    passed: int = 0
    failed: int = 0
    skipped: int = 0

    def __str__(self) -> str:
        """The last line."""
        return f"{self.passed} passed, {self.failed} failed" + (f", {self.skipped} skipped" if self.skipped else "")


def counts_in(said: str) -> Counted | None:
    """The counts in the last line of what a test wrote, or none."""
    found = LAST_LINE.fullmatch(said.rstrip().rpartition("\n")[2])
    return Counted(*(int(count or 0) for count in found.groups())) if found else None


def skips_in(said: str) -> list[str]:
    """The lines of what was skipped."""
    return [line for line in said.splitlines() if line.startswith(SKIPPED)]
