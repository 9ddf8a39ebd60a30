"""The outcomes of ./check as JUnit XML, which build servers read: `./check --junit FILE`."""
from __future__ import annotations

import re
import xml.etree.ElementTree as xml
from pathlib import Path

from check.suites import Outcome

# What XML has no way to write.
NO_TEXT = re.compile("[^\t\n\r\x20-\ud7ff\ue000-\ufffd\U00010000-\U0010ffff]")


def cases_of(outcome: Outcome) -> list[dict[str, str]]:
    """The cases of a suite: those that it told, or else as many as it counted."""
    counts = {"passed": outcome.passed, "failed": outcome.failed, "skipped": outcome.skipped}
    told = list(outcome.cases)
    for kind, count in counts.items():
        known = sum(case["outcome"] == kind for case in told)
        first_lines = outcome.said if kind == "failed" else ""
        told += [{"name": f"{kind} {number}", "outcome": kind, "told": first_lines} for number in range(known + 1, count + 1)]
    return told


def plain(text: str) -> str:
    """A text without what XML has no way to write."""
    return NO_TEXT.sub("?", text)


def written(outcomes: list[Outcome]) -> xml.ElementTree:
    """The document of these suites."""
    top = xml.Element("testsuites")
    for outcome in outcomes:
        cases = cases_of(outcome)
        counts = {"tests": len(cases), "failures": outcome.failed, "skipped": outcome.skipped, "errors": 0}
        suite = xml.SubElement(top, "testsuite", {key: str(count) for key, count in counts.items()})
        suite.set("name", outcome.name)
        suite.set("time", f"{outcome.seconds:.3f}")
        for case in cases:
            made = xml.SubElement(suite, "testcase", classname=outcome.name, name=plain(case["name"]))
            if case["outcome"] == "failed":
                told = plain(case["told"]).strip() or "failed"
                xml.SubElement(made, "failure", message=told.splitlines()[0][:200]).text = told
            elif case["outcome"] == "skipped":
                xml.SubElement(made, "skipped", message=plain(case["told"]))
    xml.indent(top)
    return xml.ElementTree(top)


def write(outcomes: list[Outcome], path: Path) -> None:
    """Writes the document to a file."""
    written(outcomes).write(path, encoding="utf-8", xml_declaration=True)
