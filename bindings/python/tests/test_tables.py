"""Each row of tests/program/tables, by the package's calls and by its command in this process.

tests/support/rows.py knows what a row is. Here what it starts as a process is done by the package.
"""

import io
import os
import re
import sys
import tempfile
import types
import unittest
from pathlib import Path

import yokecairn
from support import ROOT
from yokecairn.__main__ import Run
from yokecairn.solution import length_of
from yokecairn.compare import line_of

sys.path.append(str(ROOT / "tests/support"))
import rows  # noqa: E402


def by_the_command(program_and_words, cwd, **_):
    """Runs the command."""
    stdin, out, err = io.BytesIO(), io.BytesIO(), io.BytesIO()
    folder = os.getcwd()
    os.chdir(cwd)
    try:
        status = Run(stdin, out, err).run(as_the_program(program_and_words[1:]))
    finally:
        os.chdir(folder)
    told = program_said(err.getvalue(), program_and_words[1:])
    return types.SimpleNamespace(returncode=status, stdout=out.getvalue(), stderr=told)


def as_the_program(words):
    """The words by which the command takes files of TYPE TOUR alone, as the program does."""
    return [words[0], "--no-foreign", *words[1:]] if words[:1] in (["check"], ["compare"]) else words


def program_said(told, words):
    """What the program says where the command says this: no path, and no word that is wrong, in lines of faults."""
    paths = "|".join(re.escape(word.rpartition("=")[2]) for word in words if not word.startswith("--") or "=" in word)
    if "--explain" in words:
        return told
    if "compare" in words:  # (a comparison has these lines on standard output)
        told = re.sub(rf"^(?:{paths}): (?!file ).*\n".encode(), b"", told, flags=re.M)
    lines, missing = re.subn(rf"^(file \d: .+?): (?:{paths})(?:: .*)?$".encode(), rb"\1", told, flags=re.M)
    assert missing or not told.startswith(b"file "), told
    return lines


def by_calls(program_and_words, cwd, **_):
    """Calls the package, and answers as a run of the program would."""
    options, names = rows.options_of(program_and_words[2:])
    texts = [Path(cwd, name).read_bytes() for name in names]
    for name in options.keys() & {"potentials", "branches"}:
        options[name] = Path(cwd, options[name]).read_bytes()
    status, out, err = called(program_and_words[1], texts, options, names)
    codes = [text.encode("utf-8", "surrogateescape") for text in (out, err)]
    return types.SimpleNamespace(returncode=status, stdout=codes[0], stderr=codes[1])


def compared(texts, options, names):
    """The status and the lines of a comparison."""
    found = yokecairn.compare(texts[0], dict(zip(names[1:], texts[1:])), **options)
    lines = (f"{line_of(name, outcome)}\n" for name, outcome in zip(found.names, found))
    return found.status, found.basis.text + "".join(lines), ""


def called(verb, texts, options, names):
    """The status, the report and the fault of one call."""
    layout, length = options.pop("layout", None), options.pop("length", None)
    try:
        if length is not None:
            options["length"] = length_of(length)
    except (ValueError, ArithmeticError):
        return 4, "", "not a length\n"
    try:
        if verb == "show":
            return 0, yokecairn.show(*texts), ""
        if verb == "convert":
            problem = yokecairn.parse(*texts)
            return 0, (problem.relayout(layout) if layout else problem).render(), ""
        if verb == "compare":
            return compared(texts, {"foreign": False, **options}, names)
        if verb == "check":
            options["foreign"] = False
        report = (yokecairn.bound if verb == "bound" else yokecairn.check)(*texts, **options)
        return int(not report), report.text, ""
    except yokecairn.Fault as fault:
        return 1 if isinstance(fault, yokecairn.RelayoutFault) else 2, "", fault.told + "\n"
    except ValueError as fault:
        if layout is None or not str(fault).startswith("unknown layout"):
            raise
        return 4, "", "unknown layout\n"


class Rows(unittest.TestCase):
    passed = 0

    def run_by(self, kind, without=()):
        with tempfile.TemporaryDirectory() as scratch:
            runner = rows.Runner("tsp", scratch, run=kind, without=without)
            runner.all()
        Rows.passed += runner.passed
        self.assertEqual(runner.failed, 0)
        self.assertGreater(runner.passed, 2000)

    def test_by_calls(self):
        self.run_by(by_calls, without={"explain"})

    def test_by_the_command(self):
        self.run_by(by_the_command)


if __name__ == "__main__":
    unittest.main()
