"""Makes a case smaller that shows a difference, and writes it as a row for tests/program/tables. For
tests/second/run."""
from __future__ import annotations

import re
from collections.abc import Callable, Iterator
from dataclasses import replace

from generate import Case

Test = Callable[[Case], bool]
MOST_TRIES = 1_500


def cuts(parts: list[bytes]) -> Iterator[list[bytes]]:
    """The parts without some that are beside one another, the longest runs first."""
    size = len(parts) // 2
    while size:
        for start in range(0, len(parts), size):
            yield parts[:start] + parts[start + size :]
        size //= 2


def cut_text(text: bytes) -> Iterator[bytes]:
    """Shorter texts: without lines, without words, without bytes."""
    for lines in cuts(text.splitlines(keepends=True)):
        yield b"".join(lines)
    for words in cuts(re.findall(rb"\S+|\s+", text)):
        yield b"".join(words)
    for size in (64, 8, 1):
        for start in range(0, len(text), size):
            yield text[:start] + text[start + size :]


def smaller(case: Case) -> Iterator[Case]:
    """Cases that are a little smaller."""
    if case.verb == "compare" and len(case.texts) > 2 + bool(case.kind):
        for place in range(1, len(case.texts) - bool(case.kind)):
            yield replace(case, texts=case.texts[:place] + case.texts[place + 1 :])
    if case.claim:
        yield replace(case, claim=b"")
    if case.layout:
        yield replace(case, layout="")
    for place, text in enumerate(case.texts):
        for shorter in cut_text(text):
            yield replace(case, texts=case.texts[:place] + (shorter,) + case.texts[place + 1 :])


def shrunk(case: Case, differs: Test) -> Case:
    """A smallest case that still differs, as far as a number of tries finds one."""
    tries, goes_on = 0, True
    while goes_on:
        goes_on = False
        for other in smaller(case):
            tries += 1
            if tries > MOST_TRIES:
                return case
            if differs(other):
                case, goes_on = other, True
                break
    return case


def quoted(text: bytes) -> str:
    """A text as a table has it."""
    signs = {10: "\\n", 13: "\\r", 9: "\\t", 0: "\\0", 34: '\\"', 92: "\\\\"}
    out = "".join(signs.get(byte) or (chr(byte) if 32 <= byte < 127 else f"\\x{byte:02x}") for byte in text)
    return '"' + re.sub(r"([ \w])\1{40,}", lambda same: f"\\[{len(same[0])}*{same[1]}]", out) + '"'


def row_of(case: Case, right: tuple, found: tuple) -> str:
    """The lines of a table that has this run."""
    kind = {"potentials": "", "branches": "branches"}.get(case.kind, "")
    verb = {"check": kind or "check", "bound": "-".join(filter(None, ["bound", kind]))}.get(case.verb, case.verb)
    texts = list(case.texts)
    if case.verb == "compare" and case.kind:
        verb, texts = f"compare-{case.kind}", [texts[0], texts[-1], *texts[1:-1]]
    words = [quoted(text) for text in texts]
    if case.verb == "convert":
        words.insert(0, quoted(case.layout.encode()))
    if case.claim:
        verb, words = "-".join(filter(None, ["length", kind])), [quoted(case.claim), *words]
    told = lambda result: quoted(result[1] or result[2].rstrip(b"\n")) + f"  # status {result[0]}"
    return f"    run {verb} {' '.join(words)}\n    the second reader: out {told(right)}\n    the program:       out {told(found)}"
