"""What bindings/c/tsp.h declares, and the module of the package for Python that is made from it, from bindings/reasons.tsv and from
the sentences on faults of solutions.

tests/repository/reasons writes that module, and compares it.
"""
from __future__ import annotations

import json
import re
from textwrap import fill
from typing import NamedTuple

# The types of ctypes. A text is bytes of Python; what a call fills in is an address.
SCALARS = {"uint32_t": "c_uint32", "int64_t": "c_int64", "uint64_t": "c_uint64", "size_t": "c_size_t", "bool": "c_bool"}
POINTERS = {"const uint8_t": "c_char_p", "uint8_t": "c_void_p", "int64_t": "c_void_p", "const uint32_t": "c_void_p", "void": "c_void_p"}
POINTERS |= {"size_t": "POINTER(c_size_t)", "uint32_t": "POINTER(c_uint32)"}
DECLARED = "bindings/python/yokecairn/_declared.py"
WIDE = 140  # signs in a line of it
# The enums that the package doesn't use, by their first names: reasons are in a table of their own, and faults are read as texts.
LEFT_OUT = {"TSP_NOT_A_SOLUTION", "TSP_LONG_LINE", "TSP_LONG_WORD", "TSP_FIELD_NAME"}


class Header(NamedTuple):
    """The names of each enum with their numbers, the fields of each struct, and the result and the parameters of each call; each type
    is that of ctypes."""

    enums: list[dict[str, int]]
    structs: dict[str, list[tuple[str, str]]]
    calls: dict[str, tuple[str, list[str]]]


def type_of(words: str) -> str:
    """The type of ctypes for a type of C."""
    words = " ".join(words.split())
    if words == "void":
        return "None"
    if not words.endswith("*"):
        return SCALARS[words]
    inner = words[:-1].strip()
    return f"POINTER({inner.removeprefix('struct ')})" if inner.startswith("struct ") else POINTERS[inner]


def declared(declaration: str) -> tuple[str, str]:
    """The name in a declaration, and its type."""
    found = re.fullmatch(r"\s*(.*?)\s*(\*?)\s*(\w+)\s*", declaration, re.S)
    if found is None:
        raise KeyError(declaration)
    return found[3], type_of(found[1] + found[2])


def header_of(text: str) -> Header:
    """What the text of the header declares.

    Raises:
        KeyError: a type isn't known here.
    """
    plain = re.sub(r"/\*.*?\*/|^#.*?$", "", text, flags=re.S | re.M)
    bodies = re.findall(r"\benum \{(.*?)\}", plain, re.S)
    enums = [{name: int(number) for name, number in re.findall(r"(\w+) = (\d+)", body)} for body in bodies]
    structs = {name: [declared(it) for it in body.split(";")[:-1]] for name, body in re.findall(r"^struct (\w+) \{(.*?)^\};", plain, re.S | re.M)}
    calls = {}
    for result, name, parameters in re.findall(r"^(\w+) (tsp_\w+)\(([^)]*)\);", plain, re.M):
        given = [] if parameters == "void" else [declared(it)[1] for it in parameters.split(",")]
        calls[name] = type_of(result), given
    return Header(enums, structs, calls)


def reasons_of(reasons: list[tuple[int, str, str, int]]) -> str:
    """The table of reasons, and the class of their names. A reason has its number, its name, the same in capitals, and how many
    numbers."""
    pairs = "".join(f'    {number}: ("{name}", {count}),\n' for number, name, _, count in reasons)
    names = "".join(f'    {capitals} = "{name}"\n' for _, name, capitals, _ in reasons)
    return (
        "# Each reason by its number, with how many numbers it has.\n"
        f"REASONS: Dict[int, Tuple[str, int]] = {{\n{pairs}}}\n\n\n"
        "class Reason(str, Enum):\n"
        '    """Why a solution is rejected, or a certificate shows nothing; docs/format.md says when. `Report.reason` is\n'
        '    its text: `report.reason == Reason.REPEATED_NODE`."""\n\n'
        f"{names}"
    )


def sentences_in(text: str) -> dict[str, str]:
    """The sentence of each fault of another program's solution, by its name, in the text of crates/tsp_solution/specs/FaultTexts.antt."""
    pairs = re.findall(r'^form_fault_sentence (\w+) = codes ("(?:[^"\\]|\\.)*")$', text, re.M)
    return {name: json.loads(sentence) for name, sentence in pairs}


def sentences_of(sentences: dict[str, str]) -> str:
    """The table of sentences."""
    rows = "".join(f"    {json.dumps(name)}: {json.dumps(sentence)},\n" for name, sentence in sentences.items())
    return f"# What each fault of another program's solution means.\nSENTENCES: Dict[str, str] = {{\n{rows}}}\n\n"


def module_of(header: Header, reasons: list[tuple[int, str, str, int]], sentences: dict[str, str]) -> str:
    """Python's module."""
    numbers = "".join(f"{name.removeprefix('TSP_')} = {number}\n" for enum in header.enums if LEFT_OUT.isdisjoint(enum)
                      for name, number in enum.items())
    structs = ""
    for name, fields in header.structs.items():
        rows = "".join(f'        ("{field}", {kind}),\n' for field, kind in fields)
        structs += f"class {name}(Structure):\n    _fields_ = [\n{rows}    ]\n\n\n"
    calls = ""
    for name, (result, given) in header.calls.items():
        calls += fill(f'"{name}": ({result}, [{", ".join(given)}]),', WIDE, initial_indent="    ", subsequent_indent="        ") + "\n"
    used = sorted(set(re.findall(r"\b(?:c_\w+|POINTER)\b", structs + calls)) | {"Structure"})
    return (
        '"""What bindings/c/tsp.h declares, for ctypes, the reasons for the line `no`, and what faults of solutions mean.\n\n'
        "This file is made from the header, bindings/reasons.tsv and the definitions of tsp_solution by\n"
        "`tests/repository/reasons --write`: change these. The suite `reasons` of ./check compares them.\n"
        '"""\n\n'
        f"from ctypes import {', '.join(used)}\n"
        "from enum import Enum\nfrom typing import Any, Dict, List, Tuple\n\n"
        f"{numbers}\n\n{structs}"
        "# The result and the parameters of each call.\n"
        f"CALLS: Dict[str, Tuple[Any, List[Any]]] = {{\n{calls}}}\n\n{sentences_of(sentences)}{reasons_of(reasons)}"
    )
