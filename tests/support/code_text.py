"""The code of the crates (.rt) as imports, types and functions with their contracts and bodies.

`rt fmt` lays out the files, so an item begins at the left, and a method of it four blanks further. Places are those of the
file: comments, texts and signs are blanked, not cut out, before brackets are counted. crates_text.py has the other files;
tests/repository/texts tests both.
"""
from __future__ import annotations

import re
from collections.abc import Iterable, Iterator
from dataclasses import dataclass, field
from functools import cached_property
from itertools import takewhile
from pathlib import Path

VISIBLE = r"(?:pub(?:\([a-z]+\))? )?"
BLANKED = re.compile(r"""//[^\n]*|b?"(?:[^"\\]|\\.)*"|(?<![\w'])b?'(?:[^'\\\n]|\\[^'\n]{1,9}|\\')'""", re.S)
ITEM = re.compile(rf"^(?P<vis>{VISIBLE})(?:unsafe )?(?P<kind>struct|enum|trait|union|impl|type|const|static)\b(?! fn)", re.M)
FUNCTION = re.compile(rf"^ *(?P<vis>{VISIBLE})(?:const |unsafe |extern \"[^\"]*\" )*fn (?P<name>\w+)", re.M)
CLAUSE = re.compile(r"\b(requires|ensures|invariant)(?: (\w+))?\s*$")
USE = re.compile(r"^(?P<vis>pub(?:\([a-z]+\))? )?use (?P<tree>[^;]+);$", re.M)
GHOST_USE = re.compile(r"^ *ghost use Rattle\.(\S+)\.\{([^}]*)\};$", re.M)
BRACKETS, ANGLES = re.compile(r"[(\[{)\]}]"), re.compile(r"[(\[{<)\]}]|(?<![-=])>")
OPENS = "([{<"


# ---- brackets and lists


def blanked(text: str) -> str:
    """A text of code whose comments, texts and signs are blank: each is as long as before, and a text has its quotes."""

    def one(found: re.Match[str]) -> str:
        word = found[0]
        empty = re.sub(r"[^\n]", " ", word)
        return empty if word.startswith("//") or len(word) < 2 else f'"{empty[1:-1]}"'

    return BLANKED.sub(one, text)


def end_of(text: str, start: int) -> int:
    """The place after the partner of the bracket at `start`; a `<` too has one, as in types."""
    depth = 0
    for bracket in (ANGLES if text[start] == "<" else BRACKETS).finditer(text, start):
        depth += 1 if bracket[0] in OPENS else -1
        if depth == 0:
            return bracket.end()
    return len(text)


def parts_of(text: str, separator: str = ",") -> list[str]:
    """A list cut at the separators that no bracket encloses, without what is empty."""
    parts, depth, part = [], 0, ""
    for place, sign in enumerate(text):
        if sign in "([{<":
            depth += 1
        elif sign in ")]}" or sign == ">" and text[place - 1] not in "-=":
            depth -= 1
        if sign == separator and depth == 0:
            parts.append(part.strip())
            part = ""
        else:
            part += sign
    return [part for part in [*parts, part.strip()] if part]


def without_parameters(name: str) -> str:
    """The name of a type or a trait without its path, its parameters and lifetimes."""
    while (plain := re.sub(r"<[^<>]*>", "", name)) != name:
        name = plain
    return name.strip().removeprefix("&").rpartition("::")[2].strip()


def own_parameters(type_: str, variables: Iterable[str]) -> list[str]:
    """The names of a type's parameters but for lifetimes and type variables."""
    start = type_.find("<")
    parts = parts_of(type_[start + 1 : end_of(type_, start) - 1]) if start >= 0 else []
    return [without_parameters(part) for part in parts if not part.startswith("'") and part not in variables]


def bounds_in(generics: str) -> dict[str, str]:
    """The parameters of `<..>`, each with its bounds."""
    pairs = [part.partition(":") for part in parts_of(generics) if not part.startswith("'")]
    return {name.removeprefix("const ").strip(): bound.strip() for name, _, bound in pairs}


# ---- code


@dataclass(frozen=True)
class Clause:
    """A clause of a contract; one without a name has an empty one."""

    kind: str
    name: str
    text: str


@dataclass(frozen=True)
class Impl:
    """The head of an impl, or of a trait, and where it begins and ends."""

    owner: str = ""  # the type, or the trait that is declared
    trait: str = ""  # the trait of an impl
    trait_type: str = ""  # that trait with its parameters
    is_trait: bool = False
    self_type: str = ""  # the type with its parameters
    bounds: dict[str, str] = field(default_factory=dict, hash=False)
    span: tuple[int, int] = (0, 0)


@dataclass(frozen=True)
class Function:
    """A function, a method, or a method that a trait asks for, which may have no body."""

    crate: str
    path: Path
    line: int
    name: str
    impl: Impl = Impl()
    is_public: bool = False
    bounds: dict[str, str] = field(default_factory=dict, hash=False)
    parameters: tuple[tuple[str, str], ...] = ()
    result: str = ""
    clauses: tuple[Clause, ...] = ()
    body: str | None = None  # without comments and texts
    comment: tuple[str, ...] = ()
    attributes: tuple[str, ...] = ()
    span: tuple[int, int] = (0, 0)  # from its name to its end

    @property
    def owner(self) -> str:
        """The type or the trait that has it."""
        return self.impl.owner

    @property
    def trait(self) -> str:
        """The trait that asks for it, where an impl has it."""
        return self.impl.trait

    @property
    def is_asked(self) -> bool:
        """Whether a trait has it, which asks for it or gives its body."""
        return self.impl.is_trait

    @property
    def is_for_c(self) -> bool:
        """Whether programs in C call it."""
        return any("no_mangle" in attribute for attribute in self.attributes)

    @property
    def takes_self(self) -> bool:
        """Whether it is called by `.`."""
        return bool(self.parameters) and self.parameters[0][0] == "self"

    @property
    def arguments(self) -> tuple[tuple[str, str], ...]:
        """Its parameters without `self`."""
        return self.parameters[1:] if self.takes_self else self.parameters

    @property
    def is_law(self) -> bool:
        """Whether it does nothing: it is there for what its clauses say."""
        return self.body is not None and not self.body.strip()

    @property
    def changes_nothing(self) -> bool:
        """Whether it has no result and nothing to change: then it is a law too, proved by others."""
        return not self.result and not any("&mut" in type_ for _, type_ in self.parameters)

    @property
    def is_test(self) -> bool:
        return "#[test]" in self.attributes

    @property
    def shown(self) -> str:
        """Its name with that of its type, or of the trait where all types have it."""
        owner = self.trait if self.trait and self.owner in self.bounds else self.owner
        return f"{owner}::{self.name}" if owner else self.name

    @cached_property
    def summary(self) -> str:
        """The first sentence of its comment, up to a colon or a semicolon."""
        text = " ".join(takewhile(bool, self.comment))
        return re.split(r"(?<=[^.\s])[.:;](?:\s|$)", text, maxsplit=1)[0]


@dataclass(frozen=True)
class Item:
    """A type, a trait or a constant. A struct has types by the names of its fields, an enum types by its variants."""

    crate: str
    path: Path
    line: int
    kind: str
    name: str
    is_public: bool = False
    bounds: dict[str, str] = field(default_factory=dict, hash=False)
    head: str = ""
    fields: dict[str, str] = field(default_factory=dict, hash=False)
    variants: dict[str, str] = field(default_factory=dict, hash=False)
    comment: tuple[str, ...] = ()


class Code:
    """A file of code."""

    def __init__(self, path: Path) -> None:
        self.path, self.text = path, path.read_text()
        self.crate = path.parts[path.parts.index("src") - 1] if "src" in path.parts else ""
        self.place = str(path.with_suffix("")).rpartition("/src/")[2]
        self.clear = blanked(self.text)
        self.lines = self.text.splitlines()

    @property
    def head(self) -> str:
        """The comment `//!`, as one text."""
        return " ".join(line[3:].strip() for line in self.lines if line.startswith("//!"))

    @cached_property
    def uses(self) -> dict[str, str]:
        """The path of each name that the file imports."""
        found = {}
        for use in USE.finditer(self.clear):
            for path, alias in paths_of(use["tree"]):
                found[alias or path.rpartition("::")[2]] = path
        return found

    @cached_property
    def ghost_uses(self) -> dict[str, tuple[str, str]]:
        """The module and the name of each definition that the file's contracts import."""
        return {name: (module, name) for module, names in GHOST_USE.findall(self.text) for name in re.split(r",\s*", names)}

    @cached_property
    def passed_on(self) -> dict[str, str]:
        """The path of each name that others import from here."""
        uses = [use for use in USE.finditer(self.clear) if use["vis"]]
        return {alias or path.rpartition("::")[2]: path for use in uses for path, alias in paths_of(use["tree"])}

    def line_at(self, place: int) -> int:
        """The number of the line of a place."""
        return self.text.count("\n", 0, place) + 1

    def above(self, place: int) -> tuple[tuple[str, ...], tuple[str, ...]]:
        """The comment `///` and the attributes above a line."""
        comment, attributes = [], []
        for number in range(self.line_at(place) - 2, -1, -1):
            line = self.lines[number].strip()
            if line.startswith("///"):
                comment.append(line[3:].strip())
            elif line.startswith("#["):
                attributes.append(line)
            elif not line.startswith("//"):
                break
        return tuple(reversed(comment)), tuple(reversed(attributes))

    @cached_property
    def impls(self) -> list[Impl]:
        """The impls and traits."""
        found = []
        for item in ITEM.finditer(self.clear):
            brace = self.clear.find("{", item.end())
            if item["kind"] not in ("impl", "trait") or brace < 0:
                continue
            bounds, head = bounds_and_rest(self.clear[item.end() : brace])
            head = re.split(r"\bwhere\b", head)[0]
            is_trait = item["kind"] == "trait"
            if is_trait:
                name, _, above = map(str.strip, head.partition(":"))
                bounds = {**bounds_and_rest(re.sub(r"^\w+", "", name))[0], "Self": f"{name} + {above}".rstrip(" +")}
                trait, self_type = "", name
            else:
                trait, _, self_type = map(str.strip, head.rpartition(" for "))
            span = item.start(), end_of(self.clear, brace)
            owner, plain_trait = without_parameters(self_type), without_parameters(trait)
            found.append(Impl(owner, plain_trait, trait, is_trait, self_type, bounds, span))
        return found

    @cached_property
    def items(self) -> list[Item]:
        """The types, traits and constants."""
        return list(self.read_items())

    def read_items(self) -> Iterator[Item]:
        for item in ITEM.finditer(self.clear):
            name = re.match(r"\s+(?:mut )?(\w+)", self.clear[item.end() :])
            if item["kind"] == "impl" or not name:
                continue
            ends = re.search(r"[{;]|\((?=.*\);$)", self.clear[item.end() :])
            start = item.end() + (ends.start() if ends else 0)
            end = end_of(self.clear, start) if ends and ends[0] in "{(" else start + 1
            head, inside = self.clear[item.end() : start].strip(), self.clear[start + 1 : end - 1]
            fields, variants = fields_of(inside, item["kind"], self.clear[start])
            bounds = bounds_and_rest(head[len(name[1]) :])[0]
            yield Item(self.crate, self.path, self.line_at(item.start()), item["kind"], name[1], bool(item["vis"]), bounds,
                       head, fields, variants, self.above(item.start())[0])

    @cached_property
    def functions(self) -> list[Function]:
        """The functions and methods, in their order."""
        return [self.read_function(found) for found in FUNCTION.finditer(self.clear)]

    def read_function(self, found: re.Match[str]) -> Function:
        clear, (start, own_bounds) = self.clear, self.after_generics(found.end())
        shut = end_of(clear, start)
        parameters = tuple(parameter_of(part) for part in parts_of(clear[start + 1 : shut - 1]))
        impl = next((impl for impl in self.impls if impl.span[0] < found.start() < impl.span[1]), Impl())
        result, clauses, brace, end = self.read_contract(shut)
        comment, attributes = self.above(found.start())
        return Function(
            self.crate, self.path, self.line_at(found.start("name")), found["name"], impl=impl, is_public=bool(found["vis"]),
            bounds={**impl.bounds, **own_bounds}, parameters=parameters, result=result, clauses=clauses,
            body=None if brace is None else clear[brace + 1 : end - 1], comment=comment, attributes=attributes,
            span=(found.start("name"), end),
        )

    def after_generics(self, start: int) -> tuple[int, dict[str, str]]:
        """The place of the first parenthesis after a function's name, and its type parameters."""
        if self.clear[start] != "<":
            return self.clear.index("(", start), {}
        end = end_of(self.clear, start)
        return self.clear.index("(", end), bounds_in(self.clear[start + 1 : end - 1])

    def read_contract(self, start: int) -> tuple[str, tuple[Clause, ...], int | None, int]:
        """The result and the clauses of a function, and where its body begins, if it has one, and ends."""
        clauses: list[Clause] = []
        place = begun = ended = start
        while place < len(self.clear) and self.clear[place] not in "{;" or (clause := CLAUSE.search(self.clear, begun, place)):
            sign = self.clear[place]
            end = end_of(self.clear, place) if sign in "([{" else place + 1
            if sign == "{" and clause:
                ended = ended if clauses else clause.start()
                clauses.append(Clause(clause[1], clause[2] or "", self.text[place + 1 : end - 1].strip()))
                begun = end
            place = end
        result = re.split(r"\bwhere\b", self.clear[start : ended if clauses else place])[0].strip().removeprefix("->")
        has_body = self.clear[place : place + 1] == "{"
        return " ".join(result.split()), tuple(clauses), place if has_body else None, end_of(self.clear, place) if has_body else place

    @cached_property
    def names(self) -> set[str]:
        """What it declares: functions, clauses, types with their fields and variants, constants, facts, modules, its own name."""
        found = {self.path.stem, *re.findall(r"^ *ghost (\w+):", self.clear, re.M), *re.findall(rf"^{VISIBLE}mod (\w+);", self.clear, re.M)}
        for function in self.functions:
            found |= {function.name, *(clause.name for clause in function.clauses)}
        for item in self.items:
            found |= {item.name, *item.fields, *item.variants}
            found |= {name for variant in item.variants.values() for name in re.findall(r"(\w+):", variant)}
        return found - {""}

    def function_at(self, place: int) -> Function | None:
        """The function whose head or body is at a place."""
        return next((function for function in self.functions if function.span[0] <= place <= function.span[1]), None)


def paths_of(tree: str, before: str = "") -> Iterator[tuple[str, str]]:
    """The paths of a `use` tree, each with the other name that it has here."""
    tree = tree.strip()
    start, brace, rest = tree.partition("{")
    if brace:
        for part in parts_of(rest.rpartition("}")[0]):
            yield from paths_of(part, before + start)
        return
    path, _, alias = tree.partition(" as ")
    yield (before.removesuffix("::") if path == "self" else before + path.strip()), alias.strip()


def bounds_and_rest(head: str) -> tuple[dict[str, str], str]:
    """The type parameters that begin a head, and what follows them."""
    if not head.startswith("<"):
        return {}, head
    end = end_of(head, 0)
    return bounds_in(head[1 : end - 1]), head[end:]


def parameter_of(part: str) -> tuple[str, str]:
    """The name and the type of a parameter."""
    if found := re.fullmatch(r"((?:&(?:'\w+ )?)?(?:mut )?)self", part):
        return "self", f"{found[1]}Self"
    name, _, type_ = part.partition(":")
    return name.strip().removeprefix("mut "), " ".join(type_.split())


def fields_of(inside: str, kind: str, opens: str) -> tuple[dict[str, str], dict[str, str]]:
    """The fields of a struct, those of a tuple by their places; or the variants of an enum."""
    parts = [re.sub(r"#\[[^\]]*\]\s*", "", part).strip() for part in parts_of(inside)] if kind in ("struct", "enum") else []
    if kind == "enum":
        variants = [re.match(r"(\w+)\s*(.*)", part, re.S) for part in parts]
        return {}, {variant[1]: variant[2] for variant in variants if variant}
    if opens == "(":
        return {str(place): re.sub(rf"^{VISIBLE}", "", part) for place, part in enumerate(parts)}, {}
    named = [re.match(rf"{VISIBLE}(ghost )?(\w+)\s*:\s*(.*)", part, re.S) for part in parts]
    return {found[2]: " ".join(found[3].split()) for found in named if found and not found[1]}, {}
