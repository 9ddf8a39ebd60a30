"""What scripts/about prints of a file in crates/."""
from __future__ import annotations

import re
import textwrap
from collections import defaultdict
from collections.abc import Iterable
from pathlib import Path

from code_text import Code, Function
from crates_text import ROOT, Crate, Definitions, Edit, Key, Pair, code_at, definitions_at

from .imports import module_of
from .kinds import Kind, kind_of
from .users import Users

WIDTH = 118
SCREEN = 42  # lines
MOST_ROWS, MOST_NAMES = 7, 4
TESTS = ("tsp_tests", "tsp_tests_no_memory", "example_check")
LISTS = ("Lib.antt", "states.antt", "lib.rt")
LOOK = "./check layout names style edits bodies cited trust evaluated walks"
SENTENCE = re.compile(r"(?<!\b[A-Z])(?<=[^.\s])\.(?:\s|$)")  # (an initial, as in O. Borůvka, ends none)
ITEM = re.compile(r"\b(?:const|static|struct|enum) (\w+)")
CIRCLES = re.compile(r"^Circles? [123][^.]*of docs/trust\.md\.\s*")


def sentence(text: str) -> str:
    """The first sentence of a head."""
    text = re.sub(r"\[(`[^`]+`)\](?:\([^)]*\))?", r"\1", CIRCLES.sub("", text))
    return SENTENCE.split(text, maxsplit=1)[0]


def is_proof(path: Path) -> bool:
    """Whether a file of a crate is part of the proof of one function."""
    return path.parts[0] == "proofs" and len(path.parts) > 2


def few(names: Iterable[str], most: int) -> str:
    """Names in a row, the first ones if there are many."""
    listed = list(dict.fromkeys(names))
    left = len(listed) - most
    return ", ".join(listed[:most]) + (f" and {left} more" if left > 0 else "") if listed else "none"


class Told:
    """What is said of a file, in parts."""

    def __init__(self, users: Users, path: Path, has_all: bool) -> None:
        self.users, self.path = users, path
        self.crate = users.crate_of(path)
        self.place = path.relative_to(self.crate.folder)
        self.rows, self.names = (10**6, 10**6) if has_all else (MOST_ROWS, MOST_NAMES)
        circles = users.circles.of_file(path) if self.place.parts[0] == "specs" else []
        kind = kind_of(self.place, circles, self.crate.name in TESTS)
        if kind is None:
            raise SystemExit(f"about: {self.place} is no code, definition, proof or wrong edit")
        self.kind = kind

    def lines(self) -> list[str]:
        """All parts. Where they need more than a screen, fewer names are shown."""
        found = self.all_parts()
        for self.rows, self.names in ((4, 3), (3, 2)) if self.rows == MOST_ROWS else ():
            found = found if len(found) <= SCREEN else self.all_parts()
        return found

    def all_parts(self) -> list[str]:
        parts = [("where", self.where()), ("who uses it", self.who_uses()), ("what it uses", self.what_it_uses()),
                 ("what you may change", self.rule()), ("after a change", self.to_run())]
        found = [f"{self.path.relative_to(ROOT) if ROOT in self.path.parents else self.path}: {self.about_kind()}"]
        for title, told in parts:
            found += ["", title, *(line for text in told for line in self.wrapped(text))] if told else []
        return found

    def wrapped(self, text: str) -> list[str]:
        return textwrap.wrap(text, WIDTH, initial_indent="  ", subsequent_indent="      ", break_long_words=False, break_on_hyphens=False)

    def row(self, title: str, names: Iterable[str]) -> str:
        return f"{title}: {few(names, self.names)}"

    # ---- where

    def about_kind(self) -> str:
        count = f"{len(self.path.read_text().splitlines())} lines"
        if self.kind is Kind.RULED:
            *most, last = map(str, self.users.circles.of_file(self.path))
            circles = f"circle{'s' * bool(most)} {', '.join(most)}{' and ' * bool(most)}{last} of docs/trust.md"
            return f"{self.kind.called}, {circles}, {count}"
        return f"{self.kind.called}, {count}"

    def where(self) -> list[str]:
        """Its own first sentence, its crate, and the crates below and above that."""
        above = self.users.above(self.crate)
        direct = [name for name in above if self.crate.name in self.users.crates[name].needs]
        library = next((file.head for file in self.crate.code if file.place in ("lib", "main")), "")
        more = f", and {len(above) - len(direct)} more through these" if len(above) > len(direct) else ""
        return [*self.says(), f"crate {self.crate.name}: {sentence(library)}",
                f"below it: {', '.join(self.crate.needs) or 'no crate'}; above: {', '.join(direct) or 'no crate'}{more}", *self.pages()]

    def pages(self) -> list[str]:
        """The pages that name the file. If other crates have one of its name, the line names its crate, too."""
        if self.kind in (Kind.PROOF, Kind.INDEX, Kind.PRELUDE, Kind.EXPORTS):
            return []
        word = self.path.stem if self.path.suffix == ".edit" else self.path.name
        every = (path for crate in self.users.crates.values() for path in crate.folder.glob(f"*/**/{self.path.name}"))
        is_alone = sum("out" not in path.parts for path in every) == 1
        named = re.compile(rf"(?<!\w){re.escape(word)}\b" if is_alone else rf"{self.crate.name}\b.*(?<!\w){re.escape(word)}\b")
        pages = (*sorted(ROOT.glob("*.md")), *sorted((ROOT / "docs").glob("*.md")))
        found = [str(page.relative_to(ROOT)) for page in pages if named.search(page.read_text())]
        return [self.row("pages that name it", found)] if found else []

    def says(self) -> list[str]:
        if self.path.suffix == ".edit":
            edit = Edit(self.path)
            return [edit.text.splitlines()[0], f"refused by: {edit.refused}"]
        if self.kind is Kind.PROOF and (function := self.users.proved_by(self.path)):
            every = (function, *self.users.asked(function))  # (a method's contract may be its trait's)
            names = [clause.name or "a clause without a name" for it in every for clause in it.clauses if clause.kind == "ensures"]
            what = {"Answers": "the goals", "Invariants": "the loops"}.get(self.path.stem, "the proof")
            summary = next((it.summary for it in every if it.summary), "")
            of_type = self.type_says(function) if function.trait and summary != function.summary else ""
            return [f"{what} of {self.function(function)}: {summary}{of_type}", self.row("its contract ensures", names)]
        head = code_at(self.path).head if self.path.suffix == ".rt" else definitions_at(self.path).head
        return [sentence(head)] if head else []

    def type_says(self, function: Function) -> str:
        """The first sentence of the type that implements a trait's method, which says what this one is for."""
        text = code_at(function.path).text
        found = re.search(rf"((?:^ *///.*\n)+)(?:^ *#.*\n)*^ *(?:pub(?:\([a-z]+\))? )?(?:struct|enum) {function.owner}\b", text, re.M)
        words = re.sub(r"^ *///", "", found[1], flags=re.M).split() if found else []
        return f". {function.owner}: {sentence(' '.join(words))}" if words else ""

    def function(self, function: Function) -> str:
        """A function with its file, and with its crate if that is another."""
        place = code_at(function.path).place
        return f"{function.shown} ({place if function.crate == self.crate.name else f'{function.crate}/{place}'})"

    # ---- users

    def who_uses(self) -> list[str]:
        if self.path.suffix == ".edit":
            return self.users_of_edit(Edit(self.path))
        if self.kind is Kind.EXPORTS:
            return self.users_of_exports(code_at(self.path))
        if self.path.suffix == ".rt":
            return self.users_of_code(code_at(self.path))
        if self.kind is Kind.PROOF:
            return self.users_of_proof()
        if self.kind is Kind.INDEX:
            return self.users_of_index(definitions_at(self.path))
        return self.users_of_definitions(definitions_at(self.path))

    def users_of_code(self, code: Code) -> list[str]:
        """The callers of its functions, the files that import its types, and the walks that pass."""
        users, functions = self.users, [it for it in code.functions if not it.is_test]
        tests = len(code.functions) - len(functions)
        exported = [it for it in functions if users.is_exported(it)]
        others = [it for it in functions if it not in exported and self.is_called_elsewhere(it)]
        names = {function.name for function in functions}
        types = [self.row(name, map(self.short, sorted(paths))) for name, paths in sorted(users.importers[self.path].items())
                 if name not in names]
        stating = [f"{len(paths)} in {name}" for name, paths in self.by_crate(users.stating(code)).items()]
        inner = len(functions) - len(exported) - len(others)
        return [*self.table("exported functions, and who calls them", map(self.callers, exported)),
                *self.table("other functions that other files call", map(self.callers, others)),
                *self.table("types and constants, and who imports them", types),
                *([f"functions that only this file calls: {inner}"] if inner else []), *([f"tests: {tests}"] if tests else []),
                *([self.row("definitions and proofs that name its types", stating)] if stating else []), *self.walks({self.path})]

    def table(self, title: str, rows: Iterable[str]) -> list[str]:
        """Rows under a title; none if there are no rows."""
        listed = list(rows)
        left = len(listed) - self.rows
        more = [f"  and {left} more (--all)"] if left > 0 else []
        return [title, *(f"  {row}" for row in listed[: self.rows]), *more] if listed else []

    def is_called_elsewhere(self, function: Function) -> bool:
        return bool(function.trait or function.is_asked) or any(it.path != self.path for it in self.users.callers(function))

    def callers(self, function: Function) -> str:
        """A function with those that call it: those in other files, if there are any."""
        found = self.users.callers(function)
        others = [it for it in found if it.path != self.path]
        if found:
            return self.row(function.shown, map(self.function, others or found))
        if function.trait:
            return f"{function.shown}: called through the trait {function.trait}"
        if function.is_for_c:
            return f"{function.shown}: called from C"
        is_law = function.is_law or function.changes_nothing
        return f"{function.shown}: {'a law for readers, which no code calls' if is_law else 'no code in crates/ calls it'}"

    def walks(self, paths: Iterable[Path]) -> list[str]:
        """The walks that pass through files of code: this one, or those that it is about."""
        every = self.users.walks
        if self.kind is Kind.TESTS or any(self.crate.name in walk.aside for walk in every):
            return []
        found = []
        for path in sorted(paths):
            counts = [(walk.name, sum(it.path == path for it in walk.calls)) for walk in every]
            passing = [f"{name} ({count})" for name, count in counts if count]
            title = "walks (scripts/walk) through " + ("it" if path == self.path else self.short(path))
            found.append(self.row(f"{title}, each with how many of its functions", passing) if passing else f"{title}: on no walk")
        return self.table("walks", found) if len(found) > self.rows else found

    def users_of_exports(self, code: Code) -> list[str]:
        found: dict[str, set[str]] = defaultdict(set)
        for file in self.users.files.values():
            for path in file.uses.values():
                if path.startswith(f"{self.crate.name}::"):
                    found[file.crate].add(path.rpartition("::")[2])
        idle = sorted(set(code.passed_on) - set().union(*found.values()))
        rows = [f"{name}: {few(sorted(names), self.names)}" for name, names in found.items()]
        return [*self.table("what other crates import", rows), *([self.row("what none imports", idle)] if idle else [])]

    def users_of_proof(self) -> list[str]:
        function = self.users.proved_by(self.path)
        if not function:
            return ["no function has this proof"]
        return [f"no other file: callers of {function.shown} see only its contract", f"callers of {self.callers(function)}",
                *self.walks({function.path})]

    def users_of_index(self, file: Definitions) -> list[str]:
        """Its modules: those that other crates import, other public ones, and private ones."""
        public = [line.removeprefix("pub mod ") for line in file.lines if line.startswith("pub mod ")]
        private = [line.removeprefix("mod ") for line in file.lines if line.startswith("mod ")]
        folder = self.path.parent / "states" if self.path.stem == "states" else self.path.parent
        seen = [it.path.stem for it in (*self.crate.specs, *self.crate.lemmas) if it.path.parent == folder
                and any(self.crate.folder not in path.parents for path in self.users.importers_of(it))]
        rows = [("public, and imported by other crates", [name for name in public if name in seen]),
                ("public, and not imported by other crates", [name for name in public if name not in seen]), ("private", private)]
        return [self.row(title, names) for title, names in rows if names]

    def users_of_definitions(self, file: Definitions) -> list[str]:
        names = self.users.names_imported(file)
        most = sorted(names, key=lambda name: (-len(names[name]), name))
        told = [f"{name} ({len(names[name])})" for name in most]
        found = self.table("files that import it", self.imported_by(self.users.importers_of(file))) or ["no file imports it"]
        found += [self.row("names that are imported most (by files)", told)] if told else []
        if self.kind is Kind.LEMMAS:
            return found + self.walks(self.users.code_proved_by(file))
        return found + (self.contracts(self.keys_of(file)) if self.kind is not Kind.PRELUDE else [])

    def imported_by(self, importers: set[Path]) -> list[str]:
        """The files that import it, crate by crate: code, definitions and lemmas, and the functions whose proofs do."""
        rows = []
        for name, paths in self.by_crate(importers).items():
            named = [str(path) for path in paths if not is_proof(path)]
            named.sort(key=lambda path: ("src", "specs", "proofs").index(path.partition("/")[0]))
            proofs = sorted({"/".join(path.parent.parts[1:]) for path in paths if is_proof(path)})
            parts = [*([few(named, self.names)] if named else []), *([f"proofs of {few(proofs, self.names)}"] if proofs else [])]
            rows.append(f"{name}: {'; '.join(parts)}")
        return rows

    def keys_of(self, file: Definitions) -> set[Key]:
        """The definitions of a file."""
        return {(module, name) for module, it in self.users.circles.modules.items() if it.path == file.path for name in it.definitions}

    def contracts(self, own: set[Key]) -> list[str]:
        """The contracts that name definitions, those that rest on them, and the records of `yes` that do."""
        users = self.users
        wide = users.resting_on(own)
        direct, every = (list(dict.fromkeys(it for it, _ in users.stated(keys))) for keys in (own, wide))
        direct.sort(key=lambda it: (not users.is_exported(it), code_at(it.path).place in ("examples", "laws")))
        exported = sum(map(users.is_exported, direct))
        title = f"contracts that name it: {len(direct)} functions, {exported} of them exported"
        found = [self.row(title, map(self.function, direct))] if direct else ["no contract names it"]
        more = [it for it in every if it not in direct and users.is_exported(it)]
        found += [f"contracts that rest on it through other definitions: {len(more)} more exported functions, in {few(self.crates_of(more), 99)}"] \
            if more else []
        records = [f"{name} ({few(fields, self.names)})" for name, fields in users.records(wide)]
        return [*found, self.row("records of `yes` that rest on it (fields)", records)]

    def crates_of(self, functions: Iterable[Function]) -> list[str]:
        wanted = {function.crate for function in functions}
        return [name for name in self.users.crates if name in wanted]

    def users_of_edit(self, edit: Edit) -> list[str]:
        changed = [it for pair in edit.pairs if (it := self.crate.function_of(pair))]
        folders = set(self.crate.folders_of(edit))
        alike = [it.path.stem for it in self.crate.edits if it.path != edit.path and folders & set(self.crate.folders_of(it))]
        defined = [key for pair in edit.pairs if (key := self.definition_changed(pair))]
        found = [self.row("it changes", [*map(self.function, changed), *map(self.definition, defined), *self.others_changed(edit)])]
        found += [f"callers of {self.callers(function)}" for function in dict.fromkeys(changed)]
        found += [line for key in dict.fromkeys(defined) for line in self.users_of_definition(key)]
        found += [self.row("other edits of it", alike)] if alike else []
        return found + self.walks({path for pair in edit.pairs if (path := self.crate.folder / pair.path).suffix == ".rt"})

    def definition_changed(self, pair: Pair) -> Key | None:
        """The definition that a pair of an edit changes."""
        path = self.crate.folder / pair.path
        if not pair.path.startswith("specs/") or not path.is_file():
            return None
        number = path.read_text().partition(pair.old)[0].count("\n") + 1
        names = [it.name for it in definitions_at(path).definitions.values() if it.number <= number]
        return (module_of(self.crate, path), names[-1]) if names else None

    def definition(self, key: Key) -> str:
        """A definition with its file, and the circles of that."""
        path = self.users.imports.modules[key[0]].path
        circles = self.users.circles.of_file(path)
        return f"{key[1]} ({self.short(path)}{f', circle ' + ' and '.join(map(str, circles)) if circles else ''})"

    def users_of_definition(self, key: Key) -> list[str]:
        """The files that import a definition, and the contracts and records that rest on it."""
        importers = self.users.names_imported(self.users.imports.modules[key[0]]).get(key[1], set())
        found = self.table(f"files that import {key[1]}", self.imported_by(importers)) or [f"only its own file uses {key[1]}"]
        return found + self.contracts({key})

    def others_changed(self, edit: Edit) -> list[str]:
        """What an edit changes outside of functions and definitions: a constant or a type, or else the file."""
        others = [pair for pair in edit.pairs if not self.crate.function_of(pair) and not self.definition_changed(pair)]
        named = [(ITEM.search(pair.old), pair.path) for pair in others]
        return [f"{item[1]} ({path})" if item else path for item, path in named]

    # ---- what it uses

    def what_it_uses(self) -> list[str]:
        if self.path.suffix == ".edit" or self.kind is Kind.INDEX:
            return []
        if self.path.suffix == ".antt":
            return self.imports(definitions_at(self.path))
        code = code_at(self.path)
        called: dict[str, dict[str, None]] = defaultdict(dict)
        for function in code.functions:
            for it in self.users.calls.get(function, []):
                if it.path != self.path:
                    called[f"{it.crate}/{code_at(it.path).place}"][it.name] = None
        modules = sorted({module for module, _ in code.ghost_uses.values() if module.startswith("tsp_")})
        rows = [f"{place}: {few(names, self.names)}" for place, names in called.items()]
        return [*self.table("functions that it calls", rows), *([self.row("definitions in its contracts", map(self.spec, modules))] if modules else [])]

    def spec(self, module: str) -> str:
        """A module of definitions as a file; of a type of the code, the type."""
        crate, _, rest = module.partition(".")
        shown = rest.removeprefix("specs.").removeprefix("declared.").removesuffix(".TheVariants").replace(".", "/")
        return shown if crate == self.crate.name else f"{crate}/{shown}"

    def imports(self, file: Definitions) -> list[str]:
        imports, modules = self.users.imports, dict.fromkeys(module for module, _ in file.uses.values())
        homes = {imports.home(key) for key in file.uses.values()} if self.kind is not Kind.PRELUDE else set(modules)
        own = sorted(module for module in homes if module.startswith("tsp_") and ".declared." not in module and not module.endswith(".Goals"))
        return [self.row("imports", map(self.module, own))] if own else []

    def module(self, module: str) -> str:
        path = module.replace(".", "/")
        return path.removeprefix(f"{self.crate.name}/")

    # ---- what to do

    def rule(self) -> list[str]:
        """The rule for its kind, and of code which functions promise something, and which nothing."""
        if self.kind is not Kind.CODE:
            return [self.kind.rule]
        functions = [it for it in code_at(self.path).functions if it.body is not None and not it.is_test]
        free = [it.shown for it in functions if not it.clauses and not it.trait]
        facts = len(re.findall(r"^ *(?:pub )?ghost \w+:", self.path.read_text(), re.M))
        more = f"; facts that its types state: {facts}" if facts else ""
        if not functions:
            items = ITEM.findall(self.path.read_text())
            return [f"it declares {few(items, self.names)}, and no function: whoever uses these, and definitions that name them, rely on "
                    f"their names, types and values{more}"]
        if len(free) == len(functions):
            return [self.kind.rule, f"none of its {len(functions)} functions has a contract: the prover only sees that they can't fail{more}"]
        told = f"all of its {len(functions)} functions have a contract" if not free else \
            f"{len(functions) - len(free)} of its {len(functions)} functions have a contract, but not {few(free, self.names)}"
        return [self.kind.rule, told + more]

    def to_run(self) -> list[str]:
        """What to run after a change."""
        if self.path.suffix == ".edit":
            return ["./check edits bodies", f"tests/repository/edits --bare {self.crate.name}/{self.path.stem}   (the prover has to refuse it)"]
        return [f"cd crates/{self.crate.name} && rt check{self.only()}", *self.provers(), LOOK, *self.suites(), *self.edits()]

    def provers(self) -> list[str]:
        """The crates that are proved again, too, if what the file promises changes."""
        above = self.users.above(self.crate)
        if self.kind is Kind.LEMMAS:
            importing = self.by_crate(self.users.importers_of(definitions_at(self.path)))
            named = [name for name in above if name in importing]
            return [f"if a statement changed, rt check also in {', '.join(named)}"] if named else []
        if self.kind in (Kind.PROOF, Kind.INDEX, Kind.PRELUDE, Kind.TESTS, Kind.VALUES, Kind.EXAMPLES) or not above:
            return []
        what = "a contract, a type or an export" if self.path.suffix == ".rt" else "a definition"
        return [f"if {what} changed, rt check also in {', '.join(above)}"]

    def only(self) -> str:
        """The words by which one function is checked alone, before the crate is."""
        function = self.users.proved_by(self.path) if self.kind is Kind.PROOF else None
        return f" --only {self.crate.folder_of(function).replace('/', '::')}, then rt check" if function else ""

    def suites(self) -> list[str]:
        """Suites beyond those of the repository, if what the program or the library for C does may change."""
        if self.path.suffix != ".rt" or self.kind not in (Kind.CODE, Kind.EXPORTS):
            return []
        above = {self.crate.name, *self.users.above(self.crate)}
        named = ["cases tables second"] * ("tsp_tool" in above) + ["bindings"] * ("tsp_c" in above)
        return [f"if what is printed or returned may change: ./check {' '.join(named)}"] if named else []

    def edits(self) -> list[str]:
        """The wrong edits of this file or of what it proves, by who tries them."""
        found = self.users.edits_of(self.crate, self.path, [self.crate.folder_of(it) for it in self.functions_here()])
        tried, others = [it.path.stem for it in found if it.is_tried], [it.path.stem for it in found if not it.is_tried]
        named = [(f"rt must-fail {self.crate.name}", tried), (f"tests/repository/edits {self.crate.name}", others)]
        return [self.row(f"{command} has {len(edits)} about it", edits) for command, edits in named if edits]

    def functions_here(self) -> list[Function]:
        if self.path.suffix == ".rt":
            return code_at(self.path).functions
        function = self.users.proved_by(self.path) if self.kind is Kind.PROOF else None
        return [function] if function else []

    # ---- paths

    def short(self, path: Path) -> str:
        """A path below its crate, with the crate's name if that is another."""
        crate = self.users.crate_of(path)
        place = str(path.relative_to(crate.folder))
        return place if crate is self.crate else f"{crate.name}/{place}"

    def by_crate(self, paths: Iterable[Path]) -> dict[str, list[Path]]:
        """Paths below their crates, by crate: its own first."""
        found: dict[str, list[Path]] = defaultdict(list)
        for path in sorted(paths):
            crate = self.users.crate_of(path)
            found[crate.name].append(path.relative_to(crate.folder))
        order = [self.crate.name, *(name for name in self.users.crates if name != self.crate.name)]
        return {name: found[name] for name in order if name in found}


def told_of_crate(users: Users, crate: Crate) -> list[str]:
    """What is said of a crate: each file of code, definitions and lemmas with its first sentence."""
    library = next((file.head for file in crate.code if file.place in ("lib", "main")), "")
    found = [f"{crate.name}: {sentence(library)}", f"below it: {', '.join(crate.needs) or 'no crate'}; "
             f"above: {', '.join(users.above(crate)) or 'no crate'}", ""]
    lemmas = [file for file in crate.lemmas if file.path.parent == crate.folder / "proofs"]
    listed = [(it.path, it.head) for it in crate.code] + [(it.path, it.head) for it in (*crate.specs, *lemmas)]
    heads = {str(path.relative_to(crate.folder)): head for path, head in listed if path.name not in LISTS}
    width = max(map(len, heads))
    return found + [f"{place:{width}}  {textwrap.shorten(sentence(head), WIDTH - width - 2, placeholder=' ..')}" for place, head in heads.items()]


def edits_of_crate(users: Users, crate: Crate, path: Path | None = None) -> list[str]:
    """The wrong edits of a crate, or of one file, by the file and the function or definition that they change first."""
    rows: dict[tuple[str, str], list[Edit]] = defaultdict(list)
    for edit in crate.edits if path is None else users.edits_of(crate, path):
        pair = next((it for it in edit.pairs if path is None or it.path == str(path.relative_to(crate.folder))), edit.pairs[0])
        function = crate.function_of(pair)
        rows[pair.path, function.shown if function else edit.breaks].append(edit)
    found: list[str] = []
    for place in dict.fromkeys(place for place, _ in sorted(rows)):
        found += ["", place] if found else [place]
        for (_, name), edits in sorted(it for it in rows.items() if it[0][0] == place):
            found += [f"  {name}", *(f"    {edit.path.parent.name}/{edit.path.stem}" for edit in edits)]
    return found or ["no wrong edit changes it"]
