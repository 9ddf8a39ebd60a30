"""The rows of tests/program/tables, and how the program runs on one; and the cases of tests/program/cases.
tests/program/README.md says what both are. For run-tables, run-cases and refusals of tests/program, and for the tests of
the bindings, which run the rows too."""

import os
import re
import subprocess
import sys

from runner import TESTS, Counts

TABLES = TESTS / "program/tables"
WORD = re.compile(r'\s*(?:"((?:[^"\\]|\\.)*)"|(\S+))')
ESCAPE = re.compile(r'\\(?:x([0-9a-f]{2})|u\{([0-9a-f]+)\}|\[(\d+)\*((?:[^\]\\]|\\.)*)\]|(.))')
# The exit statuses of what is no fault of a file.
STATUSES = {"relayout": 1, "unknown layout": 4, "not a length": 4}
# The exit statuses of explained runs that don't end in the line `no` of a check.
STATUS_OF_EXPLAINED = {"explain-fault": 2, "explain-fault-branches": 2, "explain-yes": 0}
LETTERS = {"n": "\n", "r": "\r", "t": "\t", "0": "\0", "\\": "\\", '"': '"'}
# The parts of the names of runs that judge: of a check, or of a bound.
JUDGED = {"check", "branches", "length", "strict", "bound", "explain"}


def unescaped(text):
    """The text that is written in quotes."""

    def one(match):
        byte, character, count, part, letter = match.groups()
        if count:
            return int(count) * unescaped(part)
        if byte:
            return bytes.fromhex(byte).decode("utf-8", "surrogateescape")
        return LETTERS[letter] if letter else chr(int(character, 16))

    return ESCAPE.sub(one, text)


def words(line, texts):
    """The words of a line: texts in quotes, names of texts, and other words as they are."""
    found = []
    for quoted, plain in WORD.findall(line):
        found.append(texts.get(plain, plain) if plain else unescaped(quoted))
    return found


class Table:
    """Runs that are alike: see the README."""

    def __init__(self, name, number):
        self.name = name
        self.number = number
        self.runs = []
        self.out = ""
        self.columns = []
        self.swap = None
        self.rows = []

    def take(self, number, key, rest, lines, texts):
        """Takes a line of the table; whether it is one."""
        if key == "run":
            self.runs.append(words(rest, texts))
        elif key == "out":
            self.out = text_of(rest, lines, texts)
        elif key == "columns":
            self.columns = rest.split()
        elif key == "swap":
            self.swap = rest.split()
        elif key == "row":
            self.rows.append((number, words(rest, texts)))
        else:
            return False
        return True


class Case:
    """One run of the program: its words, its files, what its streams are, and how it ends. See the README."""

    def __init__(self, name, number):
        self.name = name
        self.number = number
        self.words = []
        self.files = {}
        self.texts = {"stdin": "", "script": "", "stdout": "", "stderr": ""}
        self.streams = {"closed": "", "output": "", "errors": ""}
        self.status = 0

    def take(self, number, key, rest, lines, texts):
        """Takes a line of the case; whether it is one."""
        if key == "words":
            self.words = words(rest, texts)
        elif key == "file":
            name, *named = words(rest, texts)
            self.files[name] = "".join(lines) or named[0]
        elif key in self.texts:
            self.texts[key] = text_of(rest, lines, texts)
        elif key in self.streams:
            self.streams[key] = rest
        elif key == "status":
            self.status = int(rest)
        else:
            return False
        return True


def lines_of(path):
    """The lines of a file without remarks: their number, their first word and the rest. The lines that begin with
    a bar are one text, the rest of the line above them."""
    with open(path, encoding="utf-8") as file:
        lines = enumerate(file.read().split("\n"), 1)
    found = []
    for number, line in lines:
        key, _, rest = line.partition(" ")
        if key == "|":
            found[-1][3].append(rest + "\n")
        elif line and key != "#":
            found.append((number, key, rest, []))
    return found


def text_of(rest, lines, texts):
    """The text of a line: the lines below it, or the one that it has or names."""
    return "".join(lines) if lines else words(rest, texts)[0]


def blocks_of(path, kind):
    """The tables or the cases of a file."""
    texts = {}
    blocks = []
    for number, key, rest, lines in lines_of(path):
        if key == "let":
            name, _, text = rest.partition(" =")
            texts[name] = text_of(text, lines, texts)
        elif key == "==":
            blocks.append(kind(rest, number))
        elif not blocks or not blocks[-1].take(number, key, rest, lines, texts):
            sys.exit(f"{path}:{number}: no line of a {kind.__name__.lower()}")
    return blocks


def tables_of(path):
    """The tables of a file."""
    return blocks_of(path, Table)


def cases_of(path):
    """The cases of a file."""
    return blocks_of(path, Case)


def encoded(text):
    """The bytes of a text: UTF-8, and the bytes that are none as they were written."""
    return text.encode("utf-8", "surrogateescape")


def filled(text, cells):
    """A text with the cells in the places of their columns."""
    for column, cell in cells.items():
        text = text.replace("{" + column + "}", cell)
    return text


def options_of(given):
    """The options among the words of a run, by their names, and its files."""
    options, names, rest = {}, [], list(given)
    while rest:
        word, _, value = rest.pop(0).partition("=")
        if word == "--strict":
            options["strict"] = True
        elif word.startswith("--"):
            options[word[2:]] = value or rest.pop(0)
        else:
            names.append(word)
    return options, names


class Runner(Counts):
    """The program, the folder in which its files lie, and how many rows have passed. `run` runs it as
    `subprocess.run` does. Runs whose name has all parts of one of `without` are left out, as `compare` or
    `bound-strict`, and rows without the word `only` in their file, their table's name or a cell."""

    def __init__(self, program, folder, run=subprocess.run, without=(), only="", each=1):
        super().__init__()
        self.each, self.rows = each, 0
        self.without = [set(name.split("-")) for name in without]
        self.only = only
        self.program = program
        self.folder = folder
        self.run_program = run

    def outcome(self, verb, texts):
        """The status of a run, and what it writes to its two streams."""
        parts = set(verb.split("-"))
        if verb == "convert":
            layout, texts = texts[0], texts[1:]
        if "length" in parts:
            claim, texts = texts[0], texts[1:]
        paths = []
        for number, text in enumerate(texts, 1):
            paths.append(f"file{number}")
            with open(os.path.join(self.folder, paths[-1]), "wb") as file:
                file.write(encoded(text))
        before = 1 if parts & {"bound", "compare"} else 2
        if parts & {"potentials", "branches"} if "compare" in parts else len(paths) > before:
            paths.insert(before, "--branches" if "branches" in parts else "--potentials")
        if verb == "convert" and layout:
            paths += ["--layout", layout]
        if "length" in parts:
            paths.append(f"--length={claim}")
        if "strict" in parts:
            paths.append("--strict")
        if "explain" in parts:
            paths.append("--explain")
        if parts & {"bound", "compare"}:
            verb = "bound" if "bound" in parts else "compare"
        elif parts & JUDGED:
            verb = "check" if len(texts) > 1 else "show"
        ran = self.run_program(
            [self.program, verb] + paths,
            cwd=self.folder,
            stdin=subprocess.DEVNULL,
            capture_output=True,
            timeout=60,
        )
        return ran.returncode, ran.stdout, ran.stderr

    def explained(self, verb, texts):
        """The status of a run with --explain, whether it writes what belongs to it (nothing for a
        file's fault, which has a line of its own first, and else a report that ends in a no, or in a
        yes), and what it says of that."""
        status, out, said = self.outcome(verb, texts)
        if STATUS_OF_EXPLAINED.get(verb, 2 if len(texts) == 1 else 1) == 2:
            fault, _, told = said.partition(b"\n")
            return status, out == b"" and fault.startswith(b"file "), told
        end = b"\nyes\n" if status == 0 else b"\n"
        return status, (status == 0 or b"\nno " in out) and out.endswith(end), said

    def expect(self, where, verb, texts, wanted, status=None):
        """Compares a run with the wanted result: a text that is written, what a fault prints, or what
        explains it; and with the wanted exit status, where a row gives it."""
        run = self.outcome
        if verb.startswith("explain"):
            status = STATUS_OF_EXPLAINED.get(verb, 1 if len(texts) > 1 else 2)
            run, right = self.explained, (status, True, wanted.encode("utf-8"))
        elif wanted.endswith("\n"):
            no = set(verb.split("-")) & JUDGED and not wanted.endswith("\nyes\n")
            status = int(bool(no)) if status is None else int(status)
            right = (status, wanted.encode("utf-8"), b"")
        else:
            status = STATUSES.get(wanted.partition(": ")[0], 2)
            right = (status, b"", (wanted + "\n").encode("utf-8"))
        found = run(verb, texts)
        self.add(found == right, f"{where}\n    wanted {right}\n    found  {found}", where)

    def row(self, where, table, cells):
        """The runs of a row, where it is one of those that are run."""
        self.rows += 1
        if self.rows % self.each:
            return
        wanted = filled(table.out, cells)
        for verb, *texts in table.runs:
            if any(parts <= set(verb.split("-")) for parts in self.without):
                continue
            texts = [filled(text, cells) for text in texts]
            if table.swap:
                old, new = (cells[column] for column in table.swap)
                if old not in texts[0]:
                    sys.exit(f"{where}: nothing to swap")
                texts[0] = texts[0].replace(old, new)
            self.expect(where, verb, texts, wanted, cells.get("status"))
            # a canonical text stays as it is
            if verb == "convert" and wanted.endswith("\n"):
                for layout in {"", texts[0]}:
                    self.expect(where, verb, [layout, wanted], wanted)

    def file(self, path):
        """The rows of a file."""
        for table in tables_of(path):
            if not (table.runs and table.out and table.rows):
                sys.exit(f"{path}: {table.name}: no runs, no outcome or no rows")
            for number, row in table.rows:
                if len(row) != len(table.columns):
                    sys.exit(f"{path}:{number}: not a cell for each column")
                where = f"{os.path.basename(path)}:{number}: {table.name}"
                if self.only in " ".join([where, *row]):
                    self.row(where, table, dict(zip(table.columns, row)))

    def all(self):
        """The rows of all tables."""
        for path in sorted(TABLES.glob("*.table")):
            self.file(str(path))
