"""What kind of file a path in crates/ is, and the rule for whoever changes it."""
from __future__ import annotations

from enum import Enum
from pathlib import PurePath


class Kind(Enum):
    """A kind of file, by what it is called, and the rule for it."""

    CODE = ("code", "Change a body freely, as long as it still satisfies its contract. A contract (`requires`, `ensures`, or a `ghost` fact "
                    "of a struct) is a promise: if you change it, you have to prove its users again.")
    EXPORTS = ("list of modules and exports", "Other crates can use only what it exports. Add an export freely; if you drop one, mend the crates that import it.")
    LAWS = ("laws", "A law does nothing when it is called: its contract is a theorem on which its callers' proofs rest. Change its proof freely, "
                    "but not what it says.")
    EXAMPLES = ("laws with examples", "Each contract states values worked out by hand. Correct a value only if it is wrong by the pages, not "
                                      "to make a proof go through.")
    TESTS = ("code for tests", "Nothing that users run depends on it.")
    RULED = ("definitions", "`yes` or a bound rests on them. If you change one, you change what the program promises, and the prover can't "
                            "tell whether it is still right: have it reviewed.")
    UNRULED = ("definitions in no circle", "Contracts use them, but what `yes` means doesn't rest on them. If you change one, these contracts "
                                           "promise something else.")
    STATES = ("definitions about structs and loops", "If you change one, promises inside the crates that import it change, but not what `yes` "
                                                     "means. Proceed as for a contract.")
    VALUES = ("examples for laws", "Laws evaluate definitions on them. Nothing else rests on them.")
    PRELUDE = ("names passed on", "It declares nothing. Add or drop a name as the files of this crate need it.")
    INDEX = ("list of files", "It declares nothing. `pub mod` lets other crates import a file, and in specs/ also the proofs of this crate.")
    LEMMAS = ("lemmas", "No promise rests on the wording of a lemma. If you change a statement, mend the proofs that import it.")
    PROOF = ("proof of one function", "Change it freely, as long as the function is still proved: no other file rests on it.")
    TRIED = ("wrong edit that every check tries", "The prover has to refuse it. No promise changes if you change it.")
    UNTRIED = ("wrong edit", "The prover has to refuse it. No promise changes if you change it. Only `tests/repository/edits` tries it, by hand.")

    @property
    def called(self) -> str:
        return self.value[0]

    @property
    def rule(self) -> str:
        return self.value[1]


CODE_BY_NAME = {"lib": Kind.EXPORTS, "main": Kind.CODE, "laws": Kind.LAWS, "examples": Kind.EXAMPLES}
EDITS = {"must-fail": Kind.TRIED, "wrong-edits": Kind.UNTRIED}


def kind_of(place: PurePath, circles: list[int], is_for_tests: bool = False) -> Kind | None:
    """The kind of a file by its path in its crate, and the circles that its definitions are in."""
    top, name = place.parts[0], place.stem
    if top in EDITS:
        return EDITS[top]
    if top == "src":
        return Kind.TESTS if is_for_tests else CODE_BY_NAME.get(name, Kind.CODE)
    if name in ("Lib", "states") and len(place.parts) == 2:
        return Kind.INDEX
    if name == "Prelude":
        return Kind.PRELUDE
    if top == "proofs":
        return Kind.LEMMAS if len(place.parts) == 2 else Kind.PROOF
    if top != "specs":
        return None
    if circles:
        return Kind.RULED
    if name.endswith("Examples"):
        return Kind.VALUES
    return Kind.STATES if place.parts[1] == "states" else Kind.UNRULED
