"""What methods of the toolchain's library give, as far as a walk needs it."""
from __future__ import annotations

from .world import head_of, inner_of

# What methods of the library give, by what they are called on: the same, what is in it, or that as an Option.
SAME = set("""as_ref as_mut by_ref clone rev skip take step_by copied cloned iter iter_mut into_iter chunks windows ok_or ok_or_else
    ok err map_err or or_else filter as_slice as_deref to_owned unwrap_or_default min max peekable as_bytes drain chain
    split_at split_first split_last inspect skip_while take_while borrow deref""".split())
INNER = set("unwrap expect unwrap_or unwrap_or_else unwrap_or_default".split())
FOUND = set("first last get get_mut next pop pop_front peek first_mut last_mut nth find".split())
# Methods that the library has too, so that one on an unknown type is rather that one.
COMMON = set("len is_empty push insert read write flush fmt map contains remove extend cmp eq min max abs sqrt new from into default drop index kind "
             "error".split())
OF_LIBRARY = SAME | INNER | FOUND | COMMON


def given_by(on: str, name: str, types: list[str]) -> str:
    """The type of a call of a method of the library on a type, by those that it is passed."""
    if name in ("iter", "iter_mut", "into_iter", "drain", "chunks", "windows"):
        return f"Iter<{inner_of(on)}>"
    if name == "enumerate":
        return f"Iter<(usize, {inner_of(on) or '_'})>"
    if name == "zip":
        return f"Iter<({inner_of(on) or '_'}, {inner_of(types[0]) if types else '_'})>"
    if name in ("split_at", "split_at_mut"):
        return f"({on}, {on})"
    if name in ("split_first", "split_last"):
        return f"Option<({inner_of(on)}, {on})>"
    if name in ("ok_or", "ok_or_else"):
        return f"Result<{inner_of(on)}, _>"
    if name == "ok":
        return f"Option<{inner_of(on)}>"
    if name in SAME:
        return on
    if name in INNER:
        return inner_of(on)
    if name in FOUND:
        return f"Option<{inner_of(on)}>"
    if name in ("map", "and_then") and types:
        return f"{head_of(on)}<{types[0]}>" if name == "map" else types[0]
    return ""
