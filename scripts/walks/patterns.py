"""The types of fields, and of the names that a pattern binds."""
from __future__ import annotations

import re

from code_text import Function, parts_of

from .world import World, arguments_of, head_of, inner_of, plain, replaced


def split(signs: list[str], separator: str) -> list[list[str]]:
    """Signs cut at separators outside of brackets, without what is empty."""
    parts: list[list[str]] = [[]]
    depth = 0
    for sign in signs:
        depth += (sign in "([{") - (sign in ")]}")
        if sign == separator and depth == 0:
            parts.append([])
        else:
            parts[-1].append(sign)
    return [part for part in parts if part]


class Patterns:
    """The names of a body, each with its type."""

    def __init__(self, world: World, function: Function) -> None:
        self.world, self.function = world, function
        itself = {"Self": function.impl.self_type} if function.owner and not function.is_asked else {}
        self.types = {name: replaced(type_, itself) for name, type_ in function.parameters}

    def field(self, on: str, name: str) -> str:
        """The type of a field."""
        if plain(on).startswith("(") and name.isdigit():
            parts = arguments_of(on)
            return parts[int(name)] if int(name) < len(parts) else ""
        item = self.world.item(head_of(on), self.function.crate)
        if not item or name not in item.fields:
            return ""
        return replaced(item.fields[name], dict(zip(item.bounds, arguments_of(on))))

    def bind(self, pattern: list[str], type_: str) -> None:
        """Gives the names of a pattern their types."""
        for way in split(pattern, "|"):
            self.bind_one([sign for sign in way if sign not in ("&", "&&", "ref", "mut")], plain(type_))

    def bind_one(self, way: list[str], type_: str) -> None:
        if not way:
            return
        if len(way) == 1 or way[1] == "@":
            if re.match(r"[a-z_]", way[0]):
                self.types[way[0]] = type_
            self.bind_one(way[2:], type_)
        elif way[0] in "([":
            parts = split(way[1:-1], ",")
            types = arguments_of(type_) if way[0] == "(" else [inner_of(type_)] * len(parts)
            for place, part in enumerate(parts):
                self.bind(part, types[place] if place < len(types) else "")
        elif (opens := next((place for place, sign in enumerate(way) if sign in "({"), 0)):
            self.bind_inside(way[:opens], way[opens], way[opens + 1 : -1], type_)

    def bind_inside(self, path: list[str], opens: str, inside: list[str], type_: str) -> None:
        """Binds what is in a variant or a struct."""
        name, parts = path[-1], split(inside, ",")
        if name in ("Some", "Ok", "Err"):
            of_type = arguments_of(type_)
            place = 1 if name == "Err" else 0
            self.bind(inside, of_type[place] if place < len(of_type) else "")
            return
        owner = path[-3] if len(path) > 2 else name
        item = self.world.item(self.function.owner if owner == "Self" else owner, self.function.crate)
        by = dict(zip(item.bounds, arguments_of(type_))) if item else {}
        told = replaced(item.variants.get(name, "") if len(path) > 2 else "", by) if item else ""
        if opens == "(":
            types = arguments_of(told) if told else list(item.fields.values()) if item else []
            for part, of_part in zip(parts, [*types, *[""] * len(parts)]):
                self.bind(part, of_part)
            return
        fields = {it.partition(":")[0].strip(): it.partition(":")[2].strip() for it in parts_of(told.strip("{} \n"))} if told else (
            item.fields if item else {})
        for part in parts:
            inner = part[2:] if part[1:2] == [":"] else part
            self.bind(inner, replaced(fields.get(part[0], ""), by) if part else "")
