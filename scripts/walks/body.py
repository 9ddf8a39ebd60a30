"""What a function calls, and which types it makes: its body, read once from its first sign to its last.

A call is found by the type of what is called, as far as signatures, fields and patterns give it. A method of a trait is called as
the trait's: which types have it is for whoever follows it. Names of methods that no rule resolves are kept in `unknown`.
"""
from __future__ import annotations

import re
from collections import defaultdict
from collections.abc import Callable

from code_text import Function, parts_of, without_parameters

from .library import OF_LIBRARY, given_by
from .patterns import Patterns
from .world import World, arguments_of, head_of, inner_of, plain, replaced

TOKEN = re.compile(r"""'\w+(?!')|(?<=\.)\d+|\d[\d_]*(?:\.\d+)?\w*|\w+|"[^"]*"|::|->|=>|\.\.=|\.\.|&&|\|\||<<=|>>=|<<|>>|[-+*/%^&|=!<>]=|\S""")
BINARY = set("+ - * / % ^ & | && || == != < > <= >= << >> = += -= *= /= %= ^= &= |= <<= >>= .. ..= as".split())
COMPARES = set("&& || == != < > <= >=".split())
READS = {"if": "if_", "match": "match", "while": "while_", "for": "for_", "loop": "loop", "unsafe": "unsafe", "move": "closure",
         "|": "closure", "||": "closure", "(": "inside", "[": "array", "{": "block"}
# The variants that are followed of an enum, where a match names it.
Choices = dict[str, set[str]]
CHOSEN = object()


class Body(Patterns):
    """A function's body, read once from its first sign to its last."""

    def __init__(self, world: World, function: Function, chosen: Choices, is_refused: bool = False) -> None:
        super().__init__(world, function)
        self.chosen, self.is_refused = chosen, is_refused
        self.file = world.files[function.path]
        self.tokens: list[str] = TOKEN.findall(function.body or "")
        self.at = self.muted = 0
        self.calls: list[Function] = []
        self.made: set[str] = set()
        self.unknown: list[str] = []
        while self.at < len(self.tokens):
            before = self.at
            self.statement()
            self.at += self.at == before  # (a sign that no rule takes)

    # ---- signs

    def next(self, ahead: int = 0) -> str:
        place = self.at + ahead
        return self.tokens[place] if place < len(self.tokens) else ""

    def take(self, *wanted: str) -> bool:
        """Takes the next sign, if it is one of these."""
        found = self.next() in wanted
        self.at += found
        return found

    def until(self, *ends: str) -> list[str]:
        """Takes the signs before one of these, outside of brackets."""
        start, depth = self.at, 0
        while self.at < len(self.tokens) and not (depth == 0 and self.next() in ends):
            depth += (self.next() in "([{") - (self.next() in ")]}")
            if depth < 0:
                break
            self.at += 1
        return self.tokens[start : self.at]

    # ---- statements

    def block(self) -> str:
        """A block, and the type of its last expression."""
        type_ = ""
        self.take("{")
        while self.next() and not self.take("}"):
            before = self.at
            type_ = self.statement()
            if self.take(";"):
                type_ = "()"
            self.at += self.at == before
        return type_

    def statement(self) -> str:
        if self.take("let"):
            pattern, type_ = self.until("=", ":", ";"), ""
            if self.take(":"):
                type_ = " ".join(self.until("=", ";"))
            if self.take("="):
                found = self.expression()
                type_ = type_ if type_ and "_" not in type_ else found
            self.bind(pattern, type_)
            if self.take("else"):
                self.aside(self.block)
            return "()"
        if self.take("#"):
            self.until("]")
            self.take("]")
            return ""
        if self.next() == "const":
            self.until(";")
            return ""
        return self.expression()

    def aside(self, read: Callable[[], str]) -> str:
        """Reads what follows a refusal."""
        self.muted += not self.is_refused
        read()
        self.muted -= not self.is_refused
        return "!"

    # ---- expressions

    def expression(self, has_structs: bool = True, stops: tuple[str, ...] = ()) -> str:
        """An expression, and its type: that of its first operand, but for what compares."""
        if self.take("return", "break", "continue"):
            if self.next().startswith("'"):
                self.at += 1
            if self.next() and self.next() not in ";,})":
                self.expression(has_structs)
            return "!"
        type_ = "" if self.next() in ("..", "..=") else self.operand(has_structs)
        while True:
            sign = self.next()
            if sign in stops or sign not in BINARY:
                return type_
            self.at += 1
            if sign == "as":
                self.path_of_type()
                type_ = ""
            elif sign in ("..", "..="):
                if self.next() and self.next() not in ")]},;{":
                    self.operand(has_structs)
                type_ = f"Iter<{type_}>"
            else:
                self.operand(has_structs)
                type_ = "bool" if sign in COMPARES else type_

    def path_of_type(self) -> None:
        while self.next() and (re.fullmatch(r"\w+|::|&|'\w+", self.next())):
            self.at += 1
        if self.next() == "<" and self.tokens[self.at - 1][:1].isupper():
            self.generics()

    def generics(self) -> list[str]:
        """Takes `<..>`."""
        start, depth = self.at, 0
        while self.next():
            sign = self.next()
            depth += {"<": 1, ">": -1, ">>": -2}.get(sign, 0)
            self.at += 1
            if depth <= 0:
                break
        return self.tokens[start : self.at]

    def operand(self, has_structs: bool) -> str:
        if self.take("-", "!"):
            return self.operand(has_structs)
        if self.take("&", "&&", "*"):
            self.take("mut")
            return plain(self.operand(has_structs))
        if self.take("let"):
            pattern = self.until("=")
            self.take("=")
            self.bind(pattern, self.expression(False, ("&&", "||")))
            return "bool"
        if self.next() in ("return", "break", "continue"):
            return self.expression(has_structs)
        type_ = self.primary(has_structs)
        while True:
            if self.take("?"):
                type_ = (arguments_of(type_) or [""])[0]
            elif self.take("."):
                type_ = self.member(type_)
            elif self.take("["):
                self.expression()
                is_part = self.tokens[self.at - 1] in ("..", "..=") or ".." in self.tokens[self.at - 3 : self.at]
                self.take("]")
                type_ = type_ if is_part else inner_of(type_)
            elif self.next() == "(" and self.tokens[self.at - 1] != "}":
                self.arguments()
                type_ = ""
            else:
                return type_

    def primary(self, has_structs: bool) -> str:
        sign = self.next()
        if sign.startswith("'") and self.next(1) == ":":
            self.at += 2
            return self.primary(has_structs)
        if sign in ("if", "match", "while", "for", "loop", "unsafe", "move", "|", "||", "(", "[", "{"):
            read: Callable[[], str] = getattr(self, READS[sign])
            return read()
        if re.match(r"\d", sign):
            self.at += 1
            return ""
        if sign.startswith('"'):
            self.at += 1
            return "str"
        if sign == "<" or re.match(r"[A-Za-z_]", sign):
            return self.path(has_structs)
        self.at += bool(sign) and sign not in ")]},;"
        return ""

    def inside(self) -> str:
        self.at += 1
        types = []
        while self.next() and not self.take(")"):
            types.append(self.expression())
            is_tuple = self.take(",")
            if self.next() == ")" and not is_tuple and len(types) == 1:
                self.at += 1
                return types[0]
        return f"({', '.join(type_ or '_' for type_ in types)})"

    def array(self) -> str:
        self.at += 1
        type_ = ""
        while self.next() and not self.take("]"):
            found = self.expression()
            type_ = type_ or found
            self.take(",", ";")
        return f"[{type_}]"

    def unsafe(self) -> str:
        self.at += 1
        return self.block()

    def if_(self) -> str:
        self.at += 1
        self.expression(False)
        type_ = self.block()
        if self.take("else"):
            other = self.if_() if self.next() == "if" else self.block()
            type_ = other if type_ in ("", "!", "()") else type_
        return type_

    def while_(self) -> str:
        self.at += 1
        self.expression(False)
        self.block()
        return "()"

    def loop(self) -> str:
        self.at += 1
        self.block()
        return ""

    def for_(self) -> str:
        self.at += 1
        pattern = self.until("in")
        self.take("in")
        self.bind(pattern, inner_of(self.expression(False)))
        self.block()
        return "()"

    def closure(self, given: str = "") -> str:
        self.take("move")
        if not self.take("||"):
            self.take("|")
            pattern = self.until("|", ":")
            self.until("|")
            self.take("|")
            self.bind(pattern, given)
        return self.expression()

    def match(self) -> str:
        self.at += 1
        on, type_, is_decided = self.expression(False), "", False
        self.take("{")
        while self.next() and not self.take("}"):
            pattern = self.until("=>", "if")
            follows = self.follows(pattern)
            is_left = not follows or is_decided and not re.search(r"::", " ".join(pattern))
            is_decided = is_decided or follows is CHOSEN and self.next() == "=>"
            self.muted += is_left
            self.bind(pattern, on)
            if self.take("if"):
                self.expression(False)
            self.take("=>")
            found = self.block() if self.next() == "{" else self.expression()
            self.muted -= is_left
            self.take(",")
            type_ = found if type_ in ("", "!") else type_
        return type_

    def follows(self, pattern: list[str]) -> object:
        """Whether an arm is followed, and CHOSEN where it is by a choice. What comes after a refusal is only if the walk is refused."""
        if not self.is_refused and "Err" in pattern and not any(it in ("Ok", "Some") for it in pattern):
            return False
        named: dict[str, set[str]] = defaultdict(set)
        for enum, variant in re.findall(r"(\w+) :: (\w+)", " ".join(pattern)):
            if enum in self.chosen:
                named[enum].add(variant)
        if not all(variants & self.chosen[enum] for enum, variants in named.items()):
            return False
        return CHOSEN if named else True

    # ---- names

    def path(self, has_structs: bool) -> str:
        """A name, and what follows it: a call, a macro, a struct, or nothing."""
        names: list[str] = []
        while True:
            if self.next() == "<":
                told = self.generics()
                names += [told[-2] if not names and len(told) > 2 else ""]
            else:
                names.append(self.next())
                self.at += 1
            if not self.take("::"):
                break
        names = [name for name in names if name]
        name = names[-1] if names else ""
        if self.next() == "!" and self.next(1) in ("(", "[", "{"):
            self.at += 1
            return self.macro()
        if self.next() == "(":
            return self.call(names)
        if self.next() == "{" and has_structs and name[:1].isupper():
            return self.struct(names)
        if len(names) == 1 and name in self.types:
            return self.types[name]
        if len(names) > 1 and name[:1].isupper() and names[-2][:1].isupper():
            return self.made_of(names[-2])
        function = self.named(names)  # (a function that is passed on)
        if function and self.next() in (",", ")"):
            self.add(function)
            return function.result
        item = self.world.item(name, self.function.crate, ("const", "static"))
        return item.head.partition(":")[2].strip() if item else ""

    def macro(self) -> str:
        shut = {"(": ")", "[": "]", "{": "}"}[self.next()]
        self.at += 1
        while self.next() and not self.take(shut):
            before = self.at
            self.expression()
            self.take(",", ";", "in")
            self.at += self.at == before
        return ""

    def made_of(self, name: str) -> str:
        """A type of which one is made here."""
        name = self.function.owner if name == "Self" else name
        if not self.muted:
            self.made.add(name)
        item = self.world.item(name, self.function.crate)
        return f"{name}<{', '.join(item.bounds)}>" if item and item.bounds else name

    def struct(self, names: list[str]) -> str:
        type_ = self.made_of(names[-2] if len(names) > 1 and names[-2][:1].isupper() else names[-1])
        self.take("{")
        while self.next() and not self.take("}"):
            if self.take(".."):
                self.expression()
            elif self.next(1) == ":":
                self.at += 2
                self.expression()
            else:
                self.at += 1
            self.take(",")
        return type_

    def arguments(self, given: str = "") -> list[str]:
        self.take("(")
        types = []
        while self.next() and not self.take(")"):
            before = self.at
            types.append(self.closure(given) if self.next() in ("|", "||", "move") else self.expression())
            self.take(",")
            self.at += self.at == before
        return types

    def named(self, names: list[str]) -> Function | None:
        """The function that a path names."""
        if not names or names[-1][:1].isupper():
            return None
        if len(names) > 1 and (names[-2][:1].isupper()):
            return next(iter(self.methods_on(names[-2], names[-1])), None)
        path = self.file.uses.get(names[0], "")
        path = "::".join([path, *names[1:]]) if path else "::".join(names)
        return self.world.function(path, self.function.crate, self.function.path if len(names) == 1 and "::" not in path else None)

    def call(self, names: list[str]) -> str:
        name = names[-1] if names else ""
        wrapped = {"Some": "Option<{}>", "Ok": "Result<{}, _>", "Err": "Result<_, {}>"}.get(name)
        is_left = name == "Err" and not self.is_refused
        self.muted += is_left
        types = self.arguments()
        self.muted -= is_left
        if wrapped:
            return wrapped.format((types or ["_"])[0] or "_")
        if name[:1].isupper():  # (a variant, or a struct without names of fields)
            return self.made_of(names[-2] if len(names) > 1 and names[-2][:1].isupper() else name)
        if len(names) == 1 and name in self.types:
            return ""
        if name == "drop" and len(names) == 1:
            return "()"
        if len(names) > 1 and names[-2][:1].isupper():
            return self.call_on(names[-2], name, types, is_path=True)
        function = self.named(names)
        if function is None:
            return ""
        self.add(function)
        return self.result_of(function, types)

    def result_of(self, function: Function, types: list[str], on: str = "") -> str:
        """The type of a call, its parameters taken from those of what is passed."""
        by: dict[str, str] = {}
        for (_, wanted), found in zip(function.arguments, types):
            for name in function.bounds:
                if plain(wanted) == name and found:
                    by[name] = found
        if function.owner and (item := self.world.item(function.owner, function.crate)):
            by |= {"Self": on or function.owner} | dict(zip(item.bounds, arguments_of(on)))
        return replaced(function.result, by)

    def methods_on(self, owner: str, name: str) -> list[Function]:
        """The methods with a name on a type, a parameter or a trait."""
        crate = self.function.crate
        is_self = owner in ("Self", self.function.owner)
        owner = self.function.owner if owner == "Self" else owner
        bound = self.function.bounds.get("Self" if is_self and self.function.is_asked else owner, "")
        traits = [without_parameters(part) for part in parts_of(bound, "+")] if bound else []
        if self.world.item(owner, crate, ("trait",)) and not self.world.item(owner, crate):
            traits.append(owner)
        for trait in self.with_above(traits):
            asked = [it for it in self.world.methods.get(name, []) if it.is_asked and it.owner == trait and it.crate in self.world.below[crate]]
            if asked:
                return asked[:1]
        return [] if traits else self.world.methods_of(owner, name, crate)

    def with_above(self, traits: list[str]) -> list[str]:
        """Traits with those that they need."""
        found = list(traits)
        for trait in found:
            item = self.world.item(trait, self.function.crate, ("trait",))
            above = item.head.partition(":")[2] if item else ""
            found += [it for part in parts_of(above, "+") if (it := without_parameters(part)) not in found]
        return found

    def call_on(self, type_: str, name: str, types: list[str], is_path: bool = False) -> str:
        """A call of a method on a type."""
        owner = head_of(type_)
        found = self.methods_on(owner, name) if owner else []
        if not found:
            return owner if is_path and name in ("new", "with_capacity") else ""
        self.add(found[0])
        return self.result_of(found[0], types, "" if is_path else plain(type_))

    def add(self, function: Function) -> None:
        if not self.muted:
            self.calls.append(function)

    def member(self, on: str) -> str:
        """A field or a method of a type."""
        name = self.next()
        self.at += 1
        if self.next() == "::":
            self.at += 1
            self.generics()
        if self.next() != "(":
            return self.field(on, name)
        has = bool(head_of(on)) and bool(self.methods_on(head_of(on), name))
        types = self.arguments("" if has else inner_of(on))
        if has:
            return self.call_on(on, name, types)
        owner = head_of(on)
        if owner in ("Box", "Rc", "Ref", "RefMut") and arguments_of(on):
            inner = arguments_of(on)[0]
            if self.methods_on(head_of(inner), name):
                return self.call_on(inner, name, types)
        if not on:
            self.guess(name)
        return given_by(on, name, types)

    def guess(self, name: str) -> None:
        """A call on what has no known type: it is that of the one type below with such a method, if the library has none."""
        can_see = [it for it in self.world.methods.get(name, []) if it.takes_self and it.crate in self.world.below[self.function.crate]]
        if can_see and not self.muted:
            if len({it.trait or it.owner for it in can_see}) == 1 and name not in OF_LIBRARY:
                self.add(next((it for it in can_see if it.is_asked), can_see[0]))
            else:
                self.unknown.append(name)
