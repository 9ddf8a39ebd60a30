"""Who publishes a release: the file publisher.toml, and what a release says of it in CONTACT and in CITATION.cff.
"""
from __future__ import annotations

import re
import tomllib
from pathlib import Path
from typing import NamedTuple

FILE = "publisher.toml"
PRIVATE = "This is a private copy: it isn't published by whoever made it. Ask whoever gave it to you."
DOI = re.compile(r"10\.\d{4,9}/\S+")


class Unfit(ValueError):
    """publisher.toml can't be used."""


class Publisher(NamedTuple):
    """What publisher.toml says. Without a DOI that is empty."""

    authors: list[str]
    contact: str
    home: str
    doi: str = ""


def read(path: Path) -> Publisher:
    """What a file says, for a public release.

    Raises:
        Unfit: it is missing, or something in it is.
    """
    try:
        given = tomllib.loads(path.read_text())
    except FileNotFoundError:
        raise Unfit(f"there is no {path.name}, which a public release needs") from None
    except (tomllib.TOMLDecodeError, UnicodeDecodeError) as fault:
        raise Unfit(f"{path.name}: {fault}") from None
    if strange := given.keys() - set(Publisher._fields):
        raise Unfit(f"{path.name}: there is no field {min(strange)}")
    authors = given.get("authors")
    if not isinstance(authors, list) or not authors or not all(isinstance(name, str) and name.strip() for name in authors):
        raise Unfit(f"{path.name}: authors is a list of names")
    texts = {name: given.get(name, "") for name in ("contact", "home", "doi")}
    for name, text in texts.items():
        if not isinstance(text, str) or "\n" in text:
            raise Unfit(f"{path.name}: {name} is a text in one line")
    if empty := [name for name in ("contact", "home") if not texts[name].strip()]:
        raise Unfit(f"{path.name}: {' and '.join(empty)} {'is' if len(empty) == 1 else 'are'} empty, and a public release says both")
    if texts["doi"] and not DOI.fullmatch(texts["doi"]):
        raise Unfit(f"{path.name}: this is no DOI, as 10.5281/zenodo.1: {texts['doi']}")
    return Publisher(authors, **{name: text.strip() for name, text in texts.items()})


def contact(publisher: Publisher | None) -> str:
    """The file CONTACT."""
    return f"{PRIVATE}\n" if publisher is None else f"{publisher.contact}\nHome: {publisher.home}\n"


def citation(text: str, publisher: Publisher, date: str) -> str:
    """CITATION.cff with the authors, the home, the DOI and the date of a public release."""
    authors = "".join(f"  - name: {quoted(name)}\n" for name in publisher.authors)
    text = re.sub(r"^authors:\n(?:  .*\n)+", lambda _: f"authors:\n{authors}", text, flags=re.M)
    more = f"date-released: {date}\nurl: {quoted(publisher.home)}\n" + (f"doi: {publisher.doi}\n" if publisher.doi else "")
    return re.sub(r"^version: .*\n", lambda found: found[0] + more, text, flags=re.M)


def quoted(text: str) -> str:
    """A text in YAML."""
    return '"' + text.replace("\\", "\\\\").replace('"', '\\"') + '"'
