"""The pages of a release, made of the repository's.

What differs between them is marked in the pages, in comments of Markdown:

    <!-- checkout --> .. <!-- end -->    only in the repository
    <!-- page --> .. <!-- end -->        only where the release has the browser page
    <!-- producer --> .. <!-- end -->    only where it has the producer's programs
    <!-- unbuilt --> .. <!-- end -->     only where it hasn't, and in the repository
    <!-- built .. -->                    only in a release with them
    <!-- private --> .. <!-- end -->     in the repository and in a private copy
    <!-- public .. -->                   only in a public release, with what publisher.toml has in place of {contact}, {home}
                                         and {authors}
    <!-- release .. -->                  only in a release

    <!-- completions -->                 the folders of completions

What scripts/walk prints is between two comments that begin with `printed`, and a figure of a record of ./check, which scripts/figures
writes, between two that begin with `record`.
Commands call `tsp` in a release and `./tsp` in the repository, and `tsp-certify` where it is built in place of `producer/out/tsp-certify`. PATHS has the files that are elsewhere there. The pages of
DEVELOPERS are about the repository's sources: in a release they are in a folder of their own, and say so. Those of REFEREES
are read beside the definitions, which a release has; what it hasn't is named as one of the sources.
"""
from __future__ import annotations

import posixpath
import re
from collections.abc import Iterable

from release.publisher import Publisher

# What a release may be without.
PARTS = ("page", "producer")
# Files of the repository that a release's pages name, and where they are there.
PATHS = {
    "bindings/c/example.c": "PREFIX/share/doc/yokecairn/example.c",
    "bindings/python/examples/": "PREFIX/share/yokecairn/python/",
    "docs/tsp.1": "tsp",  # (for man)
}
# Pages for who changes the code, and where they are in a release's folder of pages.
DEVELOPERS = {f"docs/{name}.md": f"developers/{name}.md" for name in ("ARCHITECTURE", "BENCH", "DECISIONS", "TESTING", "rattle")}
DEVELOPERS |= {"CONTRIBUTING.md": "developers/CONTRIBUTING.md", "tests/program/README.md": "developers/tests.md"}
REFEREES = ("docs/trust.md", "docs/proof.md")
NOTE = "Commands and paths of this page are those of the sources at the commit of BUILT-FROM, which aren't in a release."

MARKED = re.compile(r"<!-- (checkout|private|unbuilt|%s) -->(.*?)<!-- end -->" % "|".join(PARTS), re.S)
PRINTED = re.compile(r"<!-- printed\b.*? -->\n*|<!-- record\b.*? -->")
COMPLETIONS = "<!-- completions -->"
PUBLIC = re.compile(r"<!-- public\s(.*?)\s*-->", re.S)
RELEASE = re.compile(r"<!-- release\s(.*?)\s*-->", re.S)
BUILT = re.compile(r"<!-- built\s(.*?)\s*-->", re.S)
# Links to files and parts of pages that only the repository has.
BEYOND = re.compile(r"\[([^\]\n]+)\]\((?:\.\./)*(?:bench|bindings|crates|scripts|tests)/(?!program/README\.md)[^)]*\)"
                    r"|\[([^\]\n]+)\]\((?:\.\./)*README\.md#build-from-source\)")
PROGRAM = re.compile(r"(?<![\w/.])\./tsp\b")
# A command of the producer, which finds the program that it is installed with.
PRODUCER = re.compile(r"^(    )producer/out/(tsp-.*?)(?: --tsp \./tsp)?$", re.M)
LINK = re.compile(r"\]\((?!\w+:)([^)\s#]+)(#[^)\s]*)?\)")
# A path in a page of referees that a release hasn't.
OF_SOURCES = re.compile(r"`((?:\./(?:build|check|release)\b|(?:bindings|bench|scripts|tests)/)[^`]*)`")


def relinked(name: str, text: str) -> str:
    """A page's text with links to the places that pages have in a release."""

    def moved(found: re.Match[str]) -> str:
        target = posixpath.normpath(posixpath.join(posixpath.dirname(name), found[1]))
        here = posixpath.dirname(DEVELOPERS.get(name, name))
        if name not in DEVELOPERS and target not in DEVELOPERS:
            return found[0]
        return f"]({posixpath.relpath(DEVELOPERS.get(target, target), here or '.')}{found[2] or ''})"

    return LINK.sub(moved, text)


def of_release(name: str, text: str, without: Iterable[str] = (), publisher: Publisher | None = None, date: str = "",
               folders: Iterable[str] = ()) -> str:
    """A page of the repository as a release of this date has it, without these parts, and with completions in these folders. A
    public one has a publisher."""
    is_built = "producer" not in without
    dropped = {"checkout", *(["private"] if publisher else []), *(["unbuilt"] if is_built else []), *without}
    words = {} if publisher is None else {**publisher._asdict(), "authors": ", ".join(publisher.authors)}
    text = PUBLIC.sub(lambda found: found[1].format(**words) if publisher else "", text)
    if name == "CHANGELOG.md" and date:
        text = text.replace(", not released\n", f", {date}\n" if publisher else f", a private copy of {date}\n", 1)
    text = text.replace(COMPLETIONS, ", ".join(folders))
    text = MARKED.sub(lambda found: "" if found[1] in dropped else found[2], text)
    text = BUILT.sub(lambda found: found[1] if is_built else "", text)
    text = PRINTED.sub("", RELEASE.sub(lambda found: found[1], text))
    if left := re.search(r"<!--.*", text):
        raise ValueError(f"{name}: this mark has no other end: {left[0]}")
    text = BEYOND.sub(lambda found: found[1] or found[2], text)
    text = relinked(name, text)
    if name in DEVELOPERS:
        head, _, rest = text.partition("\n")
        return f"{head}\n\n{NOTE}\n{rest}"
    for path, place in PATHS.items():
        text = text.replace(path, place)
    text = PROGRAM.sub("tsp", PRODUCER.sub(r"\1\2", text) if is_built else text)
    if name in REFEREES:
        text = OF_SOURCES.sub(r"`\1` of the sources", text)
    # (a block that was marked leaves its empty lines)
    return re.sub(r"\n{3,}", "\n\n", text)
