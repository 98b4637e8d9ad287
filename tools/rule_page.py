"""What stands in docs/RULES.md: the rules, with their parts."""
import re
from collections.abc import Iterator
from typing import NamedTuple

from laying import TOP

PAGE = "docs/RULES.md"
# A crate or a path, with what stands in the brackets after it.
PLACE = re.compile(r"`([^`]+)`(?:\s+\(((?:[^`()]|`[^`]*`)*)\))?")
# A name in these brackets, with the words that it is found by.
NAME = re.compile(r"`([^`]*)`(?:\s+by\s+(`[^`]*`(?:\s+and\s+`[^`]*`)*))?")


class Part(NamedTuple):
    """A part of a rule: its word, the line at which it begins, and its text with the lines as they stand."""

    word: str
    line: int
    text: str


class Rule(NamedTuple):
    """A rule: the line of its heading, its words, and its parts."""

    line: int
    heading: str
    parts: list[Part]


def last_name(word: str) -> str:
    """A name, without what stands before it: its file or its type."""
    return re.split(r"/|::", word)[-1]


def read_page() -> list[str]:
    with open(f"{TOP}/{PAGE}", encoding="utf-8") as file:
        return file.read().splitlines()


def rules_in(lines: list[str]) -> Iterator[Rule]:
    rule: Rule | None = None
    for number, line in enumerate(lines, 1):
        begun = re.match(r"- (\w+): (.*)", line)
        if line.startswith("#"):
            if rule:
                yield rule
            rule = Rule(number, line[4:], []) if line.startswith("### ") else None
        elif rule and begun:
            rule.parts.append(Part(begun[1], number, begun[2]))
        elif rule and rule.parts and line.startswith("  "):
            word, first, text = rule.parts[-1]
            rule.parts[-1] = Part(word, first, f"{text}\n{line.strip()}")
    if rule:
        yield rule


class Named(NamedTuple):
    """What a rule names: the crate or the path that it stands after, the words that it is found by, and its line."""

    line: int
    place: str
    name: str
    words: tuple[str, ...]

    def crate(self) -> str:
        return self.place.partition("/")[0]


def names_in(part: Part) -> Iterator[Named]:
    """What a part names. A crate or a path that has no brackets after it has an empty name."""
    for found in PLACE.finditer(part.text):
        line = part.line + part.text[:found.start()].count("\n")
        if found[2] is None:
            yield Named(line, found[1], "", ())
        for one in NAME.finditer(found[2] or ""):
            at = line + found[0][:found.start(2) - found.start() + one.start()].count("\n")
            words = tuple(re.findall(r"`([^`]*)`", one[2] or ""))
            yield Named(at, found[1], " ".join(one[1].split()), words)


def rules_naming(names: set[str], paths: set[str]) -> list[tuple[int, str]]:
    """The rules that name a word of the crates of some paths, or such a path, each by its line and its heading."""
    crates = {path.split("/")[1] for path in paths}
    found = []
    for rule in rules_in(read_page()):
        all_of = [it for part in rule.parts for it in names_in(part) if it.crate() in crates]
        if any(last_name(it.name) in names or not it.name and f"crates/{it.place}" in paths for it in all_of):
            found.append((rule.line, rule.heading))
    return found
