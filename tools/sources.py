"""What stands in the sources of the crates: functions with their contracts, types, and definitions.

Read is text, line by line, as `rt fmt` lays it out; nothing is parsed that is not asked for here.
"""
import functools
import glob
import re
from collections.abc import Iterator
from typing import NamedTuple

from laying import TOP

Lines = dict[str, list[str]]

FUNCTION = re.compile(r"( *)(pub(?:\([a-z]+\))? )?(?:const )?(?:unsafe )?fn (\w+)")
HOLDER = re.compile(r"(?:pub(?:\([a-z]+\))? )?(?:unsafe )?(impl|trait)\b(.*)")
TYPE = re.compile(r" *(?:pub(?:\([a-z]+\))? )?(const|static|struct|enum|trait|type) (\w+)")
# What a line of specs/ defines: `pub Name (..) : ..`, `abbrev pub name : ..`, `pub record Name : ..` and their like.
DEFINITION = re.compile(
    r"(?:abbrev |opaque |unfoldable )*pub (?:abbrev |record |data )*([A-Za-z_][\w']*)\s*(?:[({].*)?:"
)
CLAUSE = re.compile(r"(ensures|requires) (?:(\w+) )?\{")
# Crates that are no product: of tests, and the example.
OTHERS = re.compile(r"crates/(tests_|test_|example_)")


# How a line ends that ends the head of a function without a contract.
BEHIND_HEAD = (" {", "{}", "}", ";")


class Clause(NamedTuple):
    """A clause of a contract, on one line. Its name is empty if it has none."""

    kind: str
    name: str
    text: str


class Function(NamedTuple):
    """A function: its lines, counted from 1, and its contract. The owner is the type or trait that it is of, if any."""

    path: str
    first: int
    last: int
    owner: str
    made_for: str
    name: str
    is_public: bool
    parameters: int
    contract: int
    clauses: tuple[Clause, ...]

    def full_name(self) -> str:
        return f"{self.owner}::{self.name}" if self.owner else self.name

    def crate(self) -> str:
        return self.path.split("/")[1]


class Definition(NamedTuple):
    """A word of specs/: its place, and what the line above says of it."""

    path: str
    line: int
    name: str
    said: str


def read_lines(pattern: str) -> Lines:
    """The lines of the files that a pattern below the repository's folder names."""
    found: Lines = {}
    for path in sorted(glob.glob(pattern, root_dir=TOP, recursive=True)):
        with open(f"{TOP}/{path}", encoding="utf-8") as file:
            found[path] = file.read().split("\n")
    return found


@functools.cache
def code() -> Lines:
    return read_lines("crates/*/src/**/*.rt")


@functools.cache
def specs() -> Lines:
    return read_lines("crates/*/specs/**/*.antt")


@functools.cache
def proofs() -> Lines:
    return read_lines("crates/*/proofs/**/*.antt")


def inside(text: str, begin: str, end: str) -> tuple[str, str]:
    """What stands in the brackets with which a text begins, and what follows them."""
    depth = 0
    for place, char in enumerate(text):
        if char == begin:
            depth += 1
        elif char == end and text[place - 1] not in "-=":
            depth -= 1
            if depth == 0:
                return text[1:place], text[place + 1:]
    return text[1:], ""


def without_generics(text: str) -> str:
    """What follows generics, if a text begins with them."""
    return inside(text, "<", ">")[1] if text.startswith("<") else text


def parameters(text: str) -> int:
    """How many parameters stand in the brackets with which a text begins, `self` among them."""
    given, _ = inside(without_generics(text), "(", ")")
    depth, count, has_more = 0, 0, False
    for place, char in enumerate(given):
        if char in "([{<":
            depth += 1
        elif char in ")]}" or char == ">" and given[place - 1] not in "-=":
            depth -= 1
        if char == "," and depth == 0:
            count, has_more = count + 1, False
        elif not char.isspace():
            has_more = True
    return count + has_more


def holder_of(lines: list[str], at: int) -> tuple[str, str]:
    """The type or trait that a line begins to implement, and the trait that it is implemented for; or nothing."""
    found = HOLDER.match(lines[at])
    if not found:
        return "", ""
    head = " ".join(itself.strip() for itself in lines[at:at + 12]).partition("{")[0]
    begun = HOLDER.match(head)
    rest = without_generics(begun[2].strip()).strip() if begun else ""
    if found[1] == "trait":
        return word_in(rest), ""
    one, _, other = rest.partition(" for ")
    return (word_in(other), word_in(one)) if other else (word_in(one), "")


def word_in(text: str) -> str:
    """The last word of the path with which a text begins."""
    found = re.match(r"(?:\w+::)*(\w+)", text.strip())
    return found[1] if found else ""


def head_of(lines: list[str], at: int, indent: str) -> tuple[int, int]:
    """The last line of a head, with its contract, and the line at which that begins: the same where there is none."""
    begun, depth = 0, 0
    for number in range(at, len(lines)):
        line = lines[number]
        if line.startswith((f"{indent}    ensures ", f"{indent}    requires ")):
            begun = begun or number
        depth += line.count("{") - line.count("}") if begun else 0
        if line in (f"{indent}{{", f"{indent}{{}}") or depth == 0 and line.endswith("};" if begun else BEHIND_HEAD):
            return number, begun or number
    return at, at


def last_of(lines: list[str], head: int, indent: str) -> int:
    """The last line of a function, of which the head ends at a line."""
    if lines[head].endswith(("}", ";")):
        return head
    return next((number for number in range(head, len(lines)) if lines[number] == f"{indent}}}"), head)


def clauses_of(lines: list[str]) -> tuple[Clause, ...]:
    """The clauses that the lines of a contract have."""
    texts: list[str] = []
    for line in map(str.strip, lines):
        if CLAUSE.match(line) or not texts:
            texts.append(line)
        else:
            texts[-1] += f" {line}"
    begun = ((CLAUSE.match(text), text) for text in texts)
    return tuple(Clause(found[1], found[2] or "", text) for found, text in begun if found)


def functions_in(path: str, lines: list[str]) -> Iterator[Function]:
    """The functions of a file."""
    owner = made_for = ""
    for at, line in enumerate(lines):
        if line == "}":
            owner = made_for = ""
        elif line.startswith(("impl", "pub", "trait", "unsafe")) and HOLDER.match(line):
            owner, made_for = holder_of(lines, at)
        found = FUNCTION.match(line)
        if not found:
            continue
        head, begun = head_of(lines, at, found[1])
        text = "".join(lines[at:head + 1])
        last = head + (1 if lines[head].endswith(";") else 0)
        yield Function(
            path, at + 1, last_of(lines, head, found[1]) + 1, owner if found[1] else "", made_for if found[1] else "",
            found[3], bool(found[2]), parameters(text[found.end():]), last - begun, clauses_of(lines[begun:last]),
        )


@functools.cache
def functions() -> tuple[Function, ...]:
    """All functions of the crates."""
    return tuple(found for path, lines in code().items() for found in functions_in(path, lines))


def definitions_in(path: str, lines: list[str]) -> Iterator[Definition]:
    """The words that a file of specs/ defines: those of a block stand two columns to the right."""
    is_in_block = False
    for at, line in enumerate(lines):
        if line and not line.startswith((" ", "--")):
            is_in_block = line in ("mutual", "abbrev mutual") or line.startswith("module ")
        if found := DEFINITION.match(line, 2 if is_in_block and line.startswith("  ") else 0):
            above = lines[at - 1].strip() if at else ""
            yield Definition(path, at + 1, found[1], above[3:] if above.startswith("-- ") else "")


@functools.cache
def definitions() -> tuple[Definition, ...]:
    """All words that the crates define in specs/."""
    return tuple(found for path, lines in specs().items() for found in definitions_in(path, lines))
