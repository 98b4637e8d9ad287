"""What a name stands for in the crates: functions, definitions, lemmas, types with their variants, rows and edits.

A name may stand after what it is of: `CRATE/name`, `Type::name`, `CRATE/Type::name`, `CRATE/file/name`.
"""
import functools
import glob
import os
import re
from collections.abc import Iterator
from typing import NamedTuple

from laying import TOP
from sources import OTHERS, TYPE, Definition, Function, code, definitions, functions, proofs, read_lines, specs

VARIANT = re.compile(r" +(?:pub(?:\([a-z]+\))? )?([A-Z]\w*)(?:\(.*|,| \{.*)")
CITING = re.compile(r"\s*ghost use Rattle\.(\w+)\.specs\.(\w+)(?:\.\w+)*?(?:\.\{(.*)\}| as (\w+))?;")


class Place(NamedTuple):
    """Where something that is no function stands: its kind, its name, and what the lines above say of it."""

    kind: str
    name: str
    path: str
    line: int
    said: str


def parted(word: str) -> tuple[list[str], str]:
    """What a name is of, and the name."""
    *of, name = word.replace("::", "/").split("/")
    return of, name


@functools.cache
def pieces_of(path: str) -> set[str]:
    """What a path is of: its folders, among them its crate, and its file."""
    return {*path.split("/"), os.path.splitext(os.path.basename(path))[0]}


def is_of(path: str, of: list[str], others: tuple[str, ...] = ()) -> bool:
    """Whether what stands in a file is of all that a name is said to be of: its crate, its file, its type."""
    return all(it in pieces_of(path) or it in others for it in of)


def functions_named(word: str) -> list[Function]:
    of, name = parted(word)
    return [it for it in by_name().get(name, []) if is_of(it.path, of, (it.owner, it.made_for))]


@functools.cache
def by_name() -> dict[str, list[Function]]:
    found: dict[str, list[Function]] = {}
    for it in functions():
        found.setdefault(it.name, []).append(it)
    return found


@functools.cache
def by_path() -> dict[str, list[Function]]:
    found: dict[str, list[Function]] = {}
    for it in functions():
        found.setdefault(it.path, []).append(it)
    return found


def definitions_named(word: str) -> list[Definition]:
    of, name = parted(word)
    return [it for it in definitions() if it.name == name and is_of(it.path, of)]


def lemmas_named(word: str) -> list[Place]:
    """The lemmas of a name, and the words of specs/ that are no definitions, as parts of records and variants."""
    of, name = parted(word)
    pattern = re.compile(rf" *(?:(?:pub|abbrev|unfoldable|record|data) )*{re.escape(name)}\s*(?:[({{].*)?:")
    found = []
    for path, lines in {**specs(), **proofs()}.items():
        if is_of(path, of) and ("/specs/" in path or path.count("/") == 3):
            kind = "word" if "/specs/" in path else "lemma"
            found += [Place(kind, name, path, at + 1, said_above(lines, at, "-- "))
                      for at, line in enumerate(lines) if name in line and pattern.match(line)]
    return found


def said_above(lines: list[str], at: int, mark: str) -> str:
    """What the comment above a line says."""
    said: list[str] = []
    while at and lines[at - 1].lstrip().startswith((mark, "#[")):
        at -= 1
        if not lines[at].lstrip().startswith("#["):
            said.insert(0, lines[at].strip().removeprefix(mark))
    return " ".join(said)


def types_in(path: str, lines: list[str]) -> Iterator[Place]:
    """The types and constants of a file, and the variants of its types."""
    owner = ""
    for at, line in enumerate(lines):
        if found := TYPE.match(line):
            owner = found[2] if found[1] == "enum" and line.endswith("{") else ""
            yield Place(found[1], found[2], path, at + 1, said_above(lines, at, "/// "))
        elif line == "}":
            owner = ""
        elif owner and (found := VARIANT.fullmatch(line)):
            yield Place(f"of {owner}", found[1], path, at + 1, said_above(lines, at, "/// "))


@functools.cache
def types() -> tuple[Place, ...]:
    return tuple(it for path, lines in code().items() for it in types_in(path, lines))


def types_named(word: str) -> list[Place]:
    of, name = parted(word)
    found = [it for it in types() if it.name == name and is_of(it.path, of, (it.kind.removeprefix("of "),))]
    return [it for it in found if not OTHERS.match(it.path) or of]


def rows_named(word: str) -> list[Place]:
    """The headings of scripts that have a name."""
    of, name = parted(word)
    pattern = re.compile(rf"# {re.escape(name)}(:|$)")
    found = []
    for path, lines in read_lines("crates/*/data/*.script").items():
        found += [Place("row", name, path, at, "") for at, line in enumerate(lines, 1) if pattern.match(line)]
    return [it for it in found if is_of(it.path, of)]


def edits_named(word: str) -> list[Place]:
    of, name = parted(word)
    paths = sorted(glob.glob(f"crates/*/*/{glob.escape(name)}.edit", root_dir=TOP))
    return [Place("edit", name, path, 1, "") for path in paths if is_of(path, of)]


@functools.cache
def meant_in(path: str) -> dict[str, tuple[str, str]]:
    """What the words of the contracts of a file stand for: the file of specs/ of each, and its name there."""
    words: dict[str, tuple[str, str]] = {}
    for line in code()[path]:
        found = CITING.match(line)
        file = f"crates/{found[1]}/specs/{found[2]}.antt" if found else ""
        if found and found[3]:
            for own, _, other in (it.strip().partition(" as ") for it in found[3].split(",")):
                words[other or own] = (file, own)
        elif found and found[4]:
            words.update({f"{found[4]}.{it.name}": (file, it.name) for it in definitions() if it.path == file})
    return words


def cited_by(text: str, path: str) -> dict[str, Definition]:
    """The definitions that a text of a file's contracts cites, by the words with which it does."""
    words, found = meant_in(path), {}
    for word in dict.fromkeys(re.findall(r"[A-Za-z_][\w']*(?:\.[A-Za-z_][\w']*)?", text)):
        file, own = words.get(word) or words.get(word.partition(".")[0]) or ("", "")
        found.update({word: it for it in definitions() if it.name == own and it.path == file})
    return found


def has_word(text: str, word: str) -> bool:
    return word in text and bool(re.search(rf"(?<![\w']){re.escape(word)}(?![\w'])", text))


@functools.cache
def text_of(it: Function) -> str:
    """The lines of a function, without comments and without its own name at its head."""
    lines = code()[it.path][it.first - 1:it.last]
    head = lines[0].replace(f"fn {it.name}", "fn", 1)
    return "\n".join([head, *(line for line in lines[1:] if not line.lstrip().startswith("//"))])


def holders(path: str, words: tuple[str, ...]) -> list[Function]:
    """The functions of a file whose contracts or lines have all of some words."""
    return [it for it in by_path().get(path, []) if all(has_word(text_of(it), word) for word in words)]
