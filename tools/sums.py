"""Sums of a crate's files: by them a kept line tells whether it is of the files as they are now."""
import hashlib
import os

from laying import TOP


def sum_of(folders: list[str]) -> str:
    """A sum of the files below some folders of crates/, with their paths. A folder that is not there has no files."""
    made = hashlib.sha256()
    for folder in folders:
        for at, inner, names in os.walk(f"{TOP}/crates/{folder}"):
            inner.sort()
            for name in sorted(names):
                with open(f"{at}/{name}", "rb") as file:
                    made.update(repr((os.path.relpath(f"{at}/{name}", TOP), file.read())).encode())
    return made.hexdigest()[:16]


def own_sum(name: str, parts: tuple[str, ...]) -> str:
    """A sum of some parts of a crate."""
    return sum_of([f"{name}/{part}" for part in parts])
