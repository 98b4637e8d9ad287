"""Operators by name, and who has which part of the detector. `gateway.py` uses it.

Whoever takes an object has it and all that it commands, directly or through others: requests and kills of anybody else
to these are refused, and requests to what commands any of these, since they would command it too. What an operator with
a name has taken he keeps, until he releases it or another seizes it; what a client without a name has taken is released
when it leaves, since its session is lent to others then.
"""
from __future__ import annotations

import hmac
import json
import os
import re
import stat

from domain import Domain

NAME = re.compile(r"[A-Za-z][A-Za-z0-9_]{0,31}")
SECRET = re.compile(r"[!-~]{16,128}")


class Operators:
    """Names of operators, by their secrets. A file has a line `NAME SECRET` for each; a line that begins with `!` is a
    comment."""

    def __init__(self, text: str = "") -> None:
        self.secrets: dict[str, str] = {}
        for number, line in enumerate(text.splitlines(), 1):
            words = line.split()
            if not words or words[0].startswith("!"):
                continue
            fault = self.fault_of(words)
            if fault:
                raise ValueError(f"line {number}: {fault}")
            self.secrets[words[0]] = words[1]

    def fault_of(self, words: list[str]) -> str:
        if len(words) != 2:
            return "a line is NAME SECRET"
        if not NAME.fullmatch(words[0]):
            return "a name is a letter, and then letters, digits and _, 32 at most"
        if not SECRET.fullmatch(words[1]):
            return "a secret has 16 to 128 letters of ASCII, without blanks"
        if words[0].lower() in map(str.lower, self.secrets):
            return f"{words[0]} stands twice"
        if words[1] in self.secrets.values():
            return "two names have this secret"
        return ""

    def name_of(self, secret: str) -> str:
        """Whose secret this is; nothing, if it is nobody's. All are compared, so that the time tells nothing."""
        found = ""
        for name, one in self.secrets.items():
            if hmac.compare_digest(one.encode(), secret.encode("latin1", "replace")):
                found = name
        return found


def read_own(path: str) -> str:
    """A file of secrets: ValueError where others may read it."""
    with open(path, encoding="ascii") as file:
        if os.fstat(file.fileno()).st_mode & (stat.S_IRWXG | stat.S_IRWXO):
            raise ValueError("others may read it: chmod 600")
        return file.read()


class Holders:
    """Who has taken which objects; what names have taken is kept in a file, if there is one."""

    def __init__(self, domain: Domain, path: str | None = None) -> None:
        self.domain, self.path = domain, path
        self.held: dict[str, str] = {}
        self.below = {name: self.below_of(name) for name in domain.objects}
        if path and os.path.exists(path):
            with open(path, encoding="ascii") as file:
                kept = json.load(file)
            if not isinstance(kept, dict) or not all(isinstance(who, str) for who in kept.values()):
                raise ValueError("it is no list of who has what")
            # An object that is no more in the domain is held by nobody.
            self.held = {name: who for name, who in kept.items() if name in domain.objects}

    def below_of(self, top: str) -> set[str]:
        """An object, and all that it commands, directly or through others."""
        found, coming = {top}, [top]
        while coming:
            for name in self.domain.commands[coming.pop()]:
                if name not in found:
                    found.add(name)
                    coming.append(name)
        return found

    def holder(self, name: str) -> str:
        """Who has an object; nothing, if nobody has."""
        return next((who for top, who in self.held.items() if name in self.below[top]), "")

    def others(self, name: str, who: str) -> list[tuple[str, str]]:
        """What others have taken that meets an object and what it commands: (object, who)."""
        return [(top, one) for top, one in self.held.items() if one != who and self.below[top] & self.below[name]]

    def stands_against(self, word: str, name: str, who: str) -> str:
        """Who has what a request or a kill of somebody would meet; nothing, if nobody else has."""
        if word == "kill":
            others = [one for top, one in self.held.items() if one != who and name in self.below[top]]
        else:
            others = [one for _, one in self.others(name, who)]
        return others[0] if others else ""

    def do(self, word: str, name: str, who: str) -> tuple[str, list[tuple[str, str]]]:
        """Does a line `take`, `seize` or `release`: its answer, and what has changed: (object, who, or nothing)."""
        if name not in self.domain.objects:
            return "refused UnknownObject", []
        if word == "release":
            if self.held.get(name) != who:
                return f"refused Held {self.held[name]}" if name in self.held else "refused NotHeld", []
            del self.held[name]
            changed = [(name, "")]
        else:
            others = self.others(name, who)
            if others and word == "take":
                return f"refused Held {others[0][1]}", []
            for top, _ in others:
                del self.held[top]
            self.held[name] = who
            changed = [(top, "") for top, _ in others if top != name] + [(name, who)]
        return f"{'released' if word == 'release' else 'taken'} {name}", changed

    def leave(self, who: str) -> list[tuple[str, str]]:
        """A client without a name leaves: what has changed."""
        left = [name for name, one in self.held.items() if one == who and who.startswith("@")]
        for name in left:
            del self.held[name]
        return [(name, "") for name in left]

    def keep(self) -> None:
        """Keeps what names have taken, in one step, where there is a file. OSError, where it cannot be written."""
        if self.path:
            named = {name: who for name, who in self.held.items() if not who.startswith("@")}
            with open(f"{self.path}.new", "w", encoding="ascii") as file:
                json.dump(named, file)
                file.flush()
                os.fsync(file.fileno())
            os.replace(f"{self.path}.new", self.path)
