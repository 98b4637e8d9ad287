"""The description of a hierarchy, one file of TOML: which managers there are, and who stands for whom.

    name = "detector"                           the first level of all topics, and of the units
    folder = "."                                where domains, logs and keys are, from this file
    [broker]                                    host, port; ca and keys, or passwords
    [defaults]                                  of links: limit, patience, lost, report
    [managers.TOP]                              a node: its manager and what stands in front of it
    domain = "top.sml"                          and log, machine, capacity, sync, drivers, plays, react, serve_all
    [managers.TOP.links]                        of each object SUB of TOP's domain that stands for another
    TRACKER = { to = "TRK.TRACKER", lost = "NOT_KNOWN", limit = 60 }
    [operators.ANNA]                            who may command without being a node, and which objects
    may = ["TOP.DETECTOR"]

`limit` is how many seconds T may take for an action, and `patience` how many seconds its node may not be heard, before
SUB is answered by `lost`. Leave `patience` above 5 seconds: a client that has lost its broker tries again after 1 and 3
seconds, and a beat comes every 2.

`read(path)` reads it and looks at all domains; it is refused with all faults that it has. `read(path, node)` is for the
node of that name alone: of the domains it reads its own, since all were looked at before. With `domains=None` it reads
none: an operator's machine has neither domains nor the program.
"""
from __future__ import annotations

import collections
import os
import re
import tomllib
from collections.abc import Callable
from dataclasses import dataclass, field
from typing import Any

from .domain import Domain, Refused, read_domain
from .messages import NAME, RESERVED, WITHDRAWN

# The session of a node's own requests (reports, and what follows them), and that of all links of a child.
OWN_SESSION, LINK_SESSION = 7, 8
MOST_NAMES = 64
MOST_SECONDS = 1_000_000.0
Table = dict[str, Any]
_NUMBER = (int, float)
_FORMS: dict[str, dict[str, type | tuple[type, ...]]] = {
    "file": {"name": str, "folder": str, "broker": dict, "defaults": dict, "managers": dict, "operators": dict},
    "broker": {"host": str, "port": int, "ca": str, "keys": str, "passwords": str},
    "manager": {"domain": str, "log": str, "machine": str, "capacity": int, "sync": bool, "drivers": list,
                "plays": dict, "react": str, "serve_all": bool, "links": dict},
    "plays": {"seconds": _NUMBER, "trips": _NUMBER, "tripped": str, "report": str, "states": dict},
    "defaults": {"session": int, "limit": _NUMBER, "patience": _NUMBER, "lost": str, "report": str},
    "link": {"to": str, "session": int, "limit": _NUMBER, "patience": _NUMBER, "lost": str, "report": str},
    "operator": {"may": list, "session": int},
}


@dataclass(frozen=True)
class Link:
    """`parent`.`sub` stands for `child`.`object`. Its name is that under which the child has its commands."""
    name: str
    parent: str
    sub: str
    child: str
    object: str
    limit: float = 60.0
    patience: float = 10.0
    lost: str = "LOST"
    report: str = "REPORT"


@dataclass(frozen=True)
class Commander:
    """Who may command at a node: a link of its parent, or an operator."""
    name: str
    session: int
    objects: frozenset[str]

    def is_link(self) -> bool:
        return self.session == LINK_SESSION


@dataclass
class Manager:
    name: str
    domain_path: str
    log: str
    machine: str = "localhost"
    capacity: int = 16
    sync: bool = False
    drivers: list[list[str]] = field(default_factory=list)
    plays: Table = field(default_factory=dict)
    react: str = ""
    serve_all: bool = True
    links: list[Link] = field(default_factory=list)
    commanders: dict[str, Commander] = field(default_factory=dict)

    def linked(self) -> frozenset[str]:
        """The objects that somebody else may command."""
        return frozenset(name for commander in self.commanders.values() for name in commander.objects)

    def reaction(self) -> tuple[str, str] | None:
        """The object and the action that a report is followed by."""
        name, _, action = self.react.upper().partition(" ")
        return (name, action) if name else None


@dataclass
class Broker:
    host: str = "127.0.0.1"
    port: int = 1883
    ca: str = ""
    keys: str = "keys"
    passwords: str = ""


@dataclass
class Operator:
    name: str
    may: list[str]
    session: int


class Hierarchy:
    """What a description says. Its faults are sentences, each with the table that it is of in front."""

    def __init__(self, path: str) -> None:
        self.path = os.path.abspath(path)
        self.name, self.folder, self.broker = "smirun", os.path.dirname(self.path), Broker()
        self.managers: dict[str, Manager] = {}
        self.operators: dict[str, Operator] = {}
        self.domains: dict[str, Domain] = {}
        self.faults: list[str] = []

    def fault(self, where: str, sentence: str) -> None:
        self.faults.append(f"{where}: {sentence}")

    def links(self) -> list[Link]:
        return [link for manager in self.managers.values() for link in manager.links]

    def tree(self) -> list[tuple[str, int, Link | None]]:
        """Each manager once, below the first that commands it: its name, how deep it stands, and by which link."""
        rows: list[tuple[str, int, Link | None]] = []
        seen: set[str] = set()
        below = {link.child for link in self.links()}
        left: list[tuple[str, int, Link | None]] = [
            (name, 0, None) for name in reversed(sorted(self.managers, key=below.__contains__))]
        while left:
            name, depth, by = left.pop()
            if name not in seen:
                seen.add(name)
                rows.append((name, depth, by))
                left += [(link.child, depth + 1, link) for link in reversed(self.managers[name].links)]
        return rows

    def beside(self, path: str) -> str:
        return os.path.normpath(os.path.join(self.folder, path))

    def domain_of(self, name: str) -> Domain:
        return self.domains[self.managers[name].domain_path]


def read(path: str, node: str = "", domains: Callable[[str], Domain] | None = read_domain) -> Hierarchy:
    try:
        with open(path, "rb") as file:
            text = tomllib.load(file)
    except OSError as fault:
        raise Refused(f"{path}: {fault.strerror}") from None
    except (tomllib.TOMLDecodeError, UnicodeDecodeError, RecursionError) as fault:
        raise Refused(f"{path}: {fault}") from None
    hierarchy = Hierarchy(path)
    Reader(hierarchy).read(text)
    if not hierarchy.faults:
        Check(hierarchy).check_tree()
    if not hierarchy.faults and node and node not in hierarchy.managers:
        hierarchy.fault("the file", f"there is no manager {node}")
    wanted = [manager for manager in hierarchy.managers.values() if node in ("", manager.name)]
    for manager in [] if hierarchy.faults else wanted:
        if domains is not None and manager.domain_path not in hierarchy.domains:
            try:
                hierarchy.domains[manager.domain_path] = domains(manager.domain_path)
            except Refused as fault:
                hierarchy.fault(f"managers.{manager.name}", str(fault))
    if not hierarchy.faults and not node and domains is not None:
        Check(hierarchy).check()
    if hierarchy.faults:
        raise Refused("\n".join(f"{path}: {fault}" for fault in hierarchy.faults))
    return hierarchy


class Reader:
    """Takes the tables of the file apart."""

    def __init__(self, hierarchy: Hierarchy) -> None:
        self.of, self.fault = hierarchy, hierarchy.fault

    def table(self, form: str, where: str, table: Any) -> Table:
        """The fields of a table that are of its form; others are faults."""
        if not isinstance(table, dict):
            self.fault(where, "this is no table")
            return {}
        known, good = _FORMS[form], {}
        for word, value in table.items():
            if word not in known:
                self.fault(where, f"`{word}` is not known; known are {', '.join(known)}")
            elif not isinstance(value, known[word]) or isinstance(value, bool) and known[word] is not bool:
                self.fault(where, f"`{word}` is of another kind")
            elif isinstance(value, str) and not (value.isprintable() and len(value) < 4096):
                self.fault(where, f"`{word}` has a byte that no line may have, or is too long")
            else:
                good[word] = value
        return good

    def sub_table(self, where: str, file: Table, word: str) -> list[tuple[str, str, Any]]:
        """The tables within one: the word that the file has, that word in upper case, and the table."""
        tables = [(name, name.upper(), table) for name, table in file.get(word, {}).items()]
        counts = collections.Counter(upper for _, upper, _ in tables)
        for name, upper, _ in tables:
            self.is_name(f"{where}.{name}", name)
            if counts[upper] > 1:
                self.fault(f"{where}.{name}", "it is there twice, in other letters")
        return tables

    def is_name(self, where: str, name: str) -> None:
        if not re.fullmatch(NAME, name) or name.upper() in RESERVED:
            self.fault(where, "a name is a letter and up to 63 letters, digits and _, and no reserved word")

    def read(self, text: Table) -> None:
        file = self.table("file", "the file", text)
        self.of.name = file.get("name", "smirun")
        if not re.fullmatch(r"[a-z][a-z0-9_]{0,31}", self.of.name):
            self.fault("the file", "`name` is small letters, digits and _, 32 at most")
        self.of.folder = os.path.join(os.path.dirname(self.of.path), file.get("folder", "."))
        broker = self.of.broker = Broker(**self.table("broker", "broker", file.get("broker", {})))
        if not re.fullmatch(r"[A-Za-z0-9.:_-]{1,255}", broker.host) or not 1 <= broker.port <= 65535:
            self.fault("broker", "`host` is a name or an address, `port` 1 to 65535")
        defaults = self.table("defaults", "defaults", file.get("defaults", {}))
        for word, name, table in self.sub_table("managers", file, "managers"):
            self.read_manager(f"managers.{word}", name, table, defaults)
        for word, name, table in self.sub_table("operators", file, "operators"):
            fields = self.table("operator", f"operators.{word}", table)
            may = fields.get("may", [])
            if not all(isinstance(one, str) for one in may):
                self.fault(f"operators.{word}", '`may` is a list of "MANAGER.OBJECT"')
            else:
                self.of.operators[name] = Operator(name, [one.upper() for one in may], fields.get("session", 1))
        if not self.of.managers:
            self.fault("the file", "there is no manager")
        self.name_commanders()

    def read_manager(self, where: str, name: str, table: Any, defaults: Table) -> None:
        good = self.table("manager", where, table)
        if "domain" not in good:
            self.fault(where, "there is no `domain`")
            return
        for words in good.get("drivers", []):
            if not isinstance(words, list) or not words or not all(isinstance(word, str) for word in words):
                self.fault(where, '`drivers` is a list of lists of words: [["program", "word"]]')
        plays = good["plays"] = self.table("plays", f"{where}.plays", good.get("plays", {}))
        if not all(isinstance(state, str) for state in plays.get("states", {}).values()):
            self.fault(f"{where}.plays", "`states` has a state for each action")
        log = self.of.beside(good.pop("log", f"{name.lower()}.log"))
        domain, links = self.of.beside(good.pop("domain")), good.pop("links", {})
        manager = self.of.managers[name] = Manager(name, domain, log, **good)
        for word, sub, link in self.sub_table(f"{where}.links", {"links": links}, "links"):
            self.read_link(f"{where}.links.{word}", manager, sub, defaults, link)

    def read_link(self, where: str, manager: Manager, sub: str, defaults: Table, table: Any) -> None:
        fields = defaults | self.table("link", where, table)
        child, dot, target = fields.pop("to", "").upper().partition(".")
        if not dot:
            self.fault(where, '`to` is "MANAGER.OBJECT"')
            return
        if fields.pop("session", LINK_SESSION) != LINK_SESSION:
            self.fault(where, f"`session` of a link is {LINK_SESSION}, and no other")
        fields |= {word: fields[word].upper() for word in ("lost", "report") if word in fields}
        manager.links.append(Link(f"{manager.name}_{sub}", manager.name, sub, child, target, **fields))

    def name_commanders(self) -> None:
        """Who may command at which manager."""
        for link in self.of.links():
            if link.child in self.of.managers:
                known = self.of.managers[link.child].commanders
                known.setdefault(link.name, Commander(link.name, LINK_SESSION, frozenset({link.object})))
        for operator in self.of.operators.values():
            for word in operator.may:
                manager, _, target = word.partition(".")
                if manager in self.of.managers:
                    known = self.of.managers[manager].commanders
                    objects = known[operator.name].objects if operator.name in known else frozenset()
                    known[operator.name] = Commander(operator.name, operator.session, objects | {target})


class Check:
    """What a description and its domains have to keep."""

    def __init__(self, hierarchy: Hierarchy) -> None:
        self.of, self.fault = hierarchy, hierarchy.fault

    def check_tree(self) -> None:
        """What no domain is needed for."""
        logs = collections.Counter(os.path.realpath(manager.log) for manager in self.of.managers.values())
        for manager in self.of.managers.values():
            if logs[os.path.realpath(manager.log)] > 1:
                self.fault(f"managers.{manager.name}", f"another manager has the log {manager.log} too")
            self.check_fields(manager)
        self.check_names()
        parents: dict[tuple[str, str], Link] = {}
        for link in self.of.links():
            where = f"managers.{link.parent}.links.{link.sub}"
            if not 0 < link.limit <= MOST_SECONDS or not 0 < link.patience <= MOST_SECONDS:
                self.fault(where, "`limit` and `patience` are seconds, more than 0 and at most a million")
            if link.child not in self.of.managers:
                self.fault(where, f"there is no manager {link.child}")
            if first := parents.get((link.child, link.object)):
                self.fault(where, f"{link.child}.{link.object} has two parents: {first.parent}.{first.sub} and "
                           f"{link.parent}.{link.sub}")
            parents.setdefault((link.child, link.object), link)
        self.check_circles()
        self.check_operators()

    def check(self) -> None:
        """What the domains have to keep; the tree is as it should be."""
        for manager in self.of.managers.values():
            self.check_manager(manager)
        for link in self.of.links():
            self.check_link(f"managers.{link.parent}.links.{link.sub}", link)
        for operator in self.of.operators.values():
            for word in operator.may:
                node, _, target = word.partition(".")
                if target not in self.of.domain_of(node).objects:
                    self.fault(f"operators.{operator.name}", f"there is no {word}")

    def check_fields(self, manager: Manager) -> None:
        where = f"managers.{manager.name}"
        if not 1 <= manager.capacity <= 1024:
            self.fault(where, "`capacity` is 1 to 1024")
        if not re.fullmatch(r"[A-Za-z0-9._-]{1,255}", manager.machine) or manager.machine in (".", ".."):
            self.fault(where, "`machine` is the name of a machine")
        if len(manager.commanders) > MOST_NAMES:
            self.fault(where, f"{len(manager.commanders)} names may command here, and a manager knows {MOST_NAMES}")

    def check_manager(self, manager: Manager) -> None:
        where, domain = f"managers.{manager.name}", self.of.domain_of(manager.name)
        for kind in domain.classes.values():
            if WITHDRAWN in kind.actions():
                self.fault(where, f"no class may declare an action {WITHDRAWN}; its name is taken")
        if reaction := manager.reaction():
            name, action = reaction
            if name not in domain.objects or domain.class_of(name).actions().get(action) != []:
                self.fault(where, '`react` is "OBJECT ACTION", of an action without parameters that the class of '
                           'OBJECT declares')

    def check_names(self) -> None:
        """An operator is an account at the broker, as a manager is, and a NAME of requests, as a link is."""
        links = collections.Counter(link.name for link in self.of.links())
        for name in sorted(name for name, count in links.items() if count > 1):
            self.fault("the file", f"the name {name} would be that of two links (it is MANAGER_SUB): rename one")
        for name in self.of.operators:
            if name in links:
                self.fault(f"operators.{name}", f"the name {name} is that of a link too (it is MANAGER_SUB): rename it")
            if name in self.of.managers:
                self.fault(f"operators.{name}", f"the name {name} is that of a manager too: rename it")
        for link in self.of.links():
            if not re.fullmatch(NAME, link.name):
                self.fault(f"managers.{link.parent}.links.{link.sub}", f"the name {link.name} has more than 64 letters")

    def check_link(self, where: str, link: Link) -> None:
        parent = self.of.domain_of(link.parent)
        if link.sub not in parent.objects:
            self.fault(where, f"the domain {parent.path} has no object {link.sub}")
        elif link.sub not in parent.devices:
            self.fault(where, f"{link.sub} is no associated object (its class is not marked /associated)")
        elif link.object not in self.of.domain_of(link.child).objects:
            child = self.of.domain_of(link.child)
            self.fault(where, f"the domain {child.path} of {link.child} has no object {link.object}")
        else:
            self.check_fits(where, link)

    def check_fits(self, where: str, link: Link) -> None:
        """SUB's class has every state that T may come to, and T's class every action that SUB's has."""
        sub = self.of.domain_of(link.parent).class_of(link.sub)
        target, name = self.of.domain_of(link.child).class_of(link.object), f"{link.child}.{link.object}"
        for state in target.states:
            if state not in sub.states:
                self.fault(where, f"{name} may be in {state}, which {link.sub} does not declare")
        if link.lost not in sub.states:
            self.fault(where, f"{link.sub} does not declare {link.lost}, for when nothing is known of {name}")
        if link.lost in target.states:
            self.fault(where, f"{link.lost} is a state of {name} too: `lost` needs its own")
        for state, actions in sub.states.items():
            if link.report not in actions:
                self.fault(where, f"{link.sub} does not declare {link.report} in {state}, so it would stay there")
            elif actions[link.report]:
                self.fault(where, f"{link.report} has parameters")
        if link.report in target.actions():
            self.fault(where, f"{link.report} is an action of {name} too: it would not be sent")
        for action, parameters in sub.actions().items():
            if action == link.report:
                continue
            if action not in target.actions():
                self.fault(where, f"{name} does not declare {action}")
            elif sorted(one[:2] for one in target.actions()[action]) != sorted(one[:2] for one in parameters):
                self.fault(where, f"{action} has other parameters at {name}")

    def check_circles(self) -> None:
        """Of managers: one that commands, through others, itself. Each manager is gone through once: `path` has those
        that command the one that is looked at, and `left` what is still to be looked at below each of them."""
        below = {name: [link.child for link in manager.links] for name, manager in self.of.managers.items()}
        seen: set[str] = set()
        for first in self.of.managers:
            path, left = dict[str, None](), [iter([first])]
            while left:
                name = next(left[-1], None)
                if name is None:
                    left.pop()
                    if path:
                        path.popitem()
                elif name in path:
                    names = [*path]
                    self.fault("the file", "a circle: " + " commands ".join([*names[names.index(name):], name]))
                elif name not in seen:
                    seen.add(name)
                    path[name] = None
                    left.append(iter(below.get(name, [])))

    def check_operators(self) -> None:
        for operator in self.of.operators.values():
            where = f"operators.{operator.name}"
            if not 1 <= operator.session < OWN_SESSION:
                self.fault(where, f"`session` of an operator is 1 to {OWN_SESSION - 1}: {OWN_SESSION} is the nodes' "
                           f"own, {LINK_SESSION} that of links")
            for word in operator.may:
                if word.partition(".")[0] not in self.of.managers:
                    self.fault(where, f"there is no {word}")
