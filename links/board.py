"""What a panel shows of a hierarchy, over values: of each manager a picture, from topics alone; and what a page asks
for."""
from __future__ import annotations

import re
from typing import Any

from .asking import Asking
from .description import Hierarchy
from .domain import Domain
from .messages import WITHDRAWN
from .seen import Seen

BAD = re.compile("ERROR|FAULT|FAIL|TRIP|ALARM")
NOT_KNOWN = "not known"
Picture = dict[str, Any]


def mood_of(domain: Domain, name: str, state: str, lost: str) -> str:
    """How a state is coloured. What is lost, and what is not known, has a colour of its own: it is neither bad nor
    initial."""
    kind = domain.class_of(name)
    if state in (NOT_KNOWN, lost):
        return "lost" if state == lost else "unknown"
    if state == kind.dead:
        return "dead"
    return "bad" if BAD.search(state) else "initial" if state == kind.initial else "other"


class Board:
    def __init__(self, hierarchy: Hierarchy) -> None:
        self.of, self.seen = hierarchy, Seen()
        self.pictures: dict[str, Picture] = {}
        self.serials = dict.fromkeys(hierarchy.managers, 0)
        self.serial = 0
        self.dirty = set(hierarchy.managers)
        self.parents: dict[str, list[str]] = {name: [] for name in hierarchy.managers}
        # Of the topic of a SUB the K that is under way, and since when, by the clock of who looks on.
        self.since: dict[tuple[str, str], tuple[int, float]] = {}
        for link in hierarchy.links():
            self.parents[link.child].append(link.parent)

    def hear(self, topic: str, payload: bytes, now: float) -> None:
        words = topic.split("/")
        if len(words) >= 3 and words[1] in self.of.managers and self.seen.hear(topic, payload, now):
            self.dirty |= {words[1], *self.parents[words[1]]}

    def refresh(self, now: float, everybody: bool = False) -> None:
        """Makes new pictures of what changed; of everybody, once in a while, since some go away by time alone."""
        names, self.dirty = self.of.managers.keys() if everybody else self.dirty, set()
        for name in names:
            picture = self.picture_of(name, now)
            if picture != self.pictures.get(name):
                self.serial += 1
                self.pictures[name], self.serials[name] = picture, self.serial

    def changed_since(self, serial: int) -> tuple[int, dict[str, Picture]]:
        return self.serial, {name: self.pictures[name] for name, at in self.serials.items() if at > serial}

    def picture_of(self, node: str, now: float) -> Picture:
        manager, domain, seen = self.of.managers[node], self.of.domain_of(node), self.seen
        lost = {link.sub: link.lost for link in manager.links}
        alive = seen.alive.get(node)
        objects = {}
        for name in domain.objects:
            state = seen.state_of(node, name)
            objects[name] = [state, mood_of(domain, name, state, lost.get(name, ""))]
        is_there = seen.is_there(node, now)
        return {
            "there": is_there, "heard": alive is not None,
            # When it was heard last, of one that is away.
            "at": round(alive[1], 1) if alive and not is_there else 0,
            "log": alive[0].log if alive else 0, "life": alive[0].life if alive else 0,
            "full": bool(alive and alive[0].is_full), "objects": objects,
            "subs": {link.sub: self.sub_of(link.child, link.object, link.name, now) for link in manager.links}}

    def sub_of(self, child: str, target: str, name: str, now: float) -> list[Any]:
        """Of a SUB: who it stands for, how that stands, and the command that is under way, with since when."""
        state, topic = self.seen.state_of(child, target), (child, name)
        command, outcome = self.seen.commands.get(topic), self.seen.outcomes.get(topic)
        if command is None or command.action == WITHDRAWN or (
                outcome is not None and outcome.k == command.k and outcome.is_last()):
            self.since.pop(topic, None)
            return [f"{child}.{target}", state, "", 0]
        k, since = self.since.get(topic, (-1, now))
        since = since if k == command.k else now
        self.since[topic] = command.k, since
        return [f"{child}.{target}", state, f"{command.action} {command.arguments}".rstrip(), round(since, 1)]


def known_of(hierarchy: Hierarchy, operator: str) -> Picture:
    """What a page knows from the beginning: the tree, and what the operator may ask for."""
    may: dict[str, dict[str, Picture]] = {}
    for word in hierarchy.operators[operator].may:
        node, _, target = word.partition(".")
        kind = hierarchy.domain_of(node).class_of(target)
        reports = {link.report for link in hierarchy.managers[node].links if link.sub == target}
        may.setdefault(node, {})[target] = {
            state: [[action, [list(one) for one in parameters]] for action, parameters in actions.items()
                    if action not in reports] for state, actions in kind.states.items()}
    rows = []
    for name, depth, link in hierarchy.tree():
        domain, manager = hierarchy.domain_of(name), hierarchy.managers[name]
        subs, commanded = {link.sub for link in manager.links}, manager.linked()
        linked = [one for one in domain.objects if one in commanded]
        devices = [one for one in domain.objects if one in domain.devices and one not in subs]
        others = [one for one in domain.objects if one not in linked and one not in devices and one not in subs]
        if not linked:
            linked, others = others, []
        rows.append({"name": name, "depth": depth, "by": f"{link.parent}.{link.sub}" if link else "", "tops": linked,
                     "subs": sorted(subs), "others": others, "devices": devices})
    return {"name": hierarchy.name, "operator": operator, "rows": rows, "may": may}


def asked_of(hierarchy: Hierarchy, operator: str, asked: Any, k: int) -> tuple[str, Asking]:
    """What a page asks for; ValueError where the operator may not, or the domain has no such thing."""
    node, target, action = str(asked["node"]), str(asked["object"]), str(asked["action"])
    if f"{node}.{target}" not in hierarchy.operators[operator].may:
        raise ValueError("you may not command this")
    declared = hierarchy.domain_of(node).class_of(target).actions()
    if action not in declared:
        raise ValueError("no such action")
    given = asked.get("arguments", {})
    words = ", ".join(f"{name} = {value_of(kind, given[name])}" for kind, name, _ in declared[action] if name in given)
    return node, Asking(k, target, action, f"({words})" if words else "")


def value_of(kind: str, value: object) -> str:
    form = r"-?[0-9]{1,19}" if kind == "int" else r'[ !#-~]{0,255}'
    if not isinstance(value, str) or not re.fullmatch(form, value):
        raise ValueError("a whole number, please" if kind == "int" else 'at most 255 letters of ASCII, without "')
    if kind == "int" and not -2**63 <= int(value) < 2**63:
        raise ValueError("a number of 64 bits, please")
    return value if kind == "int" else f'"{value}"'
