"""How all stands, in the text form that Prometheus reads."""
from __future__ import annotations

import collections
from collections.abc import Iterator

from domain import Domain, Standing
from view import View
from wrongs import mood_of

KINDS = ("manager", "silent", "circle", "driver", "dead", "bad", "restarted", "unknown")


def count_of(domain: Domain, standing: Standing, mood: str) -> int:
    return sum(mood_of(domain, name, state) == mood for name, state in standing.states.items())


def head_of(word: str, help_of: str) -> list[str]:
    kind = "counter" if word.endswith("_total") else "gauge"
    return [f"# HELP mukdeth_{word} {help_of}", f"# TYPE mukdeth_{word} {kind}"]


def lines_of(view: View, now: float) -> Iterator[str]:
    standing, domain, facts = view.facts.standing, view.domain, view.facts
    yield from head_of("state", "1 for the state of each object")
    yield from (f'mukdeth_state{{object="{name}",state="{state}"}} 1' for name, state in standing.states.items())
    yield from head_of("open_seconds", "how long the action of an object has been open")
    yield from (f'mukdeth_open_seconds{{object="{name}",action="{standing.open[name][0]}"}} {now - at:.1f}'
                for name, at in facts.since.opens.items() if at is not None and name in standing.open)
    lacking = sum(facts.drivers.lacks(name) for name in domain.devices)
    for word, help_of, value in (
        ("waiting", "requests that wait", sum(standing.waiting.values())),
        ("dead", "objects that are dead", count_of(domain, standing, "dead")),
        ("in_error", "objects in a state of error", count_of(domain, standing, "bad")),
        ("devices_without_driver", "devices without a driver", lacking),
        ("connected", "whether there is a gateway", int(view.cut_since is None)),
        ("lines_total", "lines that were told", view.told),
    ):
        yield from [*head_of(word, help_of), f"mukdeth_{word} {value}"]
    found = collections.Counter(wrong.kind for wrong in view.wrongs(now))
    yield from head_of("wrong", "things that are wrong, by kind")
    yield from (f'mukdeth_wrong{{kind="{kind}"}} {found[kind]}' for kind in KINDS)
