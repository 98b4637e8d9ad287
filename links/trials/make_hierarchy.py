"""Writes a hierarchy of three levels with played devices: domains and a description.

usage: python3 -m links.trials.make_hierarchy FOLDER [--middle N] [--leaves N] [--devices N] [--port N] [--sync]
           [--seconds S] [--trips RATE] [--limit S] [--patience S] [--react] [--tls] [--linked-alone]

TOP commands --middle managers, each of these --leaves others and as many devices of its own, each leaf --devices
devices. With 8, 8 and 63, which is what they are if not given, these are 73 managers and 4,096 devices. The devices
answer after --seconds, and each trips by itself --trips times a second.
"""
from __future__ import annotations

import argparse
import os

DEVICE = """class: SUPPLY /associated
  state: OFF /initial_state
    action: SWITCH_ON (int VOLTS)
    action: REPORT
  state: ON
    action: SWITCH_OFF
    action: REPORT
  state: TRIPPED
    action: SWITCH_OFF
    action: REPORT
  state: DEAD /dead_state
    action: REPORT

"""
SUB = """class: BELOW /associated
  state: OFF /initial_state
    action: SWITCH_ON (int VOLTS)
    action: SWITCH_OFF
    action: REPORT
  state: ON
    action: SWITCH_OFF
    action: REPORT
  state: ERROR
    action: SWITCH_ON (int VOLTS)
    action: SWITCH_OFF
    action: REPORT
  state: LOST
    action: SWITCH_ON (int VOLTS)
    action: SWITCH_OFF
    action: REPORT
  state: DEAD /dead_state
    action: REPORT

"""


def top_class(sets: list[str]) -> str:
    on = " and ".join(f"all_in {name} in_state ON" for name in sets)
    off = " and ".join(f"all_in {name} in_state OFF" for name in sets)
    switch_on = "".join(f"      do SWITCH_ON (VOLTS = VOLTS) all_in {name}\n" for name in sets)
    switch_off = "".join(f"      do SWITCH_OFF all_in {name}\n" for name in sets)
    text = "class: UNIT\n"
    for state in ("OFF /initial_state", "ON", "ERROR"):
        text += f"""  state: {state}
    action: SWITCH_ON (int VOLTS)
{switch_on}      if ( {on} ) then
        move_to ON
      endif
      move_to ERROR
    action: SWITCH_OFF
{switch_off}      if ( {off} ) then
        move_to OFF
      endif
      move_to ERROR
    action: CHECK
      if ( {on} ) then
        move_to ON
      endif
      if ( {off} ) then
        move_to OFF
      endif
      move_to ERROR
"""
    return text + "\n"


def domain(top: str, devices: list[str], below: list[str]) -> str:
    text = (DEVICE if devices else "") + (SUB if below else "")
    sets = (["DEVICES"] if devices else []) + (["UNITS"] if below else [])
    text += top_class(sets)
    text += "".join(f"object: {name} is_of_class SUPPLY\n" for name in devices)
    text += "".join(f"object: {name} is_of_class BELOW\n" for name in below)
    text += f"object: {top} is_of_class UNIT\n\n"
    if devices:
        text += f"objectset: DEVICES {{ {', '.join(devices)} }}\n"
    if below:
        text += f"objectset: UNITS {{ {', '.join(below)} }}\n"
    return text


def description(asked: argparse.Namespace) -> str:
    """What stands in front of the managers: the broker, what holds for all links, and operators."""
    secure = 'ca = "ca.crt"' if asked.tls else 'passwords = "secrets"'
    head = (f'name = "detector"\n[broker]\nhost = "127.0.0.1"\nport = {asked.port}\n{secure}\n'
            f'[defaults]\nlimit = {asked.limit}\npatience = {asked.patience}\n')
    operators = "".join(f'[operators.{name}]\nmay = ["TOP.UNIT"]\n' for name in ("ANNA", "BERT", "CARL"))
    return head + operators + '[operators.WATCH]\n[operators.DORA]\nmay = ["M1.UNIT"]\nsession = 2\n'


def manager(name: str, domain: str, more: str, below: dict[str, str]) -> str:
    """A manager, and of each SUB the manager that it stands for."""
    links = "".join(f'{sub} = {{ to = "{child}.UNIT" }}\n' for sub, child in below.items())
    return f'[managers.{name}]\ndomain = "{domain}"\n{more}' + (f"[managers.{name}.links]\n{links}" if links else "")


def files_of(asked: argparse.Namespace) -> dict[str, str]:
    """The domains and the description."""
    more = 'react = "UNIT CHECK"\n' if asked.react else ""
    more += "sync = true\n" if asked.sync else ""
    more += "serve_all = false\n" if asked.linked_alone else ""
    plays = (f'plays = {{ seconds = {asked.seconds}, trips = {asked.trips}, tripped = "TRIPPED", '
             'states = { SWITCH_ON = "ON", SWITCH_OFF = "OFF" } }\n')
    middles = [f"M{number + 1}" for number in range(asked.middle)]
    leaves = [f"L{number + 1}" for number in range(asked.leaves)]
    own = [f"HV{number + 1}" for number in range(asked.leaves)]
    devices = [f"HV{number + 1}" for number in range(asked.devices)]
    text = [description(asked), manager("TOP", "top.sml", more, {name: name for name in middles})]
    for name in middles:
        below = {leaf: f"{name}_{leaf}" for leaf in leaves}
        text.append(manager(name, "middle.sml", more + plays, below))
        text += [manager(leaf, "leaf.sml", more + plays, {}) for leaf in below.values()]
    return {"top.sml": domain("UNIT", [], middles), "middle.sml": domain("UNIT", own, leaves),
            "leaf.sml": domain("UNIT", devices, []), "hierarchy.toml": "\n".join(text)}


def parser() -> argparse.ArgumentParser:
    words = argparse.ArgumentParser(description=__doc__, formatter_class=argparse.RawDescriptionHelpFormatter)
    words.add_argument("folder", metavar="FOLDER")
    for name, value in (("middle", 8), ("leaves", 8), ("devices", 63), ("port", 1883)):
        words.add_argument(f"--{name}", metavar="N", type=int, default=value)
    for name, seconds in (("seconds", 0.0), ("trips", 0.0), ("limit", 60.0), ("patience", 10.0)):
        words.add_argument(f"--{name}", metavar="S", type=float, default=seconds)
    for name in ("react", "tls", "sync"):
        words.add_argument(f"--{name}", action="store_true")
    words.add_argument("--linked-alone", action="store_true", help="states of objects that nobody commands stay away")
    return words


def main() -> None:
    asked = parser().parse_args()
    os.makedirs(asked.folder, exist_ok=True)
    for name, text in files_of(asked).items():
        with open(os.path.join(asked.folder, name), "w", encoding="ascii") as file:
            file.write(text)


if __name__ == "__main__":
    main()
