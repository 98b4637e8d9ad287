"""Units of systemd: a folder for each machine, with one for each node."""
from __future__ import annotations

import os
import shutil
import sys

from .description import Hierarchy
from .lines import PROGRAM

UNIT = """[Unit]
Description={name} of {root}: a state manager and its links
After=network-online.target
Wants=network-online.target
StartLimitIntervalSec=0

[Service]
ExecStart={python} -m links node {file} {name}
WorkingDirectory={folder}
Environment={program}
Restart=always
RestartSec=1
KillMode=mixed
TimeoutStopSec=20
NoNewPrivileges=yes
PrivateTmp=yes
ProtectSystem=strict
ReadWritePaths={logs}
MemoryMax=1G

[Install]
WantedBy=multi-user.target
"""


def quoted(text: str) -> str:
    """A word as systemd reads it: blanks, quotes and `%` mean nothing in it."""
    escaped = text.replace("\\", "\\\\").replace('"', '\\"').replace("%", "%%")
    return f'"{escaped}"' if set(escaped) & set(" '\"\\;$") else escaped


def write_units(hierarchy: Hierarchy, folder: str) -> list[str]:
    paths, above = [], os.path.dirname(os.path.dirname(os.path.realpath(__file__)))
    program = quoted(f"SMIRUN={shutil.which(PROGRAM) or PROGRAM}")
    for manager in hierarchy.managers.values():
        machine = os.path.join(folder, manager.machine)
        os.makedirs(machine, exist_ok=True)
        paths.append(os.path.join(machine, f"{hierarchy.name}-{manager.name.lower()}.service"))
        with open(paths[-1], "w", encoding="utf-8") as file:
            file.write(UNIT.format(
                name=manager.name, root=hierarchy.name, python=quoted(sys.executable),
                file=quoted(hierarchy.path).replace("$", "$$"), program=program,
                folder=above.replace("%", "%%"), logs=quoted(os.path.dirname(os.path.abspath(manager.log)))))
    return paths
