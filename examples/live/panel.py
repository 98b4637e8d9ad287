#!/usr/bin/env python3
"""An operators' panel: one page, served on loopback, that shows how all stands and asks for actions.

usage: panel.py FILE [--log PATH] [--play [--fail OBJECT[=STATE]]] [--port N] [--secret-file PATH] [--silent S]
       panel.py FILE --gateway CONTACT [--port N] [--secret-file PATH] [--silent S]

The first starts a gateway with a manager of its own, and with --play the devices of examples/detector.sml or
examples/partition.sml too. The second goes to a gateway that runs, which wrote CONTACT (gateway.py FILE --contact
CONTACT). All who look at the panel have the one session that it has at the gateway.

Actions are asked for by requests that are made once, so that one whose answer was lost can be asked for again. Where
the connection to the gateway is cut, the panel connects again, for a day. At the same gateway, with the same
session, it asks again what has no answer and is still waited for; else the page shows `not known` for it.

It prints the address of the page. The secret in it is made at each start, or is the one in --secret-file, which is
made if it is not there: whoever has the address may command. Below the address are `healthz`, which is told 200 where
all is well and 503 with a sentence for each thing that is wrong, and `metrics`, in the text form that Prometheus reads.

A strip at the top of the page has what is wrong: devices that are silent (whose action has been open for --silent
seconds, 30 if it is not given, or longer than the gateway's --timeouts say) and who waits for them, objects that wait
for one another, devices without a driver, what is dead or in error, what the manager complains of, requests of which
it is not known what became of them. For whom each object waits the panel asks by `?`, while an action has been open
for more than two seconds, and ten times less often than the answer takes.
"""
from __future__ import annotations

import argparse
import signal
import subprocess
import sys
import tempfile
import time

from domain import Domain
from gateway import kept_secret, of_file
from lines import HERE
from pages import Server
from panel_client import Manager
from wrongs import SILENT_SECONDS

# Devices that are played come to the gateway within this many seconds.
PLAY_SECONDS = 60.0
NOT_PLAYED = "the devices are not played; --play is for the domains of examples/"
Process = subprocess.Popen[bytes]


def start_gateway(asked: argparse.Namespace, contact: str) -> Process:
    words = [sys.executable, f"{HERE}/gateway.py", asked.file, "--contact", contact]
    gateway = subprocess.Popen(words + (["--log", asked.log] if asked.log else []), stdout=subprocess.PIPE)
    assert gateway.stdout
    if len(gateway.stdout.readline() + gateway.stdout.readline()) == 0:
        raise SystemExit("the gateway did not start")
    return gateway


def start_playing(asked: argparse.Namespace, contact: str) -> Process:
    words = [sys.executable, f"{HERE}/play_devices.py", asked.file, "--gateway", contact]
    words += [word for name in asked.fail for word in ("--fail", name)]
    return subprocess.Popen(words, stdout=subprocess.DEVNULL)


def await_drivers(manager: Manager, player: Process) -> None:
    """Waits until the devices that are played have come to the gateway. What it is to play that it can't ends it."""
    ends = time.monotonic() + PLAY_SECONDS
    while not manager.view.facts.drivers.here:
        if player.poll() is not None or time.monotonic() > ends or not manager.domain.devices:
            raise SystemExit(NOT_PLAYED)
        time.sleep(0.05)


def command_line() -> argparse.ArgumentParser:
    words = argparse.ArgumentParser(description=__doc__, formatter_class=argparse.RawDescriptionHelpFormatter)
    words.add_argument("file", metavar="FILE")
    words.add_argument("--gateway", metavar="CONTACT")
    words.add_argument("--log", metavar="PATH")
    words.add_argument("--play", action="store_true")
    words.add_argument("--fail", metavar="OBJECT[=STATE]", action="append", default=[])
    words.add_argument("--port", type=int, default=0, help="0, if it is not given: one that is free")
    words.add_argument("--secret-file", metavar="PATH")
    words.add_argument("--silent", metavar="SECONDS", type=float, default=SILENT_SECONDS)
    return words


def serve(asked: argparse.Namespace, folder: str, started: list[Process]) -> None:
    """Starts what is to be started, and serves pages until it is ended."""
    domain = Domain(asked.file)
    secret = of_file(asked.secret_file, kept_secret)
    contact = asked.gateway or f"{folder}/contact"
    if not asked.gateway:
        started.append(start_gateway(asked, contact))
    try:
        server = Server(asked.port, Manager(domain, contact, asked.silent), asked.file, secret)
    except (OSError, OverflowError, ValueError) as fault:
        raise SystemExit(f"no panel: {fault}") from None
    if asked.play:
        started.append(start_playing(asked, contact))
        await_drivers(server.manager, started[-1])
    shown = "SECRET" if asked.secret_file else server.secret
    print(f"http://127.0.0.1:{server.server_port}/{shown}/", flush=True)
    server.serve_forever()


def main() -> None:
    words = command_line()
    asked = words.parse_args()
    if asked.gateway and (asked.play or asked.log or asked.fail):
        words.error("--log, --play and --fail are for a gateway that the panel starts")
    signal.signal(signal.SIGTERM, lambda *_: sys.exit(0))
    started: list[Process] = []
    with tempfile.TemporaryDirectory() as folder:
        try:
            serve(asked, folder, started)
        except KeyboardInterrupt:
            pass
        finally:
            for process in started:
                process.terminate()
            for process in started:
                process.wait()


if __name__ == "__main__":
    main()
