"""What the broker has to know: who may read and write which topics; and passwords or certificates of one's own."""
from __future__ import annotations

import json
import os
import secrets
import subprocess

from .description import Hierarchy
from .domain import Refused

READ, WRITE = "read", "write"
Right = tuple[str, str]


def rights_of(hierarchy: Hierarchy) -> dict[str, list[Right]]:
    """Of each name exactly the topics that it needs. A node hears its own `alive`, so that it learns where another log
    of its own has been told of."""
    root, rights = hierarchy.name, dict[str, list[Right]]()
    for manager in hierarchy.managers.values():
        at = f"{root}/{manager.name}"
        mine = rights[manager.name] = [
            (WRITE, f"{at}/alive"), (READ, f"{at}/alive"), (WRITE, f"{at}/state/+"), (WRITE, f"{at}/outcome/+"),
            (READ, f"{at}/command/+")]
        for link in manager.links:
            child = f"{root}/{link.child}"
            mine += [(WRITE, f"{child}/command/{link.name}"), (READ, f"{child}/outcome/{link.name}"),
                     (READ, f"{child}/state/{link.object}"), (READ, f"{child}/alive")]
    for name in hierarchy.operators:
        mine = rights[name] = [(READ, f"{root}/+/{what}") for what in ("alive", "state/+", "command/+", "outcome/+")]
        mine += [(WRITE, f"{root}/{manager.name}/command/{name}") for manager in hierarchy.managers.values()
                 if name in manager.commanders]
    return {name: [*dict.fromkeys(mine)] for name, mine in rights.items()}


def access_list(hierarchy: Hierarchy) -> str:
    """The access list, as mosquitto reads it."""
    lines: list[str] = []
    for name, rights in rights_of(hierarchy).items():
        lines += [f"user {name}", *(f"topic {what} {topic}" for what, topic in rights)]
    return "\n".join(lines) + "\n"


def configuration(hierarchy: Hierarchy, folder: str) -> str:
    """mosquitto.conf: nobody without a name; with TLS the certificate is the name, else there are passwords."""
    broker = hierarchy.broker
    lines = [f"listener {broker.port} {broker.host}", "allow_anonymous false", f"acl_file {folder}/rights",
             "persistence true", f"persistence_location {folder}/", "autosave_interval 60",
             "max_inflight_messages 1000", "max_queued_messages 100000", "max_packet_size 16384",
             # A name is one connection: nobody else's certificate or password ends it by taking its client id.
             "set_tcp_nodelay true", "use_username_as_clientid true"]
    if os.geteuid() == 0:
        # Else mosquitto that is started as root becomes a user who cannot read these files.
        lines.append("user root")
    if broker.ca:
        keys = hierarchy.beside(broker.keys)
        lines += [f"cafile {hierarchy.beside(broker.ca)}", f"certfile {keys}/broker.crt", f"keyfile {keys}/broker.key",
                  "tls_version tlsv1.2", "require_certificate true", "use_identity_as_username true"]
    else:
        lines += [f"password_file {folder}/passwords"]
    return "\n".join(lines) + "\n"


def nats_configuration(hierarchy: Hierarchy, folder: str, made: dict[str, str]) -> str:
    """nats.conf, for the MQTT listener of nats-server, with passwords: rights by subject, where topics have `.` for
    `/`."""
    broker = hierarchy.broker
    users = []
    for name, rights in rights_of(hierarchy).items():
        subjects = {what: [topic.replace("/", ".").replace("+", "*") for one, topic in rights if one == what]
                    for what in (READ, WRITE)}
        # The server delivers messages of QoS 1 to subjects of its own.
        users.append({"user": name, "password": made[name], "permissions": {
            "publish": {"allow": subjects[WRITE]},
            "subscribe": {"allow": subjects[READ] + ["$MQTT.sub.>", "$MQTT.deliver.>"]}}})
    text = {"host": broker.host, "port": -1, "server_name": hierarchy.name,
            "jetstream": {"store_dir": f"{folder}/nats", "max_file_store": 1 << 30},
            "mqtt": {"host": broker.host, "port": broker.port, "max_ack_pending": 1000},
            "authorization": {"users": users}}
    return json.dumps(text, indent=2) + "\n"


def write(path: str, text: str, mode: int = 0o644) -> None:
    with open(os.open(path, os.O_WRONLY | os.O_CREAT | os.O_TRUNC, mode), "w", encoding="utf-8") as file:
        file.write(text)


def write_broker(hierarchy: Hierarchy, folder: str) -> None:
    """All that a broker needs to be started, in a folder."""
    if not hierarchy.broker.ca and not hierarchy.broker.passwords:
        raise Refused(f"{hierarchy.path}: broker: there is neither `ca` nor `passwords`, so nobody could say who he is")
    folder = os.path.abspath(folder)
    os.makedirs(folder, mode=0o700, exist_ok=True)
    write(f"{folder}/mosquitto.conf", configuration(hierarchy, folder))
    write(f"{folder}/rights", access_list(hierarchy), 0o600)
    if not hierarchy.broker.ca:
        made = make_passwords(hierarchy, folder)
        write(f"{folder}/nats.conf", nats_configuration(hierarchy, folder, made), 0o600)


def make_passwords(hierarchy: Hierarchy, folder: str) -> dict[str, str]:
    """A secret for each node and operator, where there is none yet, and the broker's file of their digests."""
    secrets_folder = hierarchy.beside(hierarchy.broker.passwords)
    os.makedirs(secrets_folder, mode=0o700, exist_ok=True)
    made: dict[str, str] = {}
    for name in (*hierarchy.managers, *hierarchy.operators):
        path = os.path.join(secrets_folder, name)
        if not os.path.exists(path):
            write(path, secrets.token_hex(16) + "\n", 0o600)
        with open(path, encoding="ascii") as file:
            made[name] = file.read().strip()
    path = os.path.join(folder, "passwords")
    write(path, "".join(f"{name}:{secret}\n" for name, secret in made.items()), 0o600)
    subprocess.run(["mosquitto_passwd", "-U", path], check=True, capture_output=True)
    return made


def make_certificates(hierarchy: Hierarchy, hosts: list[str]) -> None:
    """An authority of one's own, and a certificate for the broker, each node and each operator; each where it is not
    there yet."""
    keys, ca = hierarchy.beside(hierarchy.broker.keys), hierarchy.beside(hierarchy.broker.ca)
    os.makedirs(keys, mode=0o700, exist_ok=True)
    key = ["-newkey", "ec", "-pkeyopt", "ec_paramgen_curve:prime256v1", "-nodes"]
    if not os.path.exists(ca):
        openssl("req", "-x509", *key, "-days", "3650", "-subj", f"/CN={hierarchy.name} authority", "-keyout",
                f"{keys}/authority.key", "-out", ca)
    names = ",".join(f"IP:{host}" if host.replace(".", "").isdigit() or ":" in host else f"DNS:{host}"
                     for host in hosts)
    for name in ["broker", *hierarchy.managers, *hierarchy.operators]:
        if os.path.exists(f"{keys}/{name}.crt"):
            continue
        request = openssl("req", *key, "-subj", f"/CN={name}", "-keyout", f"{keys}/{name}.key")
        write(f"{keys}/{name}.ext", f"subjectAltName={names}\nextendedKeyUsage=serverAuth\n" if name == "broker"
              else "extendedKeyUsage=clientAuth\n")
        openssl("x509", "-req", "-in", "/dev/stdin", "-CA", ca, "-CAkey", f"{keys}/authority.key", "-CAcreateserial",
                "-days", "3650", "-extfile", f"{keys}/{name}.ext", "-out", f"{keys}/{name}.crt", text=request)
        os.unlink(f"{keys}/{name}.ext")


def openssl(*words: str, text: bytes = b"") -> bytes:
    old = os.umask(0o077)
    try:
        return subprocess.run(["openssl", *words], input=text, check=True, capture_output=True).stdout
    finally:
        os.umask(old)
