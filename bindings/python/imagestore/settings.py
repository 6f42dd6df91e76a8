"""store.toml: the store's number, its record, its nodes in order, the lanes of a block, and how other machines are reached."""
import json
import os
import re
import secrets
import tomllib
from dataclasses import dataclass

import balanced

from . import carrier, files
from .errors import StoreError, UsageError

SSH = ("ssh", "-o", "BatchMode=yes", "-o", "ConnectTimeout=10", "-o", "ServerAliveInterval=10", "-o", "ServerAliveCountMax=3")
HOST = re.compile(r"[A-Za-z0-9_][A-Za-z0-9_.@-]*")
KEYS = {"store", "record", "nodes", "lanes", "ssh", "program"}


@dataclass(frozen=True)
class Settings:
    """A store. `path` is the file; folders are relative to its folder."""
    path: str
    store: bytes
    record: bytes
    nodes: tuple
    lanes: int
    ssh: tuple = SSH
    program: str = "imagestore"

    def marker(self, node):
        """What the folder of a node says of itself."""
        says = {"store": self.store.hex(), "node": node, "record": list(self.record), "lanes": self.lanes}
        return (json.dumps(says) + "\n").encode()


def is_remote(place):
    """Whether a node is on another machine, as HOST:/FOLDER; a colon behind a slash belongs to a folder."""
    return ":" in place.split("/", 1)[0]


def check_place(place):
    """The place of a node, if it is one."""
    host, _, folder = place.partition(":")
    if not place or not place.isprintable() or (is_remote(place) and not (HOST.fullmatch(host) and folder.startswith("/"))):
        raise UsageError(f"{place!r} is no node: a node is a folder, or HOST:/FOLDER")
    return place


def fresh(path, needed, nodes, lanes, ssh=None, program=None):
    """The settings of a new store; folders below that of the file are written as relative to it."""
    top = os.path.dirname(os.path.abspath(path))
    places = [place if is_remote(check_place(place)) else os.path.abspath(place) for place in nodes]
    if len(set(places)) != len(places):
        raise UsageError("a node stands twice in the list")
    places = [os.path.relpath(p, top) if not is_remote(p) and p.startswith(top + os.sep) else p for p in places]
    if not 1 <= needed <= len(places):
        raise UsageError(f"{needed} nodes cannot be needed of {len(places)}")
    record = carrier.choose(len(places), needed)
    return checked(Settings(path, secrets.token_bytes(16), record, tuple(places), lanes, tuple(ssh or SSH), program or "imagestore"))


def checked(settings):
    try:
        plan = carrier.check(balanced.Plan(settings.record))
    except balanced.Error as error:
        raise UsageError(f"{settings.path}: the record is not accepted: {error}") from None
    if plan.n != len(settings.nodes):
        raise UsageError(f"{settings.path}: the record has {plan.n} nodes, and {len(settings.nodes)} are listed")
    if not 1 <= settings.lanes <= balanced.MAX_LANES:
        raise UsageError(f"{settings.path}: lanes is from 1 to {balanced.MAX_LANES}, not {settings.lanes}")
    if carrier.capacity(plan, settings.lanes) == 0:
        raise UsageError(f"{settings.path}: a block of {settings.lanes} lanes holds no bytes: take more")
    for place in settings.nodes:
        check_place(place)
    return settings


def load(path):
    try:
        with open(path, "rb") as file:
            table = tomllib.load(file)
    except FileNotFoundError:
        raise UsageError(f"there is no store {path}: make one with `imagestore init`, or name it with --store") from None
    except (tomllib.TOMLDecodeError, UnicodeDecodeError) as error:
        raise UsageError(f"{path} cannot be read: {error}") from None
    if not {"store", "record", "nodes", "lanes"} <= set(table) <= KEYS:
        raise UsageError(f"{path}: the keys are store, record, nodes, lanes, and where wanted ssh and program")
    try:
        settings = Settings(
            path, bytes.fromhex(table["store"]), bytes(table["record"]), tuple(map(str, table["nodes"])), int(table["lanes"]),
            tuple(map(str, table.get("ssh", SSH))), str(table.get("program", "imagestore")))
    except (TypeError, ValueError) as error:
        raise UsageError(f"{path}: {error}") from None
    if len(settings.store) != 16 or not settings.ssh:
        raise UsageError(f"{path}: `store` is 32 hexadecimal digits, and `ssh` is a command")
    return checked(settings)


def quoted(words):
    """A printable string as TOML has it."""
    return json.dumps(words, ensure_ascii=False)


def text(settings):
    """The settings as TOML."""
    lines = [f'store = "{settings.store.hex()}"', f"record = {list(settings.record)}", f"lanes = {settings.lanes}"]
    if settings.ssh != SSH:
        lines.append(f"ssh = [{', '.join(map(quoted, settings.ssh))}]")
    if settings.program != "imagestore":
        lines.append(f"program = {quoted(settings.program)}")
    lines += ["nodes = [", *(f"    {quoted(place)}," for place in settings.nodes), "]"]
    return "\n".join(lines) + "\n"


def save(settings):
    if os.path.exists(settings.path):
        raise StoreError(f"there is a file {settings.path} already")
    folder = files.open_folder(os.path.dirname(os.path.abspath(settings.path)))
    try:
        files.replace(folder, os.path.basename(settings.path), text(settings).encode())
    finally:
        os.close(folder)
