"""Remotes, as git's settings and the log of remotes have them."""

import decimal
import os
import re
from typing import NamedTuple

from .branch import stamp_of
from .cipher import Encryption, read_encryption
from .text import Problem, call

MOST_CHUNK = 1 << 40
UUID = re.compile(r"[0-9a-f]{8}(-[0-9a-f]{4}){3}-[0-9a-f]{12}")
# What a remote that is the same as another takes from its settings.
INHERITED = ("encryption", "mac", "cipher", "cipherkeys", "pubkeys", "chunk", "chunksize")


class Remote(NamedTuple):
    """A special remote.

    `uuid` is that of its contents, in the logs of places and chunks. `config` is that of its settings and states: the
    same, but for a remote made with --sameas. `kind` is `external` or `directory`, `program` is None for the latter, and
    `chunk` is the size of its chunks, 0 where it has none. `encryption` is None where it has none. `trees` are those that
    were exported to it; it is None where the remote keeps contents by their keys.
    """

    name: str
    uuid: str
    config: str
    kind: str
    program: str
    settings: dict
    chunk: int
    encryption: Encryption = None
    trees: list = None


def unescape_setting(value):
    """A value of the log, in which `&NUMBER;` stands for a character."""
    return re.sub(r"&(\d+);", lambda match: chr(int(match[1])), value)


def read_all_settings(branch):
    """The newest settings of each remote, by UUID."""
    newest, all_settings = {}, {}
    for line in branch.text("remote.log").splitlines():
        words = line.split(" ")
        pairs = dict(word.split("=", 1) for word in words[1:] if "=" in word)
        stamp = stamp_of(pairs.pop("timestamp", "0s"))
        if stamp is not None and stamp > newest.get(words[0], -1):
            newest[words[0]] = stamp
            all_settings[words[0]] = {name: unescape_setting(value) for name, value in pairs.items()}
    for settings in all_settings.values():
        parent = all_settings.get(settings.get("sameas-uuid"), {})
        for name in INHERITED:
            if name in parent:
                settings[name] = parent[name]
    return all_settings


def size_units():
    """The bytes of each unit that git-annex knows, by its names in small letters."""
    units = {"": 1, "b": 1, "byte": 1, "bytes": 1}
    names = ("kilo", "kibi"), ("mega", "mebi"), ("giga", "gibi"), ("tera", "tebi"), ("peta", "pebi")
    for power, (decimal_name, binary_name) in enumerate(names, 1):
        letter = decimal_name[0]
        for base, spellings in (
            (1000, (letter, f"{letter}b", f"{decimal_name}byte", f"{decimal_name}bytes")),
            (1024, (f"{letter}i", f"{letter}ib", f"{binary_name}byte", f"{binary_name}bytes")),
        ):
            units.update((spelling, base**power) for spelling in spellings)
    return units


def chunk_size(value):
    """The bytes of a size as git-annex spells it: `1MiB`, `500 kB`, `1000000`."""
    match = re.fullmatch(r"(\d+(?:\.\d+)?)\s*([a-zA-Z]*)", value)
    unit = size_units().get(match[2].lower()) if match else None
    if unit is None:
        raise Problem(f"chunk={value} is no size that is known here")
    size = round(decimal.Decimal(match[1]) * unit)
    if size > MOST_CHUNK:
        raise Problem(f"chunk={value} is more than {MOST_CHUNK} bytes")
    return size


def refuse_other_kinds(name, settings):
    """Refuses a remote whose content can't be found by its keys here."""
    kind = settings.get("type")
    if kind not in ("external", "directory"):
        raise Problem(f"{name} has type={kind}: only type=external and type=directory are served here")
    if settings.get("importtree", "no") == "yes":
        raise Problem(f"{name} has importtree=yes: others write there too, and what they write is not known here")
    if "chunksize" in settings:
        raise Problem(f"{name} has chunksize={settings['chunksize']}: this old kind of chunks is not known here")
    if settings.get("embedcreds") == "yes":
        raise Problem(f"{name} has embedcreds=yes: its credentials can't be handed to it here; use git-annex")
    for setting, value in settings.items():
        if "\n" in value:
            raise Problem(f"the value of {setting} has a line end, which can't be sent on a line")


def git_remotes():
    """What git's settings say of each remote to git-annex, by the remote's name."""
    remotes = {}
    for pair in (call(["git", "config", "--null", "--get-regexp", r"^remote\..*\.annex-"]) or "").split("\0"):
        name, _, value = pair.partition("\n")
        match = re.fullmatch(r"remote\.(.*)\.annex-([a-z-]+)", name, re.DOTALL)
        if match:
            remotes.setdefault(match[1], {})[match[2]] = value
    return remotes


def find_uuids(name, known, all_settings):
    """The UUIDs of a remote's contents and settings, and what git's settings say of it."""
    if name in known and "uuid" in known[name]:
        local = known[name]
        return local["uuid"], local.get("config-uuid", local["uuid"]), local
    found = [
        config
        for config, settings in all_settings.items()
        if name in (config, settings.get("name"), settings.get("sameas-name"))
    ]
    if len(found) > 1:
        raise Problem(f"there are {len(found)} remotes {name}: name one by its UUID: {' '.join(sorted(found))}")
    if not found:
        raise Problem(f"git-annex knows no remote {name} here")
    uuid = all_settings[found[0]].get("sameas-uuid", found[0])
    locals_ = [one for one in known.values() if one.get("config-uuid", one.get("uuid")) == found[0]]
    return uuid, found[0], locals_[0] if locals_ else {}


def find_remote(name, branch, changes=()):
    """The remote of this name or UUID; `changes` override its settings."""
    all_settings = read_all_settings(branch)
    uuid, config, local = find_uuids(name, git_remotes(), all_settings)
    if config not in all_settings:
        raise Problem(f"{name} is no special remote: remote.log has nothing of it")
    settings = {**all_settings[config], **dict(changes)}
    refuse_other_kinds(name, settings)
    if not UUID.fullmatch(uuid):
        raise Problem(f"the UUID of {name} is {uuid}, which is none")
    name = settings.get("sameas-name") or settings.get("name") or name if name == config else name
    trees = branch.exported_trees(uuid) if settings.get("exporttree", "no") == "yes" else None
    chunk = chunk_size(settings.get("chunk", "0")) if trees is None else 0
    encryption = read_encryption(name, settings)
    if settings["type"] == "directory":
        settings.setdefault("directory", local.get("directory", ""))
        return Remote(name, uuid, config, "directory", None, settings, chunk, encryption, trees)
    kind = dict(changes).get("externaltype") or local.get("externaltype") or settings.get("externaltype")
    if not kind or kind == "readonly":
        raise Problem(f"{name} has no program: its externaltype is {kind or 'missing'}")
    return Remote(name, uuid, config, "external", f"git-annex-remote-{kind}", settings, chunk, encryption, trees)


def has_credentials(repository, remote, setting):
    """Whether git-annex keeps credentials that the remote asks for as `setting`."""
    folder = repository.common / "annex/creds"
    names = {f"{uuid}-{setting}".replace("/", "_") for uuid in (remote.uuid, remote.config)} | {remote.uuid, remote.config}
    return any((folder / name).exists() for name in names) or setting in remote.settings


def need_folder(remote):
    """Refuses a remote of type=directory whose folder isn't there."""
    folder = remote.settings["directory"]
    if not folder:
        raise Problem(f"where the folder of {remote.name} is mounted is not known here: say --set directory=FOLDER")
    if not os.path.isdir(folder):
        raise Problem(f"there is no folder {folder}: is the disk mounted? --set directory=FOLDER names another place")
