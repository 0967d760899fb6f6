"""Opens a remote: what is noted of it, and the place that keeps its contents."""

from typing import NamedTuple

from .chunks import ChunkedPlace
from .cipher import open_cipher
from .directory import DirectoryPlace
from .encrypted import EncryptedPlace
from .exports import ExportedBySpecial, ExportedDirectory, ExportPlace, Names
from .gpg import Gpg
from .notes import Notes
from .places import Place
from .remotes import Remote, need_folder
from .runs import Runner, Way
from .special_run import SpecialPlace


class Opened(NamedTuple):
    """A remote with its notes and its place."""

    remote: Remote
    notes: Notes
    place: Place


def open_place(repository, remote, notes, words, watch):
    """The place of a remote. Layers for other kinds of remotes go here."""
    if remote.kind == "directory":
        need_folder(remote)
        if remote.trees is not None:
            return exported(ExportedDirectory(remote.settings["directory"], watch), remote, notes, words)
        below = DirectoryPlace(remote.settings["directory"], watch)
    else:
        runner, way = Runner(repository, remote, notes, words, watch), Way(remote, words)
        if remote.trees is not None:
            return exported(ExportedBySpecial(runner, way, words.jobs), remote, notes, words)
        below = SpecialPlace(runner, way, words.jobs)
        if remote.encryption is None:
            return below  # `special` itself does the chunks
    if remote.encryption is not None:
        below = encrypted(below, remote, notes, words)
    return ChunkedPlace(below, remote, notes, notes.chunks)


def exported(below, remote, notes, words):
    names = Names(remote.trees, remote.settings.get("annexobjects") == "yes")
    return ExportPlace(below, names, remote, notes.given, words.unverified)


def encrypted(below, remote, notes, words):
    """The place over which contents are encrypted. A cipher that can't be had ends the command here."""
    gpg = Gpg(remote.name)
    cipher = open_cipher(remote.name, remote.encryption, gpg)
    notes.load_hidden()
    return EncryptedPlace(below, remote.name, cipher, gpg, notes.sealed, words.jobs)
