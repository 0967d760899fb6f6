"""Remotes of type=directory: contents in a folder, as git-annex lays them out there."""

import os
import shutil
from pathlib import Path

from .digests import wrong_of
from .keys import file_of_key, lower_folders, mixed_folders
from .places import ABSENT, DAMAGED, DROPPED, FAILED, GOT, PRESENT, STORED, Answer, Place, copy_checked
from .text import bytes_of


class DirectoryPlace(Place):
    """The folder: `ABC/DEF/KEY/KEY` by the lower hash, or by the mixed one in old remotes.

    A key of a chunk is a key like others, in the hash folders of its whole key.
    """

    def __init__(self, folder, watch):
        self.folder, self.watch = Path(os.path.abspath(folder)), watch

    def folders_of(self, key):
        """Where the folder of the key may be; the first is where it is made."""
        file = file_of_key(key)
        return [self.folder / way(key) / file for way in (lower_folders, mixed_folders)]

    def path_of(self, item):
        """The file with the content; None where none is. A disk that can't be read is an error, and no answer."""
        for folder in self.folders_of(item.key):
            try:
                if os.stat(bytes_of(str(folder / folder.name))):
                    return folder / folder.name
            except (FileNotFoundError, NotADirectoryError):
                continue
        os.stat(self.folder)
        return None

    def each(self, items, act):
        """An answer for each item; what the system refuses is `failed`."""
        for item in items:
            try:
                yield [act(item)]
            except OSError as why:
                yield [Answer(item, FAILED, f"{why.strerror}: {why.filename or self.folder}")]

    def present(self, items):
        def act(item):
            return Answer(item, PRESENT if self.path_of(item) else ABSENT)

        answers = []
        for one in self.each(items, act):
            answers += one
            if len(answers) == 256:
                yield answers
                answers = []
        yield answers

    def fetch(self, items, file_of):
        def act(item):
            path = self.path_of(item)
            if path is None:
                return Answer(item, FAILED, "it is not there")
            wrong = copy_checked(item.key, path, file_of(item), self.watch)
            return Answer(item, DAMAGED, wrong) if wrong else Answer(item, GOT)

        return self.each(items, act)

    def verify(self, items, scratch):
        """Reads each content where it is."""

        def act(item):
            path = self.path_of(item)
            if path is None:
                return Answer(item, FAILED, "it is not there")
            wrong = wrong_of(item.key, path)
            self.watch.moved(item.size or 0)
            return Answer(item, DAMAGED, wrong) if wrong else Answer(item, GOT)

        return self.each(items, act)

    def put(self, items, file_of):
        """Puts each content together in `tmp`, and renames its folder into place."""

        def act(item):
            folder = self.folders_of(item.key)[0]
            made = self.folder / "tmp" / folder.name
            remove_folder(made)
            made.mkdir(parents=True)
            wrong = copy_checked(item.key, file_of(item), made / folder.name, self.watch)
            if wrong:
                remove_folder(made)
                return Answer(item, FAILED, f"what is to be sent has the wrong content: {wrong}")
            with open(made / folder.name, "rb") as file:
                os.fsync(file.fileno())
            folder.parent.mkdir(parents=True, exist_ok=True)
            remove_folder(folder)
            os.rename(made, folder)
            os.chmod(folder / folder.name, 0o444)
            os.chmod(folder, 0o555)
            return Answer(item, STORED)

        return self.each(items, act)

    def remove(self, items):
        def act(item):
            self.path_of(item)  # an error where the disk can't be read
            for folder in self.folders_of(item.key):
                remove_folder(folder)
            return Answer(item, DROPPED)

        return self.each(items, act)

    def is_empty(self):
        return not any(self.folder.iterdir())


def remove_folder(folder):
    """Removes the folder of a key, which git-annex writes only for reading."""
    if os.path.lexists(folder):
        os.chmod(folder, 0o755)
        shutil.rmtree(folder)
