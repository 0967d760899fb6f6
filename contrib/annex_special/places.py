"""Places that keep contents, and what they answer.

For whoever adds a kind of place: a `Place` does one of five things with a list of items (keys with their sizes), and
yields lists of `Answer`, each as soon as it is known, one answer for each item. The items of one call have different
keys. What a place does it does for whole keys; layers stand over other places and are places too:

- `special_run.SpecialPlace`: a remote of type=external, by runs of `special`, which does the chunks itself.
- `directory.DirectoryPlace`: a folder in git-annex's layout. It knows nothing of chunks: it takes keys of chunks as keys.
- `chunks.ChunkedPlace`: a layer that keeps each content in one or several keys of the place below.
- `exports.ExportPlace`: a layer that finds contents by the names of exported trees. It is only read.
- `encrypted.EncryptedPlace`: a layer, below `ChunkedPlace`, that makes other keys of keys and other files of files. The
  keys that it hands down have no size and no digest, so nothing is compared there.
- `HerePlace`: this repository's own contents.

`fetch` promises that what it answers `got` was compared with its key: size, and digest where `digests` knows it. Nothing
else is ever left under the name that `file_of` gives. No answer is guessed: `present`, `absent`, `stored` and `dropped`
are what the place said, and whatever isn't plain is `failed`.
"""

import hashlib
import os
import shutil
from typing import NamedTuple

from .digests import Checker, is_verified, pieces_of, wrong_of
from .keys import Item, backend_of, file_of_key
from .text import is_utf8

PRESENT, ABSENT, GOT, STORED, DROPPED = "present", "absent", "got", "stored", "dropped"
DAMAGED, FAILED, UNVERIFIED = "damaged", "failed", "unverified"
# How much is fetched and then handed on at a time, where it lies here in between.
GROUP_BYTES, GROUP_ITEMS = 1 << 28, 256


class Answer(NamedTuple):
    """What came of an item, and more where it went wrong."""

    item: Item
    word: str
    more: str = ""


class Place:
    """A place that keeps contents."""

    def present(self, items):
        """`present`, `absent` or `failed`."""
        raise NotImplementedError

    def fetch(self, items, file_of):
        """`got`, `damaged` or `failed`: into the file that `file_of` names for an item. An export also says `unverified`."""
        raise NotImplementedError

    def put(self, items, file_of):
        """`stored` or `failed`: from the file that `file_of` names for an item."""
        raise NotImplementedError

    def remove(self, items):
        """`dropped` or `failed`."""
        raise NotImplementedError

    def is_empty(self):
        """Whether it plainly holds nothing at all, as the folder of a disk that isn't mounted."""
        return False

    def verify(self, items, scratch):
        """As `fetch`, and nothing is kept."""
        for group in groups(items):
            for answers in self.fetch(group, scratch.file_of):
                for answer in answers:
                    scratch.remove(answer.item)
                yield answers


def groups(items):
    """Lists of items that together aren't large."""
    group, size = [], 0
    for item in items:
        if group and (size + (item.size or 0) > GROUP_BYTES or len(group) == GROUP_ITEMS):
            yield group
            group, size = [], 0
        group.append(item)
        size += item.size or 0
    if group:
        yield group


def copy_checked(key, source, target, watch=None):
    """Copies a file, and says what is wrong with the content; then there is no target."""
    checker = Checker(key)
    try:
        with open(target, "wb") as file:
            for piece in pieces_of(source):
                checker.take(piece)
                file.write(piece)
                if watch:
                    watch.moved(len(piece))
    except OSError:
        remove_file(target)
        raise
    wrong = checker.wrong()
    if wrong:
        remove_file(target)
    return wrong


def open_private(path):
    """Makes a file that nobody else may read."""
    return os.fdopen(os.open(path, os.O_WRONLY | os.O_CREAT | os.O_TRUNC, 0o600), "wb")


def remove_file(path):
    try:
        os.unlink(path)
    except FileNotFoundError:
        pass


class Scratch:
    """A folder for contents on their way, in files that are named after their keys."""

    def __init__(self, folder):
        self.folder = folder

    def path_of(self, item):
        """A folder for each key, since some remotes name what they keep by the file that they are given."""
        name = file_of_key(item.key)
        if not is_utf8(name) or "\n" in name or len(name.encode()) > 255:
            name = backend_of(item.key)
        return self.folder / short_name(item.key) / name

    def file_of(self, item):
        """The file, in a folder that is there."""
        path = self.path_of(item)
        path.parent.mkdir(parents=True, exist_ok=True)
        return path

    def has_right(self, item):
        """Whether a whole content lies here that fits its key, as a run that was broken off may leave it.

        What can't be compared isn't taken.
        """
        path = self.path_of(item)
        if not path.exists():
            return False
        if is_verified(item.key) and wrong_of(item.key, path) is None:
            return True
        path.unlink()
        return False

    def remove(self, item):
        shutil.rmtree(self.folder / short_name(item.key), ignore_errors=True)

    def clear(self):
        shutil.rmtree(self.folder, ignore_errors=True)


def short_name(key):
    """A name for the key's folder: the same in each run, so that a get that was broken off goes on."""
    return hashlib.sha256(key.encode("utf-8", "surrogateescape")).hexdigest()[:40]


class HerePlace(Place):
    """The contents in this repository. Nothing is put or removed: git-annex does that."""

    def __init__(self, repository, watch=None):
        self.repository, self.watch = repository, watch

    def present(self, items):
        yield [Answer(item, PRESENT if self.repository.content_of(item.key) else ABSENT) for item in items]

    def fetch(self, items, file_of):
        for item in items:
            yield [self.fetch_one(item, file_of(item))]

    def fetch_one(self, item, file):
        path = self.repository.content_of(item.key)
        if path is None:
            return Answer(item, FAILED, "its content is not here")
        wrong = copy_checked(item.key, path, file, self.watch)
        return Answer(item, DAMAGED, wrong) if wrong else Answer(item, GOT)

    def wrong_here(self, item):
        """Why the content here can't be sent: it isn't there, or was changed where git-annex lets it be changed."""
        path = self.repository.content_of(item.key)
        if path is None:
            return "its content is not here"
        status = path.stat()
        if status.st_mode & 0o222 or status.st_nlink > 1:
            return wrong_of(item.key, path)
        return None
