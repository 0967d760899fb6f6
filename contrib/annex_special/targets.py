"""What `restore` fills: a clone, a folder with the checkout, or a folder with the keys."""

import collections
import errno
import os
import shutil
from pathlib import Path

from .digests import wrong_of
from .keys import fields_of, file_of_key
from .repository import LINK, blobs, key_of_content
from .text import bytes_of, mode_of_new, text_of


def fits(key, path):
    """Whether an ordinary file has the content of the key, as far as that can be compared."""
    return path.is_file() and not path.is_symlink() and wrong_of(key, path) is None


def place_file(source, target, mode, is_last=True, key=None):
    """Brings a file to its place, which it gets whole or not at all. Where others need the source too, it is copied.

    A file whose key tells its time (WORM) gets that time, so that git-annex finds the same key for it.
    """
    target.parent.mkdir(parents=True, exist_ok=True)
    if not is_last:
        copy = source.with_name("copy")
        shutil.copyfile(source, copy)
        source = copy
    os.chmod(source, mode)
    if key is not None and "m" in fields_of(key)[1]:
        os.utime(source, (fields_of(key)[1]["m"],) * 2)
    try:
        os.replace(source, target)
    except OSError as why:
        if why.errno != errno.EXDEV:
            raise
        made = target.with_name(".annex-special.part")
        shutil.copyfile(source, made)
        shutil.copystat(source, made)
        os.replace(made, target)


def mode_of(entry):
    """The rights that git gives a file."""
    return mode_of_new(0o777 if entry.mode == "100755" else 0o666)


def by_key(entries):
    found = collections.defaultdict(list)
    for entry in entries:
        if entry.key is not None:
            found[entry.key].append(entry)
    return found


class Clone:
    """The clone itself: contents under .git/annex/objects for links, and unlocked files in place of their pointers."""

    def __init__(self, repository, entries):
        self.repository, self.entries = repository, by_key(entries)

    def pointers(self, key):
        """The unlocked files of the key that still are pointers, or aren't there."""
        return [entry for entry in self.unlocked(key) if self.is_pointer(self.path_of(entry), key)]

    def unlocked(self, key):
        return [] if self.repository.is_bare else [entry for entry in self.entries[key] if entry.mode != LINK]

    def has_links(self, key):
        return not self.entries[key] or self.repository.is_bare or any(entry.mode == LINK for entry in self.entries[key])

    def path_of(self, entry):
        return self.repository.top / entry.name

    def is_pointer(self, path, key):
        if not os.path.lexists(path):
            return True
        if path.is_symlink() or not path.is_file() or path.stat().st_size > 32768:
            return False
        return key_of_content(path.read_bytes(), False) == key

    def state(self, item):
        needs_object = self.has_links(item.key) and not self.repository.content_of(item.key)
        return ("wanted" if needs_object or self.pointers(item.key) else "here"), ""

    def put(self, item, file):
        """Unlocked files first: the content itself moves under objects, where links lead."""
        for entry in self.pointers(item.key):
            place_file(file, self.path_of(entry), mode_of(entry), False, item.key)
        if self.has_links(item.key) and not self.repository.content_of(item.key):
            target = self.repository.content_paths(item.key)[0]
            place_file(file, target, 0o444, key=item.key)
            os.chmod(target.parent, 0o555)
        return []

    def finish(self):
        """Nothing else is to be written."""


class Checkout:
    """A folder with the files of the checkout, those that git itself has too."""

    def __init__(self, folder, entries, scratch):
        self.scratch = scratch
        self.folder, self.all = Path(folder), [entry for entry in entries if entry.mode != "160000"]
        self.entries = by_key(entries)

    def path_of(self, entry):
        return self.folder / entry.name

    def state(self, item):
        """Files that are there are compared with their key: `here`, or `left` as they are."""
        there = [entry for entry in self.entries[item.key] if os.path.lexists(self.path_of(entry))]
        other = [entry.name for entry in there if not fits(item.key, self.path_of(entry))]
        if len(there) < len(self.entries[item.key]):
            return "wanted", ""
        return ("left", f"other content is in its place: {', '.join(other)}") if other else ("here", "")

    def put(self, item, file):
        left = []
        for entry in self.entries[item.key]:
            path = self.path_of(entry)
            if not os.path.lexists(path):
                place_file(file, path, mode_of(entry), False, item.key)
            elif not fits(item.key, path):
                left.append(entry.name)
        return left

    def finish(self):
        """Writes the files that git itself has, and gives the names of those in whose place another is."""
        plain = [entry for entry in self.all if entry.key is None]
        left = []
        for start in range(0, len(plain), 256):
            some = plain[start:start + 256]
            contents = blobs(entry.blob for entry in some)
            left += [entry.name for entry in some if not self.write(entry, contents[entry.blob])]
        return left

    def write(self, entry, content):
        path = self.path_of(entry)
        if os.path.lexists(path):
            if entry.mode == LINK:
                return path.is_symlink() and bytes_of(os.readlink(path)) == content
            return path.is_file() and path.read_bytes() == content
        path.parent.mkdir(parents=True, exist_ok=True)
        if entry.mode == LINK:
            os.symlink(text_of(content), path)
            return True
        made = self.scratch / "own"
        made.write_bytes(content)
        place_file(made, path, mode_of(entry))
        return True


class KeyFolder:
    """A folder with a file for each key, under git-annex's file name of it."""

    def __init__(self, folder):
        self.folder = Path(folder)

    def path_of(self, key):
        return self.folder / file_of_key(key)

    def state(self, item):
        path = self.path_of(item.key)
        if not os.path.lexists(path):
            return "wanted", ""
        return ("here", "") if fits(item.key, path) else ("left", "other content is in its place")

    def put(self, item, file):
        place_file(file, self.path_of(item.key), 0o644, key=item.key)
        return []

    def finish(self):
        """Nothing else is to be written."""
