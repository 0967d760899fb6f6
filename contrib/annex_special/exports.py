"""Remotes to which git-annex exported trees: a content lies there under the names that its key has in the trees."""

import collections
import os
import stat
from typing import NamedTuple

from .chunks import worse
from .digests import is_verified
from .directory import DirectoryPlace
from .keys import Item, file_of_key, lower_folders, mixed_folders
from .places import ABSENT, FAILED, GOT, PRESENT, UNVERIFIED, Answer, Place, groups
from .repository import entries_of_tree
from .special_run import SpecialPlace
from .text import bytes_of, is_utf8, shown

# What git-annex calls a content while it renames files.
MOVING = ".git-annex-tmp-content-"


class Named(NamedTuple):
    """An item under one of its names. Of an unsure name the trees have different contents."""

    key: str
    size: int
    file: str
    name: str
    is_unsure: bool


class Names:
    """The names of keys in the trees."""

    def __init__(self, trees, has_objects):
        self.has_objects = has_objects
        self.by_key = collections.defaultdict(dict)
        contents = collections.defaultdict(set)
        for tree in trees:
            for entry in entries_of_tree(tree):
                contents[entry.name].add(entry.key or entry.blob)
                if entry.key is not None:
                    self.by_key[entry.key][entry.name] = None
        self.unsure = {name for name, different in contents.items() if len(different) > 1}

    def of(self, item):
        """The item under each of its names, the sure ones first."""
        names = sorted(self.by_key.get(item.key, ()), key=self.unsure.__contains__)
        if names:
            names.append(f"{MOVING}{item.key}")
        if self.has_objects:
            file = file_of_key(item.key)
            names += [f".git/annex/objects/{way(item.key)}/{file}/{file}" for way in (lower_folders, mixed_folders)]
        return [Named(*item, name, name in self.unsure) for name in names]


class ExportPlace(Place):
    """A layer: asks the place below for named items, name after name, until a content is found.

    Anyone may have written what is under a name. So what has no digest is fetched only where that is wanted.
    """

    def __init__(self, below, names, remote, given, takes_unverified):
        self.below, self.names, self.remote, self.given = below, names, remote, given
        self.takes_unverified = takes_unverified

    def by_names(self, items, ask, nameless=FAILED):
        waiting = {item.key: self.names.of(item) for item in items}
        yield [self.nameless(item, nameless) for item in items if not waiting[item.key]]
        asked = [waiting[item.key].pop(0) for item in items if waiting[item.key]]
        last = {}
        while asked:
            again = []
            for answers in ask(asked):
                done = []
                for answer in map(plain, answers):
                    key = answer.item.key
                    last[key] = worse(last.get(key), answer)
                    if last[key].word in (PRESENT, GOT) or not waiting[key]:
                        done.append(last[key])
                    else:
                        again.append(waiting[key].pop(0))
                yield done
            asked = again

    def nameless(self, item, word):
        """A key that no tree has is absent where that is asked, unless git-annex's log says otherwise."""
        if word == FAILED or self.given.is_at(item.key, self.remote.uuid):
            return Answer(item, FAILED, "no exported tree that is known here has it")
        return Answer(item, word)

    def present(self, items):
        return self.by_names(items, self.below.present, ABSENT)

    def fetch(self, items, file_of):
        wanted = [item for item in items if self.takes_unverified or is_verified(item.key)]
        left = set(items).difference(wanted)
        yield [Answer(item, UNVERIFIED, "its key has no digest; --unverified takes it") for item in items if item in left]
        for group in groups(wanted):  # what is done with the contents afterwards is quicker for many at a time
            ask = self.by_names(group, lambda named: self.below.fetch(named, file_of))
            yield [answer for answers in ask for answer in answers]

    def verify(self, items, scratch):
        return self.by_names(items, lambda named: self.below.verify(named, scratch))


def plain(answer):
    """What the answer about a named item says of its key."""
    named, word, more = answer
    item = Item(*named[:3])
    if named.is_unsure:
        differ = f"exported trees differ at {shown(named.name)}"
        if word == PRESENT:
            return Answer(item, FAILED, f"{differ}: what is there may be other content")
        more = f"{more} ({differ})" if more else ""
    elif more and named.name != named.file:
        more = f"{more} (exported as {shown(named.name)})"
    return Answer(item, word, more)


class ExportedBySpecial(SpecialPlace):
    """The place below, of an external remote."""

    def refusal(self, item):
        if not is_utf8(item.name) or "\n" in item.name or "\t" in item.name:
            return "its name in the export can't be sent on a line"
        return super().refusal(item)

    def check_task(self, item):
        return f"xcheck {item.key} {item.name}"

    def get_task(self, item, file):
        return f"xget {item.key} {file}\t{item.name}"


class ExportedDirectory(DirectoryPlace):
    """The place below, of a folder."""

    def path_of(self, item):
        path = self.folder / item.name
        try:
            is_file = stat.S_ISREG(os.stat(bytes_of(str(path))).st_mode)
        except (FileNotFoundError, NotADirectoryError):
            os.stat(self.folder)
            return None
        return path if is_file else None
