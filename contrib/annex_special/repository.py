"""The git repository: its folders, where contents are in it, and which files have which keys."""

import os
import re
import subprocess
from pathlib import Path
from typing import NamedTuple

from .keys import Item, file_of_key, is_key, key_of_file, lower_folders, mixed_folders, size_of
from .text import Problem, call, git_config, is_utf8, text_of

MOST_POINTER = 32768
LINK, FILES = "120000", ("100644", "100755")


class Repository(NamedTuple):
    """The git directory, the folder that all its worktrees share, and the top of the working tree or of a bare one."""

    git: Path
    common: Path
    top: Path
    is_bare: bool
    uuid: str  # of git-annex; None where that isn't set up

    def need_annex(self, command):
        """Refuses what only git-annex can do."""
        if self.uuid is None:
            raise Problem(f"{command} needs git-annex, which is not set up in this repository: run `git annex init`")

    def content_paths(self, key):
        """Where the content of the key may be; the first is where new content goes."""
        file = file_of_key(key)
        one = git_config_once("annex.tune.objecthash1") == "true"
        lower_first = self.is_bare or git_config_once("annex.tune.objecthashlower") == "true"
        ways = (lower_folders, mixed_folders) if lower_first else (mixed_folders, lower_folders)
        levels = (1, 2) if one else (2, 1)
        top = self.common / "annex/objects"
        return [top / way(key, level) / file / file for level in levels for way in ways]

    def content_of(self, key):
        """The file that has the content of the key here; None where none has."""
        return next((path for path in self.content_paths(key) if path.is_file()), None)

    def spelled(self, path):
        """The path as a task can name it; programs run in the top folder."""
        for spelling in (os.path.abspath(path), os.path.relpath(path, self.top)):
            if is_utf8(spelling) and "\n" not in spelling:
                return spelling
        raise Problem(f"{path!r} can't be named in a task")


CONFIG = {}


def git_config_once(name):
    if name not in CONFIG:
        CONFIG[name] = git_config(name)
    return CONFIG[name]


def find_repository():
    done = subprocess.run(["git", "rev-parse", "--absolute-git-dir"], stdout=subprocess.PIPE, stderr=subprocess.PIPE)
    if done.returncode != 0:
        said = text_of(done.stderr).strip()
        more = "" if "not a git repository" in said else f": {said}"
        raise Problem(f"this is no git repository{more}")
    git = Path(text_of(done.stdout)[:-1])
    common = Path(os.path.abspath(call(["git", "rev-parse", "--git-common-dir"], problem="git has no common folder")[:-1]))
    is_bare = call(["git", "rev-parse", "--is-bare-repository"], problem="git does not say whether it is bare") == "true\n"
    top = git if is_bare else Path((call(["git", "rev-parse", "--show-toplevel"]) or f"{git}\n")[:-1])
    repository = Repository(git, common, top, is_bare, git_config("annex.uuid"))
    repository.spelled(git)
    return repository


# Files and their keys


class Entry(NamedTuple):
    """A file of the index or of a commit: its name, its mode, its blob, and its key, None where git has the content."""

    name: str
    mode: str
    blob: str
    key: str


def blobs(wanted):
    """The contents of blobs, by their names."""
    wanted = list(dict.fromkeys(wanted))
    asked = "".join(f"{blob}\n" for blob in wanted).encode()
    done = subprocess.run(["git", "cat-file", "--batch"], input=asked, stdout=subprocess.PIPE)
    if done.returncode != 0:
        raise Problem("git cat-file failed")
    place, contents = 0, {}
    for blob in wanted:
        end = done.stdout.index(b"\n", place)
        words = done.stdout[place:end].split(b" ")
        if len(words) != 3:
            raise Problem(f"git does not have the blob {blob}")
        size = int(words[2])
        contents[blob] = done.stdout[end + 1:end + 1 + size]
        place = end + size + 2
    return contents


def small_blobs(wanted):
    """Those that a pointer file may have."""
    words = ["git", "cat-file", "--batch-check=%(objectname) %(objectsize)"]
    asked = "".join(f"{blob}\n" for blob in dict.fromkeys(wanted))
    lines = call(words, asked, problem="git cat-file failed").splitlines()
    pairs = [line.split(" ") for line in lines]
    return {pair[0] for pair in pairs if pair[1].isdigit() and int(pair[1]) <= MOST_POINTER}


def key_of_content(content, is_link):
    """The key that a link's target or a pointer file names; None where it is another file."""
    line = text_of(content.split(b"\n", 1)[0]).rstrip("\r")
    at = line.rfind("/annex/objects/") if is_link else (0 if line.startswith("/annex/objects/") else -1)
    if at < 0:
        return None
    key = key_of_file(line.rsplit("/", 1)[1])
    return key if is_key(key) else None


def find_entries(repository, paths=(), everything=False):
    """The files below the paths in the index, as git names them here; of a bare repository those of HEAD."""
    if repository.is_bare:
        words = ["git", "ls-tree", "-r", "-z", "--full-tree", "HEAD"]
    else:
        words = ["git", "ls-files", "-s", "-z", "--error-unmatch", "--", *paths]
        if not paths:
            words.remove("--error-unmatch")
    folder = repository.top if everything else None
    return entries_of(call(words, problem="git does not list the files", folder=folder))


def entries_of_tree(tree):
    """The files of a tree, with their names in it."""
    words = ["git", "ls-tree", "-r", "-z", "--full-tree", tree]
    return entries_of(call(words, problem=f"git does not have the tree {tree}: fetch the branch git-annex, with its history"))


def entries_of(listed):
    """The files of a list that git printed."""
    lines = listed.split("\0")[:-1]
    rows = [re.fullmatch(r"(\d+) (?:[a-z]+ )?([0-9a-f]{40,64})(?: \d)?\t(.*)", line, re.DOTALL).groups() for line in lines]
    small = small_blobs(blob for mode, blob, _ in rows if mode in FILES)
    links = {blob for mode, blob, _ in rows if mode == LINK}
    contents = blobs(small | links)
    entries = []
    for mode, blob, name in rows:
        content = contents.get(blob) if mode == LINK or blob in small else None
        entries.append(Entry(name, mode, blob, None if content is None else key_of_content(content, mode == LINK)))
    return entries


def items_of(entries):
    """The keys of these files, each once."""
    items = {}
    for entry in entries:
        if entry.key is not None:
            items.setdefault(entry.key, Item(entry.key, size_of(entry.key), entry.name))
    return list(items.values())
