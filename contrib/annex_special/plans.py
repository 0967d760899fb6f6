"""What a command works on."""

import json
import re
from typing import NamedTuple

from .keys import is_key, item_of
from .repository import find_entries, items_of
from .text import Problem, call, read_lines


class Plan(NamedTuple):
    """The keys of a command, and those that are left as they are."""

    items: list
    left: list


def choose(words, repository, notes, branch):
    """The keys that the words choose, each once; what is known of them is in the notes then."""
    chosen_by = [name for name in ("all", "key", "unused", "in_remote") if getattr(words, name)]
    if len(chosen_by) + bool(words.paths) > 1:
        raise Problem("only one of paths, --all, --key, --unused and --in-remote can choose the keys")
    if words.key:
        bad = [key for key in words.key if not is_key(key)]
        if bad:
            raise Problem(f"{bad[0]} is no key")
        items = [item_of(key) for key in dict.fromkeys(words.key)]
    elif words.unused:
        items = unused_items(repository)
    elif chosen_by or repository.is_bare:
        notes.load(branch, None)
        names = {item.key: item for item in items_of(find_entries_safely(repository))}
        keys = [key for key in notes.given.alive() if not words.in_remote or notes.given.is_at(key, notes.remote.uuid)]
        items = [names.get(key, item_of(key)) for key in keys]
        notes.guess(items)
        return items
    else:
        items = items_of(find_entries(repository, words.paths))
    notes.load(branch, {item.key for item in items})
    notes.guess(items)
    return items


def find_entries_safely(repository):
    """The files, for their names; a bare repository may have no commit."""
    try:
        return find_entries(repository, everything=True)
    except Problem:
        return []


def unused_items(repository):
    """What the last `git annex unused` found."""
    path = repository.git / "annex/unused"
    if not path.exists():
        raise Problem("there is no list of unused keys: run `git annex unused`")
    matches = [re.fullmatch(r"\d+ (\S+)(?: .*)?", line) for line in read_lines(path)]
    return [item_of(match[1]) for match in matches if match and is_key(match[1])]


def make_plan(command, words, repository, notes, branch, source=None):
    """The keys that the command has to do with."""
    items, given, uuid = choose(words, repository, notes, branch), notes.given, notes.remote.uuid
    if command == "check":
        return Plan(items, [])
    if command == "get":
        return Plan([item for item in items if given.is_at(item.key, uuid) and not repository.content_of(item.key)], [])
    if command == "copy":
        there = (lambda key: given.is_at(key, source.uuid)) if source else repository.content_of
        return Plan([item for item in items if not given.is_at(item.key, uuid) and there(item.key)], [])
    if command == "verify":
        return Plan([item for item in items if given.is_at(item.key, uuid)], [])
    return plan_drop(words, repository, notes, items)


def refuse_drop(remote):
    """Refuses a remote from which git-annex alone may drop."""
    info = json.loads(call(["git", "annex", "info", "--fast", "--json"], problem="git annex info failed"))
    if any(one["uuid"] == remote.uuid for one in info.get("trusted repositories", [])):
        raise Problem(f"{remote.name} is trusted: git-annex would go on counting what was dropped there")
    log = call(["git", "cat-file", "blob", "refs/heads/git-annex:mincopies.log"]) or ""
    if any(line.split(" ")[-1] not in ("", "0", "1") for line in log.splitlines()):
        raise Problem("mincopies is more than 1: use `git annex drop --from`, which locks the other copies")


def plan_drop(words, repository, notes, items):
    """A key may go where git-annex's log has more copies than each of its files wants, one of them here."""
    refuse_drop(notes.remote)
    uuid = notes.remote.uuid
    there = [item for item in items if notes.given.is_at(item.key, uuid)]
    conditions = [r"--format=${key}\000", f"--in={uuid}", "--lackingcopies=0"]
    lacking = set()
    if not repository.is_bare:
        said = call(["git", "annex", "find", *conditions], problem="git annex find failed", folder=repository.top)
        lacking |= set(said.split("\0"))
    if repository.is_bare or not words.by_paths:
        said = call(["git", "annex", "whereis", "--all", *conditions], folder=repository.top)
        if said is None:
            raise Problem("git annex whereis failed")
        lacking |= set(said.split("\0"))

    def may_go(item):
        here = notes.given.is_at(item.key, repository.uuid) and repository.content_of(item.key)
        return here and item.key not in lacking

    return Plan([item for item in there if may_go(item)], [item for item in there if not may_go(item)])
