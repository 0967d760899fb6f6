"""What is told of a command: a line for each key that went wrong, numbers, and what follows."""

import collections
import json

from .digests import is_verified
from .progress import Watch
from .text import human, quoted, say, shown, warn

WRONG = ("missing", "unrecorded", "left", "damaged", "failed")


class Tally:
    """How many keys came to what."""

    def __init__(self, command, items, words, left=()):
        self.command, self.words = command, words
        self.total = len(items)
        self.done = self.unverified = 0
        self.counts = collections.Counter()
        self.watch = Watch(command, items, words.quiet or words.json)
        for item in left:
            self.tell("left", item, "too few copies elsewhere, or none here")

    def count(self, word, item, more=""):
        """Counts a key that is done."""
        self.done += 1
        self.unverified += word in ("got", "restored") and not is_verified(item.key)
        self.watch.counted(item, self.is_wrong(word))
        self.tell(word, item, more)

    def is_wrong(self, word):
        """Whether a key that came to this went wrong: `unverified` is what `verify` says of a content that is there."""
        return word in WRONG or (word == "unverified" and self.command != "verify")

    def tell(self, word, item, more):
        self.counts[word] += 1
        if self.words.json:
            row = {"command": self.command, "key": item.key, "file": item.file or None, "result": word}
            say(json.dumps({**row, **({"detail": more} if more else {})}))
        elif self.is_wrong(word) or self.words.verbose:
            self.watch.clear()
            file = f" {shown(item.file)}" if item.file else ""
            say(f"{word} {item.key}{file}{f': {more}' if more else ''}")

    def status(self):
        return 1 if any(count and self.is_wrong(word) for word, count in self.counts.items()) else 0

    def report(self):
        """The numbers."""
        self.watch.clear()
        keys = self.total + self.counts["left"] * (self.command == "drop")
        not_done = self.total - self.done
        if self.words.json:
            row = {"command": self.command, "keys": keys, "counts": dict(sorted(self.counts.items()))}
            say(json.dumps({**row, "unverified": self.unverified, "not_done": not_done, "success": self.status() == 0}))
            return
        if self.words.quiet:
            return
        parts = [f"{count} {word}" for word, count in sorted(self.counts.items())]
        parts += [f"{not_done} not done"] if not_done else []
        say(f"{self.command}: {keys} {'key' if keys == 1 else 'keys'}{': ' if parts else ''}{', '.join(parts)}")
        if self.unverified:
            say(f"{self.unverified} unverified: no digest that is known here is in their keys")


def tell_plan(command, plan, words):
    """What a command would work on."""
    for item in plan.items:
        if words.json:
            say(json.dumps({"command": command, "key": item.key, "file": item.file or None, "result": "planned"}))
        elif not words.quiet:
            say(f"would {command} {item.key}{f' {shown(item.file)}' if item.file else ''}")
    size = sum(item.size or 0 for item in plan.items)
    if not words.json and not words.quiet:
        count = len(plan.items)
        say(f"{command}: {count} {'key' if count == 1 else 'keys'}, {human(size)}: nothing was done (--dry-run)")


def selection(words):
    """The words for git-annex that choose the same keys."""
    if words.key:
        return [word for key in words.key for word in ("--key", key)]
    if words.unused:
        return ["--unused"]
    if words.all or words.in_remote:
        return ["--all"]
    return ["--", *words.paths] if any(path.startswith("-") for path in words.paths) else words.paths


def say_what_follows(words, tally, notes, is_annexed):
    """Says which of git-annex's commands records what happened in the remote."""
    if words.json or words.quiet:
        return
    is_told = words.record or words.command in ("get", "restore")
    news = ["stored", "dropped", "missing", "unrecorded", "repaired"] + ["present"] * (words.command == "copy")
    if not is_told and any(tally.counts[word] for word in news):
        command = quoted(["git", "annex", "fsck", "--fast", "--from", words.remote, *selection(words)])
        say(f"git-annex's log does not have this yet: run `{command}`")
    if words.command == "restore" and is_annexed and words.folder is None and tally.counts["restored"]:
        say("git-annex's log does not have this yet: run `git annex fsck --fast`")
    if notes.set_by_remote:
        warn(f"git-annex does not know what the remote set: states and URLs, {notes.set_by_remote} in all")
