"""What the branch `git-annex` says: remotes, their descriptions, where contents are, chunks, states and URLs."""

import collections
import decimal
import os
import re

from .keys import is_key, key_of_file
from .repository import blobs
from .text import call, text_of

STAMP = re.compile(r"\d+(\.\d{1,9})?s")
OWN = "refs/heads/git-annex"
EXPORT = re.compile(r"(\S+) (\S+):(\S+)((?: [0-9a-f]{40,64})+) ?")
LOG = re.compile(r"(?:[^/]{1,3}/){1,2}([^/]+)\.log(\.cnk|\.rmt|\.web)?", re.DOTALL)


def stamp_of(word):
    """A stamp as a number of microseconds; None where the word is none."""
    return int(decimal.Decimal(word[:-1]) * 1000000) if STAMP.fullmatch(word) else None


def stamp_word(stamp):
    return f"{stamp // 1000000}.{stamp % 1000000:06}s"


class Branch:
    """The branch, in all the places where some of it may be: here, in the clones of remotes, and in git-annex's journal.

    The lines of a log are those of all places together, of which the newest count, as git-annex itself merges them.
    """

    def __init__(self, repository):
        self.refs = self.find_refs()
        self.journal = repository.common / "annex/journal"
        self.files = collections.defaultdict(list)
        for ref in self.refs:
            tree = call(["git", "ls-tree", "-r", "-z", "--full-tree", ref], problem="git does not read the git-annex branch")
            for line in tree.split("\0")[:-1]:
                head, name = line.split("\t", 1)
                blob = head.split(" ")[2]
                if blob not in self.files[name]:
                    self.files[name].append(blob)
        self.journaled = self.read_journal()

    def find_refs(self):
        form = ["git", "for-each-ref", "--format=%(refname)"]
        own = (call([*form, OWN]) or "").split()
        others = (call([*form, "refs/remotes/*/git-annex", *([f"--no-merged={OWN}"] if own else [])]) or "").split()
        return own + others

    def read_journal(self):
        """What git-annex has not committed yet, by the names in the branch."""
        texts = {}
        if not self.journal.is_dir():
            return texts
        for path in self.journal.iterdir():
            name = re.sub("_(_?)", lambda match: "_" if match[1] else "/", text_of(os.fsencode(path.name)))
            try:
                texts[name] = text_of(path.read_bytes())
            except OSError:
                continue
        return texts

    def text(self, name):
        """A log; "" where there is none."""
        return "".join(self.texts([name]).values())

    def texts(self, names):
        """The logs of these names that there are."""
        names = list(names)
        contents = blobs(blob for name in names for blob in self.files.get(name, ()))
        made = {}
        for name in names:
            parts = [text_of(contents[blob]) for blob in self.files.get(name, ())]
            parts += [self.journaled[name]] if name in self.journaled else []
            if parts:
                made[name] = "".join(part if part.endswith("\n") else f"{part}\n" for part in parts if part)
        return made

    def key_logs(self):
        """The logs of keys: their names, each with the kind (`log`, `cnk`, `rmt`, `web`) and the key."""
        for name in {**self.files, **self.journaled}:
            match = LOG.fullmatch(name)
            key = key_of_file(match[1]) if match else ""
            if match and is_key(key):
                yield name, (match[2] or ".log")[1:], key

    def descriptions(self):
        """What each repository is called, by its UUID."""
        newest, names = {}, {}
        for line in self.text("uuid.log").splitlines():
            match = re.fullmatch(r"(\S+) (.*?)(?: timestamp=(\S+))?", line)
            stamp = (stamp_of(match[3] or "0s") or 0) if match else 0
            if match and stamp >= newest.get(match[1], -1):
                newest[match[1]], names[match[1]] = stamp, match[2]
        return names

    def exported_trees(self, uuid):
        """The trees that export.log names of the remote, the newest first, each once.

        A line has the tree that was exported, and those whose export has begun and isn't complete. Each repository that
        exports has its own lines, of which the newest counts.
        """
        newest = {}
        for line in self.text("export.log").splitlines():
            match = EXPORT.fullmatch(line)
            stamp = stamp_of(match[1]) if match and match[3] == uuid else None
            if stamp is not None and stamp >= newest.get(match[2], (-1,))[0]:
                newest[match[2]] = (stamp, match[4].split())
        lines = sorted(newest.values(), key=lambda line: -line[0])
        return list(dict.fromkeys(tree for _, trees in lines for tree in trees))


class Registers:
    """The places, states, chunk notes and URLs of keys, each with its stamp. The newest of each counts.

    A register of a key is `("at", UUID)`, `("state", None)`, `("chunks", SIZE)` or `("url", URL)`. States are those of
    the remote's `config` UUID, and chunks those of its `uuid`; the two differ where a remote is the same as another.
    """

    def __init__(self):
        self.keys = collections.defaultdict(dict)

    def load(self, branch, remote, wanted=None):
        """Takes the logs of the wanted keys, or of all."""
        rows = {name: (kind, key) for name, kind, key in branch.key_logs() if wanted is None or key in wanted}
        for name, text in branch.texts(rows).items():
            self.take_log(*rows[name], remote, text)

    def take(self, key, register, stamp, value):
        known = self.keys[key].get(register)
        if stamp is not None and (known is None or stamp >= known[0]):
            self.keys[key][register] = (stamp, value)

    def take_chunks(self, key, uuid, line):
        """Takes a line of a chunk log: `STAMP UUID:SIZE COUNT`. One of another remote is passed over."""
        match = re.fullmatch(r"(\S+) (\S+):([1-9]\d*) (\d+)", line)
        if match and match[2] == uuid:
            self.take(key, ("chunks", int(match[3])), stamp_of(match[1]), int(match[4]))

    def take_log(self, kind, key, remote, text):
        """Takes a log of the git-annex branch."""
        for line in text.split("\n"):
            stamp, _, rest = line.partition(" ")
            if kind == "log" and rest[:2] in ("1 ", "0 ", "X "):
                self.take(key, ("at", rest[2:]), stamp_of(stamp), rest[0])
            elif kind == "cnk":
                self.take_chunks(key, remote.uuid, line)
            elif kind == "rmt" and rest.startswith(remote.config + " "):
                self.take(key, ("state", None), stamp_of(stamp), rest[len(remote.config) + 1:])
            elif kind == "web" and " " in rest:
                status, url = rest.split(" ", 1)
                self.take(key, ("url", url), stamp_of(stamp), status == "1")

    def places(self, key):
        """The UUIDs of the repositories that have the content of the key."""
        registers = self.keys.get(key, {})
        return [detail for (kind, detail), (_, value) in registers.items() if kind == "at" and value == "1"]

    def is_at(self, key, uuid):
        return self.keys.get(key, {}).get(("at", uuid), (0, "0"))[1] == "1"

    def alive(self):
        """The keys with a log of places that doesn't call them dead."""
        for key, registers in self.keys.items():
            values = [value for (kind, _), (_, value) in registers.items() if kind == "at"]
            if values and not all(value == "X" for value in values):
                yield key

    def layouts(self, key):
        """The notes of chunks that count, as pairs of size and number: the newest first."""
        registers = self.keys.get(key, {})
        notes = [(stamp, size, value) for (kind, size), (stamp, value) in registers.items() if kind == "chunks"]
        return [(size, count) for stamp, size, count in sorted(notes, reverse=True) if count > 0]

    def guess_chunks(self, item, remote):
        """Notes the chunks that the remote's setting makes, where nothing is known. git-annex looks there too."""
        register = ("chunks", remote.chunk)
        if remote.chunk and item.size is not None and register not in self.keys[item.key]:
            self.keys[item.key][register] = (0, max(1, -(-item.size // remote.chunk)))

    def kept_lines(self, key, uuid):
        """The lines of a kept file that say what is known of the key."""
        lines = []
        for (kind, detail), (stamp, value) in self.keys.get(key, {}).items():
            if kind == "chunks":
                lines.append(f"chunks {key} {stamp_word(stamp)} {uuid}:{detail} {value}")
            elif kind == "url" and value and "\n" not in detail:
                lines.append(f"url {key} {detail}")
            elif kind == "state" and value:
                lines.append(f"state {key} {value}")
        return lines
