"""The folder of a remote in the git directory, and what was learnt of keys in earlier runs."""

import contextlib
import fcntl
import os
import re
import shutil
import time
from pathlib import Path

from .branch import Registers, stamp_of, stamp_word
from .places import Scratch
from .text import Problem, read_lines, write_lines


class Notes:
    """The folder of the remote in the git directory: the kept file, the journal, what is fetched, and the notes.

    The notes are what the remote set in runs, which git-annex's logs need not have: lines `STAMP state KEY VALUE`
    and `STAMP chunks KEY SIZE COUNT`. `given` is what the logs and the notes say together.

    What the program of a remote is given lies in `work`. Contents of an encrypted remote lie elsewhere while they are
    plain: in `plain`, which nobody else may enter, and which is emptied by the next run where this one is killed.
    """

    def __init__(self, repository, remote, folder=None):
        self.remote = remote
        self.folder = repository.common / "annex-special" / remote.uuid
        self.folder.mkdir(parents=True, exist_ok=True)
        os.chmod(self.folder, 0o700)  # settings may be secrets
        self.lock = open(self.folder / "lock", "w")
        try:
            fcntl.flock(self.lock, fcntl.LOCK_EX | fcntl.LOCK_NB)
        except OSError:
            raise Problem(f"another annex-special works with {remote.name}") from None
        top = folder or self.folder
        self.work = top / "work"
        self.work.mkdir(parents=True, exist_ok=True)
        for left in self.work.glob("*.fetch"):
            left.unlink()
        self.kept, self.journal, self.notes = (self.folder / name for name in ("kept", "journal", "notes"))
        self.sealed, self.away = Scratch(self.work / "sealed"), self.folder / "away"
        self.plain = top / "plain"
        own = self.make_plain(top) if remote.encryption else self.work
        self.fetched, self.chunks, self.saved = (Scratch(own / name) for name in ("fetched", "chunks", "saved"))
        self.clear()
        self.branch, self.given, self.learnt = None, Registers(), Registers()
        self.set_by_remote = 0

    def make_plain(self, top):
        """The folder for plain contents. One elsewhere, that a run which was killed has left, is emptied."""
        if self.away.exists():
            for name in ("fetched", "chunks"):
                Scratch(Path(os.fsdecode(self.away.read_bytes())) / name).clear()
        if top != self.folder:
            self.away.write_bytes(os.fsencode(os.path.abspath(self.plain)))
        self.plain.mkdir(0o700, exist_ok=True)
        os.chmod(self.plain, 0o700)
        return self.plain

    def clear(self):
        """Removes what no later run goes on with: of an encrypted remote all that is on its way."""
        self.chunks.clear()
        self.sealed.clear()
        if self.remote.encryption:
            self.fetched.clear()

    def load(self, branch, keys):
        """Reads what is known of the keys, or of all that there are."""
        self.branch = branch
        self.given.load(branch, self.remote, keys)
        keys = set(self.given.keys) if keys is None else keys
        for line in read_lines(self.notes):
            stamp, kind, key, value = (line.split(" ", 3) + [""] * 3)[:4]
            if kind == "state":
                self.learnt.take(key, ("state", None), stamp_of(stamp), value)
            elif re.fullmatch(r"\d+ \d+", value):
                size, count = map(int, value.split(" "))
                self.learnt.take(key, ("chunks", size), stamp_of(stamp), count)
        for key in keys & self.learnt.keys.keys():
            for register, (stamp, value) in self.learnt.keys[key].items():
                self.given.take(key, register, stamp, value)

    def load_hidden(self):
        """Reads the states of keys that stand for others in an encrypted remote."""
        keys = {key for _, _, key in self.branch.key_logs()}
        keys |= {key for line in read_lines(self.notes) for key in line.split(" ")[2:3]}
        self.load(self.branch, {key for key in keys if key.startswith("GPGHMAC")})

    def guess(self, items):
        """Looks for chunks by the remote's setting too."""
        for item in items:
            self.given.guess_chunks(item, self.remote)

    def keep(self, batch):
        """Writes the kept file for a run over these keys alone: the host slows down with each line."""
        settings = {name: value for name, value in self.remote.settings.items() if name != "cipher"}
        lines = ["annex-keep 1", *(f"config {name} {value}" for name, value in settings.items())]
        for item in batch:
            lines += self.given.kept_lines(item.key, self.remote.uuid)
        write_lines(self.kept, lines)

    def learn(self, batch):
        """Notes what the remote set in the run over these keys."""
        now = int(time.time() * 1000000)
        after = Registers()
        for line in read_lines(self.kept):
            kind, key, value = (line.split(" ", 2) + [""] * 2)[:3]
            if kind == "state":
                after.take(key, ("state", None), now, value)
            elif kind == "chunks":
                after.take_chunks(key, self.remote.uuid, value)
            elif kind == "url":
                after.take(key, ("url", value), now, True)
        learnt = False
        for item in batch:
            before = {name: value for name, value in self.given.keys[item.key].items() if name[0] != "at"}
            learnt |= self.learn_key(item.key, before, after.keys[item.key], now)
        if learnt:
            self.write_notes()
        self.kept.unlink()

    def learn_key(self, key, before, after, now):
        """Notes what is otherwise after the run, and says whether there was anything."""
        for register, (_, value) in before.items():
            if register[0] == "state" and value:
                after.setdefault(register, (now, ""))  # what is empty isn't kept
        changed = [
            register
            for register, (stamp, value) in after.items()
            if before.get(register, (0, ""))[1] != value or register[0] == "chunks" and before[register][0] != stamp
        ]
        for register in changed:
            self.set_by_remote += register[0] != "chunks"
            self.given.take(key, register, *after[register])
            if register[0] != "url":
                self.learnt.take(key, register, *after[register])
        return bool(changed)

    def note_chunks(self, key, size, count, stamp):
        """Notes that the remote has the content in so many chunks of this size."""
        self.given.take(key, ("chunks", size), stamp, count)
        self.learnt.take(key, ("chunks", size), stamp, count)
        self.write_notes()

    def write_notes(self):
        lines = []
        for key, registers in self.learnt.keys.items():
            for (kind, size), (stamp, value) in registers.items():
                lines.append(f"{stamp_word(stamp)} {kind} {key} {'' if size is None else f'{size} '}{value}")
        write_lines(self.notes, lines)

    def close(self):
        """Removes what isn't needed any more: journals of runs that went well, and empty folders."""
        self.journal.unlink(missing_ok=True)
        self.leave()
        for scratch in (self.fetched, self.saved):
            if scratch.folder.is_dir() and not any(scratch.folder.iterdir()):
                shutil.rmtree(scratch.folder)

    def leave(self):
        """Leaves nothing plain behind, however the command ended."""
        self.clear()
        self.away.unlink(missing_ok=True)
        for folder in (self.plain, self.work, self.work.parent) if self.work.parent != self.folder else ():
            with contextlib.suppress(OSError):
                folder.rmdir()  # where it holds nothing
