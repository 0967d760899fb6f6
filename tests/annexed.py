"""Repositories of git-annex, for cases that need one."""

import os
import random
import shutil

from harness import ANNEX_REMOTE_DIR, SPECIAL, TOP, as_text, require, run, skip
from kits import SIGN

ANNEX_SPECIAL = str(TOP / "contrib/annex-special")
PLAIN = os.path.abspath(os.environ.get("ANNEX_REMOTE_PLAIN") or TOP / "crates/remote_plain_bin/out/remote_plain_bin")
REMOTE = "folder"


def need(program):
    """Ends the case as one that can't run here where the program isn't installed."""
    if shutil.which(program) is None:
        skip(f"{program} isn't installed")


class Annex:
    """A repository in the room, with a home and programs of its own."""

    def __init__(self, room):
        need("git-annex")
        self.room = room
        self.top = room.mkdir("repository")
        bin = room.mkdir("bin")
        programs = {"special": SPECIAL, "git-annex-remote-milgroez": ANNEX_REMOTE_DIR, "annex-remote-plain": PLAIN}
        for name, program in programs.items():
            if os.access(program, os.X_OK) and not room.has(f"bin/{name}"):
                os.symlink(program, f"{bin}/{name}")
        room.write("home/.gitconfig", "[user]\n\tname = a\n\temail = a@example.org\n")
        self.env = {"HOME": room.path("home"), "PATH": f"{bin}:{os.environ['PATH']}", "GIT_CONFIG_NOSYSTEM": "1"}
        self.well("git", "init", "-q")
        self.well("git", "annex", "init", "-q", "here")

    def run(self, *words, env=None):
        return run(words, env={**self.env, **(env or {})}, cwd=self.top)

    def well(self, *words):
        """What a program prints that has to end with 0."""
        done = self.run(*words)
        require(done.status == 0, f"{' '.join(words)}: status {done.status}\n{done.out}{done.err}")
        return done.out

    def add(self, files):
        """Adds files: a dict of names and contents."""
        for name, content in files.items():
            self.room.write(f"repository/{name}", content)
        self.well("git", "annex", "add", "-q", ".")
        self.well("git", "commit", "-qm", "files")

    def add_remote(self, *settings):
        """Makes the remote over the folder `directory` of the room, or with these settings in place of encryption=none."""
        words = ["type=external", "externaltype=milgroez", f"directory={self.room.mkdir('directory')}"]
        self.well("git", "annex", "initremote", "-q", REMOTE, *words, *(settings or ["encryption=none"]))

    def special(self, *words, env=None):
        """Runs `annex-special` over the remote."""
        return self.run(ANNEX_SPECIAL, REMOTE, *words, env=env)

    def key(self, name):
        return self.well("git", "annex", "lookupkey", name).strip()

    def stored(self):
        """The files of the remote's folder."""
        return sorted(name for _, _, names in os.walk(self.room.path("directory")) for name in names if name != SIGN)

    def recorded(self):
        """What git-annex's log has in the remote: names, in order."""
        return sorted(self.well("git", "annex", "find", f"--in={REMOTE}").splitlines())

    def present(self):
        return sorted(self.well("git", "annex", "find").splitlines())


def contents(count, sizes):
    """Files of different contents, with names that have spaces and folders."""
    numbers = random.Random(count)
    return {f"folder {n % 7}/file {n}.dat": as_text(numbers.randbytes(sizes[n % len(sizes)] + n)) for n in range(count)}
