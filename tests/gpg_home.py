"""gpg with a home of its own: throw-away keys, and a pinentry that answers from a file."""

import functools
import os
import stat

from annexed import need
from harness import require, run

PINENTRY = """
echo "OK"
while read -r line; do
  case "$line" in
    GETPIN*) printf 'D %s\\nOK\\n' "$(cat "{passphrase}")" ;;
    BYE*) echo OK; exit ;;
    *) echo OK ;;
  esac
done
"""


class GpgHome:
    """The home. Passphrases are hashed a few times only, so that the cases are quick."""

    def __init__(self, room):
        need("gpg")
        self.room = room
        self.folder = room.mkdir("gpg")
        os.chmod(self.folder, stat.S_IRWXU)
        room.write("gpg/gpg.conf", "s2k-count 1024\n")
        pinentry = room.script("gpg/pinentry", PINENTRY.format(passphrase=room.path("gpg/passphrase")))
        room.write("gpg/gpg-agent.conf", f"pinentry-program {pinentry}\nallow-preset-passphrase\ns2k-count 1024\n")

    def well(self, *words):
        done = run(["gpg", "--batch", "--yes", *words], env={"GNUPGHOME": self.folder})
        require(done.status == 0, f"gpg {' '.join(words)}: {done}")
        return done.out

    def make_key(self, name, passphrase=""):
        words = ["--passphrase", passphrase, "--pinentry-mode", "loopback"]
        self.well("-q", *words, "--quick-gen-key", f"{name} <{name}@example.org>", "future-default", "default", "0")

    def answer(self, passphrase):
        """What the pinentry says from now on; the agent forgets what it knew."""
        self.room.write("gpg/passphrase", passphrase + "\n")
        self.forget()

    def forget(self):
        run(["gpgconf", "--kill", "all"], env={"GNUPGHOME": self.folder})

    def lose(self, name):
        """Loses the secret key."""
        rows = [line.split(":") for line in self.well("--with-colons", "--list-secret-keys", name).splitlines()]
        self.well("--delete-secret-keys", [row[9] for row in rows if row[0] == "fpr"][0])
        self.forget()


def with_gpg(case):
    """Gives the case a home with the keys `one` and `two`, and ends gpg's agent after it."""

    @functools.wraps(case)
    def with_home(room, *rest):
        home = GpgHome(room)
        try:
            for name in ("one", "two"):
                home.make_key(name)
            return case(room, home, *rest)
        finally:
            home.forget()

    return with_home
