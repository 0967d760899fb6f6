"""Hosts that say lines which no remote knows, between requests and among the values of settings.

What a remote has to say is told by `Session`, written apart from the program: what a host may say where, what is answered, and what
ends it.
"""

import os
import random

from annexed import REMOTE, Annex
from harness import ANNEX_REMOTE_DIR, Done, expect, limits
from kits import signed
from test_mirror import MIRROR, NAMES

# Lines that spell no message of a host.
UNKNOWN = ["", " ", "BOO", "CLAIMURL http://a/b", "CHECKURL http://a/b", "GETORDERED", "PREPARE ", "PREPARE now", "prepare", " GETCOST",
           "TRANSFER STORE", "TRANSFER KEEP WORM--a f", "CHECKPRESENT WORM--a b", "CHECKPRESENT", "REMOVE  WORM--a", "GETCOST 1", "VALUES x",
           "EXPORTSUPPORTED?", "\udcff\udcfe", "WHEREIS WORM--a WORM--b", "VERSION 1", "UNSUPPORTED-REQUEST", "GETCONFIG a", "\x00", "GETCOST\r"]
ABOUT = ["GETCOST", "GETAVAILABILITY", "WHEREIS WORM--a", "EXPORTSUPPORTED"]
KEYS = ["WORM--a", "WORM--b", "WORM-s3--c"]
UNSUPPORTED = "UNSUPPORTED-REQUEST"


class Session:
    """What is to be said to a host, line by line, by a remote with these settings, of which the first is set to `value`.

    `empty` says what is wrong where it is empty; a remote that `forgets` is then no longer ready.
    """

    def __init__(self, numbers, settings, value, empty, forgets=True):
        self.numbers = numbers
        self.settings = settings
        self.value = value
        self.empty = empty
        self.forgets = forgets
        self.lines = []
        self.said = []
        self.status = 0
        self.request = None
        self.values = []
        self.was_prepared = self.is_ready = False
        self.kept = set()

    def choose(self):
        """The host's next line, and what is due on it."""
        choice = self.numbers.random()
        if choice < 0.004:
            self.end("ERROR " + self.numbers.choice(["", "no such setting"]))
        elif self.request is not None:
            self.choose_value(choice)
        elif choice < 0.35:
            self.tell(self.numbers.choice(UNKNOWN), UNSUPPORTED)
        elif choice < 0.4:
            self.tell(self.numbers.choice(ABOUT), UNSUPPORTED)
        elif choice < 0.55:
            self.request = self.numbers.choice(["PREPARE", "PREPARE", "INITREMOTE"])
            self.tell(self.request, "GETCONFIG " + self.settings[0])
        elif choice < 0.56:
            self.end(self.numbers.choice(["VALUE x", "VALUE ", "CREDS user word"]), "ERROR unexpected message")
        else:
            self.choose_key()

    def tell(self, line, *answers):
        self.lines.append(line)
        self.said.extend(answers)

    def end(self, line, *answers):
        self.tell(line, *answers)
        self.status = 1

    def choose_value(self, choice):
        if choice < 0.012:
            self.end(self.numbers.choice(UNKNOWN))
        elif choice < 0.02:
            self.end(self.numbers.choice([*ABOUT, "PREPARE", "CHECKPRESENT WORM--a"]), "ERROR unexpected message")
        else:
            first = self.value if self.numbers.random() < 0.9 else ""
            self.values.append("" if self.values else first)
            self.tell("VALUE " + self.values[-1])
            if len(self.values) < len(self.settings):
                self.said.append("GETCONFIG " + self.settings[len(self.values)])
            else:
                self.get_ready()

    def get_ready(self):
        done = self.values[0] != ""
        self.said.append(f"{self.request}-SUCCESS" if done else f"{self.request}-FAILURE {self.empty}")
        self.is_ready = done or (self.is_ready and not self.forgets)
        self.was_prepared |= done and self.request == "PREPARE"
        self.request, self.values = None, []

    def choose_key(self):
        key = self.numbers.choice(KEYS)
        ready = self.was_prepared and self.is_ready
        word = self.numbers.choice(["TRANSFER", "CHECKPRESENT", "REMOVE"])
        if word == "TRANSFER":
            self.tell(f"TRANSFER STORE {key} f", f"TRANSFER-SUCCESS STORE {key}" if ready else f"TRANSFER-FAILURE STORE {key} not prepared")
            if ready:
                self.kept.add(key)
        elif word == "CHECKPRESENT":
            found = f"CHECKPRESENT-SUCCESS {key}" if key in self.kept else f"CHECKPRESENT-FAILURE {key}"
            self.tell(f"CHECKPRESENT {key}", found if ready else f"CHECKPRESENT-UNKNOWN {key} not prepared")
        else:
            self.tell(f"REMOVE {key}", f"REMOVE-SUCCESS {key}" if ready else f"REMOVE-FAILURE {key} not prepared")
            if ready:
                self.kept.discard(key)


def play(room, program, count, *remote, forgets=True):
    """Plays so many sessions over the program, each with the folder `d` as the one before it left it."""
    room.write("f", "content")
    room.write("d/here", "a folder that isn't empty")
    kept = set()
    for seed in range(count):
        session = Session(random.Random(seed), *remote, forgets=forgets)
        session.kept = kept
        while session.status == 0 and len(session.lines) < 60:
            session.choose()
        done = room.run([program], input="".join(line + "\n" for line in session.lines))
        wanted = "".join(line + "\n" for line in ["VERSION 1", *session.said])
        expect(done, Done(session.status, wanted, ""), f"session {seed}: {session.lines}")


@limits(600)
def case_a_mirror_answers_what_it_does_not_know_and_goes_on(room):
    play(room, MIRROR, 60, NAMES, f"{ANNEX_REMOTE_DIR} directory={room.path('d')}", "no mirrors")


@limits(600)
def case_git_annex_adds_a_url_beside_the_remotes(room):
    # It asks each remote whether it claims the URL, which ours don't know.
    annex = Annex(room)
    os.symlink(MIRROR, room.path("bin/git-annex-remote-mirror"))
    annex.add_remote()
    setting = f"mirror1={ANNEX_REMOTE_DIR} directory={signed(room.mkdir('one'))}"
    annex.well("git", "annex", "initremote", "-q", "both", "type=external", "externaltype=mirror", "encryption=none", setting)
    annex.well("git", "config", "annex.security.allowed-url-schemes", "file http https")
    url = f"file://{room.write('page', 'content')}"
    annex.well("git", "annex", "addurl", "-q", "--file=page", url)
    annex.well("git", "annex", "copy", "-q", "--to", REMOTE, "page")
    annex.well("git", "annex", "copy", "-q", "--to", "both", "page")
    expect(annex.recorded(), ["page"], "what git-annex has in the one")
    expect(annex.well("git", "annex", "find", "--in=both").splitlines(), ["page"], "and in the other")
