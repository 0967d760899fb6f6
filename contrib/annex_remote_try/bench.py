"""What the tests are written with: sessions with the remote, keys, files, and what was stored."""

import os
import secrets
import time
from typing import Callable, NamedTuple

from . import excerpts, grammar
from .registers import Registers
from .session import Session

RANKS = PAGE, TESTREMOTE, ADVICE = "breaks the protocol", "git-annex's testremote would fail", "advice"
EXTENSIONS = "INFO GETGITREMOTENAME"
FAILS = "git-annex reports that the command failed."
WAITS = "git-annex has no time limit: it waits."


class Fails(Exception):
    """A test that failed: its rank, what the remote did, what the page asks for, and what git-annex makes of it."""

    def __init__(self, rank, said, asks, annex):
        super().__init__(said)
        self.rank, self.said, self.asks, self.annex = rank, said, asks, annex


class Skips(Exception):
    """A test that can't be made here, and why."""


class Test(NamedTuple):
    name: str
    group: str
    shows: str
    needs: tuple
    function: Callable


class Failure(NamedTuple):
    rank: str
    said: str
    asks: str
    annex: str
    lines: list


TESTS = []


def test(name, shows, needs=()):
    """Makes a function a test of its module's group."""

    def mark(function):
        TESTS.append(Test(name, function.__module__.rpartition(".")[2], shows, needs, function))
        return function

    return mark


def key_file(key):
    """The name of the file in which git-annex keeps the content of a key."""
    return key.replace("&", "&a").replace("%", "&s").replace(":", "&c").replace("/", "%")


class Bench:
    """The program under test and all that was said and stored."""

    def __init__(self, program, settings, folder, place=None, wait=10, gitdir=None):
        self.program, self.settings, self.folder, self.wait = program, dict(settings), folder, wait
        self.place_setting = place
        # How long a stray line after an answer may take before the next request goes out, and how long an end may take.
        self.grace, self.ends = 0.002, 5
        for name in ("cwd", "files", "gitdir"):
            os.makedirs(self.path(name), exist_ok=True)
        self.registers = Registers(self.settings, gitdir or self.path("gitdir"))
        self.secrets = [value for name, value in self.settings.items() if value and any(
            word in name.lower() for word in ("password", "secret", "token", "passphrase"))]
        self.entries, self.asked, self.sessions, self.running = [], set(), [], []
        self.faults = {}
        self.stored, self.exported = {}, {}
        self.facts = {}
        self.test = None
        self.is_muted = False
        self.strange = 0
        self.shared = None
        self.count = 0

    def path(self, name):
        return os.path.join(self.folder, name)

    def has_failed(self, name):
        return name in self.facts.get("failed", ())

    # What sessions tell.

    def record(self, session, mark, text):
        self.entries.append((session.number, mark, text, self.test.name if self.test else ""))
        return len(self.entries) - 1

    def blame(self, session, fault):
        """Keeps a fault of a line, with what was said before it, once for each request."""
        if self.is_muted or fault.test == "line-reply" and "line-after" in self.faults:
            return
        kept = self.faults.setdefault(fault.test, [])
        word = fault.said.split(" ")[0]
        if len(kept) < 3 and all(one.said.split(" ")[0] != word for one in kept):
            lines = excerpts.of_session(self, session, 8)
            kept.append(Failure(PAGE, excerpts.shown(self, fault.said), fault.asks, fault.annex, lines))

    def ended(self, session, answer):
        """A request that got no answer makes the session unfit for others."""
        if session is self.shared:
            self.shared = None

    # Sessions.

    def start(self, registers=None, file_limit=None):
        """Starts the program and hears its first line."""
        session = Session(self, registers or self.registers, len(self.sessions) + 1, file_limit)
        self.sessions.append(session)
        self.running.append(session)
        session.pump(lambda: session.heard_version)
        if not session.heard_version or session.first_line not in ("VERSION 1", "VERSION 2"):
            raise Skips("its first line isn't VERSION")
        return session

    def greet(self, session, extensions=EXTENSIONS):
        """Offers the extensions, and gives the answer."""
        answer = session.ask(f"EXTENSIONS {extensions}")
        session.extensions = frozenset(extensions.split())
        said = answer.text.split() if answer.outcome == "success" else []
        session.is_tagged = "ASYNC" in said and "ASYNC" in session.extensions
        return answer

    def ready(self, extensions=EXTENSIONS, registers=None, file_limit=None):
        """A session that is prepared; a test that needs one is skipped where there is none."""
        session = self.start(registers, file_limit)
        if extensions is not None:
            self.greet(session, extensions)
        answer = session.ask("PREPARE")
        if answer.outcome != "success":
            raise Skips(f"it didn't get ready: {answer}")
        session.prepared = session.log[-1][2]
        return session

    def steady(self):
        """The session that many tests share; another one where the last is no longer fit."""
        if self.shared is None or self.shared.is_over or self.shared.open:
            self.shared = self.ready()
        return self.shared

    def finish(self):
        """Closes the sessions of a test, but not the shared one."""
        for session in self.running:
            if session is not self.shared:
                session.close()
        self.running = [session for session in self.running if session is self.shared]

    def kill_all(self):
        """Kills what still runs."""
        for session in self.running:
            session.kill()
        self.running, self.shared = [], None

    def drop(self):
        """Closes the shared session."""
        self.shared = None
        self.finish()

    # Keys and files.

    def key(self, size, name="", length=None):
        """A key of its own: its random part is never used again."""
        key = f"WORM-s{size}-m{int(time.time())}--try-{secrets.token_hex(8)}{name}"
        return key + "k" * (length - len(key.encode()) if length else 0)

    def file(self, name, content=None, folder=""):
        """The path of a file in transit, named as git-annex names it; with this content."""
        self.count += 1
        top = self.path(os.path.join("files", str(self.count), folder))
        os.makedirs(top, exist_ok=True)
        path = os.path.join(top, name)
        if content is not None:
            with open(path, "wb") as out:
                out.write(content)
        return path

    def require_absent(self, session, key):
        """Goes on only where the remote says that it has no such content: what was there before is never touched."""
        if key in self.stored:
            return
        answer = session.ask(f"CHECKPRESENT {key}")
        if answer.outcome == "ended":
            raise odd(answer, f"CHECKPRESENT {key}")
        if answer.outcome != "absent":
            raise Skips(f"the remote doesn't say that the key is absent before its store: {answer}")

    def begin_store(self, session, key, path, tag=""):
        """Begins a store of a key that was found absent."""
        self.stored[key] = session.number
        return session.begin(f"TRANSFER STORE {key} {path}", tag)

    def store(self, session, key, content, path=None):
        """Stores a content under a key of the tester's own."""
        self.require_absent(session, key)
        path = path or self.file(key_file(key), content)
        self.stored[key] = session.number
        return session.ask(f"TRANSFER STORE {key} {path}")

    def get(self, session, key, path=None):
        """Gets a content: the answer, and what is in the file then."""
        path = path or self.file(key_file(key))
        answer = session.ask(f"TRANSFER RETRIEVE {key} {path}")
        return answer, self.content(path)

    def content(self, path):
        """The bytes of a file; None where there is none."""
        try:
            with open(path, "rb") as file:
                return file.read()
        except (FileNotFoundError, IsADirectoryError):
            return None

    def need(self, answer, outcome, what):
        """Goes on only where a step that the test isn't about went well."""
        if answer.outcome != outcome:
            raise Skips(f"{what}: {answer}")

    def clean(self):
        """Removes what was stored; gives the keys and names that may be left."""
        self.drop()
        left = list(self.stored)
        try:
            session = self.ready() if left else None
            for key in list(left):
                answer = session.ask(f"CHECKPRESENT {key}")
                if answer.outcome != "absent":
                    answer = session.ask(f"REMOVE {key}")
                if answer.outcome in ("absent", "success"):
                    left.remove(key)
                elif answer.outcome in ("silent", "ended", "error"):
                    session = self.ready()
            left += self.clean_exports()
        except Skips:
            left += list(self.exported)
        self.finish()
        return left

    def export_session(self):
        """A session of a remote that exports trees."""
        registers = self.registers.copy()
        registers.config["exporttree"] = "yes"
        return self.ready(registers=registers)

    def clean_exports(self):
        """Removes what was exported, and the folders of its names."""
        if not self.exported:
            return []
        session = self.export_session()
        left = [name for name, key in self.exported.items() if session.ask(f"REMOVEEXPORT {key}",
                                                                           f"EXPORT {name}").outcome != "success"]
        folders = {os.path.dirname(name) for name in self.exported}
        folders |= {folder[:at] for folder in folders for at, letter in enumerate(folder) if letter == "/"}
        for folder in sorted(folders - {""}, key=len, reverse=True):
            if session.ask(f"REMOVEEXPORTDIRECTORY {folder}").outcome == "unsupported":
                break
        return left


def odd(answer, request, rank=PAGE):
    """The failure of a request that wasn't answered as it should be."""
    word = grammar.request_of(request).word
    asks = f"Once the remote has done {word}, it says {grammar.replies_to(grammar.request_of(request))}."
    if answer.outcome == "silent":
        return Fails(PAGE, f"no answer to `{request}`", asks, WAITS)
    if answer.outcome == "ended":
        return Fails(PAGE, f"the program ended at `{request}`", asks, FAILS)
    if answer.outcome == "odd":
        return Skips("its answer is a line that the page doesn't have; see the tests of lines")
    if answer.outcome == "unsupported" and word in grammar.REQUIRED:
        return Skips(f"it doesn't support {word}; see must-support")
    if answer.outcome == "error" and rank == PAGE:
        rank = TESTREMOTE
    return Fails(rank, f"{answer} to `{request}`", asks, FAILS)


def contents_differ(content, found):
    """How what was fetched differs from what was stored."""
    if found is None:
        return "no file"
    if found == content:
        return ""
    if len(found) != len(content):
        return f"{len(found):,} bytes instead of {len(content):,}"
    at = next(at for at, (one, other) in enumerate(zip(found, content)) if one != other)
    return f"other bytes from place {at:,} on"
