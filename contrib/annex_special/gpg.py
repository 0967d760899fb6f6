"""gpg: decrypts and encrypts, and says what came of it.

A passphrase reaches gpg by a descriptor, or from its agent: never by words, the environment or files. What is decrypted
is handed on in pieces, and is to be believed once all has come.
"""

import contextlib
import enum
import os
import selectors
import subprocess
import sys
import tempfile
from typing import NamedTuple

from .text import call, git_config, text_of

PIECE = 1 << 18
PAUSE = 0.5
# So much is kept of what gpg says, which a file can make it repeat.
MOST_SAID = 1 << 16
COMMON = ["--trust-model", "always", "--batch"]
# Why its agent doesn't use a secret key, by the numbers of libgpg-error.
REFUSALS = {11: "wrong passphrase", 85: "there is no pinentry to ask for the passphrase", 99: "no passphrase was given"}
# What git-annex says too.
SEALING = ["--force-mdc", "--no-textmode"]
TO_KEYS = ["--encrypt", "--no-encrypt-to", "--no-default-recipient"]


class Outcome(enum.Enum):
    OPENED = "decrypted, whole and unchanged"
    BROKEN = "no encrypted data, or cut off or changed behind its beginning"
    CLOSED = "no key here opens it, or its beginning is damaged"
    UNASKED = "the passphrase of a secret key is wrong or missing"
    STOPPED = "the taker wanted no more"


class Opening(NamedTuple):
    """What came of decrypting: gpg's own words, and the ids of the keys it is encrypted to ("" for a passphrase)."""

    outcome: Outcome
    said: str
    ids: frozenset


class Stopped(Exception):
    """Whoever takes the pieces wants no more."""


class Gpg:
    """The program, with the options that git's settings have for git-annex."""

    def __init__(self, name):
        self.program = gpg_program()
        self.sealing, self.opening = (options_of(name, kind) for kind in ("gnupg-options", "gnupg-decrypt-options"))
        self.environment = dict(os.environ)
        with contextlib.suppress(OSError, AttributeError, ValueError):
            self.environment.setdefault("GPG_TTY", os.ttyname(sys.stdin.fileno()))

    def has_secret_key(self, recipients):
        """Whether one of these keys is here as a secret one."""
        words = [self.program, *COMMON, "--list-secret-keys", "--"]
        return any(call([*words, one]) is not None for one in recipients)

    def decrypt_bytes(self, data, take):
        """Decrypts what is encrypted to keys; the agent may ask for a passphrase."""
        with tempfile.TemporaryFile() as file:
            file.write(data)
            file.seek(0)
            return self.decrypt(file, take)

    def decrypt(self, file, take, passphrase=None):
        """Decrypts an open file, and hands all pieces to `take`, which may raise `Stopped`."""
        words = [self.program, *COMMON, *self.opening]
        with Descriptors() as descriptors:
            words += descriptors.passphrase_words(passphrase)
            words += ["--status-fd", str(descriptors.outlet()), "--decrypt"]
            process = subprocess.Popen(
                words, stdin=file, stdout=subprocess.PIPE, stderr=subprocess.PIPE, env=self.environment,
                pass_fds=descriptors.passed,
            )
            status = descriptors.close_passed()
            with process, open(status, "rb", buffering=0) as statuses:
                descriptors.owned.remove(status)
                try:
                    said, statuses_said = read_all(process, statuses, take)
                except Stopped:
                    process.kill()
                    return Opening(Outcome.STOPPED, "", frozenset())
                except BaseException:
                    process.kill()
                    raise
        return opening_of(process.returncode, words_by_status(statuses_said), last_words(said))

    def encrypt(self, pieces, target, cipher):
        """Encrypts the pieces into a file; a sentence where gpg doesn't."""
        words = [self.program, *COMMON, *self.sealing]
        with Descriptors() as descriptors, open(target, "wb") as file:
            words += descriptors.passphrase_words(cipher.passphrase)
            if cipher.passphrase is None:
                words += [word for one in cipher.recipients for word in ("--recipient", one)] + TO_KEYS
            else:
                words += ["--symmetric"]
            process = subprocess.Popen(
                words + SEALING, stdin=subprocess.PIPE, stdout=file, stderr=subprocess.PIPE, env=self.environment,
                pass_fds=descriptors.passed,
            )
            descriptors.close_passed()
            with process:
                try:
                    said = feed_all(process, pieces)
                except BaseException:
                    process.kill()
                    raise
        return None if process.returncode == 0 else last_words(said, 2) or f"status {process.returncode}"


def gpg_program():
    return git_config("gpg.program") or "gpg"


def options_of(name, kind):
    """Options for gpg in git's settings: those of the remote, or of git-annex at all."""
    return (git_config(f"remote.{name}.annex-{kind}") or git_config(f"annex.{kind}") or "").split()


class Descriptors:
    """The pipes to one gpg, which are closed whatever happens."""

    def __init__(self):
        self.owned, self.passed, self.read = set(), [], None

    def __enter__(self):
        return self

    def __exit__(self, *_):
        for descriptor in self.owned:
            os.close(descriptor)

    def passphrase_words(self, passphrase):
        """A pipe holds the whole passphrase, so nobody waits."""
        if passphrase is None:
            return []
        inlet, outlet = os.pipe()
        self.owned |= {inlet, outlet}
        os.write(outlet, passphrase)
        os.close(outlet)
        self.owned.remove(outlet)
        self.passed.append(inlet)
        return ["--passphrase-fd", str(inlet)]

    def outlet(self):
        """Where gpg writes its statuses. They don't share a stream with words that a file may have a part in."""
        self.read, outlet = os.pipe()
        self.owned |= {self.read, outlet}
        self.passed.append(outlet)
        return outlet

    def close_passed(self):
        """Closes this process's ends of what gpg has now; gives the end from which statuses are read."""
        for descriptor in self.passed:
            os.close(descriptor)
            self.owned.remove(descriptor)
        return self.read


def read_all(process, statuses, take):
    """Hands on what gpg writes, and gives what it said; a part of it where that is much.

    While nothing comes, as when its agent asks for a passphrase, the taker gets an empty piece, and may stop there too.
    """
    said = {process.stderr: b"", statuses: b""}
    with selectors.DefaultSelector() as selector:
        for stream in (process.stdout, *said):
            selector.register(stream, selectors.EVENT_READ)
        while selector.get_map():
            events = selector.select(PAUSE)
            if not events:
                take(b"")
            for ready, _ in events:
                piece = os.read(ready.fd, PIECE)
                if not piece:
                    selector.unregister(ready.fileobj)
                elif ready.fileobj is process.stdout:
                    take(piece)
                elif len(said[ready.fileobj]) < MOST_SAID:
                    said[ready.fileobj] += piece
    process.wait()
    return said[process.stderr], said[statuses]


def feed_all(process, pieces):
    """Gives gpg the pieces, and gives what it said. Where it takes no more, its status says so."""
    try:
        for piece in pieces:
            process.stdin.write(piece)
        process.stdin.close()
    except BrokenPipeError:
        with contextlib.suppress(BrokenPipeError):
            process.stdin.close()
    process.stdin = None
    return process.communicate()[1]


def words_by_status(data):
    """The words of gpg's statuses: lists by the first word."""
    found = {}
    for line in text_of(data).splitlines():
        word, _, more = line.removeprefix("[GNUPG:] ").partition(" ")
        found.setdefault(word, []).append(more)
    return found


def opening_of(returncode, statuses, said):
    """What gpg's status and statuses mean."""
    ids = {more.split(" ")[0] for more in statuses.get("ENC_TO", ())}
    ids |= {""} if "NEED_PASSPHRASE_SYM" in statuses else set()
    refused = [int(more.split(" ")[1]) & 0xFFFF for more in statuses.get("ERROR", ()) if more.startswith("pkdecrypt_failed ")]
    # gpg begins to decrypt with any passphrase; only what comes out shows that it was the right one.
    has_key = "PLAINTEXT" in statuses or "DECRYPTION_INFO" in statuses and "" not in ids
    if returncode == 0 and "DECRYPTION_OKAY" in statuses and "DECRYPTION_FAILED" not in statuses:
        outcome = Outcome.OPENED
    elif has_key or not ids:
        outcome = Outcome.BROKEN
    elif refused and refused[-1] in REFUSALS:
        outcome, said = Outcome.UNASKED, REFUSALS[refused[-1]]
    else:
        outcome = Outcome.CLOSED
    return Opening(outcome, said or f"status {returncode}", frozenset(ids))


def last_words(said, count=1):
    """What gpg complained of at last: so many lines."""
    lines = [line.split(": ", 1)[1] for line in text_of(said).splitlines() if line.startswith("gpg: ")]
    return "; ".join(lines[-count:])
