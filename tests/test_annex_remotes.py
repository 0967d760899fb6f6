"""annex-special's check, verify, get, copy and drop of sixty files over remotes of several kinds, beside git-annex's own."""

import os
import re

from annexed import ANNEX_SPECIAL
from collection import Sixty
from harness import expect, limits, require, table
from test_restore import KINDS


def special(annex, *words, remote="kept"):
    return annex.run(ANNEX_SPECIAL, remote, *words)


def counts(done):
    """The numbers of the last line, by their words."""
    line = re.search(r"^[a-z]+: \d+ keys?: (.*)$", done.out, re.MULTILINE)[1]
    return {part.split(" ")[1]: int(part.split(" ")[0]) for part in line.split(", ")}


@limits(900)
@table(KINDS)
def what_git_annex_stored_is_checked_verified_and_got_byte_for_byte(room, kind, settings):
    annex = Sixty(room)
    words = [word for word in kind(annex, *settings) if word.startswith("-J")]
    lacking = annex.fill("kept")
    for name in os.listdir(f"{annex.top}/.git/annex/creds") if os.path.isdir(f"{annex.top}/.git/annex/creds") else ():
        os.unlink(f"{annex.top}/.git/annex/creds/{name}")
    absent = len({annex.keys[name] for name in lacking})
    there = annex.count() - absent
    done = special(annex, "check", "--verbose", *words)
    wanted = {"present": there, **({"absent": absent} if absent else {})}
    expect((done.status, counts(done)), (0, wanted), f"a check: {done}")
    done = special(annex, "verify", *words)
    unverified = annex.unverified(lacking)
    expect((done.status, counts(done)), (0, {"verified": there - unverified, "unverified": unverified}), f"a verify: {done}")
    annex.well("git", "annex", "drop", "-q", "--force", "--in=kept")
    done = special(annex, "get", *words)
    expect((done.status, counts(done)), (0, {"got": there}), f"a get: {done}")
    expect(annex.differing(annex.top), [], "files that differ")
    expect(annex.run("git", "annex", "fsck", "-q"), (0, "", ""), "git-annex's own check of what is here")


@limits(900)
@table(KINDS)
def what_was_copied_git_annex_gets_byte_for_byte(room, kind, settings):
    annex = Sixty(room)
    words = [word for word in kind(annex, *settings) if word.startswith("-J")]
    for name in os.listdir(f"{annex.top}/.git/annex/creds") if os.path.isdir(f"{annex.top}/.git/annex/creds") else ():
        os.unlink(f"{annex.top}/.git/annex/creds/{name}")
    done = special(annex, "copy", "--record", *words)
    require(done.status == 0 or set(counts(done)) <= {"stored", "failed"}, f"a copy: {done}")
    stored = counts(done)["stored"]
    require(stored >= annex.count() - 4, f"a copy: {done}")
    annex.run("git", "annex", "fsck", "-q", "--from", "kept")
    annex.well("git", "annex", "drop", "-q", "--force", "--in=kept")
    # git-annex gets no key without a digest from an external remote otherwise.
    annex.well("git", "-c", "annex.security.allow-unverified-downloads=ACKTHPPT", "annex", "get", "-q", "--from", "kept")
    expect(annex.differing(annex.top), [], "files that differ")
    done = special(annex, "drop", "--record", *words)
    require(set(counts(done)) <= {"dropped", "left"}, f"a drop: {done}")
    expect(annex.well("git", "annex", "find", "--in=kept"), "", "what the log has after the drop")


@limits(900)
def case_a_remote_that_needs_annex_remote_plain_is_spoken_to_through_it_and_others_are_not(room):
    annex = Sixty(room)
    said = {}
    for _, kind, settings in KINDS:
        if kind.__name__ in ("example", "annexremote", "milgroez") and not settings:
            kind(annex)
            annex.well("git", "annex", "renameremote", "-q", "kept", kind.__name__)
            annex.well("git", "config", "--rename-section", "remote.kept", f"remote.{kind.__name__}")
            annex.run("rm", "-rf", f"{annex.top}/.git/annex/creds")
            said[kind.__name__] = special(annex, "check", "-v", "./plain", remote=kind.__name__).err
    expect(said, {
        "milgroez": "annex-special: milgroez is spoken to directly, with tags\n",
        "example": "annex-special: example is spoken to through annex-remote-plain: its first line is not VERSION 1\n",
        "annexremote": "annex-special: annexremote is spoken to through annex-remote-plain: "
        "it asks for hash folders, which git-annex ends with a slash\n",
    })
