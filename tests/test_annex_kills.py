"""annex-special, killed at random moments and given again: nothing is lost, and nothing is put in place unchecked.

KILLS=20 in the environment kills more often.
"""

import os
import random
import signal
import subprocess
import time

from annexed import ANNEX_SPECIAL
from collection import Sixty, directory, milgroez, path_without
from harness import environment, expect, limits, require, table

KILLS = int(os.environ.get("KILLS") or 4)


def killed_again_and_again(annex, folder, words, check):
    """Starts the command and kills it with all that it started, and says how often it was still working then."""
    numbers, hits, longest = random.Random(len(words)), 0, 1.5
    env = environment({**annex.env, "PATH": path_without(annex)})
    for _ in range(KILLS):
        began = time.monotonic()
        silent = {"stdout": subprocess.DEVNULL, "stderr": subprocess.DEVNULL}
        process = subprocess.Popen([ANNEX_SPECIAL, *words], cwd=folder, env=env, start_new_session=True, **silent)
        try:
            process.wait(numbers.uniform(0.2, longest))
            longest = max(0.5, time.monotonic() - began)
        except subprocess.TimeoutExpired:
            hits += 1
            longest *= 1.2
        if process.poll() is None:
            os.killpg(process.pid, signal.SIGKILL)
        process.wait()
        check()
    return hits


def expect_right(annex, top):
    """Each content that lies under its key's name there is the right one."""
    contents = {annex.keys[name]: content for name, content in annex.files.items()}
    for folder, _, names in os.walk(top):
        for name in names:
            key = name.replace("&c", ":").replace("%", "/").replace("&s", "%").replace("&a", "&")
            if key in contents and "/work/" not in folder and "/tmp/" not in folder:
                with open(f"{folder}/{name}", "rb") as file:
                    require(file.read() == contents[key], f"{folder}/{name} is wrong")


@limits(600)
@table([
    ("annex-remote-dir in chunks", milgroez, ["chunk=2kB"]),
    ("type=directory", directory, []),
])
def a_restore_that_is_killed_goes_on_and_puts_nothing_wrong_in_place(room, kind, settings):
    annex = Sixty(room)
    words = ["kept", "restore", *kind(annex, *settings)]
    annex.fill("kept")
    clone = annex.clone()

    def check():
        expect_right(annex, f"{clone}/.git/annex/objects")
        pointers = {name: f"/annex/objects/{annex.keys[name]}\n".encode() for name in annex.unlocked}
        for name in annex.differing(clone, annex.unlocked):
            with open(os.fsencode(f"{clone}/{name}"), "rb") as file:
                require(file.read()[:15] == pointers[name][:15], f"{name!r} is wrong")

    hits = killed_again_and_again(annex, clone, words, check)
    print(f"{hits} of {KILLS} were killed at work")
    expect(annex.without(clone, *words).status, 0, "the last restore")
    expect(annex.differing(clone), [], "files that differ")


@limits(600)
def case_a_copy_that_is_killed_goes_on_and_leaves_no_wrong_content(room):
    annex = Sixty(room)
    directory(annex)
    hits = killed_again_and_again(annex, annex.top, ["kept", "copy"], lambda: expect_right(annex, room.path("contents")))
    print(f"{hits} of {KILLS} were killed at work")
    expect(annex.without(annex.top, "kept", "copy").status, 0, "the last copy")
    annex.well("git", "annex", "fsck", "-q", "--from", "kept")
    expect(annex.well("git", "annex", "find", "--not", "--in=kept"), "", "what git-annex doesn't find there")
