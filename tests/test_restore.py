"""`annex-special REMOTE restore`: a repository's files, back from one remote, with git-annex taken from the PATH."""

import os

from collection import Sixty, annexremote, directory, example, milgroez, rclone
from harness import expect, limits, require, table

KINDS = [
    ("annex-remote-dir", milgroez, []),
    ("annex-remote-dir in chunks", milgroez, ["chunk=2kB"]),
    ("type=directory", directory, []),
    ("type=directory in chunks", directory, ["chunk=2kB"]),
    ("git-annex's example", example, []),
    ("python3-annexremote", annexremote, []),
    ("rclone in its default layout", rclone, []),
]




@limits(600)
@table(KINDS)
def a_clone_is_filled_byte_for_byte(room, kind, settings):
    annex = Sixty(room)
    words = kind(annex, *settings)
    lacking = annex.fill("kept")
    clone = annex.clone()
    done = annex.without(clone, "kept", "restore", *words)
    expect_restored(annex, done, lacking, "restored")
    expect(sorted(annex.differing(clone)), lacking, "files that differ")
    for name in annex.files:
        expect(os.path.islink(f"{clone}/{name}"), name not in annex.unlocked, f"whether {name!r} is a link")
    expect_restored(annex, annex.without(clone, "kept", "restore", *words), lacking, "here")


def expect_restored(annex, done, lacking, word):
    """What `restore` says where some files are in no place that it asks: git-annex itself doesn't find them there."""
    missing = len({annex.keys[name] for name in lacking})
    parts = [f"{annex.count() - missing} {word}"] + ([f"{missing} missing"] if missing else [])
    said = f"restore: {annex.count()} keys: {', '.join(sorted(parts, key=lambda part: part.split()[1]))}\n"
    if word == "restored":
        said += f"{annex.unverified(lacking)} unverified: no digest that is known here is in their keys\n"
    lines = done.out.splitlines(keepends=True)
    expect((done.status, "".join(lines[missing:])), (1 if missing else 0, said), "a restore")
    for line in lines[:missing]:
        require(line.startswith("missing ") and "the log has it in " in line, f"what is told of one that is missing: {line}")
