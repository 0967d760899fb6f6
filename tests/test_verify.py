"""`annex-special REMOTE verify`, over repositories of git-annex: what is damaged is found, and put right."""

import os

from annexed import ANNEX_SPECIAL, Annex
from collection import directory, milgroez
from harness import expect, limits, require, table

FILES = {"damaged": "first", "missing": "second", "one": "third", "other": "forth", "right": "whole"}
KINDS = [
    ("annex-remote-dir", milgroez, []),
    ("type=directory", directory, []),
    ("type=directory in chunks", directory, ["chunk=3"]),
]


def objects(room, key):
    """The files in the remote that hold the content of the key."""
    backend, digest = key.split("-", 1)[0], key.split("--")[1]
    found = [f"{folder}/{name}" for folder, _, names in os.walk(room.path("contents")) for name in names]
    return sorted(name for name in found if os.path.basename(name).startswith(backend) and name.endswith(digest))


def overwrite(path, content):
    os.chmod(path, 0o644)
    with open(path, "wb") as file:
        file.write(content)


def spoil(room, annex):
    """Damages one content, takes one away and swaps two."""
    for path in objects(room, annex.key("damaged")):
        with open(path, "rb") as file:
            content = file.read()
        overwrite(path, bytes([content[0] ^ 1]) + content[1:])
    os.unlink(objects(room, annex.key("missing"))[0])
    for first, second in zip(objects(room, annex.key("one")), objects(room, annex.key("other"))):
        with open(first, "rb") as one, open(second, "rb") as other:
            contents = one.read(), other.read()
        overwrite(first, contents[1])
        overwrite(second, contents[0])


def prepared(room, kind, settings):
    """A repository whose remote has all files, four of them spoilt."""
    annex = Annex(room)
    annex.add(FILES)
    kind(annex, *settings)
    annex.well("git", "annex", "copy", "-q", "--to", "kept")
    spoil(room, annex)
    return annex


def verify(annex, *words):
    return annex.run(ANNEX_SPECIAL, "kept", "verify", *words)


def words_by_file(annex, done):
    """What is said of each file."""
    names = {annex.key(name): name for name in FILES}
    return {names[line.split(" ")[1]]: line.split(" ")[0] for line in done.out.splitlines() if line.split(" ")[1] in names}


WRONG = {"damaged": "damaged", "missing": "missing", "one": "damaged", "other": "damaged"}


@limits(300)
@table(KINDS)
def damaged_missing_and_swapped_contents_are_each_found_and_repaired(room, kind, settings):
    annex = prepared(room, kind, settings)
    done = verify(annex)
    expect((done.status, words_by_file(annex, done)), (1, WRONG), "a verify")
    expect(done.out.splitlines()[4], "verify: 5 keys: 3 damaged, 1 missing, 1 verified", "its numbers")
    done = verify(annex, "--repair-from", "here", "--verbose")
    expect((done.status, done.out.count("\nverify: 5 keys: 4 repaired, 1 verified\n")), (0, 1), f"a repair: {done}")
    expect(verify(annex), (0, "verify: 5 keys: 5 verified\n", ""), "a verify of what was repaired")
    annex.well("git", "annex", "fsck", "-q", "--from", "kept")
    kept = [name for _, _, names in os.walk(f"{annex.top}/.git/annex-special") for name in names if "SHA256E" in name]
    expect(kept, [], "contents that verify left here")


@limits(300)
def case_a_repair_takes_right_contents_from_another_remote_alone(room):
    annex = prepared(room, milgroez, [])
    folder = room.mkdir("second")
    annex.well("git", "annex", "initremote", "-q", "second", "type=directory", f"directory={folder}", "encryption=none")
    annex.well("git", "annex", "copy", "-q", "--to", "second", "damaged", "one", "right")
    damaged = [f"{top}/{name}" for top, _, names in os.walk(folder) for name in names if name == annex.key("one")]
    overwrite(damaged[0], b"wrong")
    annex.well("git", "annex", "drop", "-q", "--force", ".")
    done = verify(annex, "--repair-from", "second")
    left = {name: word for name, word in WRONG.items() if name != "damaged"}
    expect((done.status, words_by_file(annex, done)), (1, left), "a repair")
    expect(done.out.splitlines()[-2], "verify: 5 keys: 2 damaged, 1 missing, 1 repaired, 1 verified", "the numbers")
    require("and not repaired: hash " in done.out, f"what is told of a source that is damaged too: {done.out}")


@limits(300)
def case_a_repair_whose_store_fails_keeps_the_right_content_here_and_the_next_one_uses_it(room):
    annex = prepared(room, directory, [])
    annex.well("git", "annex", "drop", "-q", "--force", "one")
    # A file where a folder should be: nothing can be stored.
    os.rmdir(room.path("contents/tmp"))
    room.write("contents/tmp", "in the way")
    done = verify(annex, "--repair-from", "here", "damaged")
    expect(done.status, 1, "the status")
    require("a right content could not be stored: Not a directory" in done.out, f"what is told: {done.out}")
    kept = done.out.split("the right content is kept here as ")[1].split("\n")[0]
    with open(kept) as file:
        expect(file.read(), FILES["damaged"], "what is kept")
    expect(objects(room, annex.key("damaged")), [], "what the remote has")
    os.unlink(room.path("contents/tmp"))
    annex.well("git", "annex", "drop", "-q", "--force", "damaged")
    done = verify(annex, "--repair-from", "here", "damaged")
    expect(done.out, "verify: 1 key: 1 repaired\n" + done.out.split("\n", 1)[1], "the next repair")
    require(not os.path.exists(kept), "the content is still kept here")
    expect(verify(annex, "damaged").out, "verify: 1 key: 1 verified\n", "a verify")
