"""Contents: sizes, keys, files, and what a remote says of a content before and after it is stored and removed."""

import os

from .bench import ADVICE, FAILS, PAGE, TESTREMOTE, Fails, Skips, contents_differ, key_file, odd, test

BASE = ("check-before", "store-get")
SHARED = (*BASE, "check-other-process")
WRONG = "git-annex notices it only if the key names a digest and annex.verify is on; else it takes the wrong content."
COMPLETED = "TRANSFER-SUCCESS says that the transfer completed successfully."
REMOVED = "REMOVE-SUCCESS says that the key has been removed from the remote."
UNCOUNTED = "git-annex counts it as no copy; what is left is never used."


def fetched(bench, session, key, content, what, path=None, rank=TESTREMOTE):
    """Gets a content, and compares it."""
    answer, found = bench.get(session, key, path)
    if answer.outcome != "success":
        raise odd(answer, f"TRANSFER RETRIEVE {key} {path or '..'}", rank)
    differs = contents_differ(content, found)
    if differs:
        raise Fails(PAGE, f"{what}: {differs} came back", COMPLETED, WRONG)


def there_and_back(bench, size, key=None, rank=TESTREMOTE, what=None):
    """Stores a content and gets it back."""
    content = os.urandom(size)
    key = key or bench.key(size)
    session = bench.steady()
    answer = bench.store(session, key, content)
    if answer.outcome != "success":
        raise odd(answer, f"TRANSFER STORE {key} ..", rank)
    fetched(bench, session, key, content, what or f"of {size:,} bytes", rank=rank)
    return session, key, content


@test("check-before", "CHECKPRESENT says that a key is absent that was never stored", ("prepare",))
def check_before(bench):
    key = bench.key(1)
    answer = bench.steady().ask(f"CHECKPRESENT {key}")
    if answer.outcome == "present":
        raise Fails(PAGE, f"`CHECKPRESENT-SUCCESS` of a key that was never stored",
                    "CHECKPRESENT-SUCCESS says that the key was positively verified to be present.",
                    "git-annex believes it, and may drop the last copy elsewhere.")
    if answer.outcome == "unknown":
        raise Fails(TESTREMOTE, f"{answer} to `CHECKPRESENT`", "CHECKPRESENT-UNKNOWN is for when the remote can't be asked.",
                    FAILS)
    if answer.outcome != "absent":
        raise odd(answer, f"CHECKPRESENT {key}", TESTREMOTE)


@test("store-get", "content of 1,000 bytes is stored and comes back", ("check-before",))
def store_get(bench):
    there_and_back(bench, 1000)


def size_test(size, name, spelled):
    @test(f"size-{name}", f"content of {spelled} is stored and comes back", BASE)
    def sized(bench):
        there_and_back(bench, size)


for _size, _name, _spelled in ((0, "0", "no bytes"), (1, "1", "one byte"), (65535, "65535", "65,535 bytes"),
                               (65536, "65536", "65,536 bytes"),
                               (65537, "65537", "65,537 bytes"), (8 << 20, "8MiB", "8 MiB")):
    size_test(_size, _name, _spelled)


def file_test(name, spelled, folder, base):
    @test(f"file-{name}", f"{spelled} is read and written", BASE)
    def named(bench):
        content = os.urandom(100)
        key = bench.key(100)
        session = bench.steady()
        path = bench.file(base or key_file(key), content, folder)
        asks = "The File's name may include whitespace or other special characters, and should not influence the name in the remote."
        answer = bench.store(session, key, content, path)
        if answer.outcome in ("failure", "error"):
            raise Fails(PAGE, f"{answer} to `TRANSFER STORE {key} {path}`", asks, FAILS)
        if answer.outcome != "success":
            raise odd(answer, f"TRANSFER STORE {key} {path}")
        target = bench.file(base and f"{base}-fetched" or key_file(key), None, folder)
        answer, found = bench.get(session, key, target)
        if answer.outcome in ("failure", "error"):
            raise Fails(PAGE, f"{answer} to `TRANSFER RETRIEVE {key} {target}`", asks, FAILS)
        if answer.outcome != "success":
            raise odd(answer, f"TRANSFER RETRIEVE {key} {target}")
        if contents_differ(content, found):
            raise Fails(PAGE, f"{contents_differ(content, found)} in {target}", asks, FAILS)


for _row in (("space", "a file in a folder with spaces", "two  spaces in it", ""),
             ("quotes", "a file in a folder with quotes", "it's\"quoted\"$HOME`x`\\*", ""),
             ("name", "a file whose name isn't that of the key", "", "another-name")):
    file_test(*_row)


def key_test(name, spelled, text, other, length=None):
    @test(f"key-{name}", f"a key with {spelled} is kept, and isn't taken for another", BASE)
    def keyed(bench):
        key = bench.key(100, text, length)
        if bench.has_failed("file-name") and key_file(key) != key:
            raise Skips("as file-name")
        session, key, _ = there_and_back(bench, 100, key, ADVICE, f"of the key {key}")
        if bench.has_failed("file-name"):
            return
        twin = key.replace(text, other) if other else key[:-1] + "x"
        if session.ask(f"CHECKPRESENT {twin}").outcome == "present":
            raise Fails(PAGE, f"`CHECKPRESENT-SUCCESS {twin}`, though only {key} was stored",
                        "The name in the remote is based on the key: another key is another content.",
                        "git-annex believes it, and may drop the last copy elsewhere.")


for _row in (("percent", "%", "a%b", "a&sb"), ("ampersand", "&", "a&b", "a&ab"), ("colon", ":", "a:b", "a&cb"),
             ("equals", "=", "a=b", "ab"),
             ("non-ascii", "letters that aren't ASCII", "äöü☃", "ëïÿ☂"), ("250", "250 bytes", "", None, 250)):
    key_test(*_row)


@test("store-file", "a store leaves the file as it was", BASE)
def store_file(bench):
    content = os.urandom(1000)
    key = bench.key(1000)
    path = bench.file(key_file(key), content)
    bench.need(bench.store(bench.steady(), key, content, path), "success", "a store")
    if bench.content(path) != content:
        raise Fails(TESTREMOTE, "the file that was stored is gone or changed",
                    "For STORE, the File contains the content to upload.",
                    "The file may be the only copy, in .git/annex/objects: git-annex has lost it here.")


@test("store-no-extensions", "without EXTENSIONS, as with an older git-annex, content is stored and comes back",
      (*BASE, "no-extensions"))
def store_no_extensions(bench):
    session, content, key = bench.ready(None), os.urandom(1000), bench.key(1000)
    answer = bench.store(session, key, content)
    if answer.outcome != "success":
        raise odd(answer, f"TRANSFER STORE {key} ..", TESTREMOTE)
    fetched(bench, session, key, content, "without EXTENSIONS")


@test("check-stored", "CHECKPRESENT says that a stored key is present", BASE)
def check_stored(bench):
    session, key = bench.steady(), bench.key(1000)
    bench.need(bench.store(session, key, os.urandom(1000)), "success", "a store")
    answer = session.ask(f"CHECKPRESENT {key}")
    if answer.outcome == "absent":
        raise Fails(PAGE, "`CHECKPRESENT-FAILURE` of a key that was stored",
                    "CHECKPRESENT-FAILURE says that the key was positively verified to not be present.",
                    "git-annex takes the copy for lost.")
    if answer.outcome != "present":
        raise odd(answer, f"CHECKPRESENT {key}", TESTREMOTE)


@test("check-other-process", "another process finds what was stored, and gets it", (*BASE, "check-stored"))
def check_other_process(bench):
    content, key = os.urandom(1000), bench.key(1000)
    bench.need(bench.store(bench.steady(), key, content), "success", "a store")
    other = bench.ready()
    answer = other.ask(f"CHECKPRESENT {key}")
    if answer.outcome == "absent":
        raise Fails(PAGE, "`CHECKPRESENT-FAILURE` in another process, of a key that was stored",
                    "git-annex may start multiple instances of the program; TRANSFER-SUCCESS says that the key is in the remote.",
                    "git-annex takes the copy for lost.")
    bench.need(answer, "present", "a check in another process")
    fetched(bench, other, key, content, "in another process")


@test("store-again", "a second store of a key succeeds, and its content is whole", (*BASE, "check-stored"))
def store_again(bench):
    content, key, session = os.urandom(1000), bench.key(1000), bench.steady()
    for time in ("a store", "a second store"):
        answer = bench.store(session, key, content)
        if time == "a store":
            bench.need(answer, "success", time)
    if answer.outcome != "success":
        raise odd(answer, f"the second TRANSFER STORE {key} ..".replace("the second ", ""), TESTREMOTE)
    if session.ask(f"CHECKPRESENT {key}").outcome == "absent":
        raise Fails(PAGE, "`CHECKPRESENT-FAILURE` after a second store that succeeded", COMPLETED,
                    "git-annex takes the copy for lost.")
    fetched(bench, session, key, content, "after a second store")


@test("remove", "a removed key is absent", BASE)
def remove(bench):
    session, key = bench.steady(), bench.key(1000)
    bench.need(bench.store(session, key, os.urandom(1000)), "success", "a store")
    answer = session.ask(f"REMOVE {key}")
    if answer.outcome != "success":
        raise odd(answer, f"REMOVE {key}", TESTREMOTE)
    if session.ask(f"CHECKPRESENT {key}").outcome == "present":
        raise Fails(PAGE, "`CHECKPRESENT-SUCCESS` after `REMOVE-SUCCESS`", REMOVED, UNCOUNTED)


@test("remove-absent", "a removal of what isn't there succeeds", ("check-before",))
def remove_absent(bench):
    session, key = bench.steady(), bench.key(1000)
    answer = session.ask(f"REMOVE {key}")
    if answer.outcome == "failure":
        raise Fails(TESTREMOTE, f"{answer} of a key that isn't there",
                    "REMOVE-SUCCESS may be returned if the remote didn't have the key.",
                    "git-annex's test \"removeKey when not present\" fails.")
    if answer.outcome != "success":
        raise odd(answer, f"REMOVE {key}", TESTREMOTE)


@test("remove-again", "a second removal succeeds", (*BASE, "remove"))
def remove_again(bench):
    session, key = bench.steady(), bench.key(1000)
    bench.need(bench.store(session, key, os.urandom(1000)), "success", "a store")
    bench.need(session.ask(f"REMOVE {key}"), "success", "a removal")
    answer = session.ask(f"REMOVE {key}")
    if answer.outcome != "success" and bench.has_failed("remove-absent"):
        raise Skips("as remove-absent")
    if answer.outcome != "success":
        raise odd(answer, f"REMOVE {key}", TESTREMOTE)
    if session.ask(f"CHECKPRESENT {key}").outcome == "present":
        raise Fails(PAGE, "`CHECKPRESENT-SUCCESS` after a second `REMOVE-SUCCESS`", REMOVED, UNCOUNTED)


def get_of_nothing(bench, session, key):
    """Gets a key that isn't there."""
    answer, found = bench.get(session, key)
    if answer.outcome == "success":
        raise Fails(PAGE, f"`TRANSFER-SUCCESS` of a key that isn't there, with {'no file' if found is None else f'{len(found):,} bytes'}", COMPLETED, WRONG)
    if answer.outcome == "unsupported":
        raise Skips("it doesn't support TRANSFER")
    if answer.outcome != "failure":
        raise odd(answer, f"TRANSFER RETRIEVE {key} ..", ADVICE)
    if found is not None and len(found) == 1000:
        raise Fails(ADVICE, "a failed get left a file of the key's size",
                    "A file that is left is taken for a part: the next get may go on from it.",
                    "git-annex verifies what it fetched, if the key names a digest.")


@test("get-absent", "a get of what isn't there fails, and leaves no file that looks whole", ("check-before",))
def get_absent(bench):
    get_of_nothing(bench, bench.steady(), bench.key(1000))


@test("get-removed", "a get of what was removed fails", (*BASE, "remove"))
def get_removed(bench):
    session, key = bench.steady(), bench.key(1000)
    bench.need(bench.store(session, key, os.urandom(1000)), "success", "a store")
    bench.need(session.ask(f"REMOVE {key}"), "success", "a removal")
    if bench.has_failed("get-absent"):
        raise Skips("as get-absent")
    get_of_nothing(bench, session, key)


@test("get-partial", "a get into a file that has part of the content already, or all of it, gives the content", BASE)
def get_partial(bench):
    content, key, session = os.urandom(100000), bench.key(100000), bench.steady()
    bench.need(bench.store(session, key, content), "success", "a store")
    for length in (0, 33000, 100000):
        path = bench.file(key_file(key), content[:length])
        answer, found = bench.get(session, key, path)
        if answer.outcome != "success":
            raise odd(answer, f"TRANSFER RETRIEVE {key} {path}", TESTREMOTE)
        differs = contents_differ(content, found)
        if differs:
            raise Fails(PAGE, f"into a file with the first {length:,} of 100,000 bytes: {differs}",
                        "The File may already exist, if its retrieval was interrupted before.", WRONG)


@test("progress", "a store of 8 MiB reports its progress, in bytes from the beginning", BASE)
def progress(bench):
    content, key, session = os.urandom(8 << 20), bench.key(8 << 20), bench.steady()
    answer = bench.store(session, key, content)
    bench.need(answer, "success", "a store")
    numbers = [int(parts[0]) for word, parts in answer.asides if word == "PROGRESS" and parts[0].lstrip("-").isdigit()]
    if not [aside for aside in answer.asides if aside[0] == "PROGRESS"]:
        raise Fails(ADVICE, "no PROGRESS in a store of 8 MiB", "PROGRESS is highly recommended for STORE.",
                    "It shows no progress, and annex.stalldetection can't work.")
    if numbers != sorted(numbers) or numbers and (numbers[0] < 0 or numbers[-1] > len(content)):
        raise Fails(ADVICE, f"PROGRESS {', '.join(map(str, numbers[:12]))}",
                    "The Int is the number of bytes from the beginning of the file that have been transferred.",
                    "The meter shows wrong numbers.")
