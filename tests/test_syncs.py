"""What is said to be done is on the disk then: the order of writes, syncs, renames and of the line that says so."""

import os

from harness import ANNEX_REMOTE_DIR, SPECIAL, UUID, expect, limits, preloaded, require, run, table

KEY, FILE = "WORM-s7--a", "f"


def noted(room, words, says, name="order"):
    """The calls of a run of these words, in their order: what was done, and with which names."""
    env = {"LD_PRELOAD": preloaded(room, "tests/order_of_calls.c"), "ORDER": room.path(name)}
    done = run(words, says, env, room.path())
    expect(done.status, 0, f"the end of {done}")
    return [line.split("\t") for line in room.text(name).splitlines() if line.count("\t") >= 2]


def require_synced(room, calls, last):
    """Each file that was written and each name that was given or made is on the disk before the call of that place."""
    for at, (what, name, other) in enumerate(calls[:last]):
        inside = [path for path in (name, other) if path.startswith(room.path("disk")) or path.startswith(room.path("kept"))
                  or path.startswith(room.path("journal"))]
        if what == "write" and inside:
            given = next((later for later, call in enumerate(calls) if call[0] == "rename" and call[1] == name and later > at), last)
            require(["sync", name, ""] in calls[at:given], f"{name} is synced before it gets its name, or the success is said: {calls}")
        if what in ("rename", "mkdir") and inside:
            folder = os.path.dirname(other or name)
            require(["sync", folder, ""] in calls[at:last], f"{folder} is synced after the {what} of {other or name}: {calls}")


def require_folder_synced(calls, folder, last):
    """The folder was made, and its name is on the disk before the call of that place."""
    require(["mkdir", folder, ""] in calls[:last], f"{folder} is made: {calls}")
    made = calls.index(["mkdir", folder, ""])
    require(["sync", os.path.dirname(folder), ""] in calls[made:last], f"the name of {folder} is synced: {calls}")


def place_of(calls, line):
    """The number of the call that says the line, the last of all that say something."""
    says = [at for at, call in enumerate(calls) if call[0] == "say"]
    require(says and calls[says[-1]][1] == line, f"it says {line!r} last: {calls}")
    return says[-1]


def of_kind(calls, what):
    return [call for call in calls if call[0] == what]


@table([("in a folder that is whole", True), ("in one that isn't", False)])
def a_store_is_on_the_disk_when_it_says_so(room, is_whole):
    room.write(FILE, "content")
    if is_whole:
        room.write("disk/.annex-remote-dir")
    directory = room.path("disk") if is_whole else "disk"
    calls = noted(room, [ANNEX_REMOTE_DIR], f"PREPARE\nVALUE {directory}\nTRANSFER STORE {KEY} {FILE}\n")
    last = place_of(calls, f"TRANSFER-SUCCESS STORE {KEY}")
    expect(len(of_kind(calls, "mkdir")), 3 if is_whole else 4, "the folders that are made")
    expect(len(of_kind(calls, "rename")), 1, "the names that are given")
    expect(calls[last + 1:], [], "what is done after the answer")
    require_synced(room, calls, last)


def case_a_folder_that_is_set_up_is_on_the_disk_when_it_says_so(room):
    calls = noted(room, [ANNEX_REMOTE_DIR], f"INITREMOTE\nVALUE {room.path('disk')}\n")
    last = place_of(calls, "INITREMOTE-SUCCESS")
    expect([call[0] for call in calls if call[0] in ("mkdir", "write")], ["mkdir", "write"], "what is made")
    require_synced(room, calls, last)
    require(["sync", room.path("disk"), ""] in calls[calls.index(of_kind(calls, "write")[0]):last], f"the new file's name: {calls}")


def case_folders_that_a_get_makes_are_on_the_disk_when_it_says_so(room):
    room.write(FILE, "content")
    room.write("disk/.annex-remote-dir")
    begins = f"PREPARE\nVALUE {room.path('disk')}\n"
    run([ANNEX_REMOTE_DIR], f"{begins}TRANSFER STORE {KEY} {FILE}\n", cwd=room.path())
    calls = noted(room, [ANNEX_REMOTE_DIR], f"{begins}TRANSFER RETRIEVE {KEY} new/folder/got\n")
    last = place_of(calls, f"TRANSFER-SUCCESS RETRIEVE {KEY}")
    for folder in ("new", "new/folder"):
        require_folder_synced(calls, room.path(folder), last)


def special(room, *words):
    return [SPECIAL, "run", "--program", ANNEX_REMOTE_DIR, "--uuid", UUID, *words]


@limits(60)
@table([("a get", f"store {KEY} {FILE}\n", f"get {KEY} kept.got\n", "1 got"), ("a kept file", "", f"store {KEY} {FILE}\n", "1 stored")])
def a_file_that_is_given_a_name_is_on_the_disk_when_the_success_is_said(room, first, task, says):
    room.write(FILE, "content")
    room.write("disk/.annex-remote-dir")
    room.write("kept", f"annex-keep 1\nconfig directory {room.path('disk')}\n")
    if first:
        expect(run(special(room, "--keep", "kept"), first, cwd=room.path()).out, "1 stored\n", "what is there")
    calls = noted(room, special(room, "--keep", "kept"), task)
    last = place_of(calls, says)
    require(of_kind(calls, "rename"), f"a file gets its name: {calls}")
    require_synced(room, calls, last)


@limits(60)
def case_a_journal_is_on_the_disk_before_success_is_said(room):
    room.write(FILE, "content")
    room.write("disk/.annex-remote-dir")
    room.write("kept", f"annex-keep 1\nconfig directory {room.path('disk')}\n")
    calls = noted(room, special(room, "--keep", "kept", "--journal", "journals/new"), f"store {KEY} {FILE}\n")
    last = place_of(calls, "1 stored")
    journal = room.path("journals/new")
    written = [at for at, call in enumerate(calls[:last]) if call[:2] == ["write", journal]]
    require(written, f"the journal is written before the answer: {calls}")
    require(["sync", journal, ""] in calls[written[-1]:last], f"the journal is synced before the answer: {calls}")
    require(["sync", room.path("journals"), ""] in calls[:last], f"its folder is synced: {calls}")
    require_folder_synced(calls, room.path("journals"), last)
