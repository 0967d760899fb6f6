"""Stores, gets, checks and drops side by side, with files."""

from harness import expect, table
from runs import expect_run

ABC = "MD5-s3--900150983cd24fb0d6963f7d28e17f72"
FOO = "MD5-s3--acbd18db4cc2f85cedef654fccc4a4d8"

# `hear_works` hears requests in any order, and gives their tags and the files that are named for contents that are asked for.
HEAR_WORKS = """
greet("ASYNC")


def hear_works(*works):
    tags, files = {}, {}
    while len(tags) < len(works):
        tag, line = untagged(hear())
        parts = line.split(" ", 3)
        if parts[:2] == ["TRANSFER", "RETRIEVE"]:
            files[parts[2]] = parts[3]
            line = " ".join(parts[:3])
        tags[line] = tag
    return [tags[work] for work in works], files


"""

FOUR = f"""
(store, get, check, drop), files = hear_works(
    "TRANSFER STORE WORM-s2--a f", "TRANSFER RETRIEVE {ABC}", "CHECKPRESENT WORM--c", "REMOVE WORM--d"
)
"""
FOUR_TASKS = f"store WORM-s2--a f\nget {ABC} o\ncheck WORM--c\ndrop WORM--d\n"


def left(room):
    """The names of the files in the room but for the remote's and the journal."""
    return sorted(path.name for path in room.folder.iterdir() if not path.name.startswith(("remote", "journal")))


def case_a_store_a_get_a_check_and_a_drop_are_answered_when_all_are_asked(room):
    room.write("f", "hi")
    room.children("remote", HEAR_WORKS + FOUR + f"""
open(files["{ABC}"], "w").write("abc")
say(drop + "REMOVE-SUCCESS WORM--d")
say(get + "PROGRESS 3")
say(get + "TRANSFER-SUCCESS RETRIEVE {ABC}")
say(check + "CHECKPRESENT-SUCCESS WORM--c")
say(store + "TRANSFER-SUCCESS STORE WORM-s2--a")
hear()
""")
    expect_run(room, "./remote", FOUR_TASKS, "1 stored\n2 got\n3 present\n4 dropped\n", busy=4)
    expect(room.text("o"), "abc", "what was got")
    expect(left(room), ["f", "o"], "the files")


def case_each_of_four_works_fails(room):
    room.write("f", "hi")
    room.write("o", "old")
    room.children("remote", HEAR_WORKS + FOUR + f"""
say(store + "TRANSFER-FAILURE STORE WORM-s2--a no room")
say(get + "TRANSFER-FAILURE RETRIEVE {ABC} not here")
say(check + "CHECKPRESENT-UNKNOWN WORM--c no line")
say(drop + "REMOVE-FAILURE WORM--d read only")
hear()
""")
    out = "1 failed no room\n2 failed not here\n3 unknown no line\n4 failed read only\n"
    expect_run(room, "./remote", FOUR_TASKS, out, busy=4)
    expect(room.text("o"), "old", "the file of the get")
    expect(left(room), ["f", "o"], "the files")


@table([
    ("over a child that takes tags", HEAR_WORKS + """
(a, b), _ = hear_works("TRANSFER STORE WORM-s2--a f", "TRANSFER STORE WORM-s3--b g")
say(b + "TRANSFER-SUCCESS STORE WORM-s3--b")
say(a + "TRANSFER-FAILURE STORE WORM-s2--a no room")
hear()
""", 1),
    ("over two children that take none", """
greet()
for _, words in requests():
    meet("stores", 2)
    if words[2] == "WORM-s3--b":
        say("TRANSFER-SUCCESS STORE WORM-s3--b")
    else:
        say("TRANSFER-FAILURE STORE WORM-s2--a no room")
""", 2),
])
def one_of_two_stores_fails_and_both_are_asked_first(room, child, children):
    room.write("f", "hi")
    room.write("g", "abc")
    room.children("remote", *[child] * children)
    tasks = "store WORM-s2--a f\nstore WORM-s3--b g\n"
    expect_run(room, "./remote", tasks, "1 failed no room\n2 stored\n", jobs=2, children=children, busy=2)


def case_files_that_are_not_stored_beside_one_that_is(room):
    # of the first the file has another size, of the second there is none: nothing is asked for them
    room.write("f", "hi")
    room.write("g", "abc")
    room.children("remote", """
greet("ASYNC")
serve({"TRANSFER STORE WORM-s3--c g": "TRANSFER-SUCCESS STORE WORM-s3--c"})
""")
    tasks = "store WORM-s9--a f\nstore WORM--b none\nstore WORM-s3--c g\n"
    journal = expect_run(room, "./remote", tasks, "1 size 2\n2 nofile\n3 stored\n", jobs=8)
    asked = [entry.line for entry in journal.of("ask") if entry.parts[2] != "0"]
    expect(len(asked), 1, "the requests for tasks")


def case_two_contents_are_fetched_of_which_one_does_not_fit(room):
    room.children("remote", HEAR_WORKS + f"""
(a, b), files = hear_works("TRANSFER RETRIEVE {ABC}", "TRANSFER RETRIEVE {FOO}")
for file in files.values():
    open(file, "w").write("foo")
say(b + "TRANSFER-SUCCESS RETRIEVE {FOO}")
say(a + "TRANSFER-SUCCESS RETRIEVE {ABC}")
hear()
""")
    out = "1 hash acbd18db4cc2f85cedef654fccc4a4d8\n2 got\n"
    expect_run(room, "./remote", f"get {ABC} o\nget {FOO} p\n", out, jobs=2, busy=2)
    expect(room.text("p"), "foo", "what was got")
    expect(left(room), ["p"], "the files")
