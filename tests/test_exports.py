"""Exports: tasks over files with names of their own. The name of each is said in a line before its request.

`rows/exports.txt` has the answers of each work, over a child that takes no tags.
"""

import os

from annexed import Annex
from harness import ANNEX_REMOTE_DIR, TOP, Done, audit, expect, limits, require, table
from kits import SIGN, signed
from runs import expect_run, status_of
from test_inputs import given, refused
from test_works import ABC, FOO, left

EXPORT = str(TOP / "examples/export-remote.sh")
TAGGED = 'greet("ASYNC")\n'
REQUESTS = ("TRANSFEREXPORT", "CHECKPRESENTEXPORT", "REMOVEEXPORT", "RENAMEEXPORT")


# ---- lines

# An input, and the tasks that its lines are.
@table([
    ("each kind", "xstore WORM--a f\tn\nxget WORM--b g\tn\nxcheck WORM--c n\nxdrop WORM--d n\nxrename WORM--e n\tm\n",
     ["xstore WORM--a f\tn", "xget WORM--b g\tn", "xcheck WORM--c n", "xdrop WORM--d n", "xrename WORM--e n\tm"]),
    ("without the last line's end", "xcheck WORM--a n\nxrename WORM--a n\tm", ["xcheck WORM--a n", "xrename WORM--a n\tm"]),
    ("beside tasks of keys", "check WORM--a\nxcheck WORM--a n\ndrop WORM--a\n", ["check WORM--a", "xcheck WORM--a n", "drop WORM--a"]),
    ("a name with spaces and a folder", "xstore WORM--a a file\tdocs/a b.txt\n", ["xstore WORM--a a file\tdocs/a b.txt"]),
    ("a name that begins and ends with a space", "xget WORM--a f \t n \n", ["xget WORM--a f \t n "]),
    ("a name of a space", "xcheck WORM--a  \n", ["xcheck WORM--a  "]),
    ("names of spaces", "xrename WORM--a  \t \n", ["xrename WORM--a  \t "]),
    ("a name with a byte 13", "xdrop WORM--a n\r\n", ["xdrop WORM--a n\r"]),
    ("a name in other letters", "xrename WORM--a ä ö\tü\n", ["xrename WORM--a ä ö\tü"]),
    ("a name that looks like a message", "xcheck WORM--a J 2 CHECKPRESENT WORM--a\n", ["xcheck WORM--a J 2 CHECKPRESENT WORM--a"]),
    ("a name like the old one", "xrename WORM--a n\tn\n", ["xrename WORM--a n\tn"]),
    ("a file with a byte 9 that is no export's", "store WORM--a a\tb\n", ["store WORM--a a\tb"]),
])
def lines_are_exports(room, text, tasks):
    for size in (1, 3, 4096):
        fails = "".join(f"{n} {'startfault' if n == 1 else 'nochild'}\n" for n in range(1, len(tasks) + 1))
        expect(given(room, text, size, "--journal", "journal"), Done(1, fails, ""), f"in pieces of {size} bytes")
        expect(room.journal().tasks, tasks, f"the tasks, in pieces of {size} bytes")


@table([
    ("a store without a name", "xstore WORM--a f", 1, "name"),
    ("a store with an empty name", "xstore WORM--a f\t\n", 1, "name"),
    ("a store with a second byte 9", "xstore WORM--a f\tn\tm\n", 1, "name"),
    ("a name that is no UTF-8", "xstore WORM--a f\t\udcff\n", 1, "name"),
    ("a get without a name", "xget WORM--a f\n", 1, "name"),
    ("a get of a name that begins with a byte 9", "xget WORM--a f\t\tn\n", 1, "name"),
    ("a check without a name", "xcheck WORM--a\n", 1, "name"),
    ("a check of an empty name", "xcheck WORM--a \n", 1, "name"),
    ("a check of a name with a byte 9", "xcheck WORM--a n\tm\n", 1, "name"),
    ("a check of a name that is no UTF-8", "xcheck WORM--a n\udcff\n", 1, "name"),
    ("a drop without a name", "xdrop WORM--a\n", 1, "name"),
    ("a drop of a name that ends with a byte 9", "xdrop WORM--a n\t\n", 1, "name"),
    ("no new name", "xrename WORM--a n\n", 1, "name"),
    ("an empty new name", "xrename WORM--a n\t\n", 1, "name"),
    ("an empty old name", "xrename WORM--a \tm\n", 1, "name"),
    ("no names", "xrename WORM--a\n", 1, "name"),
    ("three names", "xrename WORM--a n\tm\to\n", 1, "name"),
    ("an old name that is no UTF-8", "xrename WORM--a \udcc3\tm\n", 1, "name"),
    ("a new name that is no UTF-8", "xrename WORM--a n\t\udcc3\n", 1, "name"),
    ("no file, before no name", "xstore WORM--a \n", 1, "file"),
    ("no file, before a name", "xget WORM--a \tn\n", 1, "file"),
    ("neither a file nor a space", "xstore WORM--a\n", 1, "file"),
    ("a file that is no UTF-8, before its name", "xget WORM--a \udcff\t\n", 1, "file"),
    ("a chunk's key, before its name", "xcheck WORM-s9-S4-C1--a\n", 1, "chunkkey"),
    ("a key that ends with a byte 9", "xdrop WORM--a\tn\n", 1, "unsendable"),
    ("a key with a byte 127, before its name", "xrename WORM--a\x7f n\n", 1, "unsendable"),
    ("what is no key", "xcheck x n\n", 1, "key"),
    ("no key", "xrename  n\tm\n", 1, "key"),
    ("a word alone", "xget\n", 1, "key"),
    ("another word", "xlist WORM--a n\n", 1, "word"),
    ("upper case", "XStore WORM--a f\tn\n", 1, "word"),
    ("the second line", "xcheck WORM--a n\nxdrop WORM--a\nx\n", 2, "name"),
])
def a_line_that_is_no_export_is_refused(room, text, number, reason):
    for size in (1, 5, 4096):
        expect(given(room, text, size, "--journal", "journal"), refused(number, reason), f"in pieces of {size} bytes")
    expect(room.has("journal"), False, "a journal file was made")


# ---- on the wire

def expect_pairs(room, program, journal, children=1):
    """Each name is directly followed by a request about it, of the same job, in the journal and in what each child heard."""
    leads = asks = 0
    for before, after in zip(journal.entries, journal.entries[1:]):
        if before.word == "lead":
            leads += 1
            expect((after.word, after.parts[:2]), ("ask", before.parts[:2]), f"what follows entry {before.place}")
    for child in range(1, children + 1):
        heard = [line[2:] for line in room.text(f"{program}.{child}.log").split("\n") if line.startswith("< ")]
        words = [untagged(line) for line in heard]
        for at, (tag, word) in enumerate(words):
            if word == "EXPORT" and at + 1 < len(words):
                require(words[at + 1][0] == tag and words[at + 1][1] in REQUESTS, f"{heard[at]!r} is followed by {heard[at + 1]!r}")
            if word in REQUESTS:
                asks += 1
                require(at > 0 and words[at - 1] == (tag, "EXPORT"), f"{heard[at]!r} has no name before it")
    return leads, asks


def untagged(line):
    """The tag and the first word of a line."""
    tag, line = (line.split(" ", 2)[:2], line.split(" ", 2)[2]) if line.startswith("J ") else (None, line)
    return tag, line.split(" ")[0]


FIVE_TASKS = f"xstore WORM-s2--a f\tdocs/a b\nxget {ABC} o\tc\nxcheck WORM--c d\nxdrop WORM--d e\nxrename WORM--e g\th\n"
FIVE = f"""
greet("ASYNC")
found = hear_exports("docs/a b", "c", "d", "e", "g")
(store, words), (get, fetch), (check, _), (drop, _), (rename, renamed) = [found[name] for name in ("docs/a b", "c", "d", "e", "g")]
assert words == ["TRANSFEREXPORT", "STORE", "WORM-s2--a", "f"], words
assert fetch[:3] == ["TRANSFEREXPORT", "RETRIEVE", "{ABC}"], fetch
assert renamed == ["RENAMEEXPORT", "WORM--e", "h"], renamed
"""


def case_each_of_five_works_is_done_when_all_are_asked(room):
    room.write("f", "hi")
    room.children("remote", FIVE + f"""
say(rename + "RENAMEEXPORT-SUCCESS WORM--e")
say(drop + "REMOVE-SUCCESS WORM--d")
open(fetch[3], "w").write("abc")
say(get + "PROGRESS 3", get + "TRANSFER-SUCCESS RETRIEVE {ABC}")
say(check + "CHECKPRESENT-SUCCESS WORM--c", store + "TRANSFER-SUCCESS STORE WORM-s2--a")
hear()
""")
    out = "1 stored\n2 got\n3 present\n4 dropped\n5 renamed\n"
    journal = expect_run(room, "./remote", FIVE_TASKS, out, jobs=5, busy=5)
    expect(expect_pairs(room, "remote", journal), (5, 5), "names and requests")
    expect(room.text("o"), "abc", "what was got")
    expect(left(room), ["f", "o"], "the files")


def case_each_of_five_works_fails(room):
    room.write("f", "hi")
    room.write("o", "old")
    room.children("remote", FIVE + f"""
say(store + "TRANSFER-FAILURE STORE WORM-s2--a no room")
say(get + "TRANSFER-FAILURE RETRIEVE {ABC} not here")
say(check + "CHECKPRESENT-UNKNOWN WORM--c no line")
say(drop + "REMOVE-FAILURE WORM--d read only")
say(rename + "RENAMEEXPORT-FAILURE WORM--e")
hear()
""")
    out = "1 failed no room\n2 failed not here\n3 unknown no line\n4 failed read only\n5 failed \n"
    expect_run(room, "./remote", FIVE_TASKS, out, jobs=5, busy=5)
    expect(room.text("o"), "old", "the file of the get")
    expect(left(room), ["f", "o"], "the files")


def case_none_of_five_works_is_known(room):
    room.write("f", "hi")
    room.children("remote", FIVE + 'say(*[tag + "UNSUPPORTED-REQUEST" for tag, _ in found.values()])\nhear()\n')
    out = "".join(f"{n} unsupported\n" for n in range(1, 6))
    expect_run(room, "./remote", FIVE_TASKS, out, jobs=5, busy=5)
    expect(left(room), ["f"], "the files")


def case_two_contents_are_fetched_of_which_one_does_not_fit(room):
    room.children("remote", TAGGED + f"""
found = hear_exports("n", "m")
for tag, words in found.values():
    open(words[3], "w").write("foo")
    say(tag + f"TRANSFER-SUCCESS RETRIEVE {{words[2]}}")
hear()
""")
    out = "1 hash acbd18db4cc2f85cedef654fccc4a4d8\n2 got\n"
    expect_run(room, "./remote", f"xget {ABC} o\tn\nxget {FOO} p\tm\n", out, jobs=2, busy=2)
    expect(left(room), ["p"], "the files")


def many_exports(count):
    """So many tasks of exports and of keys: the tasks, and what is printed."""
    kinds = [("xcheck WORM--{n} a {n}", "present"), ("xdrop WORM--{n} b/{n}", "dropped"),
             ("check WORM--{n}", "present"), ("xrename WORM--{n} c {n}\td {n}", "renamed")]
    rows = [(kinds[n % 4][0].format(n=n), kinds[n % 4][1]) for n in range(count)]
    return "".join(task + "\n" for task, _ in rows), "".join(f"{n} {answer}\n" for n, (_, answer) in enumerate(rows, 1))


# It keeps some requests, and in their jobs asks the host for values and sets some, so that the host's replies go between the
# lines of other jobs. An end of the jobs is answered in any order.
ASKS_MEANWHILE = """
import random, select
number = random.Random(SEED)
FINALS = {"CHECKPRESENT": "CHECKPRESENT-SUCCESS", "CHECKPRESENTEXPORT": "CHECKPRESENT-SUCCESS", "REMOVEEXPORT": "REMOVE-SUCCESS",
          "RENAMEEXPORT": "RENAMEEXPORT-SUCCESS"}
greet("ASYNC")
opened, named = [], None
while True:
    tag, line = untagged(hear())
    word = line.split(" ")[0]
    if named is not None and (tag != named or word not in EXPORTS):
        sys.exit(f"child: {tag}{line} came after the name of {named}")
    named = tag if word == "EXPORT" else None
    if word in FINALS:
        opened.append((tag, line.split(" ")))
        say(*[tag + number.choice(["GETUUID", "GETCONFIG a", "GETSTATE WORM--0", "DEBUG x", "PROGRESS 1"]) for _ in range(3)])
    # Answers wait for more requests, but not for ones that may never come.
    while opened and (len(opened) > LIMIT or number.random() < 0.3 or not select.select([0], [], [], 0.02)[0]):
        tag, words = opened.pop(number.randrange(len(opened)))
        say(tag + f"{FINALS[words[0]]} {words[1]}")
"""


@limits(60)
@table([(f"{jobs} workers, seed {seed}", jobs, seed) for jobs in (2, 8, 64) for seed in (1, 2, 3)])
def names_and_their_requests_are_not_parted_by_other_jobs(room, jobs, seed):
    tasks, out = many_exports(120)
    room.children("remote", f"SEED, LIMIT = {seed}, {jobs - 1}\n" + ASKS_MEANWHILE)
    journal = expect_run(room, "./remote", tasks, out, jobs=jobs, busy=2)
    expect(expect_pairs(room, "remote", journal), (90, 90), "names and requests")


@limits(60)
@table([(f"{jobs} children", jobs) for jobs in (2, 8)])
def names_are_said_to_children_without_tags(room, jobs):
    tasks, out = many_exports(40)
    body = """
greet()
final = {"CHECKPRESENT": "CHECKPRESENT", "CHECKPRESENTEXPORT": "CHECKPRESENT", "REMOVEEXPORT": "REMOVE", "RENAMEEXPORT": "RENAMEEXPORT"}
for _, words in requests():
    if words[0] != "EXPORT":
        assert ask("GETUUID") == UUID
        say(f"{final[words[0]]}-SUCCESS {words[1]}")
"""
    room.children("remote", *[f"UUID = {'c0ffee00-0000-4000-8000-000000000001'!r}\n" + body] * jobs)
    journal = expect_run(room, "./remote", tasks, out, jobs=jobs, children=jobs)
    expect(expect_pairs(room, "remote", journal, jobs), (30, 30), "names and requests")


# ---- tasks that wait

@table([
    ("a drop for a check of its name", "xcheck WORM--a n", "xdrop WORM--b n", "xcheck WORM--c m"),
    ("a store for a drop of its name", "xdrop WORM--a n", "xstore WORM-s2--b f\tn", "xstore WORM-s3--c g\tm"),
    ("a get for a store of its name", "xstore WORM-s2--a f\tn", "xget WORM-s2--b o\tn", "xget WORM-s3--c p\tm"),
    ("a check for the new name of a rename", "xrename WORM--a n\tm", "xcheck WORM--b m", "xcheck WORM--c o"),
    ("a check for the old name of a rename", "xrename WORM--a n\tm", "xcheck WORM--b n", "xcheck WORM--c o"),
    ("a rename for its old name", "xcheck WORM--a n", "xrename WORM--b n\tm", "xrename WORM--c o\tp"),
    ("a rename for its new name", "xcheck WORM--a m", "xrename WORM--b n\tm", "xrename WORM--c o\tp"),
    ("a rename for the new name of another", "xrename WORM--a n\tm", "xrename WORM--b m\to", "xrename WORM--c p\tq"),
    ("a drop for a check of its key, whatever the names", "xcheck WORM--a n", "xdrop WORM--a m", "xcheck WORM--c o"),
    ("a check of a key for an export of it", "xdrop WORM--a n", "check WORM--a", "check WORM--c"),
    ("a get into the file of a store", "xstore WORM-s2--a f\tn", "xget WORM-s2--b f\tm", "xcheck WORM--c o"),
    ("a get into the part of a file that is stored", "xstore WORM-s2--a o.part\tn", "xget WORM-s2--b o\tm", "xcheck WORM--c p"),
])
def a_task_waits_and_one_that_shares_nothing_goes_before(room, first, second, third):
    for name, content in (("f", "hi"), ("g", "abc"), ("o.part", "hi")):
        room.write(name, content)
    room.children("remote", TAGGED + PAIRS_OR_CHECKS + """
a, c = next_one(), next_one()
finish(c)
finish(a)
finish(next_one())
hear()
""")
    words = {"xstore": "stored", "xget": "got", "xcheck": "present", "xdrop": "dropped", "xrename": "renamed", "check": "present"}
    out = "".join(f"{n} {words[task.split(' ')[0]]}\n" for n, task in enumerate((first, second, third), 1))
    journal = expect_run(room, "./remote", f"{first}\n{second}\n{third}\n", out, jobs=8, busy=2)
    require(journal.waits(1, 2), "the second task is claimed before the first is answered")
    require(journal.most_busy() == 2, "three tasks are open at once")


# `next_one` hears a request, with its name where it has one; `finish` says that it is done.
PAIRS_OR_CHECKS = """
contents = {"WORM-s2--b": "hi", "WORM-s3--c": "abc"}


def next_one():
    tag, line = untagged(hear())
    if line.startswith("EXPORT "):
        own, line = untagged(hear())
        assert own == tag and line.split(" ")[0] in EXPORTS, line
    return tag, line.split(" ", 3)


def finish(one):
    tag, words = one
    if words[0] == "TRANSFEREXPORT":
        if words[1] == "RETRIEVE":
            open(words[3], "w").write(contents[words[2]])
        say(tag + f"TRANSFER-SUCCESS {words[1]} {words[2]}")
    else:
        final = {"CHECKPRESENTEXPORT": "CHECKPRESENT", "REMOVEEXPORT": "REMOVE"}.get(words[0], words[0])
        say(tag + f"{final}-SUCCESS {words[1]}")
"""


@table([
    ("names that only begin alike", "xcheck WORM--a n", "xdrop WORM--b n.part"),
    ("names of one folder", "xcheck WORM--a docs/n", "xcheck WORM--b docs/m"),
    ("a name and a file", "xcheck WORM--a f", "xstore WORM-s2--b f\tn"),
    ("a name and another's letters", "xdrop WORM--a n", "xdrop WORM--b N"),
    ("two files, two names", "xstore WORM-s2--a f\tn", "xstore WORM-s3--b g\tm"),
])
def tasks_that_share_no_name_go_side_by_side(room, first, second):
    room.write("f", "hi")
    room.write("g", "abc")
    room.children("remote", TAGGED + PAIRS_OR_CHECKS + "a, b = next_one(), next_one()\nfinish(b)\nfinish(a)\nhear()\n")
    words = {"xstore": "stored", "xcheck": "present", "xdrop": "dropped"}
    out = "".join(f"{n} {words[task.split(' ')[0]]}\n" for n, task in enumerate((first, second), 1))
    expect_run(room, "./remote", f"{first}\n{second}\n", out, jobs=2, busy=2)


# ---- a child that ends

# Hears its first two lines, and as many bytes more as come before the end of the third.
HEARS_A_NAME = """
def line():
    text = b""
    while not text.endswith(b"\\n"):
        byte = os.read(0, 1)
        if not byte:
            sys.exit(0)
        text += byte
    note(b"< ", text[:-1])
    return text
say("VERSION 1")
line()
say("EXTENSIONS")
line()
say("PREPARE-SUCCESS")
require_start(line().decode(), "EXPORT n")
"""


@table([
    ("ends", "sys.exit(0)\n", ("ended eof", "unsent")),
    ("is killed", "os.kill(os.getpid(), 9)\n", ("ended eof", "unsent")),
    ("closes its input and says nothing", "os.close(0)\ntime.sleep(0.1)\n", ("ended eof", "unsent")),
    ("says half a line", 'say_cut("CHECKPRESENT-SUC")\n', ("ended eof", "unsent")),
    ("says ERROR", 'say("ERROR no names")\nhear()\n', ("ended error no names", "unsent")),
])
def a_child_that_goes_between_a_name_and_its_request_is_told_once(room, last_words, answers):
    # What was written whole before it went is the schedule's.
    room.children("remote", HEARS_A_NAME + last_words, "greet()\nserve_exports({'m: REMOVEEXPORT WORM--b': 'REMOVE-SUCCESS WORM--b'})\n")
    done = room.run_command("./remote", "xcheck WORM--a n\nxdrop WORM--b m\n", "--jobs", "1", "--starts", "2")
    require(done in [Done(1, f"1 {answer}\n2 dropped\n", "") for answer in answers], f"wanted one of {answers}, got {done}")
    expect(audit(room.text("journal")), Done(0, "legal\n", ""), "the audit")
    expect_pairs(room, "remote", room.journal(), 2)


@table([
    ("with all five asked", FIVE, ["ended eof"] * 5),
    ("after a line of no job", FIVE + 'say("J 99 REMOVE-SUCCESS WORM--d")\nhear()\n', ["foul J 99 REMOVE-SUCCESS WORM--d"] * 5),
    ("after an answer to another's request", FIVE + 'say(rename + "REMOVE-SUCCESS WORM--d")\nhear()\n',
     ["foul J {rename} REMOVE-SUCCESS WORM--d"] * 5),
])
def a_child_with_tags_ends_and_the_next_does_the_rest(room, body, answers):
    room.write("f", "hi")
    room.children("remote", body, TAGGED + "serve_exports({'z: CHECKPRESENTEXPORT WORM--z': 'CHECKPRESENT-SUCCESS WORM--z'})\n")
    done = room.run_command("./remote", FIVE_TASKS + "xcheck WORM--z z\n", "--jobs", "5", "--starts", "2")
    journal = room.journal()
    rename = next((entry.parts[1] for entry in journal.of("lead") if entry.line.endswith(" EXPORT g")), None)
    out = "".join(f"{n} {answer.format(rename=rename)}\n" for n, answer in enumerate([*answers, "present"], 1))
    expect(done, Done(1, out, ""))
    expect(audit(room.text("journal")), Done(0, "legal\n", ""), "the audit")
    expect(expect_pairs(room, "remote", journal, 2), (6, 6), "names and requests")
    expect(left(room), ["f"], "the files")


def case_a_child_with_tags_ends_after_one_answer(room):
    # The worker that was answered has asked for the last task by then.
    room.write("f", "hi")
    room.children("remote", FIVE + 'say(drop + "REMOVE-SUCCESS WORM--d")\nhear_exports("z")\n')
    out = "1 ended eof\n2 ended eof\n3 ended eof\n4 dropped\n5 ended eof\n6 ended eof\n"
    journal = expect_run(room, "./remote", FIVE_TASKS + "xcheck WORM--z z\n", out, jobs=5, busy=5)
    expect(expect_pairs(room, "remote", journal), (6, 6), "names and requests")


# ---- remotes

def case_a_kit_knows_no_exports(room):
    room.write("f", "hi")
    room.write("keep", f"annex-keep 1\nconfig directory {signed(room.mkdir('folder'))}\n")
    tasks = "xcheck WORM--a n\n" + FIVE_TASKS + "check WORM--a\n"
    for jobs in ("1", "5"):
        done = room.run_command(ANNEX_REMOTE_DIR, tasks, "--jobs", jobs, "--keep", "keep")
        expect(done, Done(1, "".join(f"{n} unsupported\n" for n in range(1, 7)) + "7 absent\n", ""), f"{jobs} jobs")
        expect(audit(room.text("journal")), Done(0, "legal\n", ""), "the audit")
    expect(os.listdir(room.path("folder")), [SIGN], "the remote's files")


def export(room, tasks, jobs):
    """Does the tasks over the small remote that exports into a folder."""
    env = {"REMOTE_DIR": room.mkdir("site")}
    done = room.run_command(EXPORT, tasks, "--jobs", str(jobs), env=env)
    expect(audit(room.text("journal")), Done(0, "legal\n", ""), "the audit")
    return done


def site(room):
    """The names of the folder that is exported to, and what is in them."""
    names = [os.path.relpath(f"{top}/{name}", room.path("site")) for top, _, names in os.walk(room.path("site")) for name in names]
    return {name: room.text(f"site/{name}") for name in sorted(names)}


@table([("one job", 1), ("four jobs", 4)])
def files_are_exported_got_renamed_and_removed(room, jobs):
    room.write("f", "hi")
    room.write("g h", "abc")
    tasks = f"xstore WORM-s2--a f\tdocs/a b.txt\nxstore {ABC} g h\tc\n"
    expect(export(room, tasks, jobs), Done(0, "1 stored\n2 stored\n", ""), "two stores")
    expect(site(room), {"c": "abc", "docs/a b.txt": "hi"}, "what is exported")
    tasks = f"xrename {ABC} c\tdocs/d\nxcheck {ABC} c\nxget {ABC} o\tdocs/d\n"
    tasks += "xdrop WORM-s2--a docs/a b.txt\nxcheck WORM-s2--a docs/a b.txt\n"
    out = "1 renamed\n2 absent\n3 got\n4 dropped\n5 absent\n"
    expect(export(room, tasks, jobs), Done(1, out, ""), "the name that is changed")
    expect((site(room), room.text("o")), ({"docs/d": "abc"}, "abc"), "what is exported, and what was got")


def case_what_is_exported_is_replaced_and_renamed_over(room):
    for name, content in (("f", "hi"), ("g", "abc")):
        room.write(name, content)
    tasks = f"xstore WORM-s2--a f\tn\nxstore {ABC} g\tn\nxstore WORM-s2--a f\tm\nxrename WORM-s2--a m\tn\nxrename WORM-s2--a m\to\n"
    # By one worker, in the order of the list: by several the last one needn't wait for the second, as the one before it does.
    done = export(room, tasks, 1)
    expect(done, Done(1, "1 stored\n2 stored\n3 stored\n4 renamed\n5 failed \n", ""))
    expect(site(room), {"n": "hi"}, "what is exported")


@table([("a folder above", "../x"), ("within", "a/../../x"), ("at the end", "a/.."), ("absolute", "/x"), ("the folder above", "..")])
def a_name_that_leaves_the_folder_is_refused(room, name):
    room.write("f", "hi")
    name = room.path("x") if name == "/x" else name
    tasks = f"xstore WORM-s2--a f\t{name}\nxget WORM-s2--b o\t{name}\nxcheck WORM--c {name}\nxdrop WORM--d {name}\n"
    tasks += f"xrename WORM--e {name}\tm\nxstore WORM-s2--g f\tn\nxrename WORM--h n\t{name}\n"
    done = export(room, tasks, 1)
    lines = [f"failed cannot copy {name}", f"failed cannot copy {name}", f"unknown outside the folder: {name}",
             f"failed cannot remove {name}", "failed ", "stored", "failed "]
    out = "".join(f"{n} {line}\n" for n, line in enumerate(lines, 1))
    expect(done, Done(status_of(out), out, ""))
    expect((site(room), left(room)), ({"n": "hi"}, ["f", "site"]), "the files")


@limits(60)
def case_what_git_annex_exported_is_got_renamed_and_found_by_git_annex(room):
    annex = Annex(room)
    os.symlink(EXPORT, room.path("bin/git-annex-remote-exporting"))
    annex.add({"docs/a b.txt": "hello\n", "c": "two\n"})
    words = ["type=external", "externaltype=exporting", "encryption=none", "exporttree=yes", f"directory={room.mkdir('site')}"]
    annex.well("git", "annex", "initremote", "-q", "site", *words)
    annex.well("git", "annex", "export", "-q", "HEAD", "--to=site")
    expect(site(room), {"c": "two\n", "docs/a b.txt": "hello\n"}, "what git-annex exported")
    key = annex.key("docs/a b.txt")
    tasks = f"xget {key} got\tdocs/a b.txt\nxrename {key} docs/a b.txt\tn\nxcheck {key} n\nxrename {key} n\tdocs/a b.txt\n"
    done = export(room, tasks, 1)
    expect((done, room.text("got")), (Done(0, "1 got\n2 renamed\n3 present\n4 renamed\n", ""), "hello\n"), "a run")
    annex.well("git", "annex", "fsck", "-q", "--from=site")
    annex.well("git", "mv", "docs/a b.txt", "d")
    annex.well("git", "rm", "-q", "c")
    annex.well("git", "commit", "-qm", "another name")
    annex.well("git", "annex", "export", "-q", "HEAD", "--to=site")
    expect((site(room), os.listdir(room.path("site"))), ({"d": "hello\n"}, ["d"]), "what git-annex left")


def case_the_small_remote_says_that_it_exports(room):
    done = room.special("info", EXPORT, env={"REMOTE_DIR": room.mkdir("site")})
    out = ("config directory the folder that files are exported to\ncost unsupported\navailability unsupported\ninfos unsupported\n"
           "export supported\n")
    expect(done, Done(0, out, ""))
