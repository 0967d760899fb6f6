"""Runs of which a call fails by its number: a read or a write of a child's pipes, the start of a thread, or a call on a file.

The library that fails them is preloaded, and built by `cc`.
"""

import itertools
import shutil

from harness import ANNEX_REMOTE_DIR, SPECIAL, UUID, expect, preloaded, require, run, table
from runs import check_answers, checks, expect_run

# It ends without a word where nobody reads it any more.
CHILD = """
import signal
signal.signal(signal.SIGPIPE, signal.SIG_DFL)
greet()
serve({"CHECKPRESENT WORM--a": "CHECKPRESENT-SUCCESS WORM--a"})
"""


# The child says four lines and ends; it is told EXTENSIONS, PREPARE and CHECKPRESENT. Then what is printed, and the number of entries.
@table([
    ("the first read", "FAIL_READ", 1, "1 ended readfault\n", 4),
    ("the read after VERSION", "FAIL_READ", 2, "1 ended readfault\n", 8),
    ("the read after EXTENSIONS", "FAIL_READ", 3, "1 ended readfault\n", 12),
    ("the read after PREPARE-SUCCESS", "FAIL_READ", 4, "1 ended readfault\n", 16),
    ("the read after the answer", "FAIL_READ", 5, "1 present\n", 17),
    ("the write of EXTENSIONS", "FAIL_WRITE", 1, "1 unsent\n", 8),
    ("the write of PREPARE", "FAIL_WRITE", 2, "1 unsent\n", 12),
    ("the write of CHECKPRESENT", "FAIL_WRITE", 3, "1 unsent\n", 16),
    ("a write that isn't made", "FAIL_WRITE", 4, "1 present\n", 17),
])
def a_read_or_write_of_the_child_that_fails_is_the_answer(room, name, number, out, entries):
    room.child("remote", CHILD)
    failing = {"LD_PRELOAD": preloaded(room, "tests/failing_calls.c"), name: number}
    status = 0 if out == "1 present\n" else 1
    expect(room.special("check", "./remote", "WORM--a", env=failing), (status, out, ""), "a check")
    words = [SPECIAL, "run", "--program", "./remote", "--uuid", UUID, "--jobs", "1", "--journal", "journal"]
    expect(room.run(words, input="check WORM--a\n", env=failing), (status, out, ""), "a run")
    expect(len(room.journal().entries), entries, "the entries of the run's journal")


ANSWERS = repr(check_answers(a="SUCCESS", b="FAILURE"))
# Answers each check once it was told, or both once both were told.
ONE_BY_ONE = f"serve({ANSWERS})\n"
BOTH = f"""
tags = hear_all("CHECKPRESENT WORM--a", "CHECKPRESENT WORM--b")
say(tags[1] + {ANSWERS}["CHECKPRESENT WORM--b"])
say(tags[0] + {ANSWERS}["CHECKPRESENT WORM--a"])
hear()
"""


def claimers(room, most, bodies):
    """The numbers of the threads that claim two checks, where no more than so many threads start beside the first, whose number is 0."""
    few = {"LD_PRELOAD": preloaded(room, "tests/failing_calls.c"), "MOST_THREADS": most}
    room.children("remote", *bodies)
    journal = expect_run(room, "./remote", checks("a", "b"), "1 present\n2 absent\n", jobs=2, children=len(bodies), env=few)
    return {entry.by for entry in journal.of("claim")}


# A round has a thread that reads, one that writes, and one for each worker.
@table([
    ("no thread", 0, ONE_BY_ONE, 0),
    ("one thread", 1, ONE_BY_ONE, 0),
    ("two threads", 2, ONE_BY_ONE, 0),
    ("three threads", 3, ONE_BY_ONE, 1),
    ("four threads", 4, BOTH, 2),
])
def without_three_threads_the_first_thread_does_the_tasks_over_a_child_with_tags(room, most, body, workers):
    claimed = claimers(room, most, ['greet("ASYNC")\n' + body])
    expect(len(claimed - {0}), workers, "the number of workers")
    expect(0 in claimed, workers == 0, "whether the first thread did a task")


# Answers each check once both children were told one.
MEETS = f"""
for _, words in requests():
    meet("asked", 2)
    say({ANSWERS}[" ".join(words)])
"""


@table([
    ("no thread", 0, ONE_BY_ONE, 0),
    ("one thread", 1, ONE_BY_ONE, 1),
    ("two threads", 2, MEETS, 2),
])
def without_a_thread_the_first_thread_does_the_tasks_over_a_pool(room, most, body, workers):
    claimed = claimers(room, most, ["greet()\n" + body] * 2)
    expect(len(claimed - {0}), workers, "the number of workers")
    expect(0 in claimed, workers == 0, "whether the first thread did a task")


KEY, OLD, NEW = "WORM-s3--there", b"old", b"n" * 70_000
READY = "VERSION 1\nGETCONFIG directory\nPREPARE-SUCCESS\n"


def asked(room, name, request, env=None):
    """What `annex-remote-dir` says to the request once it is ready, and all it says, in a copy of the room's folder `begun`."""
    folder = room.path(name)
    shutil.copytree(room.path("begun"), folder)
    done = run([ANNEX_REMOTE_DIR], f"PREPARE\nVALUE d\n{request}\n", env, folder)
    expect((done.status, done.err), (0, ""), f"the end of {done}")
    return done.out.splitlines()[-1]


def content(room, name):
    """What is there under the key; None if nothing is."""
    directory = room.folder / name / "d"
    places = [path for path in directory.rglob(KEY) if directory / "tmp" not in path.parents]
    require(len(places) < 2, f"one place, not {places}")
    return places[0].read_bytes() if places else None


# A request, how it is answered where no call fails, and what may be there after a call that failed.
@table([
    ("store", f"TRANSFER STORE {KEY} new", f"TRANSFER-SUCCESS STORE {KEY}", [OLD, NEW]),
    ("retrieve", f"TRANSFER RETRIEVE {KEY} out", f"TRANSFER-SUCCESS RETRIEVE {KEY}", [OLD]),
    ("check", f"CHECKPRESENT {KEY}", f"CHECKPRESENT-SUCCESS {KEY}", [OLD]),
    ("remove", f"REMOVE {KEY}", f"REMOVE-SUCCESS {KEY}", [OLD, None]),
])
def a_content_is_whole_or_as_before_whichever_call_on_a_file_fails(room, request, well, may_be):
    failing = preloaded(room, "tests/failing_calls.c")
    room.write("begun/f", OLD)
    expect(run([ANNEX_REMOTE_DIR], f"PREPARE\nVALUE d\nTRANSFER STORE {KEY} f\n", cwd=room.path("begun")).out, READY + f"TRANSFER-SUCCESS STORE {KEY}\n")
    room.write("begun/new", NEW)
    failed = 0
    for number in itertools.count(1):
        name, mark = f"at-{number}", room.path(f"failed-{number}")
        said = asked(room, name, request, {"LD_PRELOAD": failing, "FAIL_FILE": number, "FAILED": mark})
        there = content(room, name)
        if not room.has(mark):
            break
        require(there in may_be, f"call {number} failed: {said!r}, and {there and len(there)} bytes are there")
        if said == well:
            require(there == may_be[-1], f"call {number} failed: {said!r}, but it isn't done")
            require("RETRIEVE" not in request or room.read(f"{name}/out") == OLD, f"call {number} failed: {said!r}, but nothing whole was retrieved")
        else:
            failed += 1
            require(not said.startswith("CHECKPRESENT-FAILURE"), f"call {number} failed: {said!r}")
    expect((said, there), (well, may_be[-1]), "where no call fails")
    require(failed > 0, "no call's failure was told")
