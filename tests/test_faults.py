"""What the programs say where a stream or a file fails."""

import os
import shutil
import time

from faults import closed_output, failing_input, limited
from harness import ANNEX_REMOTE_DIR, SPECIAL, UUID, Done, audit, expect, finish, require, run, start, table

EMPTY = "annex-journal 2\nuuid 00000000-0000-0000-0000-000000000000\nname \ngitdir \nstamp 0\nagain 0\nbegin\nend 0\n"
RUN = ["run", "--program", "./remote.sh", "--uuid", UUID, "--jobs", "1", "--work", "w"]
FAILED = "special: file failed\n"

# A remote that is set up, that has each key, and gives as content what $CONTENT is. It leaves a mark where it is started.
REMOTE = """
ulimit -S -f unlimited
: > started
echo "VERSION 1"
while IFS= read -r line; do
  case "$line" in
    EXTENSIONS*) echo EXTENSIONS ;;
    PREPARE) echo PREPARE-SUCCESS ;;
    INITREMOTE) echo "SETSTATE WORM--a there"; eval "$DURING"; echo INITREMOTE-SUCCESS ;;
    CHECKPRESENT*) echo "SETSTATE WORM--a there"; eval "$DURING"; echo "CHECKPRESENT-SUCCESS ${line#* }" ;;
    TRANSFER\\ RETRIEVE*)
      words=${line#TRANSFER RETRIEVE }
      if [ -n "$FETCH" ]; then eval "$FETCH"; else printf abc > "${words#* }"; fi
      echo "TRANSFER-SUCCESS RETRIEVE ${words%% *}" ;;
    *) echo UNSUPPORTED-REQUEST ;;
  esac
done
"""


def furnish(room):
    """The remote, and a folder for what is fetched."""
    room.script("remote.sh", REMOTE)
    room.mkdir("w")


@table([
    ("run: the first read", RUN, b""),
    ("run: after a task", RUN, b"check WORM--a\n"),
    ("run: after a line that would be refused", RUN, b"get\n"),
    ("audit: the first read", ["audit"], b""),
    ("audit: after a whole text", ["audit"], EMPTY.encode()),
    ("audit: after a line that would be refused", ["audit"], b"x\ny\n"),
])
def an_input_that_cannot_be_read_is_told_and_nothing_is_started(room, words, data):
    furnish(room)
    with failing_input(data) as source:
        done = finish(room.start([SPECIAL, *words], stdin=source))
    expect(done, Done(4, "", "special: input failed\n"))
    expect(room.has("started"), False, "a child was started")


# The words, the input, and the first seven bytes of what is printed.
PRINTS = [
    ("check", ["check", "./remote.sh", "WORM--a"], "", b"1 prese"),
    ("info", ["info", "./remote.sh"], "", b"configs"),
    ("init", ["init", "./remote.sh", UUID, "keep"], "", b"initial"),
    ("run", RUN, "check WORM--a\n", b"1 prese"),
    ("audit, legal", ["audit"], EMPTY, b"legal\n"[:5]),
    ("audit, wrong", ["audit"], EMPTY.replace("end 0", "0 sent 1\nend 1"), b"wrong 0"),
    ("help", ["--help"], "", b"special"),
    ("version", ["--version"], "", b"special"),
]


@table(PRINTS)
def a_write_to_out_that_fails_is_the_status(room, words, given, front):
    furnish(room)
    with open("/dev/full", "wb") as full:
        done = finish(room.start([SPECIAL, *words], stdout=full), given)
    expect(done, Done(5, "", ""), "the first write fails")
    with closed_output() as closed:
        done = finish(room.start([SPECIAL, *words], stdout=closed), given)
    expect(done, Done(5, "", ""), "a pipe that nobody reads")
    with open(room.path("out"), "wb") as out:
        done = finish(room.start(limited(len(front), [SPECIAL, *words]), stdout=out), given)
    expect((done, room.read("out")), (Done(5, "", ""), front), "a write in the middle fails")


def case_a_write_to_err_that_fails_is_the_status(room):
    with open("/dev/full", "wb") as full:
        expect(finish(start([SPECIAL, "chek"], stderr=full)), Done(5, "", ""))


def init(room, size=None, env=None):
    words = [SPECIAL, "init", "./remote.sh", UUID, "keep", "a=c"]
    return room.run(words if size is None else limited(size, words), env=env)


def case_a_kept_file_that_cannot_be_read_ends_an_init_and_a_run_before_any_child(room):
    furnish(room)
    room.mkdir("keep")
    expect(init(room), Done(6, "", FAILED), "init")
    expect(room.special(*RUN, "--keep", "keep", input="check WORM--a\n"), Done(6, "", FAILED), "run")
    expect(room.has("started"), False, "a child was started")


def case_a_kept_file_that_cannot_be_made_is_told_after_the_answer(room):
    furnish(room)
    room.write("keep", "annex-keep 1\nconfig a b\n")
    room.write("keep.new/file")
    expect(init(room), Done(6, "initialized\n", FAILED), "init")
    expect(room.special(*RUN, "--keep", "keep", input="check WORM--a\n"), Done(6, "1 present\n", FAILED), "run")
    expect(room.text("keep"), "annex-keep 1\nconfig a b\n", "the kept file")


def case_a_kept_file_that_cannot_be_added_to_is_told_after_the_answer(room):
    furnish(room)
    room.write("keep", "annex-keep 1\nconfig a b\n")
    expect(init(room, size=20), Done(6, "initialized\n", FAILED), "init")
    words = limited(20, [SPECIAL, *RUN, "--keep", "keep"])
    expect(room.run(words, input="check WORM--a\n"), Done(6, "1 present\n", FAILED), "run")
    expect(room.text("keep"), "annex-keep 1\nconfig a b\n", "the kept file")


@table([("init", None), ("run", "check WORM--a\n")])
def a_kept_file_that_cannot_be_replaced_is_told_after_the_answer(room, tasks):
    furnish(room)
    room.write("keep", "annex-keep 1\nconfig a b\n")
    env = {"DURING": "rm keep; mkdir keep keep/full"}
    if tasks is None:
        done, answer = init(room, env=env), "initialized\n"
    else:
        done, answer = room.special(*RUN, "--keep", "keep", input=tasks, env=env), "1 present\n"
    expect(done, Done(6, answer, FAILED))
    require(room.has("keep/full"), "what is in the place of the kept file stays")


def case_an_init_whose_answer_cannot_be_written_has_kept_what_was_set(room):
    furnish(room)
    with open("/dev/full", "wb") as full:
        done = finish(room.start([SPECIAL, "init", "./remote.sh", UUID, "keep", "a=c"], stdout=full))
    expect(done, Done(5, "", ""))
    expect(room.text("keep"), "annex-keep 1\nconfig a c\nstate WORM--a there\n", "the kept file")


def case_where_nothing_fails_the_same_files_are_written(room):
    furnish(room)
    room.write("keep", "annex-keep 1\nconfig a b\n")
    expect(init(room), Done(0, "initialized\n", ""), "init")
    expect(room.text("keep"), "annex-keep 1\nconfig a c\nstate WORM--a there\n", "the kept file")
    expect(room.has("keep.new"), False, "the file by which it is replaced")


def journaled(room, *words, size=None):
    words = [SPECIAL, *RUN, "--keep", "keep", "--journal", "journal", *words]
    return room.run(words if size is None else limited(size, words), input="check WORM--a\n")


def case_a_journal_file_that_cannot_be_made_is_told_and_the_kept_file_was_written(room):
    furnish(room)
    room.mkdir("journal")
    expect(journaled(room), Done(6, "1 present\n", FAILED))
    expect(room.text("keep"), "annex-keep 1\nstate WORM--a there\n", "the kept file")


def case_a_journal_file_that_cannot_be_written_to_stays_as_it_was(room):
    # A program that runs can't be written to.
    furnish(room)
    shutil.copy(SPECIAL, room.path("journal"))
    before = room.read("journal")
    running = room.start(["./journal", "audit"])
    expect(journaled(room), Done(6, "1 present\n", FAILED))
    require(room.read("journal") == before, "the file is as it was")
    expect(room.text("keep"), "annex-keep 1\nstate WORM--a there\n", "the kept file")
    expect(finish(running, EMPTY), Done(0, "legal\n", ""), "the program that ran")


# The kept file has 33 bytes; the lines of the journal end after 16, 58, 70 and 82 bytes.
@table([("one line fits", 40, 16), ("three lines fit", 75, 70), ("four lines fit", 82, 82)])
def a_journal_file_that_cannot_be_added_to_has_its_first_lines(room, size, whole):
    furnish(room)
    expect(journaled(room, size=size), Done(6, "1 present\n", FAILED))
    expect(room.text("keep"), "annex-keep 1\nstate WORM--a there\n", "the kept file")
    lines = "annex-journal 2\n" + f"uuid {UUID}\n" + "name remote\ngitdir .git\n"
    expect(room.text("journal")[:whole], lines[:whole], "the journal file")
    require(len(room.read("journal")) <= size, "the journal file ends where the write failed")


def case_a_journal_goes_into_a_device_that_is_full(room):
    furnish(room)
    done = room.special(*RUN, "--journal", "/dev/full", input="check WORM--a\n")
    expect(done, Done(6, "1 present\n", FAILED))


def case_a_kept_file_that_cannot_be_written_leaves_the_journal_file_whole(room):
    furnish(room)
    room.write("keep", "annex-keep 1\nstate WORM--a here\n")
    room.mkdir("keep.new")
    expect(journaled(room), Done(6, "1 present\n", FAILED))
    expect(room.text("keep"), "annex-keep 1\nstate WORM--a here\n", "the kept file")
    expect(room.journal().keep, ["state WORM--a here"], "what the run began with")
    expect(audit(room.text("journal")), Done(0, "legal\n", ""), "the audit")


def case_where_neither_the_kept_file_nor_the_journal_file_can_be_made_it_is_told_once(room):
    furnish(room)
    room.mkdir("keep.new")
    room.mkdir("journal")
    expect(journaled(room), Done(6, "1 present\n", FAILED))


GET = "get MD5-s3--900150983cd24fb0d6963f7d28e17f72 o\n"


# What is in the way, what the remote does to fetch, and the largest file.
@table([
    ("the fetched file cannot be read", [], "mkdir \"${words#* }\"", None),
    ("the part cannot be made", ["o.part/full"], None, None),
    ("the part cannot be added to", [], None, 2),
])
def a_get_whose_files_fail_leaves_the_old_file(room, files, fetch, size):
    furnish(room)
    room.write("o", "old")
    for name in files:
        room.write(name)
    words = [SPECIAL, *RUN]
    env = {"FETCH": fetch} if fetch else {}
    done = room.run(words if size is None else limited(size, words), input=GET, env=env)
    expect(done, Done(1, "1 filefault\n", ""))
    expect(room.text("o"), "old", "the file")


def case_a_get_whose_part_cannot_be_named_leaves_what_is_there(room):
    furnish(room)
    room.write("o/full", "old")
    expect(room.special(*RUN, input=GET), Done(1, "1 filefault\n", ""))
    expect(room.text("o/full"), "old", "what is in the place of the file")


def case_a_folder_is_no_file_to_store(room):
    furnish(room)
    room.mkdir("folder")
    expect(room.special(*RUN, input="store WORM--a folder\n"), Done(1, "1 filefault\n", ""))


def case_chunks_whose_folder_becomes_a_file_are_not_stored(room):
    furnish(room)
    room.write("f", "0123456789")
    words = ["run", "--program", "./remote.sh", "--uuid", UUID, "--jobs", "1", "--work", "w", "--chunk", "4"]
    env = {"DURING": "rm -rf w; : > w"}
    expect(room.special(*words, input="store WORM-s10--ten f\n", env=env), Done(0, "1 stored\n", ""), "each chunk is there")
    os.remove(room.path("w"))
    room.script("remote.sh", REMOTE.replace("CHECKPRESENT-SUCCESS", "CHECKPRESENT-FAILURE"))
    expect(room.special(*words, input="store WORM-s10--ten f\n", env=env), Done(1, "1 filefault\n", ""), "none is there")


def case_a_drop_needs_no_file(room):
    room.script("remote.sh", REMOTE.replace("INITREMOTE)", "REMOVE*) echo \"REMOVE-SUCCESS ${line#* }\" ;;\n    INITREMOTE)"))
    words = ["run", "--program", "./remote.sh", "--uuid", UUID, "--work", "empty"]
    expect(room.special(*words, input="drop WORM--a\n"), Done(0, "1 dropped\n", ""))


def case_the_stamp_is_the_clock_in_microseconds(room):
    furnish(room)
    before = time.time_ns() // 1000
    room.special(*RUN, "--journal", "journal", input="check WORM--a\n")
    after = time.time_ns() // 1000
    require(before <= room.journal().stamp <= after, "the stamp is between the two times")


def case_a_child_holds_no_pipe_but_its_own(room):
    # Each child waits until the others have come, and tells which files it has open.
    room.script("remote.sh", """
for file in /proc/$$/fd/*; do readlink "$file"; done > open.$$
echo "VERSION 1"
read -r line; echo EXTENSIONS
read -r line; echo PREPARE-SUCCESS
IFS= read -r line
: > come.$$
while [ $(ls come.* | wc -l) -lt 3 ]; do sleep 0.01; done
echo "CHECKPRESENT-SUCCESS ${line#* }"
cat > /dev/null
""")
    words = ["run", "--program", "./remote.sh", "--uuid", UUID, "--jobs", "3"]
    done = room.special(*words, input="check WORM--a\ncheck WORM--b\ncheck WORM--c\n")
    expect(done, Done(0, "1 present\n2 present\n3 present\n", ""))
    lists = [room.text(name).split() for name in os.listdir(room.folder) if name.startswith("open.")]
    expect(len(lists), 3, "how many children there were")
    pipes = [name for names in lists for name in set(names) if name.startswith("pipe:")]
    # Standard error is the caller's pipe, which all have.
    own = [name for name in pipes if pipes.count(name) == 1]
    expect((len(pipes), len(own)), (9, 6), "pipes of three children, and those that one alone has")


SAYS = "PREPARE\nVALUE folder\nCHECKPRESENT WORM--a\n"


def case_a_remote_whose_output_fails_says_it_by_its_status(room):
    with open("/dev/full", "wb") as full:
        expect(finish(room.start([ANNEX_REMOTE_DIR], stdout=full), SAYS), Done(5, "", ""), "the first write fails")
    with closed_output() as closed:
        expect(finish(room.start([ANNEX_REMOTE_DIR], stdout=closed), SAYS), Done(5, "", ""), "a pipe that nobody reads")
    with open(room.path("out"), "wb") as out:
        done = finish(room.start(limited(9, [ANNEX_REMOTE_DIR]), stdout=out), SAYS)
    expect((done, room.text("out")), (Done(5, "", ""), "VERSION 1"), "a write in the middle fails")


def case_a_remote_whose_input_fails_says_it_by_its_status(room):
    with failing_input(b"") as source:
        done = finish(room.start([ANNEX_REMOTE_DIR], stdin=source))
    expect(done, Done(4, "VERSION 1\n", ""), "the first read fails")
    with failing_input(SAYS.encode()) as source:
        done = finish(room.start([ANNEX_REMOTE_DIR], stdin=source))
    answers = "VERSION 1\nGETCONFIG directory\nPREPARE-SUCCESS\nCHECKPRESENT-FAILURE WORM--a\n"
    expect(done, Done(4, answers, ""), "a read after three lines fails")
