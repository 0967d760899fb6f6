"""`annex-remote-dir` whose folder is out of reach: nothing is made, nothing is called absent, and all is well when it is back."""

import hashlib
import os
import shutil
import time

from annexed import REMOTE, Annex
from harness import ANNEX_REMOTE_DIR, SPECIAL, UUID, Done, expect, limits, require, run, table
from kits import SIGN, Kit, contents, unfinished

KEY = "WORM-s7--a"
REQUESTS = f"TRANSFER STORE {KEY} f\nTRANSFER RETRIEVE {KEY} g\nCHECKPRESENT {KEY}\nREMOVE {KEY}\n"


def says(room, *lines):
    """What the remote says to these lines after its first one."""
    done = room.run([ANNEX_REMOTE_DIR], input="".join(line + "\n" for line in lines))
    expect((done.status, done.err), (0, ""), "how it ends")
    return done.out.removeprefix("VERSION 1\n").replace("GETCONFIG directory\n", "")


def refused(sentence):
    """What each request of REQUESTS is answered out of reach."""
    return (f"TRANSFER-FAILURE STORE {KEY} {sentence}\nTRANSFER-FAILURE RETRIEVE {KEY} {sentence}\n"
            f"CHECKPRESENT-UNKNOWN {KEY} {sentence}\nREMOVE-FAILURE {KEY} {sentence}\n")


def tree(folder):
    return sorted(os.path.relpath(os.path.join(path, name), folder) for path, names, files in os.walk(folder) for name in names + files)


def gone(directory):
    return f"{directory} is not there: is its disk mounted?"


def empty(directory):
    return f"{directory} is empty: is its disk mounted? If it is, make a file {SIGN} in it"


def away(room):
    """Moves the folder away."""
    os.rename(room.path("disk"), room.path("away"))


def away_with_empty_in_its_place(room):
    away(room)
    room.mkdir("disk")


def back(room):
    if os.path.exists(room.path("disk")):
        os.rmdir(room.path("disk"))
    os.rename(room.path("away"), room.path("disk"))


WAYS = [("gone", away, gone), ("an empty folder in its place", away_with_empty_in_its_place, empty)]


@table(WAYS)
def a_folder_that_is_out_of_reach_is_not_prepared_and_nothing_is_made(room, take_away, sentence):
    room.write("disk/mine")
    take_away(room)
    before = tree(room.path())
    directory = room.path("disk")
    expect(says(room, "PREPARE", f"VALUE {directory}"), f"PREPARE-FAILURE {sentence(directory)}\n")
    expect(tree(room.path()), before, "what is there")


@table(WAYS)
def a_folder_that_goes_away_in_a_session_fails_each_request_until_it_is_back(room, take_away, sentence):
    room.write("f", "content")
    directory = room.mkdir("disk")
    kit = Kit(directory)
    kit.store(KEY, room.path("f"))
    take_away(room)
    before = tree(room.path())
    for line in REQUESTS.splitlines():
        kit.say(line.replace(" f", " " + room.path("f")).replace(" g", " " + room.path("g")))
    for line in refused(sentence(directory)).splitlines():
        kit.hear(line)
    expect(tree(room.path()), before, "what is there")
    back(room)
    kit.check(KEY)
    kit.retrieve(KEY, room.path("g"))
    expect(room.text("g"), "content", "what was got")
    kit.remove(KEY)
    kit.close()


def case_a_file_in_the_place_of_the_folder_is_said(room):
    directory = room.write("disk")
    expect(says(room, "PREPARE", f"VALUE {directory}"), f"PREPARE-FAILURE {directory} is not a folder\n")
    expect(says(room, "INITREMOTE", f"VALUE {directory}"), f"INITREMOTE-FAILURE {directory} is not a folder\n")
    expect(room.read("disk"), b"", "the file")


def case_the_folder_may_be_a_link_to_one(room):
    room.write("f", "content")
    room.write(f"real/{SIGN}")
    os.symlink(room.path("real"), room.path("disk"))
    kit = Kit(room.path("disk"))
    kit.store(KEY, room.path("f"))
    kit.close()
    expect(sorted(contents(room.path("real"))), [KEY], "the contents")


# Setting it up.


def case_an_init_makes_the_folder_and_leaves_a_small_file_in_it(room):
    directory = room.path("disk")
    expect(says(room, "INITREMOTE", f"VALUE {directory}"), "INITREMOTE-SUCCESS\n")
    expect(os.listdir(directory), [SIGN], "what is in the folder")
    require("annex-remote-dir" in room.text(f"disk/{SIGN}"), "a sentence for people")
    expect(says(room, "PREPARE", f"VALUE {directory}", f"CHECKPRESENT {KEY}"), f"PREPARE-SUCCESS\nCHECKPRESENT-FAILURE {KEY}\n")


RELATIVE = [
    ("a name", "sub", "contents", "{room}/sub/contents"),
    ("beside the folder", "sub", "../contents", "{room}/contents"),
    ("dots and slashes", "sub", ".//a/../contents/.", "{room}/sub/contents"),
    ("the folder itself", "sub", ".", "{room}/sub"),
    ("above the root", "sub", "../" * 40 + "{room}/contents", "{room}/contents"),
    ("a space", "sub", "my contents", "{room}/sub/my contents"),
]


@table(RELATIVE)
def an_init_sets_a_relative_directory_to_its_whole_path(room, begins_in, directory, whole):
    here = os.path.realpath(room.path())
    whole, directory = whole.replace("{room}", here), directory.replace("{room}", here)
    begins = room.mkdir(begins_in)
    script = 'cd "$BEGINS" && exec "$REMOTE"'
    done = room.run(["/bin/sh", "-c", script], input=f"INITREMOTE\nVALUE {directory}\nPREPARE\nVALUE {whole}\n", env={"BEGINS": begins, "REMOTE": ANNEX_REMOTE_DIR})
    asks = "GETCONFIG directory\n"
    expect(done, Done(0, f"VERSION 1\n{asks}SETCONFIG directory {whole}\nINITREMOTE-SUCCESS\n{asks}PREPARE-SUCCESS\n", ""))
    require(os.path.exists(f"{whole}/{SIGN}"), "the folder is set up")


def case_a_relative_directory_whose_path_no_line_can_hold_is_refused(room):
    begins = room.mkdir("two\nlines")
    done = run(["/bin/sh", "-c", 'cd "$BEGINS" && exec "$REMOTE"'], input="INITREMOTE\nVALUE d\n", env={"BEGINS": begins, "REMOTE": ANNEX_REMOTE_DIR})
    refused = "INITREMOTE-FAILURE directory is relative: give the whole path, such as /home/me/backup\n"
    expect(done, Done(0, f"VERSION 1\nGETCONFIG directory\n{refused}", ""))
    expect(os.listdir(begins), [], "what it made")


def case_an_init_of_special_keeps_the_whole_path(room):
    room.mkdir("sub")
    done = run(["/bin/sh", "-c", 'cd "$BEGINS" && exec "$SPECIAL_BIN" init "$REMOTE" "$UUID" ../kept directory=../contents'],
               env={"BEGINS": room.path("sub"), "REMOTE": ANNEX_REMOTE_DIR, "SPECIAL_BIN": SPECIAL, "UUID": UUID})
    expect(done, Done(0, "initialized\n", ""))
    expect(room.text("kept"), f"annex-keep 1\nconfig directory {os.path.realpath(room.path())}/contents\n")


def case_an_init_touches_nothing_that_lies_there(room):
    room.write("disk/thesis.txt", "mine")
    room.write(f"disk/{SIGN}", "my own words")
    room.write("disk/tmp/thesis.txt", "mine")
    os.utime(room.path("disk/tmp/thesis.txt"), (0, 0))
    expect(says(room, "INITREMOTE", f"VALUE {room.path('disk')}"), "INITREMOTE-SUCCESS\n")
    expect(tree(room.path("disk")), [SIGN, "thesis.txt", "tmp", "tmp/thesis.txt"], "what is there")
    expect(room.text(f"disk/{SIGN}"), "my own words", "the small file")


def case_an_init_makes_no_folder_whose_parent_is_missing(room):
    directory = room.path("mount/disk")
    expect(says(room, "INITREMOTE", f"VALUE {directory}"), f"INITREMOTE-FAILURE {directory} can't be made\n")
    expect(tree(room.path()), [], "what is there")


def case_an_empty_folder_that_was_set_up_before_is_ready_once_the_small_file_is_there(room):
    directory = room.mkdir("disk")
    expect(says(room, "PREPARE", f"VALUE {directory}"), f"PREPARE-FAILURE {empty(directory)}\n")
    room.write(f"disk/{SIGN}")
    expect(says(room, "PREPARE", f"VALUE {directory}"), "PREPARE-SUCCESS\n")


# Links below it.


@table([("where contents are put together", "tmp"), ("the outer folder", "4b2"), ("the inner folder", "4b2/54c")])
def a_store_follows_no_link_below_the_folder(room, folder):
    room.write("f", "content")
    room.write(f"disk/{SIGN}")
    room.mkdir("elsewhere")
    key = "WORM-s7--a"
    folders = {"tmp": "tmp", "4b2": lower(key).split("/", maxsplit=1)[0], "4b2/54c": lower(key)}
    place = room.path("disk/" + folders[folder])
    os.makedirs(os.path.dirname(place), exist_ok=True)
    os.symlink(room.path("elsewhere"), place)
    said = says(room, "PREPARE", f"VALUE {room.path('disk')}", f"TRANSFER STORE {key} f")
    expect(said, f"PREPARE-SUCCESS\nTRANSFER-FAILURE STORE {key} {place} is not a folder\n")
    expect(tree(room.path("elsewhere")), [], "what is elsewhere")


def case_a_removal_follows_no_link_below_the_folder(room):
    room.write(f"disk/{SIGN}")
    outer, inner = lower(KEY).split("/")
    room.write(f"elsewhere/{inner}/{KEY}", "content")
    os.symlink(room.path("elsewhere"), room.path(f"disk/{outer}"))
    place = room.path(f"disk/{outer}")
    said = says(room, "PREPARE", f"VALUE {room.path('disk')}", f"REMOVE {KEY}", f"CHECKPRESENT {KEY}")
    expect(said, f"PREPARE-SUCCESS\nREMOVE-FAILURE {KEY} {place} is not a folder\nCHECKPRESENT-SUCCESS {KEY}\n")
    expect(room.text(f"elsewhere/{inner}/{KEY}"), "content", "the content")


def lower(key):
    """The folders of a key without a chunk: six digits of its MD5 digest."""
    digest = hashlib.md5(key.encode()).hexdigest()
    return f"{digest[:3]}/{digest[3:6]}"


# Another's file in transit.


def names_in_transit(room, kit):
    """The names under which the four remotes put the content of the key together: one is there while it waits for a pipe to be opened."""
    os.mkfifo(room.path("pipe"))
    kit.begin_store(KEY, room.path("pipe"))
    while not unfinished(kit.directory):
        time.sleep(0.005)
    name = unfinished(kit.directory)[0]
    open(room.path("pipe"), "wb").close()
    kit.hear_start(f"TRANSFER-FAILURE STORE {KEY} ")
    expect(unfinished(kit.directory), [], "what the store that failed left")
    mark, key = name.split("-", maxsplit=1)
    return [f"{mark.rpartition('.')[0]}.{number}-{key}" for number in (1, 2, 3, 4)]


def case_a_file_that_stands_where_a_content_is_put_together_is_neither_written_nor_removed(room):
    room.write("f", "content")
    kit = Kit(room.mkdir("disk"))
    places = [room.write(f"disk/tmp/{name}", "another's") for name in names_in_transit(room, kit)]
    kit.begin_store(KEY, room.path("f"))
    kit.hear(f"TRANSFER-FAILURE STORE {KEY} disk failed")
    for place in places:
        expect(room.read(place), b"another's", "the file that stood there")
        os.unlink(place)
    kit.store(KEY, room.path("f"))
    kit.close()
    expect(unfinished(kit.directory), [], "what is left")


# git-annex.


@limits(300)
@table([("the folder is moved away", lambda room: os.rename(room.path("directory"), room.path("away"))),
        ("an empty folder is in its place", lambda room: (os.rename(room.path("directory"), room.path("away")), room.mkdir("directory")))])
def git_annex_loses_nothing_by_a_folder_that_is_out_of_reach(room, take_away):
    annex = Annex(room)
    annex.add_remote()
    annex.add({"one": "content of one", "two": "content of two"})
    annex.well("git", "annex", "copy", "-q", "--to", REMOTE, "one")
    key = annex.key("one")
    before, there = annex.recorded(), annex.stored()
    expect((before, there), (["one"], [key]), "what is stored")
    annex.well("git", "annex", "drop", "-q", "one")
    take_away(room)
    made = tree(room.path("directory"))
    for words in (["fsck", "--fast", "--from", REMOTE, "one"], ["copy", "--to", REMOTE, "two"], ["get", "one"], ["drop", "--force", "--from", REMOTE, "one"]):
        done = annex.run("git", "annex", *words)
        require(done.status == 1, f"git annex {words[0]}: status {done.status}\n{done.out}{done.err}")
        require("is its disk mounted?" in done.out + done.err, f"git annex {words[0]} says why\n{done.out}{done.err}")
        expect(annex.recorded(), before, f"what is recorded after {words[0]}")
    expect(tree(room.path("directory")), made, "what is made")
    shutil.rmtree(room.path("directory"), ignore_errors=True)
    os.rename(room.path("away"), room.path("directory"))
    annex.well("git", "annex", "fsck", "-q", "--fast", "--from", REMOTE, "one")
    annex.well("git", "annex", "copy", "-q", "--to", REMOTE, "two")
    annex.well("git", "annex", "get", "-q", "one")
    expect((annex.recorded(), annex.present()), (["one", "two"], ["one", "two"]), "all is well")


@limits(seconds=60)
def case_git_annex_keeps_the_whole_path_of_a_relative_directory(room):
    annex = Annex(room)
    annex.well("git", "annex", "initremote", "-q", REMOTE, "type=external", "externaltype=milgroez", "directory=../directory", "encryption=none")
    annex.add({"sub/one": "content of one"})
    script = f"cd sub && git annex copy -q --to {REMOTE} one && git annex drop -q one && git annex get -q one && git annex fsck -q --fast --from {REMOTE} one"
    annex.well("/bin/sh", "-c", script)
    expect(annex.stored(), [annex.key("sub/one")], "what is stored")
