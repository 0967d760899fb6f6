"""`annex-remote-mirror`: what it says to a host, and what it does with the remotes that it starts."""

import os
import time

from annexed import Annex, contents
from harness import ANNEX_REMOTE_DIR, TOP, UUID, Done, as_bytes, expect, finish, limits, require, table
from kits import SIGN, signed

MIRROR = os.path.abspath(os.environ.get("ANNEX_REMOTE_MIRROR") or TOP / "crates/remote_mirror_bin/out/remote_mirror_bin")
NAMES = [f"mirror{n}" for n in range(1, 9)]
GETS = "".join(f"GETCONFIG {name}\n" for name in NAMES)
READY = GETS + "PREPARE-SUCCESS\n"


def prepare(*values):
    """The lines of a host that prepares the mirror with these values; those that are missing are empty."""
    values = [*values, *[""] * (len(NAMES) - len(values))]
    return "PREPARE\n" + "".join(f"VALUE {value}\n" for value in values)


def says(room, lines):
    """What the mirror says to these lines of a host, after `VERSION 1`, and its status."""
    done = room.run([MIRROR], input=lines)
    require(done.out.startswith("VERSION 1\n"), f"the first line\ngot:    {done}")
    return Done(done.status, done.out.removeprefix("VERSION 1\n"), done.err)


def note(text):
    return f"annex-remote-mirror: note: {text}\n" if text else ""


def failure(text, why=""):
    return Done(0, GETS + f"PREPARE-FAILURE {text}\n", note(why))


def heard(room, name, start=1):
    """What that start of a logged child heard after its greeting."""
    log = room.text(f"{name}.{start}.log")
    if log is None:
        return None
    lines = [line[2:] for line in log.splitlines() if line.startswith("< ")]
    return lines[2:]


# Answers of a child by its request.
WELL = {
    "TRANSFER STORE WORM--a f": "TRANSFER-SUCCESS STORE WORM--a",
    "TRANSFER RETRIEVE WORM--a f": "TRANSFER-SUCCESS RETRIEVE WORM--a",
    "CHECKPRESENT WORM--a": "CHECKPRESENT-SUCCESS WORM--a",
    "REMOVE WORM--a": "REMOVE-SUCCESS WORM--a",
}


def child(room, name, answers):
    """A logged child that answers so. It ends at a request whose answer is None."""
    return room.child(name, f"greet()\nserve({ {request: line for request, line in answers.items() if line} !r})\n", log=True)


# ---- getting ready


def case_no_mirrors(room):
    expect(says(room, "EXTENSIONS\n" + prepare()), Done(0, "EXTENSIONS \n" + GETS + "PREPARE-FAILURE no mirrors\n", ""))


@table([
    ("no program", " a=b"),
    ("a space at the end", "p "),
    ("two spaces", "p  a=b"),
    ("no name", "p =b"),
    ("no value", "p a"),
    ("a space alone", " "),
    ("no text", "p\udcff"),
])
def a_setting_that_is_no_program_with_settings_is_refused(room, value):
    child(room, "good", WELL)
    expect(says(room, prepare(value)), failure("mirror1: bad setting"), "as the first")
    expect(says(room, prepare("./good", "", value, value)), failure("mirror3: bad setting"), "as the third")
    require(not room.has("good.1.log"), "no program is started")


BROKEN = "its program ended, or broke the protocol"
NOT_READY = [
    ("there is no such program", None, "its program could not be started"),
    ("it fails to get ready", 'greet(ready="PREPARE-FAILURE no key")\nhear()\n', "no key"),
    ("it doesn't know how to", 'greet(ready="UNSUPPORTED-REQUEST")\nhear()\n', "it does not know PREPARE"),
    ("it speaks another version", 'say("VERSION 2")\nhear()\n', BROKEN),
    ("it ends at once", "", BROKEN),
    ("it ends in place of its answer", 'say("VERSION 1")\nhear()\nsay("EXTENSIONS")\nhear()\n', BROKEN),
    ("it says what isn't asked", 'say("VERSION 1")\nhear()\nsay("COST 5")\nhear()\n', BROKEN),
    ("it says an error", 'greet(ready="ERROR no")\nhear()\n', "no"),
]


@table(NOT_READY)
def a_remote_that_is_not_ready_is_told(room, body, why):
    if body is not None:
        room.child("bad", body)
    child(room, "good", WELL)
    child(room, "later", WELL)
    expect(says(room, prepare("./bad")), failure("mirror1: not ready", f"mirror1: not ready: {why}"), "alone")
    expect(says(room, prepare("./good", "", "./bad", "./later") + "CHECKPRESENT WORM--a\n"),
           Done(0, GETS + "PREPARE-FAILURE mirror3: not ready\nCHECKPRESENT-UNKNOWN WORM--a not prepared\n", note(f"mirror3: not ready: {why}")), "between two")
    expect(heard(room, "good"), [], "the one before it, which is asked nothing")
    require(not room.has("later.1.log"), "the one after it isn't started")


def case_a_bad_setting_is_told_before_a_remote_that_is_not_ready(room):
    expect(says(room, prepare("./none", "p ")), failure("mirror2: bad setting"))


def case_a_remote_gets_its_settings(room):
    room.child("good", """
say("VERSION 1")
hear()
say("EXTENSIONS")
hear("PREPARE")
values = [ask("GETCONFIG " + name) for name in ("a", "b", "c", "d")] + [ask("GETUUID"), ask("GETGITDIR"), ask("GETGITREMOTENAME")]
say("PREPARE-FAILURE" if values != ["2", "", "x=y", "", "00000000-0000-0000-0000-000000000000", ".git", "mirror"] else "PREPARE-SUCCESS")
hear()
""")
    expect(says(room, prepare("", "./good a=1 b= c=x=y a=2")), Done(0, READY, ""))


def case_what_was_prepared_goes_where_it_is_prepared_again(room):
    child(room, "good", WELL)
    child(room, "other", WELL)
    lines = prepare("./good") + prepare("", "./other") + "CHECKPRESENT WORM--a\n" + prepare() + "CHECKPRESENT WORM--a\n"
    expect(says(room, lines), Done(0, READY + READY + "CHECKPRESENT-SUCCESS WORM--a\n" + GETS + "PREPARE-FAILURE no mirrors\n"
                                   "CHECKPRESENT-UNKNOWN WORM--a not prepared\n", ""))
    expect(heard(room, "good"), [], "the first is asked nothing")
    expect(heard(room, "other"), ["CHECKPRESENT WORM--a"], "the second is asked")


def case_eight_mirrors(room):
    for n in range(1, 9):
        child(room, f"m{n}", WELL)
    expect(says(room, prepare(*[f"./m{n}" for n in range(1, 9)]) + "REMOVE WORM--a\n"), Done(0, READY + "REMOVE-SUCCESS WORM--a\n", ""))
    for n in range(1, 9):
        expect(heard(room, f"m{n}"), ["REMOVE WORM--a"], f"the mirror {n}")


def case_all_programs_have_ended_when_the_mirror_ends(room):
    body = "greet()\nfor _ in sys.stdin.buffer:\n    pass\ntime.sleep(0.3)\nopen({!r}, 'w').close()\n"
    room.child("slow", body.format(room.path("slow.over")))
    room.child("quick", body.format(room.path("quick.over")))
    expect(says(room, prepare("./slow", "./quick")), Done(0, READY, ""))
    require(room.has("slow.over") and room.has("quick.over"), "both saw their end")


# ---- the rule: the answers of the first and of the third mirror, what is said, and whether the third is asked

STORE, RETRIEVE, CHECK, REMOVE = WELL
FAILS = {
    STORE: "TRANSFER-FAILURE STORE WORM--a disk full",
    RETRIEVE: "TRANSFER-FAILURE RETRIEVE WORM--a gone",
    CHECK: "CHECKPRESENT-UNKNOWN WORM--a no net",
    REMOVE: "REMOVE-FAILURE WORM--a read only",
}
ABSENT = "CHECKPRESENT-FAILURE WORM--a"
UNSUPPORTED = "UNSUPPORTED-REQUEST"

RULES = [
    ("both store", STORE, WELL[STORE], WELL[STORE], WELL[STORE], True),
    ("the first doesn't store", STORE, FAILS[STORE], WELL[STORE], "TRANSFER-FAILURE STORE WORM--a mirror1: disk full", False),
    ("the other doesn't store", STORE, WELL[STORE], FAILS[STORE], "TRANSFER-FAILURE STORE WORM--a mirror3: disk full", True),
    ("the other can't store", STORE, WELL[STORE], UNSUPPORTED, "TRANSFER-FAILURE STORE WORM--a mirror3: unsupported", True),
    ("the first ends in a store", STORE, None, WELL[STORE], "TRANSFER-FAILURE STORE WORM--a mirror1: ended", False),
    ("the other ends in a store", STORE, WELL[STORE], None, "TRANSFER-FAILURE STORE WORM--a mirror3: ended", True),
    ("the first gives it", RETRIEVE, WELL[RETRIEVE], FAILS[RETRIEVE], WELL[RETRIEVE], False),
    ("the other gives it", RETRIEVE, FAILS[RETRIEVE], WELL[RETRIEVE], WELL[RETRIEVE], True),
    ("the first ends in a retrieve", RETRIEVE, None, WELL[RETRIEVE], WELL[RETRIEVE], True),
    ("none gives it", RETRIEVE, FAILS[RETRIEVE], None, "TRANSFER-FAILURE RETRIEVE WORM--a no mirror gave it", True),
    ("both have it", CHECK, WELL[CHECK], WELL[CHECK], WELL[CHECK], True),
    ("the first hasn't", CHECK, ABSENT, WELL[CHECK], ABSENT, False),
    ("the other hasn't", CHECK, WELL[CHECK], ABSENT, ABSENT, True),
    ("the first doesn't know", CHECK, FAILS[CHECK], ABSENT, "CHECKPRESENT-UNKNOWN WORM--a mirror1: no net", False),
    ("the other ends in a check", CHECK, WELL[CHECK], None, "CHECKPRESENT-UNKNOWN WORM--a mirror3: ended", True),
    ("the other can't check", CHECK, WELL[CHECK], UNSUPPORTED, "CHECKPRESENT-UNKNOWN WORM--a mirror3: unsupported", True),
    ("both remove", REMOVE, WELL[REMOVE], WELL[REMOVE], WELL[REMOVE], True),
    ("the first doesn't remove", REMOVE, FAILS[REMOVE], WELL[REMOVE], "REMOVE-FAILURE WORM--a mirror1: read only", False),
    ("the other ends in a remove", REMOVE, WELL[REMOVE], None, "REMOVE-FAILURE WORM--a mirror3: ended", True),
    ("an answer for another key", REMOVE, WELL[REMOVE], "REMOVE-SUCCESS WORM--b", "REMOVE-FAILURE WORM--a mirror3: ended", True),
]


@table(RULES)
def a_call_is_answered_by_the_mirrors(room, request, first, other, answer, both):
    child(room, "first", {request: first})
    child(room, "other", {request: other})
    expect(says(room, prepare("./first", "", "./other") + request + "\n"), Done(0, READY + answer + "\n", ""))
    expect(heard(room, "first"), [request], "what the first is asked")
    expect(heard(room, "other"), [request] if both else [], "what the other is asked")


def case_a_mirror_that_ended_stays_so(room):
    child(room, "first", {})
    child(room, "other", WELL)
    lines = prepare("./first", "./other") + "TRANSFER RETRIEVE WORM--a f\nTRANSFER STORE WORM--a f\nCHECKPRESENT WORM--a\nREMOVE WORM--a\n"
    expect(says(room, lines), Done(0, READY + "TRANSFER-SUCCESS RETRIEVE WORM--a\nTRANSFER-FAILURE STORE WORM--a mirror1: ended\n"
                                   "CHECKPRESENT-UNKNOWN WORM--a mirror1: ended\nREMOVE-FAILURE WORM--a mirror1: ended\n", ""))
    expect(heard(room, "other"), ["TRANSFER RETRIEVE WORM--a f"], "what the other is asked")


def case_a_mirror_that_no_longer_reads_is_unsent(room):
    room.child("first", 'greet()\nos.close(0)\nopen("closed", "w").close()\nwait_for("over")\n')
    child(room, "other", WELL)
    process = room.start([MIRROR])
    process.stdin.write(as_bytes(prepare("./first", "./other")))
    process.stdin.flush()
    while not room.has("closed"):
        time.sleep(0.002)
    process.stdin.write(b"REMOVE WORM--a\n")
    process.stdin.flush()
    expect([process.stdout.readline() for _ in range(11)][-1], b"REMOVE-FAILURE WORM--a mirror1: unsent\n", "what is said")
    room.write("over")
    expect(finish(process), Done(0, "", ""), "the end")
    expect(heard(room, "other"), [], "what the other is asked")


# ---- real programs

# A remote of a few lines over a folder of its own, which is its setting.
SMALL = """
import os, shutil
say("VERSION 1")
hear()
say("EXTENSIONS")
hear("PREPARE")
folder = ask("GETCONFIG folder")
os.makedirs(folder, exist_ok=True)
say("PREPARE-SUCCESS")
for _, words in requests():
    key = words[2] if words[0] == "TRANSFER" else words[1]
    place = os.path.join(folder, key)
    try:
        if words[:2] == ["TRANSFER", "STORE"]:
            shutil.copy(words[3], place)
            say("TRANSFER-SUCCESS STORE " + key)
        elif words[0] == "TRANSFER":
            shutil.copy(place, words[3])
            say("TRANSFER-SUCCESS RETRIEVE " + key)
        elif words[0] == "CHECKPRESENT":
            say(("CHECKPRESENT-SUCCESS " if os.path.exists(place) else "CHECKPRESENT-FAILURE ") + key)
        else:
            if os.path.exists(place):
                os.remove(place)
            say("REMOVE-SUCCESS " + key)
    except OSError:
        say(f"TRANSFER-FAILURE {words[1]} {key} it can't be copied")
"""


def mirrored(room):
    """Sets a mirror over two folders of annex-remote-dir and one of a small script up."""
    room.child("small", SMALL)
    room.script("mirror", f"exec {MIRROR}\n")
    settings = [f"mirror1={ANNEX_REMOTE_DIR} directory={room.path('one')}", f"mirror2={ANNEX_REMOTE_DIR} directory={room.path('two')}",
                f"mirror5={room.path('small')} folder={room.path('three')}"]
    for folder in ("one", "two"):
        signed(room.mkdir(folder))
    expect(room.special("init", "./mirror", UUID, "kept", *settings), Done(0, "initialized\n", ""), "the setup")


def tasks(room, words, answer):
    """Does the tasks over the mirror, and expects each to be answered so."""
    done = room.run_command("./mirror", "".join(line + "\n" for line in words), "--keep", "kept")
    wanted = "".join(f"{n} {answer}\n" for n in range(1, len(words) + 1))
    expect(done.out, wanted, "the answers")


def stored_in(room, folder):
    return sum(name != SIGN for path, _, names in os.walk(room.path(folder)) if not path.endswith("/tmp") for name in names)


@limits(120)
def case_200_keys_are_stored_checked_got_and_dropped_over_three_remotes(room):
    mirrored(room)
    room.mkdir("src")
    room.mkdir("dst")
    files = {f"WORM-s{len(str(n))}--k{n}": str(n) for n in range(200)}
    for key, content in files.items():
        room.write(f"src/{key}", content)
    tasks(room, [f"store {key} src/{key}" for key in files], "stored")
    expect([stored_in(room, folder) for folder in ("one", "two", "three")], [200, 200, 200], "what each holds")
    tasks(room, [f"check {key}" for key in files], "present")
    tasks(room, [f"get {key} dst/{key}" for key in files], "got")
    expect({key: room.text(f"dst/{key}") for key in files}, files, "what was got")
    tasks(room, [f"drop {key}" for key in files], "dropped")
    expect([stored_in(room, folder) for folder in ("one", "two", "three")], [0, 0, 0], "what each holds at the end")


@limits(60)
def case_a_mirror_whose_folder_is_gone_is_not_ready(room):
    mirrored(room)
    room.write("f", "content")
    tasks(room, ["store WORM-s7--a f"], "stored")
    tasks(room, ["check WORM-s7--a"], "present")
    os.rename(room.path("two"), room.path("away"))
    tasks(room, ["check WORM-s7--a", "get WORM-s7--a g"], "notprepared mirror2: not ready")
    os.rename(room.path("away"), room.path("two"))
    tasks(room, ["get WORM-s7--a g"], "got")
    expect(room.text("g"), "content", "it is given when the folder is back")


@limits(600)
def case_git_annex_copies_to_a_mirror_and_gets_it_back(room):
    annex = Annex(room)
    os.symlink(MIRROR, room.path("bin/git-annex-remote-mirror"))
    folders = [signed(room.mkdir(name)) for name in ("one", "two")]
    settings = [f"mirror{n}={ANNEX_REMOTE_DIR} directory={folder}" for n, folder in enumerate(folders, 1)]
    annex.well("git", "annex", "initremote", "-q", "both", "type=external", "externaltype=mirror", "encryption=none", *settings)
    files = contents(20, [1000, 70000])
    annex.add(files)
    annex.well("git", "annex", "copy", "-q", "--to", "both")
    expect([stored_in(room, name) for name in ("one", "two")], [20, 20], "what each holds")
    annex.well("git", "annex", "fsck", "-q", "--from", "both")
    annex.well("git", "annex", "drop", "-q", ".")
    annex.well("git", "annex", "get", "-q", ".")
    annex.well("git", "annex", "fsck", "-q")
    expect(annex.present(), sorted(files), "what is here")
    gone = next(os.path.join(path, name) for path, _, names in os.walk(folders[1]) for name in names if name != SIGN)
    os.remove(gone)
    require(annex.run("git", "annex", "fsck", "-q", "--fast", "--from", "both").status == 1, "a content that one of the two lost isn't found")


def case_its_words(room):
    expect(room.run([MIRROR, "--version"]), Done(0, "annex-remote-mirror 0.1.0\n", ""))
    require(room.run([MIRROR, "--help"]).out.startswith("annex-remote-mirror: "), "help")
    expect(room.run([MIRROR, "x"]), Done(2, "", "annex-remote-mirror: usage\n"))


def case_it_says_what_its_settings_are(room):
    meaning = "a program that serves a remote, and its settings as NAME=VALUE"
    configs = "".join(f"CONFIG {name} {meaning}\n" for name in NAMES)
    expect(says(room, "LISTCONFIGS\nGETCOST\nGETAVAILABILITY\nGETINFO\nWHEREIS WORM--a\nBOO\n"),
           Done(0, configs + "CONFIGEND\n" + "UNSUPPORTED-REQUEST\n" * 5, ""))
