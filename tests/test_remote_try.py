"""`annex-remote-try`: remotes with one fault each, a remote that is right, what it leaves alone, and its words.

With REMOTE_TRY_ALL=1 each faulty remote goes through all tests, and nothing else may be blamed; else through the tests
that its fault is for, and those that these need.
"""

import json
import os
import re
import signal
import time

from harness import SPECIAL, TESTS, TOP, expect, limits, require, skip, table

TRY = str(TOP / "contrib/annex-remote-try")
FAULTY = str(TESTS / "faulty.py")
ANNEX_REMOTE_PLAIN = os.path.abspath(os.environ.get("ANNEX_REMOTE_PLAIN") or TOP / "crates/remote_plain_bin/out/remote_plain_bin")

# A fault of tests/faulty.py, and the tests that have to find it: the rules of the page that it breaks.
FAULTS = [
    ("a greeting first", "first-line"),
    ("VERSION 3", "first-line"),
    ("ends at ASYNC", "extensions-async"),
    ("ASYNC to an empty list", "extensions-empty"),
    ("needs EXTENSIONS", "no-extensions"),
    ("INITREMOTE fails", "initremote"),
    ("INITREMOTE only once", "initremote-twice"),
    ("ends without a setting", "initremote-missing"),
    ("no CONFIGEND", "listconfigs"),
    ("ends at EXPORTSUPPORTED", "exportsupported"),
    ("INFOVALUE first", "getinfo"),
    ("ends at an unknown request", "unknown-request"),
    ("hangs after ERROR", "host-error"),
    ("runs on without input", "input-closed"),
    ("SIGTERM ignored", "sigterm"),
    ("SIGINT ignored", "sigint"),
    ("always present", "check-before"),
    ("no file for no bytes", "size-0"),
    ("last byte lost", "size-65537"),
    ("percent as git-annex's file", "key-percent"),
    ("ampersand as git-annex's file", "key-ampersand"),
    ("colon as git-annex's file", "key-colon"),
    ("equals left out", "key-equals"),
    ("only ASCII", "key-non-ascii"),
    ("long keys cut", "key-250"),
    ("file up to a space", "file-space"),
    ("quotes left out", "file-quotes"),
    ("named by the file", "file-name"),
    ("moves the file", "store-file"),
    ("always absent", "check-stored"),
    ("memory only", "check-other-process"),
    ("second store refused", "store-again"),
    ("removal does nothing", "remove"),
    ("removal of nothing fails", "remove-absent"),
    ("gets nothing with success", "get-absent"),
    ("content kept after removal", "get-removed"),
    ("appends to a part", "get-partial"),
    ("writes in place", "kill-store"),
    ("success before the content is stored", "kill-store"),
    ("takes the content away in a get", "kill-get"),
    ("write errors ignored", "disk-full"),
    ("absent without its folder", "place-gone"),
    *([("absent in an unreadable folder", "place-unreadable")] if os.geteuid() else []),
    ("half lines", "slow-host"),
    ("remembers what it stored", "processes-2"),
    ("four jobs", "async-eight"),
    ("each number once", "async-numbers-again"),
    ("small numbers", "async-numbers-fresh"),
    ("answers in their order", "async-question"),
    ("export: name up to a space", "export-spaces"),
    ("export: removal does nothing", "export-remove"),
    ("export: gets nothing with success", "export-get-absent"),
    ("export: rename keeps the old name", "export-rename"),
    ("export: no folder is a failure", "export-directory"),
    ("noise on standard output", "line-word"),
    ("failure without a message", "line-space"),
    ("a parameter too many", "line-parameter"),
    ("local in small letters", "line-parameter"),
    ("progress in words", "line-number"),
    ("cost in words", "line-number"),
    ("no key", "line-key"),
    ("another key", "line-key"),
    ("way mixed up", "line-way"),
    ("a reply to another request", "line-reply"),
    ("VALUE unasked", "line-host-word"),
    ("VERSION again", "line-version"),
    ("answers twice", "line-after"),
    ("DEBUG after the answer", "line-after"),
    ("INFO that was not offered", "line-extension"),
    ("untagged line", "line-tag"),
    ("REMOVE unsupported", "must-support"),
]


WITH_ALL = os.environ.get("REMOTE_TRY_ALL") == "1"
# What makes a remote say the line that is wrong.
SAID_IN = {
    "noise on standard output": "store-get", "failure without a message": "get-absent", "a parameter too many": "initremote",
    "local in small letters": "getavailability", "progress in words": "store-get", "cost in words": "getcost", "no key": "remove",
    "another key": "check-stored", "way mixed up": "store-get", "a reply to another request": "remove", "VALUE unasked": "check-before",
    "VERSION again": "check-before", "answers twice": "remove", "DEBUG after the answer": "check-before",
    "INFO that was not offered": "store-no-extensions", "untagged line": "async-eight", "REMOVE unsupported": "remove",
}


def start(room, fault, *words):
    """The words and the environment of a run over the remote with a fault."""
    given = [TRY, *words, FAULTY, f"directory={room.path('store')}"]
    return given, {"REMOTE_FAULT": fault, "REMOTE_LOG": room.path("log")}


def tried(room, fault, *words):
    """What the tester says of the remote with a fault: its status and its report."""
    given, env = start(room, fault, "--json", "--wait", "5", "--place", "directory", *words)
    done = room.run(given, env=env)
    require(done.out.startswith("{"), f"no report: {done}")
    return done.status, json.loads(done.out)


def results(report, *wanted):
    return [test["name"] for test in report["tests"] if test["result"] in wanted]


@limits(240 if WITH_ALL else 60)
@table([(fault, fault, finder) for fault, finder in FAULTS])
def a_fault_is_found_under_its_own_name_and_nothing_else_is_blamed(room, fault, finder):
    only = [] if WITH_ALL else ["--only", ",".join({finder, SAID_IN.get(fault, finder)})]
    status, report = tried(room, fault, *only)
    expect(results(report, "failed"), [finder], "the tests that failed")
    expect((status, report["status"]), (1, 1), "the statuses")
    failure = next(test for test in report["tests"] if test["name"] == finder)["failures"][0]
    for part in ("said", "asks", "annex", "lines"):
        require(failure[part], f"nothing under {part}")


@limits(60)
@table([
    ("a removal that can't have happened", "removal without its folder", "place-gone"),
    ("absent in an empty folder", "", "place-empty"),
    ("no progress", "", "progress"),
])
def what_is_allowed_and_may_hurt_is_advised(room, fault, adviser):
    status, report = tried(room, fault, "--only", adviser)
    expect((status, results(report, "failed"), results(report, "advice")), (0, [], [adviser]))


@limits(120)
@table([("without tags", ""), ("with tags", "tagged"), ("with exports", "export: none"), ("with questions", "asks in a check")])
def a_remote_that_is_right_is_not_blamed(room, fault):
    status, report = tried(room, fault)
    expect((status, results(report, "failed")), (0, []), "what failed")
    expect(report["left"], [], "what is left in the remote")
    advised = set(results(report, "advice")) - {"progress", "place-empty"}
    expect(advised, set(), "what it is advised")


@limits(120)
def case_what_was_stored_is_removed_and_nothing_else_is_touched(room):
    for name, content in (("store/kept", "as it was"), ("store/folder/kept", "too")):
        room.write(name, content)
    tried(room, "export: none")
    kept = sorted(name for _, _, names in os.walk(room.path("store")) for name in names if not name.endswith(".part"))
    expect(kept, ["kept", "kept", "once"], "the files of the remote")
    expect((room.read("store/kept"), room.read("store/folder/kept")), (b"as it was", b"too"))
    expect(sorted(name for name in os.listdir(room.path()) if name.startswith("store")), ["store"], "what is beside the folder")


def case_a_key_that_the_remote_has_already_is_never_stored_fetched_or_removed(room):
    _, report = tried(room, "always present", "--only", "contents,faults")
    said = [line for line in room.text("log").splitlines() if line.startswith(("TRANSFER STORE", "REMOVE"))]
    expect([line for line in said if line.startswith("TRANSFER")], [], "the stores")
    require("store-get" in results(report, "skipped"), "store-get was made")


def case_the_report_for_a_reader_has_each_failure_with_its_conversation(room):
    given, env = start(room, "another key", "--only", "check-stored,line-key")
    done = room.run(given, env=env)
    expect((done.status, done.err), (1, ""))
    require("\nfailed   line-key (breaks the protocol): `CHECKPRESENT-SUCCESS WORM--other` to `CHECKPRESENT " in done.out, done.out)
    require("\n    > CHECKPRESENT-SUCCESS WORM--other\n" in done.out, done.out)
    require("  page       The message is `CHECKPRESENT-SUCCESS Key`, and the key is that of the request.\n" in done.out, done.out)


@limits(60)
def case_the_manual_shows_what_is_printed(room):
    given, env = start(room, "writes in place", "--only", "kill-store")
    out = room.run(given, env=env).out
    printed = re.sub("[0-9,]+", "N", out).splitlines()
    manual = (TOP / "docs/MANUAL.md").read_text().split("\n## Testing your own remote\n")[1].split("```")[1]
    lines = [line for line in re.sub("[0-9,]+", "N", manual).splitlines() if line.startswith(("failed", "kill-store", "  rank", "  it", "  page", "  git-annex"))]
    missing = [line for line in lines if line not in printed]
    require(not missing, f"of the manual's lines {missing} aren't in:\n{out}")
    expect(len(lines), 6, "the lines looked for")


@table([
    ("no program", [], 2, "PROGRAM is missing"),
    ("a program that isn't there", ["./nothing"], 2, "there is no program ./nothing"),
    ("a word that is no setting", ["./remote", "directory"], 2, "'directory' isn't NAME=VALUE"),
    ("a test that isn't there", ["--only", "first-lime", "./remote"], 2, "there is no test first-lime"),
    ("a place that is no setting", ["--place", "folder", "./remote", "directory=/tmp"], 2, "--place folder: there is no setting folder=VALUE"),
])
def wrong_words_are_refused(room, words, status, text):
    room.script("remote", "echo VERSION 1\n")
    done = room.run([TRY, *words])
    expect((done.status, done.out), (status, ""))
    require(text in done.err, done.err)


def case_a_program_that_can_not_be_started_gives_status_2(room):
    room.script("remote", b"#!/nothing/at/all\n")
    done = room.run([TRY, "./remote"])
    expect(done.status, 2, "the status")
    require("failed   first-line" in done.out and "can't be started" in done.out, done.out)


def case_a_test_that_failed_before_the_chosen_one_is_told(room):
    status, report = tried(room, "INITREMOTE only once", "--only", "initremote-unknown")
    expect((status, results(report, "failed"), results(report, "skipped")), (1, ["initremote-twice"], ["initremote-unknown"]))


def case_a_failure_over_two_processes_shows_what_each_said(room):
    given, env = start(room, "success before the content is stored", "--only", "kill-store")
    said = room.run(given, env=env).out.split("\nkill-store: ")[1].splitlines()
    first, second = (said.index(f"    ! process {number}") for number in (said_last(said) - 1, said_last(said)))
    require(any(line.startswith("    > TRANSFER-SUCCESS STORE ") for line in said[first:second]), said)
    require(any(line.startswith("    > CHECKPRESENT-FAILURE ") for line in said[second:]), said)


def said_last(lines):
    """The number of the last process that is shown."""
    return max(int(line.rpartition(" ")[2]) for line in lines if line.startswith("    ! process "))


def case_the_list_names_each_test_once(room):
    done = room.run([TRY, "--list"])
    names = [line.split(" ")[0] for line in done.out.splitlines()]
    expect(len(names), len(set(names)))
    require({finder for _, finder in FAULTS} <= set(names), "some test isn't in the list")
    chosen = room.run([TRY, "--list", "--only", "exports"]).out.splitlines()
    require(all(line.startswith("export-") for line in chosen) and len(chosen) > 5, chosen)


@limits(60)
def case_a_stop_by_a_signal_puts_the_folder_back_and_removes_what_was_stored(room):
    given, env = start(room, "", "--place", "directory", "--only", "size-8MiB,place-gone")
    running = room.start(given, env=env)
    while not any(name.startswith("store.away") for name in os.listdir(room.path())):
        require(running.poll() is None, "it ended before it moved the folder")
        time.sleep(0.001)
    running.send_signal(signal.SIGTERM)
    running.communicate()
    expect(running.returncode, 130, "the status")
    expect(sorted(os.listdir(room.path("store"))), ["once"], "the files of the remote")


def case_special_runs_over_the_remote_where_it_is_installed(room):
    if not os.access(ANNEX_REMOTE_PLAIN, os.X_OK):
        skip("annex-remote-plain isn't built")
    os.symlink(SPECIAL, room.mkdir("bin") + "/special")
    os.symlink(ANNEX_REMOTE_PLAIN, room.path("bin/annex-remote-plain"))
    given, env = start(room, "", "--json", "--only", "special")
    done = room.run(given, env={**env, "PATH": f"{room.path('bin')}:{os.environ['PATH']}"})
    expect([(test["name"], test["result"]) for test in json.loads(done.out)["tests"]], [("special-run", "ok")])


def case_the_page_has_the_failures_and_all_that_was_said(room):
    given, env = start(room, "another key", "--html", room.path("page.html"), "--only", "check-stored")
    expect(room.run(given, env=env).status, 1, "the status")
    page = room.text("page.html")
    require('<b class="bad">failed</b> <b>line-key</b>' in page, "the failure isn't there")
    data = json.loads(re.search(r'<script type="application/json" id="data">(.*?)</script>', page, re.S).group(1))
    said = [line.split(" ", 3)[3] for line in data["lines"] if line.split(" ")[1] == "got"]
    require("CHECKPRESENT-SUCCESS WORM--other" in said and said.count("VERSION 2") == len(data["children"]), f"what it said: {said}")
    expect([task[1].split(":")[0] for task in data["tasks"]], ["ok", "failed"], "the tests")


def case_a_password_is_not_in_the_report(room):
    room.script("remote", ASKS_PASSWORD)
    done = room.run([TRY, "./remote", "password=hunter2", "--only", "prepare"])
    require("hunter2" not in done.out and "VALUE ***" in done.out, done.out)


ASKS_PASSWORD = """
echo VERSION 1
while IFS= read -r line; do
  case "$line" in
    PREPARE) echo GETCONFIG password; IFS= read -r value; echo PREPARE-FAILURE the password is wrong ;;
    *) echo UNSUPPORTED-REQUEST ;;
  esac
done
"""
