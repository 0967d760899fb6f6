"""`annex-special`, over repositories of git-annex and the directory remote."""

import os
import pty

from annexed import ANNEX_SPECIAL, REMOTE, Annex, contents
from harness import as_text, expect, limits, require, run, start, table

NOT_KNOWN = f"git-annex's log does not have this yet: run `git annex fsck --fast --from {REMOTE}`\n"


def expect_whole(annex, files):
    """git-annex's own check finds each content, here and in the remote."""
    annex.well("git", "annex", "fsck", "-q")
    annex.well("git", "annex", "fsck", "-q", "--from", REMOTE)
    expect(annex.present(), sorted(files), "what is here")
    expect(annex.recorded(), sorted(files), "what git-annex's log has in the remote")


@limits(900)
@table([
    ("whole", ["encryption=none"], 200, 200),
    # 133 files have one chunk, and the 67 of 10,000 bytes and more have two.
    ("in chunks", ["encryption=none", "chunk=8KiB"], 200, 267),
])
def two_hundred_files_are_copied_checked_got_and_dropped(room, settings, count, stored):
    annex = Annex(room)
    files = contents(count, [4096, 10000, 5000])
    annex.add(files)
    annex.add_remote(*settings)
    expect(annex.special("copy"), (0, f"copy: {count} keys: {count} stored\n{NOT_KNOWN}", ""), "a copy")
    expect(len(annex.stored()), stored, "the files in the remote")
    expect(annex.recorded(), [], "what git-annex's log has before its fsck")
    expect_whole(annex, files)
    expect(annex.special("check"), (0, f"check: {count} keys: {count} present\n", ""), "a check of a whole remote")
    annex.well("git", "annex", "drop", "-q", ".")
    expect(annex.special("get"), (0, f"get: {count} keys: {count} got\n", ""), "a get")
    expect_whole(annex, files)
    expect(annex.special("drop"), (0, f"drop: {count} keys: {count} dropped\n{NOT_KNOWN}", ""), "a drop")
    expect(annex.stored(), [], "the files in the remote after the drop")
    expect(annex.run("git", "annex", "fsck", "-q", "--from", REMOTE).status, 1, "git-annex's fsck of what was dropped")
    expect(annex.recorded(), [], "what git-annex's log has after its fsck")


@limits(300)
def case_what_git_annex_stored_in_chunks_is_checked_and_got(room):
    annex = Annex(room)
    files = contents(4, [20000])
    annex.add(files)
    annex.add_remote("encryption=none", "chunk=8KiB")
    annex.well("git", "annex", "move", "-q", "--to", REMOTE)
    # The notes tell the size of the chunks, whatever the setting is now.
    annex.well("git", "annex", "enableremote", "-q", REMOTE, "chunk=5kB")
    expect(annex.special("check"), (0, "check: 4 keys: 4 present\n", ""), "a check")
    expect(annex.special("get"), (0, "get: 4 keys: 4 got\n", ""), "a get")
    expect_whole(annex, files)


@limits(300)
def case_check_tells_where_the_remote_and_the_log_differ_and_changes_nothing(room):
    annex = Annex(room)
    annex.add({"a": "one", "b": "two", "c": "three"})
    annex.add_remote()
    annex.well("git", "annex", "copy", "-q", "--to", REMOTE, "a", "b")
    lost, found = annex.key("b"), annex.key("c")
    for folder, _, names in os.walk(room.path("directory")):
        if lost in names:
            os.remove(f"{folder}/{lost}")
    annex.special("copy", "c")
    before = annex.well("git", "rev-parse", "git-annex")
    lines = f"missing {lost} b\nunrecorded {found} c\ncheck: 3 keys: 1 missing, 1 present, 1 unrecorded\n"
    done = annex.special("check")
    expect((done.status, done.out.replace(NOT_KNOWN, ""), done.err), (1, lines, ""), "a check")
    expect(annex.recorded(), ["a", "b"], "git-annex's log")
    expect(annex.well("git", "rev-parse", "git-annex"), before, "the git-annex branch")
    expect(annex.run("git", "annex", "fsck", "-q", "--fast", "--from", REMOTE).status, 1, "git-annex's own check")
    expect(annex.recorded(), ["a", "c"], "git-annex's log after its own check")


@limits(300)
def case_a_get_of_damaged_content_fails_with_key_and_file(room):
    annex = Annex(room)
    annex.add({"a": "right", "b": "whole"})
    annex.add_remote()
    annex.well("git", "annex", "move", "-q", "--to", REMOTE)
    damaged = annex.key("a")
    for folder, _, names in os.walk(room.path("directory")):
        if damaged in names:
            os.chmod(f"{folder}/{damaged}", 0o600)
            room.write(os.path.relpath(f"{folder}/{damaged}", room.path()), "wrong")
    done = annex.special("get")
    expect(done.status, 1, "the status")
    # The SHA256 digest of `wrong`.
    digest = "8810ad581e59f2bc3928b261707a71308f7e139eb04820366dc4d5c18d980225"
    lines = f"damaged {damaged} a: hash {digest}\nget: 2 keys: 1 damaged, 1 got\n"
    expect(done.out, lines, "what is printed")
    expect(annex.present(), ["b"], "what is here")


@limits(300)
def case_a_drop_leaves_content_that_has_too_few_copies(room):
    annex = Annex(room)
    annex.add({"a": "one", "b": "two"})
    annex.add_remote()
    annex.well("git", "annex", "copy", "-q", "--to", REMOTE)
    annex.well("git", "annex", "drop", "-q", "a")
    key = annex.key("a")
    left = f"left {key} a: too few copies elsewhere, or none here\n"
    expect(annex.special("drop"), (1, f"{left}drop: 2 keys: 1 dropped, 1 left\n{NOT_KNOWN}", ""), "one copy is left")
    annex.well("git", "annex", "fsck", "-q", "--fast", "--from", REMOTE, "a")
    annex.run("git", "annex", "numcopies", "2")
    annex.well("git", "annex", "get", "-q", "a")
    expect(annex.special("drop", "a"), (1, f"{left}drop: 1 key: 1 left\n", ""), "two copies and numcopies 2")
    expect(annex.stored(), [key], "what the remote has")


@limits(300)
def case_a_drop_leaves_content_of_which_another_file_wants_more_copies(room):
    annex = Annex(room)
    annex.add({"a": "one", "dear/a": "one", ".gitattributes": "dear/* annex.numcopies=2\n"})
    annex.add_remote()
    annex.well("git", "annex", "copy", "-q", "--to", REMOTE)
    key = annex.key("a")
    left = f"left {key} a: too few copies elsewhere, or none here\n"
    expect(annex.special("drop", "a"), (1, f"{left}drop: 1 key: 1 left\n", ""))


@limits(300)
def case_a_drop_is_refused_where_git_annex_would_not_ask_again(room):
    annex = Annex(room)
    annex.add({"a": "one"})
    annex.add_remote()
    annex.well("git", "annex", "copy", "-q", "--to", REMOTE)
    annex.well("git", "annex", "trust", "-q", "--force", REMOTE)
    said = f"annex-special: {REMOTE} is trusted: git-annex would go on counting what was dropped there\n"
    expect(annex.special("drop"), (2, "", said), "a trusted remote")
    annex.well("git", "annex", "semitrust", "-q", REMOTE)
    annex.well("git", "annex", "mincopies", "2")
    said = "annex-special: mincopies is more than 1: use `git annex drop --from`, which locks the other copies\n"
    expect(annex.special("drop"), (2, "", said), "mincopies 2")
    expect(annex.stored(), [annex.key("a")], "what the remote has")


@limits(300)
def case_a_remote_that_others_write_to_is_refused(room):
    annex = Annex(room)
    settings = ["type=directory", f"directory={room.mkdir('shared')}", "encryption=none", "importtree=yes", "exporttree=yes"]
    annex.well("git", "annex", "initremote", "-q", "own", *settings)
    said = "annex-special: own has importtree=yes: others write there too, and what they write is not known here\n"
    for command in ("check", "get", "copy", "drop"):
        expect(annex.run(ANNEX_SPECIAL, "own", command), (2, "", said), command)


@limits(300)
def case_a_remote_of_another_type_is_refused(room):
    annex = Annex(room)
    annex.well("git", "annex", "initremote", "-q", "own", "type=rsync", f"rsyncurl={room.mkdir('rsync')}", "encryption=none")
    said = "own has type=rsync: only type=external and type=directory are served here"
    expect(annex.run(ANNEX_SPECIAL, "own", "check"), (2, "", f"annex-special: {said}\n"), "an rsync remote")
    said = "annex-special: git-annex knows no remote other here\n"
    expect(annex.run(ANNEX_SPECIAL, "other", "check"), (2, "", said), "no remote")


def case_outside_a_repository_nothing_is_done(room):
    done = run([ANNEX_SPECIAL, REMOTE, "check"], cwd=room.path(), env={"GIT_CEILING_DIRECTORIES": str(room.folder.parent)})
    expect(done, (2, "", "annex-special: this is no git repository\n"))


@limits(300)
def case_a_key_that_no_line_can_name_is_told_and_the_others_are_done(room):
    annex = Annex(room)
    annex.add({"a": "one"})
    annex.add_remote()
    annex.well("git", "annex", "fromkey", "--force", "-q", "WORM-s3-m5--with space", "b")
    done = annex.special("check")
    lines = "failed WORM-s3-m5--with space b: its key can't be sent on a line\ncheck: 2 keys: 1 absent, 1 failed\n"
    expect(done, (1, lines, ""))


@limits(300)
def case_paths_choose_the_keys_and_start_at_the_current_folder(room):
    annex = Annex(room)
    annex.add({"in/a": "one", "in/b": "two", "c": "three"})
    annex.add_remote()
    done = run([ANNEX_SPECIAL, REMOTE, "copy", "--", "b"], env=annex.env, cwd=f"{annex.top}/in")
    expect(done.out.splitlines()[0], "copy: 1 key: 1 stored", "a file of the current folder")
    expect(annex.stored(), [annex.key("in/b")], "what the remote has")
    done = run([ANNEX_SPECIAL, REMOTE, "check"], env=annex.env, cwd=f"{annex.top}/in")
    expect(done.out.splitlines()[-2], "check: 2 keys: 1 absent, 1 unrecorded", "the current folder")


# A remote that stores under a name that it keeps as the key's state.
STATEFUL = """
getstate() { echo "GETSTATE $1"; IFS= read -r line; state=${line#VALUE}; state=${state# }; }
echo "VERSION 1"
while IFS= read -r line; do
  set -- $line
  case "$1" in
    EXTENSIONS) echo EXTENSIONS ;;
    INITREMOTE) echo INITREMOTE-SUCCESS ;;
    PREPARE) echo PREPARE-SUCCESS ;;
    CHECKPRESENT)
      getstate "$2"
      if [ -n "$state" ] && [ -f "$DIRECTORY/$state" ]; then echo "CHECKPRESENT-SUCCESS $2"
      else echo "CHECKPRESENT-FAILURE $2"; fi ;;
    TRANSFER)
      key=$3
      if [ "$2" = STORE ]; then
        cp "$4" "$DIRECTORY/named-$$"
        echo "SETSTATE $key named-$$"
      fi
      echo "TRANSFER-SUCCESS $2 $key" ;;
    *) echo UNSUPPORTED-REQUEST ;;
  esac
done
"""


@limits(300)
def case_a_state_that_a_remote_sets_is_handed_to_it_in_the_next_run(room):
    annex = Annex(room)
    annex.add({"a": "one"})
    room.script("bin/git-annex-remote-milgroez-stateful", STATEFUL)
    env = {"DIRECTORY": room.mkdir("directory")}
    annex.well("git", "annex", "initremote", "-q", REMOTE, "type=external", "externaltype=milgroez-stateful", "encryption=none")
    done = annex.special("copy", env=env)
    told = "annex-special: git-annex does not know what the remote set: states and URLs, 1 in all\n"
    expect(done, (0, f"copy: 1 key: 1 stored\n{NOT_KNOWN}", told), "a copy")
    key = annex.key("a")
    lines = f"unrecorded {key} a\ncheck: 1 key: 1 unrecorded\n{NOT_KNOWN}"
    expect(annex.special("check", env=env), (1, lines, ""), "a check")


@limits(300)
def case_a_terminal_sees_how_far_a_copy_is_and_nothing_of_it_stays(room):
    annex = Annex(room)
    annex.add({"a": "x" * 1500, "b": "y" * 1500})
    annex.add_remote()
    terminal, inlet = pty.openpty()
    process = start([ANNEX_SPECIAL, REMOTE, "copy"], env=annex.env, cwd=annex.top, stderr=inlet)
    out, _ = process.communicate()
    os.close(inlet)
    expect(as_text(out), f"copy: 2 keys: 2 stored\n{NOT_KNOWN}", "what is printed")
    shown = as_text(os.read(terminal, 65536))
    require("copy: 2 of 2 done, 0 failed, 3.0 kB, " in shown, f"what the terminal shows: {shown!r}")
    require(shown.endswith(" left\r\x1b[K"), f"its end: {shown!r}")


@limits(300)
def case_journals_are_kept_where_they_are_asked_for(room):
    annex = Annex(room)
    annex.add({"a": "one"})
    annex.add_remote()
    folder = room.mkdir("journals")
    expect(annex.special("check", "--journals", folder).status, 0, "the status")
    names = os.listdir(folder)
    require(len(names) == 2, f"wanted that of the start that finds out the way, and that of the check, got {names}")
    for name in names:
        expect(room.special("audit", input=room.read(f"journals/{name}")), (0, "legal\n", ""), "its audit")


@limits(300)
def case_a_journal_that_is_not_legal_ends_the_command_and_nothing_is_put_into_the_annex(room):
    annex = Annex(room)
    annex.add({"a": "one"})
    annex.add_remote()
    annex.well("git", "annex", "move", "-q", "--to", REMOTE)
    real = os.path.realpath(room.path("bin/special"))
    os.remove(room.path("bin/special"))
    room.script("bin/special", f'if [ "$1" = audit ]; then echo "wrong 3 8"; exit 1; fi\nexec {real} "$@"\n')
    done = annex.special("get")
    expect(done.status, 2, "the status")
    require("the journal of a run is not legal (wrong 3 8)" in done.err, f"what is told: {done.err}")
    expect(annex.present(), [], "what is here")


@table([
    ("no command", [REMOTE]),
    ("another command", [REMOTE, "fsck"]),
    ("no jobs", [REMOTE, "check", "--jobs", "0"]),
    ("too many jobs", [REMOTE, "check", "--jobs", "65"]),
])
def wrong_words_are_refused(room, words):
    done = run([ANNEX_SPECIAL, *words], cwd=room.path())
    expect((done.status, done.out), (2, ""), "the status, and what is printed")
    require(done.err.startswith("usage: annex-special"), f"what is told: {done.err}")
