"""The words of `annex-special`: which keys they choose, what is printed, and the statuses."""

import json
import os
import subprocess

from annexed import ANNEX_SPECIAL, Annex
from collection import directory, milgroez
from harness import TOP, expect, limits, require, run, skip, table

OPTIONS = (
    "--all", "--key", "--unused", "--in-remote", "--jobs", "--from", "--repair-from", "--unverified", "--record", "--set",
    "--plain", "--strict", "--dry-run", "--journals", "--json", "--quiet", "--verbose",
)


@table([(option, option) for option in OPTIONS])
def each_option_is_in_the_help_the_page_and_the_completions(room, option):
    require(option in run([ANNEX_SPECIAL, "--help"]).out, "it isn't in the help")
    for name, spelling in [
        ("man/annex-special.1", option.replace("-", "\\-")),
        ("completions/annex-special.bash", option),
        ("completions/_annex-special", option),
        ("completions/annex-special.fish", f"-l {option[2:]} "),
    ]:
        require(spelling in (TOP / name).read_text(), f"it isn't in {name}")


def special(annex, *words, env=None):
    return annex.run(ANNEX_SPECIAL, "kept", *words, env=env)


def small(room, kind=directory):
    """Three files, `a` and `b` in the remote."""
    annex = Annex(room)
    annex.add({"a": "one", "b": "two", "c": "three"})
    kind(annex)
    annex.well("git", "annex", "copy", "-q", "--to", "kept", "a", "b")
    return annex


@limits(300)
def case_keys_of_old_versions_and_deleted_files_are_chosen_by_all_unused_key_and_in_remote(room):
    annex = small(room)
    old, new = annex.key("a"), annex.key("c")
    annex.well("git", "rm", "-q", "a")
    annex.well("git", "commit", "-qm", "no a")
    annex.well("git", "annex", "unused", "-q")
    expect(special(annex, "check").out, "check: 2 keys: 1 absent, 1 present\n", "the files")
    expect(special(annex, "check", "--all").out, "check: 3 keys: 1 absent, 2 present\n", "all keys")
    expect(special(annex, "check", "--in-remote").out, "check: 2 keys: 2 present\n", "what the log has there")
    expect(special(annex, "check", "--unused", "-v").out, f"present {old}\ncheck: 1 key: 1 present\n", "what is unused")
    said = f"absent {new}\npresent {old}\ncheck: 2 keys: 1 absent, 1 present\n"
    expect(special(annex, "check", "--key", new, f"--key={old}", "-v").out, said, "two keys")
    said = "annex-special: only one of paths, --all, --key, --unused and --in-remote can choose the keys\n"
    expect(special(annex, "check", "--all", "b"), (2, "", said), "two ways to choose")
    expect(special(annex, "check", "--key", "x"), (2, "", "annex-special: x is no key\n"), "no key")


@limits(300)
def case_record_tells_git_annex_what_the_answers_say_and_no_more(room):
    annex = small(room)
    for folder, _, names in os.walk(room.path("contents")):
        if annex.key("b") in names:
            os.unlink(f"{folder}/{annex.key('b')}")
    recorded = ["git", "annex", "find", "--in=kept"]
    expect(special(annex, "check", "--record").out.splitlines()[1:], ["check: 3 keys: 1 absent, 1 missing, 1 present"], "a check")
    expect(annex.well(*recorded), "a\n", "what the log has after a check")
    expect(special(annex, "copy", "--record"), (0, "copy: 2 keys: 2 stored\n", ""), "a copy")
    expect(annex.well(*recorded), "a\nb\nc\n", "what the log has after a copy")
    annex.well("git", "annex", "fsck", "-q", "--from", "kept")
    expect(special(annex, "drop", "b", "--record"), (0, "drop: 1 key: 1 dropped\n", ""), "a drop")
    expect(annex.well(*recorded), "a\nc\n", "what the log has after a drop")
    os.chmod(room.path("contents"), 0)
    os.rename(room.path("contents"), room.path("away"))
    room.write("contents/in the way/x")
    for key in (annex.key("a"), annex.key("c")):
        middle = annex.well("git", "annex", "examinekey", key, "--format=${hashdirlower}").split("/")[0]
        room.write(f"contents/{middle}")
    expect(special(annex, "check", "--record").status, 1, "a check of what is in the way")
    expect(annex.well(*recorded), "", "what the log has where the remote plainly says no")


@limits(300)
def case_the_advice_can_be_pasted(room):
    annex = Annex(room)
    annex.add({"-a 'file'": "one"})
    directory(annex)
    done = annex.run(ANNEX_SPECIAL, "kept", "copy", "--", "-a 'file'")
    command = done.out.split("`")[1]
    expect(command, """git annex fsck --fast --from kept -- '-a '"'"'file'"'"''""", "the advice")
    expect(annex.run("sh", "-c", command).status, 0, "the advice as a command")
    expect(annex.well("git", "annex", "find", "--in=kept"), "-a 'file'\n", "what the log has then")


@limits(300)
def case_a_copy_asks_first_and_sends_only_what_is_not_there(room):
    annex = small(room, milgroez)
    uuid = annex.well("git", "config", "remote.kept.annex-uuid").strip()
    annex.well("git", "annex", "setpresentkey", annex.key("a"), uuid, "0")
    done = special(annex, "copy", "--record")
    expect((done.status, done.out), (0, "copy: 2 keys: 1 present, 1 stored\n"), "a copy")
    expect(special(annex, "copy").out, "copy: 0 keys\n", "once more")


@limits(300)
def case_a_copy_from_another_remote_checks_each_content_on_its_way(room):
    annex = small(room)
    folder = room.mkdir("second")
    annex.well("git", "annex", "initremote", "-q", "second", "type=directory", f"directory={folder}", "encryption=none")
    wrong = [f"{top}/{name}" for top, _, names in os.walk(room.path("contents")) for name in names if name == annex.key("b")][0]
    os.chmod(wrong, 0o644)
    with open(wrong, "w") as file:
        file.write("TWO")
    annex.well("git", "annex", "drop", "-q", "--force", ".")
    done = annex.run(ANNEX_SPECIAL, "second", "copy", "--from", "kept", "--record")
    require(done.out.startswith(f"damaged {annex.key('b')} b: hash "), f"what is told: {done.out}")
    expect(done.out.splitlines()[-1], "copy: 2 keys: 1 damaged, 1 stored", "the numbers")
    expect(annex.well("git", "annex", "find", "--in=second"), "a\n", "what the log has in the second")
    annex.well("git", "annex", "get", "-q", "--from", "second", "a")


@limits(300)
def case_json_has_an_object_for_each_key_and_one_at_the_end(room):
    annex = small(room)
    done = special(annex, "check", "--json")
    rows = [json.loads(line) for line in done.out.splitlines()]
    wanted = [
        {"command": "check", "key": annex.key(name), "file": name, "result": result}
        for name, result in (("a", "present"), ("b", "present"), ("c", "absent"))
    ]
    last = {"command": "check", "keys": 3, "counts": {"absent": 1, "present": 2}, "unverified": 0, "not_done": 0, "success": True}
    expect((done.status, rows, done.err), (0, [*wanted, last], ""))


@limits(300)
def case_quiet_prints_only_what_went_wrong_and_a_dry_run_does_nothing(room):
    annex = small(room)
    said = f"would copy {annex.key('c')} c\ncopy: 1 key, 5 B: nothing was done (--dry-run)\n"
    expect(special(annex, "copy", "--dry-run").out, said, "a dry run")
    expect(annex.run("find", room.path("contents"), "-name", annex.key("c")).out, "", "what is in the remote")
    expect(special(annex, "copy", "--quiet"), (0, "", ""), "a quiet copy")
    expect(special(annex, "check", "--quiet"), (1, f"unrecorded {annex.key('c')} c\n", ""), "a quiet check")


@limits(300)
@table([
    ("full", "> /dev/full", "annex-special: standard output: No space left on device\n"),
    ("closed", ">&-", "annex-special: standard output: it is closed\n"),
    ("a pipe that nobody reads", "| true", ""),
])
def an_output_that_takes_nothing_is_status_2_and_no_traceback(room, redirection, said):
    annex = small(room)
    for words in ("kept check", "kept check --json", "--help"):
        script = f"set -o pipefail; sleep 0.2 | {ANNEX_SPECIAL} {words} {redirection}"
        done = annex.run("bash", "-c", script)
        expect((done.status, done.out, done.err), (2, "", said), words)


@limits(300)
def case_more_keys_than_a_run_of_special_takes_are_checked(room):
    annex = small(room)
    uuid = annex.well("git", "config", "remote.kept.annex-uuid").strip()
    line = f"1700000000s 1 {uuid}\n"
    names = "".join(f"M 100644 :1 {n % 16:x}00/{n % 4096:03x}/MD5-s0--{n:032x}.log\n" for n in range(66000))
    stream = f"blob\nmark :1\ndata {len(line)}\n{line}commit refs/heads/git-annex\ncommitter a <a> 1700000000 +0000\ndata 0\n"
    annex.well("git", "update-ref", "refs/heads/before", "git-annex")
    done = run(["git", "fast-import", "--quiet"], input=f"{stream}from refs/heads/before\n{names}", env=annex.env, cwd=annex.top)
    expect(done.status, 0, "the making of a log")
    done = special(annex, "check", "--all")
    expect(done.out.splitlines()[-2], "check: 66003 keys: 1 absent, 66000 missing, 2 present", "the numbers")


@limits(300)
def case_what_git_annex_has_not_committed_yet_is_known(room):
    annex = small(room)
    annex.well("git", "-c", "annex.alwayscommit=false", "annex", "copy", "-q", "--to", "kept", "c")
    expect(special(annex, "check"), (0, "check: 3 keys: 3 present\n", ""))


@limits(300)
def case_a_directory_of_an_early_git_annex_is_read(room):
    annex = small(room)
    for name in ("a", "b"):
        mixed = annex.well("git", "annex", "examinekey", annex.key(name), "--format=${hashdirmixed}")
        lower = annex.well("git", "annex", "examinekey", annex.key(name), "--format=${hashdirlower}")
        room.mkdir(f"contents/{mixed}")
        os.rename(room.path(f"contents/{lower}{annex.key(name)}"), room.path(f"contents/{mixed}{annex.key(name)}"))
    expect(special(annex, "verify"), (0, "verify: 2 keys: 2 verified\n", ""), "a verify")


@limits(300)
def case_git_s_own_reason_is_told(room):
    annex = small(room)
    subprocess.run(["chown", "-R", "12345", annex.top], check=False)
    if os.stat(annex.top).st_uid != 12345:
        skip("only root can give files away")
    done = special(annex, "check")
    require(done.status == 2 and "dubious ownership" in done.err, f"what is told: {done}")


@limits(300)
def case_a_disk_that_is_not_mounted_is_no_missing_content(room):
    annex = small(room)
    os.rename(room.path("contents"), room.path("away"))
    done = special(annex, "check")
    require(done.status == 2 and "is the disk mounted?" in done.err, f"no folder: {done}")
    room.mkdir("contents")
    done = special(annex, "check", "--record")
    require(done.status == 2 and "is empty: is the disk mounted there?" in done.err, f"an empty folder: {done}")
    expect(special(annex, "check", "--set", f"directory={room.path('away')}").status, 0, "the folder elsewhere")
