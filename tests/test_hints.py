"""What `special` writes on standard error for people: a second line, which says what is wrong with the words or with which
file, and notices, which change no status; and the folder that `--work` names, which a run makes.
"""

import fcntl
import os
import pty
import subprocess

from harness import SPECIAL, UUID, expect, require, table

RUN = ["run", "--program", "p", "--uuid", UUID]
COMMAND = "there is no command {}: try special --help"
NUMBER = "{}: try special run --help"

WORDS = [
    ("no words", [], "name a command, in words that are UTF-8: try special --help"),
    ("help", ["help"], COMMAND.format("help")),
    ("-h", ["-h"], COMMAND.format("-h")),
    ("a command misspelt", ["chek", "p", "WORM--a"], COMMAND.format("chek")),
    ("an option that isn't there", [*RUN, "--bogus", "1"], "run has no option --bogus: try special run --help"),
    ("too many jobs", [*RUN, "--jobs", "100"], "--jobs takes a number from 1 to 64, such as 8: try special run --help"),
    ("a unit", [*RUN, "--chunk", "1MiB"], "--chunk takes a number of bytes up to 1099511627776, such as 1048576: try special run --help"),
    ("a unit after =", [*RUN, "--chunk=1M"], "--chunk takes a number of bytes up to 1099511627776, such as 1048576: try special run --help"),
    ("too many starts", [*RUN, "--starts", "17"], "--starts takes a number from 1 to 16: try special run --help"),
    ("too often again", [*RUN, "--again", "9"], "--again takes a number from 0 to 8: try special run --help"),
    ("no UUID", ["run", "--program", "p", "--uuid", "zz"], "--uuid takes a UUID, such as 6f9619ff-8b86-d011-b42d-00cf4fc964ff: try special run --help"),
    ("a missing option", ["run", "--program", "p"], "run needs --uuid: try special run --help"),
    ("both missing", ["run"], "run needs --program: try special run --help"),
    ("an option twice", [*RUN, "--jobs", "2", "--jobs", "3"], "--jobs is given twice: try special run --help"),
    ("a value missing", [*RUN, "--keep"], "--keep takes a file: try special run --help"),
    ("a check without a key", ["check", "p"], "check takes PROGRAM KEY: try special check --help"),
    ("an info without words", ["info"], "info takes PROGRAM [KEY]: try special info --help"),
    ("an init without a file", ["init", "p", UUID], "init takes PROGRAM UUID KEEP [NAME=VALUE ..]: try special init --help"),
    ("an init without a UUID", ["init", "p", "u", "k"], "u is no UUID, such as 6f9619ff-8b86-d011-b42d-00cf4fc964ff: try special init --help"),
    ("a setting without =", ["init", "p", UUID, "k", "a=1", "b"], "b is no setting: write NAME=VALUE, such as directory=/home/me/contents"),
    ("an audit with words", ["audit", "x"], "audit takes no words, since it reads its input: try special audit --help"),
    ("a recovery without words", ["recover"], "recover takes JOURNAL [KEEP]: try special recover --help"),
    ("a rehearsal of none", ["rehearse", "1", "0"],
     "rehearse takes SEED TASKS [world], SEED from 0 to 4294967295, TASKS from 1 to 65536: try special rehearse --help"),
]

# A remote that has what is asked for, and three bytes for it.
FETCHES = """#!/bin/sh
echo VERSION 1
while read -r word way key file; do
    case "$word" in
    EXTENSIONS) echo UNSUPPORTED-REQUEST ;;
    PREPARE | INITREMOTE) echo "$word-SUCCESS" ;;
    CHECKPRESENT) echo "CHECKPRESENT-SUCCESS $way" ;;
    TRANSFER) printf abc > "$file" && echo "TRANSFER-SUCCESS RETRIEVE $key" ;;
    esac
done
"""

# A remote that lacks a setting.
UNSET = """#!/bin/sh
echo VERSION 1
while read -r word rest; do
    case "$word" in
    EXTENSIONS) echo UNSUPPORTED-REQUEST ;;
    *) echo "$word-FAILURE no directory" ;;
    esac
done
"""


def called(room, words, input=b"", **more):
    """The status, standard output, and the lines on standard error."""
    done = subprocess.run([SPECIAL, *words], cwd=room.folder, input=input, stderr=subprocess.PIPE, check=False, **{"stdout": subprocess.PIPE, **more})
    return done.returncode, done.stdout, done.stderr.decode().splitlines()


def lines_of(room, words, input=b"", **more):
    status, out, lines = called(room, words, input, **more)
    expect(out, b"", "standard output")
    return status, lines


@table(WORDS)
def words_that_are_wrong_are_named(room, words, hint):
    expect(lines_of(room, words), (2, ["special: usage", f"special: {hint}"]))


def case_a_line_that_is_refused_is_named_and_where_to_look(room):
    wanted = ["special: line 2: key", "special: special run --help says what each reason means; nothing was started"]
    expect(lines_of(room, RUN, b"check WORM--a\ncheck x\n"), (3, wanted))


def case_a_kept_file_that_cannot_be_read_is_named(room):
    room.mkdir("folder")
    wanted = ["special: file failed", "special: folder can't be read, or another run uses it"]
    expect(lines_of(room, [*RUN, "--keep", "folder"]), (6, wanted))
    expect(lines_of(room, ["init", "p", UUID, "folder"]), (6, wanted))


def case_a_kept_file_that_another_run_uses_is_named(room):
    with open(room.path("kept.lock"), "w", encoding="utf-8") as lock:
        fcntl.flock(lock, fcntl.LOCK_EX)
        room.write("kept", "")
        expect(lines_of(room, [*RUN, "--keep", "kept"]), (6, ["special: file failed", "special: kept can't be read, or another run uses it"]))


def case_the_files_of_a_recovery_are_named(room):
    expect(lines_of(room, ["recover", "none"]), (6, ["special: file failed", "special: none can't be read"]))
    wanted = ["special: file failed", "special: none can't be read, or kept has changed since that run began"]
    expect(lines_of(room, ["recover", "none", "kept"]), (6, wanted))
    room.write("remote", FETCHES)
    os.chmod(room.path("remote"), 0o755)
    called(room, ["run", "--program", "./remote", "--uuid", UUID, "--journal", "journal"], b"check WORM--a\n")
    room.write("kept", "annex-keep 1\nconfig a 1\n")
    wanted = ["special: keep changed", "special: kept was left as it is: it has changed since the run of journal began, or would be too large"]
    expect(called(room, ["recover", "journal", "kept"]), (6, b"1 present\n", wanted))


def case_a_kept_file_that_holds_something_else_is_named(room):
    room.write("kept", "nonsense\n")
    expect(lines_of(room, [*RUN, "--keep", "kept"]), (6, ["special: keep line 1", "special: the kept file is kept: mend it, or name another"]))


def case_a_journal_that_cannot_be_written_is_named_alone(room):
    room.write("none", "a file")
    words = [*RUN, "--keep", "kept", "--journal", "none/journal"]
    expect(lines_of(room, words), (6, ["special: file failed", "special: none/journal can't be made or written"]))


def case_a_kept_file_that_cannot_be_written_is_named_alone(room):
    room.mkdir("kept.new")
    words = [*RUN, "--keep", "kept", "--journal", "journal"]
    expect(lines_of(room, words), (6, ["special: file failed", "special: kept.new can't be made or written"]))
    require(room.has("journal"), "the journal is there")


def case_both_files_are_named_where_both_failed(room):
    room.mkdir("kept.new")
    room.mkdir("journal")
    words = [*RUN, "--keep", "kept", "--journal", "journal"]
    wanted = "special: kept.new can't be made or written; and journal can't be made or written"
    expect(lines_of(room, words), (6, ["special: file failed", wanted]))


def case_a_line_end_in_a_word_is_a_space_in_the_second_line(room):
    expect(lines_of(room, ["a\nb"]), (2, ["special: usage", f"special: {COMMAND.format('a b')}"]))


def case_the_folder_for_files_in_transit_is_made(room):
    expect(lines_of(room, [*RUN, "--work", "new"]), (0, []))
    require(os.path.isdir(room.path("new")), "it is there")
    room.write("new/file", "kept")
    expect(lines_of(room, [*RUN, "--work=new/"]), (0, []))
    expect(room.read("new/file"), b"kept", "what stood in it")


def case_a_get_goes_through_a_folder_that_was_made(room):
    room.script("remote", FETCHES)
    status, out, lines = called(room, ["run", "--program", "./remote", "--uuid", UUID, "--work", "new"], b"get WORM-s3--a a\n")
    expect((status, out, lines), (0, b"1 got\n", []))
    expect(room.read("a"), b"abc", "what was fetched")


WORKS = [
    ("no parent", "none/new", "--work none/new can't be made, since the folder that it is in isn't there: make that, or name another; nothing was started"),
    ("a file", "file", "--work file isn't a folder: name another; nothing was started"),
    ("in a file", "file/new", "--work file/new can't be made: Not a directory (os error 20): name another; nothing was started"),
]


@table(WORKS)
def a_folder_that_cannot_be_made_is_named_before_anything_is_started(room, work, hint):
    room.write("file", "a file")
    room.script("remote", "#!/bin/sh\ntouch started\n")
    words = ["run", "--program", "./remote", "--uuid", UUID, "--work", work, "--keep", "kept", "--journal", "journal"]
    expect(lines_of(room, words, b"check WORM--a\n"), (6, ["special: file failed", f"special: {hint}"]))
    for name in ("started", "kept", "journal", "none"):
        require(not room.has(name), f"no {name}")


PATHLESS = "it isn't in PATH, and a program in the current folder is ./no-such-remote"
STARTS = [
    ("a name that isn't in PATH", "no-such-remote", PATHLESS),
    ("a path that isn't there", "./nothing", "it isn't there, or the interpreter that its first line names isn't"),
    ("an interpreter that isn't there", "./stray", "it isn't there, or the interpreter that its first line names isn't"),
    ("a script that isn't executable", "./plain", "it isn't an executable file, which chmod +x makes of a script"),
    ("a file without a first line", "./text", "Exec format error (os error 8)"),
]


@table(STARTS)
def why_a_program_did_not_start_is_noted_once(room, program, why):
    room.script("stray", "#!/no/such/interpreter\n")
    os.chmod(room.write("text", "no first line\n"), 0o755)
    room.write("plain", "#!/bin/sh\n")
    note = [f"special: note: {program} couldn't be started: {why}"]
    expect(called(room, ["check", program, "WORM--a"]), (1, b"1 startfault\n", note))
    expect(called(room, ["info", program]), (1, b"startfault\n", note))
    expect(called(room, ["init", program, UUID, "kept"]), (1, b"startfault\n", note))
    many = b"".join(b"check WORM--%d\n" % at for at in range(9))
    expect(called(room, ["run", "--program", program, "--uuid", UUID, "--starts", "9"], many)[2], note)


NEXT = "settings are given by: special init PROGRAM UUID KEEP NAME=VALUE .."
CHECKED = "check and info give no settings, which are given by: special init PROGRAM UUID KEEP NAME=VALUE .., and then special run --keep KEEP .."
SETTINGS = [
    ("init", ["init", "./remote", UUID, "kept"], b"failed no directory\n", f"{NEXT}, and PROGRAM --help may say which there are"),
    ("run", ["run", "--program", "./remote", "--uuid", UUID], b"1 notprepared no directory\n", f"{NEXT}, and then special run --keep KEEP .."),
    ("check", ["check", "./remote", "WORM--a"], b"1 notprepared no directory\n", CHECKED),
    ("info", ["info", "./remote"], b"notprepared no directory\n", CHECKED),
]


@table(SETTINGS)
def what_to_do_about_settings_is_noted(room, words, out, note):
    room.script("remote", UNSET)
    expect(called(room, words, b"check WORM--a\n"), (1, out, [f"special: note: {note}"]))


def case_nothing_is_noted_where_an_answer_was_got(room):
    room.script("remote", FETCHES)
    expect(called(room, ["check", "./remote", "WORM--a"]), (0, b"1 present\n", []))
    expect(called(room, ["init", "./remote", UUID, "kept"]), (0, b"initialized\n", []))


def case_nothing_is_said_where_standard_output_failed(room):
    with open("/dev/full", "wb") as full:
        expect(called(room, ["check", "no-such-remote", "WORM--a"], stdout=full), (5, None, []))


def case_tasks_from_a_terminal_are_noted_before_they_end(room):
    host, terminal = pty.openpty()
    with subprocess.Popen([SPECIAL, *RUN], cwd=room.folder, stdin=terminal, stdout=subprocess.PIPE, stderr=subprocess.PIPE) as run:
        os.close(terminal)
        expect(run.stderr.readline(), b"special: note: the tasks are read from the terminal, one a line: end them with Ctrl-D\n")
        os.write(host, b"\x04")
        expect((run.wait(), run.stdout.read(), run.stderr.read()), (0, b"", b""))
    os.close(host)


def case_all_is_well_without_a_word(room):
    expect(subprocess.run([SPECIAL, "--version"], capture_output=True, check=True).stderr, b"")
