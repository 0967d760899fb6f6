"""Kept files: what is read of them, and what is written.

`rows/keep.txt` has rows `TEXT => TEXT`: a kept file, and the same as `special init` writes it anew where it sets nothing; or
`TEXT => keep line N` where line N may not stand there. `\\n` and `\\r` stand for bytes 10 and 13. `# TEXT` is a heading, and the
rows after it are one case.
"""

import scenes
from harness import UUID, Done, expect, table

REMOTE = """
: > started
echo "VERSION 1"
read -r line; echo EXTENSIONS
read -r line; echo "$line-SUCCESS"
while read -r line; do echo UNSUPPORTED-REQUEST; done
"""


@table(list(scenes.sections("keep.txt")))
def a_kept_file_is_read_and_written_anew(room, rows):
    room.script("remote.sh", REMOTE)
    for row in rows:
        text, _, wanted = row.rpartition(" => ")
        room.write("keep", scenes.bytes_of(text))
        done = room.special("init", "./remote.sh", UUID, "keep")
        run = room.special("run", "--program", "./remote.sh", "--uuid", UUID, "--keep", "keep")
        if wanted.startswith("keep line"):
            refused = Done(6, "", f"special: {wanted}\n")
            expect((done, run), (refused, refused), f"an init and a run with {row}")
            expect(room.read("keep"), scenes.bytes_of(text), f"the file after {row}")
        else:
            expect((done, run), (Done(0, "initialized\n", ""), Done(0, "", "")), f"an init and a run with {row}")
            expect(room.read("keep"), scenes.bytes_of(wanted), f"the file after {row}")


def case_a_file_that_is_refused_starts_nothing(room):
    room.script("remote.sh", REMOTE)
    room.write("keep", "annex-keep 2\n")
    room.special("init", "./remote.sh", UUID, "keep")
    room.special("run", "--program", "./remote.sh", "--uuid", UUID, "--keep", "keep", input="check WORM--a\n")
    expect(room.has("started"), False, "a child was started")


def case_a_run_keeps_the_config_of_the_file_and_all_else_as_it_was_set(room):
    room.write("keep", "annex-keep 1\nconfig a 1\nwanted x\nurl WORM--a u\nstate WORM--b s\n")
    room.script("remote.sh", """
echo "VERSION 1"
read -r line; echo EXTENSIONS
read -r line
echo "SETCONFIG a 2"; echo "SETCONFIG b 3"; echo "SETWANTED y"; echo "SETSTATE WORM--a s"; echo "SETSTATE WORM--b"
echo "SETURLMISSING WORM--a u"; echo "SETURLPRESENT WORM--a v"; echo "SETCREDS c me secret"
echo PREPARE-SUCCESS
read -r line; echo "CHECKPRESENT-SUCCESS WORM--a"
cat > /dev/null
""")
    words = ["run", "--program", "./remote.sh", "--uuid", UUID, "--jobs", "1", "--keep", "keep", "--journal", "journal"]
    expect(room.special(*words, input="check WORM--a\n"), Done(0, "1 present\n", ""))
    expect(room.text("keep"), "annex-keep 1\nconfig a 1\nwanted y\nstate WORM--a s\nurl WORM--a v\n", "the kept file")
    began = ["config a 1", "wanted x", "state WORM--b s", "url WORM--a u"]
    expect(room.journal().keep, began, "what the run began with")


def case_what_a_run_begins_with_stands_in_its_journal_in_order(room):
    room.script("remote.sh", REMOTE)
    # Lines of each kind in any order: the journal has them in the order of docs/FORMATS.md.
    room.write("keep", "annex-keep 1\n"
               "chunks WORM--b 2s 00000000-0000-0000-0000-00000000000b:10 3\n"
               "url WORM--b http://x\nstate WORM--b t\nconfig b \nurl WORM--a http://y\nurl WORM--a \nwanted standard\n"
               "chunks WORM--a 1.5s 00000000-0000-0000-0000-00000000000b:10 1\nstate WORM--a one two\nconfig a 1\n"
               "chunks WORM--a 1s 00000000-0000-0000-0000-00000000000B:9 0\n")
    words = ["run", "--program", "./remote.sh", "--uuid", UUID, "--name", "a b", "--jobs", "1", "--keep", "keep"]
    done = room.special(*words, "--journal", "journal", input="store WORM-s3-m4--a a b\nget WORM--c /c\ndrop WORM--a\n")
    expect(done.status, 1, "the status")
    journal = room.journal()
    expect(journal.tasks, ["store WORM-s3-m4--a a b", "get WORM--c /c", "drop WORM--a"], "the tasks")
    expect(journal.keep, [
        "config a 1", "config b ", "wanted standard", "state WORM--a one two", "state WORM--b t",
        "url WORM--a ", "url WORM--a http://y", "url WORM--b http://x",
        "chunks WORM--a 1.000000s 00000000-0000-0000-0000-00000000000b:9 0",
        "chunks WORM--a 1.500000s 00000000-0000-0000-0000-00000000000b:10 1",
        "chunks WORM--b 2.000000s 00000000-0000-0000-0000-00000000000b:10 3",
    ], "what the run began with")
    expect(room.special("audit", input=room.text("journal")), Done(0, "legal\n", ""), "the audit")
