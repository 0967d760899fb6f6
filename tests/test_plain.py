"""The program that stands before a remote and says what it says in plain words."""

import os
import random
import signal

from harness import SPECIAL, TOP, Done, expect, finish, require

PLAIN = os.path.abspath(os.environ.get("ANNEX_REMOTE_PLAIN") or TOP / "crates/remote_plain_bin/out/remote_plain_bin")
LONGEST = 1048576


class Talk:
    """A host's side of a talk with the plain program over a remote."""

    def __init__(self, room, remote):
        self.process = room.start([PLAIN], env={"ANNEX_REMOTE_PROGRAM": remote})

    def tell(self, line):
        self.process.stdin.write(line.encode() + b"\n")
        self.process.stdin.flush()

    def hear(self, wanted):
        expect(self.process.stdout.readline(), wanted.encode() + b"\n", "the line that came")


def case_each_change_is_made(room):
    remote = room.child("remote", """
say("VERSION 2")
hear("EXTENSIONS INFO GETGITREMOTENAME")
say("EXTENSIONS")
hear("PREPARE")
say("DIRHASH WORM--a")
hear("VALUE a/b/")
say("GETCONFIG directory")
hear("VALUE a/b")
say("SETURIPRESENT WORM--a https://a/b", "SETURIMISSING WORM--a https://a/b", "PROGRESS -5", "PROGRESS 5")
say("PREPARE-SUCCESS\\r")
hear()
""")
    talk = Talk(room, remote)
    talk.hear("VERSION 1")
    talk.tell("EXTENSIONS INFO ASYNC GETGITREMOTENAME")
    talk.hear("EXTENSIONS")
    talk.tell("PREPARE")
    talk.hear("DIRHASH WORM--a")
    talk.tell("VALUE a/b")
    talk.hear("GETCONFIG directory")
    talk.tell("VALUE a/b")
    talk.hear("PROGRESS 5")
    talk.hear("PREPARE-SUCCESS")
    expect(finish(talk.process), (0, "", ""), "the end")


def case_a_thousand_lines_pass_both_ways(room):
    remote = room.child("remote", """
for line in sys.stdin.buffer:
    sys.stdout.buffer.write(line)
sys.stdout.buffer.flush()
""")
    dice = random.Random(39)
    lines = [bytes(dice.choice(range(11, 256)) for _ in range(dice.randrange(200))) + b"\n" for _ in range(1000)]
    process = room.start([PLAIN], env={"ANNEX_REMOTE_PROGRAM": remote})
    out, _ = process.communicate(b"".join(lines))
    require(out == b"".join(lines), "the lines came back otherwise")
    expect(process.returncode, 0, "the status")


def case_a_remote_that_ends_ends_it_though_the_host_waits(room):
    talk = Talk(room, room.child("remote", 'say("VERSION 1")\nsys.exit(9)\n'))
    talk.hear("VERSION 1")
    expect(talk.process.wait(), 9, "the status")


def case_a_remote_that_a_signal_ends_has_the_status_255(room):
    talk = Talk(room, room.child("remote", f"os.kill(os.getpid(), {int(signal.SIGKILL)})\n"))
    expect(talk.process.wait(), 255, "the status")


def case_a_host_that_goes_ends_the_remote(room):
    talk = Talk(room, room.child("remote", 'say("VERSION 1")\nsys.stdin.read()\nsys.exit(4)\n'))
    talk.hear("VERSION 1")
    talk.process.stdin.close()
    expect(talk.process.wait(), 4, "the status")


def case_a_line_over_the_limit_of_the_remote_ends_it(room):
    remote = room.child("remote", f'say("a" * {LONGEST}, "b" * {LONGEST + 1})\nhear()\n')
    process = room.start([PLAIN], env={"ANNEX_REMOTE_PROGRAM": remote})
    out = process.stdout.read()
    require(out == b"a" * LONGEST + b"\n", "another text came than the line of the limit")
    expect(process.wait(), 1, "the status")


def case_a_line_over_the_limit_of_the_host_ends_it(room):
    remote = room.child("remote", "sys.stdin.read()\n")
    done = room.run([PLAIN], input=b"a" * (LONGEST + 1) + b"\n", env={"ANNEX_REMOTE_PROGRAM": remote})
    expect(done.status, 1, "the status")


def case_words_print_or_are_refused(room):
    expect(room.run([PLAIN, "--version"]), Done(0, "annex-remote-plain 0.1.0\n", ""), "--version")
    done = room.run([PLAIN, "--help"])
    expect((done.status, done.err), (0, ""), "--help")
    require("ANNEX_REMOTE_PROGRAM" in done.out, "the help names the variable")
    for words in (["help"], ["--help", "x"], [""], ["-h"], [b"\xff"]):
        expect(room.run([PLAIN, *words], input="PREPARE\n"), Done(2, "", "annex-remote-plain: it takes no words\n"), f"{words}")


def case_no_program_is_named(room):
    for named in (None, "", "two words"):
        done = room.run([PLAIN], env={"ANNEX_REMOTE_PROGRAM": named})
        expect(done.status, 2, "the status")
        require("ANNEX_REMOTE_PROGRAM" in done.err, "the sentence doesn't name it")


def case_a_loose_remote_is_checked_through_it(room):
    remote = room.child("remote", """
say("VERSION 2")
hear()
say("EXTENSIONS")
hear("PREPARE")
say("PREPARE-SUCCESS ")
hear("CHECKPRESENT WORM--a")
say("SETURIPRESENT WORM--a https://a/b", "CHECKPRESENT-SUCCESS WORM--a")
""")
    done = room.run([SPECIAL, "check", PLAIN, "WORM--a"], env={"ANNEX_REMOTE_PROGRAM": remote})
    expect((done.status, done.out), (0, "1 present\n"), "the check")
