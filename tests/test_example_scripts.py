"""examples/trace.sh, and examples/async-remote.sh with a host that doesn't offer ASYNC."""

import subprocess

from harness import TOP, UUID, as_text, expect, require, start

TRACE = str(TOP / "examples/trace.sh")
FOLDER = str(TOP / "examples/folder-remote.sh")
ASYNC = str(TOP / "examples/async-remote.sh")


def case_trace_shows_each_line_of_both_ways(room):
    env = {"TRACE_PROGRAM": FOLDER, "REMOTE_DIR": room.mkdir("folder")}
    done = room.special("check", TRACE, "WORM--a", env=env)
    lines = [
        "> VERSION 1",
        "< EXTENSIONS INFO GETGITREMOTENAME",
        "> EXTENSIONS",
        "< PREPARE",
        "> GETCONFIG directory",
        "< VALUE ",
        "> PREPARE-SUCCESS",
        "< CHECKPRESENT WORM--a",
        "> CHECKPRESENT-FAILURE WORM--a",
    ]
    expect(done, (1, "1 absent\n", "".join(f"{line}\n" for line in lines)))


def case_trace_changes_no_line(room):
    lines = "".join(f"{n} \\n  a\tb\x01 é\\\\\r\n" for n in range(1000))
    done = room.run([TRACE], input=lines, env={"TRACE_PROGRAM": "cat"})
    expect(done.out, lines, "what comes back")
    expect(done.err.count("\n"), 2000, "the lines that are shown")


def case_trace_ends_when_its_remote_ends(room):
    remote = room.script("remote.sh", "echo 'VERSION 1'\nread -r line\n")
    done = room.special("check", TRACE, "WORM--a", env={"TRACE_PROGRAM": remote})
    expect((done.status, done.out), (1, "1 ended eof\n"))


def case_trace_ends_when_its_host_ends(room):
    process = start([TRACE], env={"TRACE_PROGRAM": FOLDER, "REMOTE_DIR": room.path()})
    expect(as_text(process.stdout.readline()), "VERSION 1\n", "its first line")
    process.stdin.close()
    try:
        process.wait(10)
    except subprocess.TimeoutExpired:
        require(False, "it still runs")


def case_trace_says_that_it_needs_a_remote(room):
    done = room.run([TRACE], env={"TRACE_PROGRAM": None})
    require(done.status != 0 and "names the remote to start" in done.err, f"wanted a refusal, got {done}")


def case_the_async_remote_serves_a_host_without_async(room):
    env = {"REMOTE_DIR": room.mkdir("folder")}
    expect(room.special("check", ASYNC, "WORM--a", env=env), (1, "1 absent\n", ""), "a check")
    room.write("folder/WORM--a", "content")
    expect(room.special("check", ASYNC, "WORM--a", env=env), (0, "1 present\n", ""), "a check of a key that is there")
    unsupported = "".join(f"{what} unsupported\n" for what in ("configs", "cost", "availability", "infos", "export"))
    expect(room.special("info", ASYNC, env=env), (0, unsupported, ""), "an info")
    expect(room.special("init", ASYNC, UUID, "keep", env=env), (0, "initialized\n", ""), "an init")


def case_the_async_remote_is_not_ready_without_its_folder(room):
    missing = room.path("missing")
    done = room.special("check", ASYNC, "WORM--a", env={"REMOTE_DIR": missing})
    expect(done, (1, f"1 notprepared no folder {missing}\n", ""))
