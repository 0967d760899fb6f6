"""The remotes under examples/, as the README uses them."""

import os

from harness import TOP, UUID, expect, table
from runs import status_of

FOLDER = str(TOP / "examples/folder-remote.sh")
ASYNC = str(TOP / "examples/async-remote.sh")


def case_a_file_is_stored_and_got_again(room):
    room.mkdir("folder")
    hello = room.write("hello", "hello\n")
    tasks = f"store WORM-s6--hello {hello}\nget WORM-s6--hello {hello}.again\n"
    words = ["run", "--program", FOLDER, "--uuid", UUID, "--work", room.path()]
    done = room.special(*words, input=tasks, env={"REMOTE_DIR": room.path("folder")})
    expect(done, (0, "1 stored\n2 got\n", ""))
    expect(room.text("hello.again"), "hello\n", "what was got")


def case_a_folder_is_set_up_and_kept(room):
    directory = room.path("folder")
    expect(room.special("init", FOLDER, UUID, "keep", f"directory={directory}"), (0, "initialized\n", ""), "an init")
    expect(room.text("keep"), f"annex-keep 1\nconfig directory {directory}\n", "the kept file")
    expect(os.path.isdir(directory), True, "whether the folder is there")


def case_a_folder_without_its_setting_is_not_set_up(room):
    expect(room.special("init", FOLDER, UUID, "keep"), (1, "failed directory is not set\n", ""))
    expect(room.read("keep"), None, "the kept file")


@table([("over children without tags", FOLDER, 8), ("over a child with tags", ASYNC, 1)])
def works_on_24_keys_by_eight_workers(room, program, children):
    directory = room.mkdir("folder")
    env = {"REMOTE_DIR": directory}
    keys = range(24)
    for n in keys:
        room.write(f"in {n}", f"content of {n}")
    for task, answer in [
        ("store WORM--{n} in {n}", "stored"),
        ("check WORM--{n}", "present"),
        ("get WORM--{n} out {n}", "got"),
        ("drop WORM--{n}", "dropped"),
        ("check WORM--{n}", "absent"),
    ]:
        out = "".join(f"{n + 1} {answer}\n" for n in keys)
        done = room.run_command(program, "".join(task.format(n=n) + "\n" for n in keys), "--jobs", "8", env=env)
        expect(done, (status_of(out), out, ""), task)
        expect(len(room.journal().of("start")), children, "the number of children")
    expect([room.text(f"out {n}") for n in keys], [f"content of {n}" for n in keys], "what was got")
    expect(os.listdir(directory), [], "what the remote has at the end")
