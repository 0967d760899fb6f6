"""`special rehearse SEED TASKS` and `.. world`: tasks that are made of a number, over remotes in memory."""

import os

from harness import SPECIAL, Done, expect, limits, run, table

WORDS = ["stored", "got", "present", "absent", "dropped", "failed", "other"]


def rehearsed(room, seed, tasks):
    """The counts by their words, and the last line."""
    done = room.special("rehearse", seed, tasks)
    expect((done.status, done.err), (0, ""), "status and err")
    lines = done.out.splitlines()
    expect([line.split(" ")[0] for line in lines[:-1]], WORDS, "the words")
    return {word: int(count) for word, count in (line.split(" ") for line in lines[:-1])}, lines[-1]


def case_the_eight_tasks_of_seed_1(room):
    # i, work, key, answer: 1 check 2 absent, 2 get 2 failed, 3 store 1 stored, 4 drop 2, 5 drop 2, 6 drop 1, 7 store 2, 8 get 2 got.
    out = "stored 2\ngot 1\npresent 0\nabsent 1\ndropped 3\nfailed 1\nother 0\nlegal\n"
    expect(room.special("rehearse", "1", "8"), Done(0, out, ""))


def worked(seed, tasks):
    """The counts, worked by hand of the plan: tasks of one key run in their order, and all of it goes well."""
    counts = dict.fromkeys(WORDS, 0)
    kept = set()
    for i in range(1, tasks + 1):
        x = seed + 30 * i + i * i
        key = x % (tasks // 4 + 1)
        work = x // 5 % 4
        if work == 0:
            kept.add(key)
            counts["stored"] += 1
        elif work == 1:
            counts["got" if key in kept else "failed"] += 1
        elif work == 2:
            counts["present" if key in kept else "absent"] += 1
        else:
            kept.discard(key)
            counts["dropped"] += 1
    return counts


@limits(60)
@table([(f"seed {seed}, {tasks} tasks", seed, tasks) for seed, tasks in
        (("0", "1"), ("0", "4"), ("3", "100"), ("4294967295", "300"), ("007", "0000000000000000500"), ("12345", "1001"))])
def a_rehearsal_is_as_worked(room, seed, tasks):
    expect(rehearsed(room, seed, tasks), (worked(int(seed), int(tasks)), "legal"))


@limits(120)
def case_seed_7_with_2000_tasks_twice(room):
    first = rehearsed(room, "7", "2000")
    expect(first, (worked(7, 2000), "legal"))
    expect((first[0]["other"], sum(first[0].values())), (0, 2000), "other, and the sum")
    expect(rehearsed(room, "7", "2000"), first, "the second run")


@limits(240)
def case_seed_5_with_20000_tasks(room):
    expect(rehearsed(room, "5", "20000"), (worked(5, 20000), "legal"))


def case_nothing_outside_is_touched(room):
    folder = room.mkdir("empty")
    done = run([SPECIAL, "rehearse", "1", "8"], cwd=folder, env={"PATH": "/nowhere"})
    expect((done.status, os.listdir(folder)), (0, []), "the status, and the files")


# ---- in a closed world

def walked(room, seed, tasks):
    """The counts by their words, the tasks whose files are equal to their contents, and the last line."""
    done = room.special("rehearse", seed, tasks, "world")
    expect((done.status, done.err), (0, ""), "status and err")
    lines = [line.split(" ") for line in done.out.splitlines()]
    expect([line[0] for line in lines], [*WORDS, "equal", "legal"], "the words")
    return {word: int(count) for word, count in lines[:7]}, int(lines[7][1]), " ".join(lines[8])


def case_the_eight_tasks_of_seed_1_in_a_world(room):
    out = "stored 2\ngot 1\npresent 0\nabsent 1\ndropped 3\nfailed 1\nother 0\nequal 1\nlegal\n"
    expect(room.special("rehearse", "1", "8", "world"), Done(0, out, ""))


@limits(60)
@table([(f"seed {seed}, {tasks} tasks", seed, tasks) for seed, tasks in
        (("0", "1"), ("0", "2"), ("3", "4"), ("4294967295", "300"), ("007", "0000000000000000500"), ("12345", "1001"))])
def a_walk_is_as_worked(room, seed, tasks):
    counts = worked(int(seed), int(tasks))
    expect(walked(room, seed, tasks), (counts, counts["got"], "legal"))


@limits(120)
def case_seed_7_with_2000_tasks_in_a_world(room):
    counts = worked(7, 2000)
    expect(walked(room, "7", "2000"), (counts, counts["got"], "legal"))


@limits(120)
def case_twenty_other_seeds_in_a_world(room):
    for seed in range(100, 120):
        counts = worked(seed, 200)
        expect(walked(room, str(seed), "200"), (counts, counts["got"], "legal"), f"seed {seed}")


def case_a_world_touches_nothing_outside(room):
    folder = room.mkdir("empty")
    done = run([SPECIAL, "rehearse", "1", "8", "world"], cwd=folder, env={"PATH": "/nowhere"})
    expect((done.status, os.listdir(folder)), (0, []), "the status, and the files")
