"""Tasks side by side over a child that takes tags."""

from harness import limits, require, table
from runs import check_answers, check_reply, checks, expect_run

TAGGED = 'greet("ASYNC")\n'


def asked_all(letters, replies):
    """A child that is asked to check all these letters' keys before it answers: each reply takes the tag of its letter's."""
    messages = [f"CHECKPRESENT WORM--{letter}" for letter in letters]
    lines = "".join(f"say(tags[{letters.index(letter)}] + {reply!r})\n" for letter, reply in replies)
    return f"tags = hear_all(*{messages!r})\n{lines}"


@table([
    ("in the order of the tasks",
     [("a", check_reply("a")), ("b", check_reply("b"))],
     "1 present\n2 present\n"),
    ("the second first",
     [("b", check_reply("b")), ("a", check_reply("a"))],
     "1 present\n2 present\n"),
    ("each with an answer of its own",
     [("b", check_reply("b", "UNKNOWN", "why")), ("a", check_reply("a", "FAILURE"))],
     "1 absent\n2 unknown why\n"),
])
def two_tasks_are_asked_before_one_is_answered(room, replies, out):
    room.children("remote", TAGGED + asked_all("ab", replies) + "hear()\n")
    expect_run(room, "./remote", checks("a", "b"), out, jobs=2, busy=2)


def case_a_third_task_is_asked_when_one_of_two_is_answered(room):
    room.children("remote", TAGGED + """
tags = hear_all("CHECKPRESENT WORM--a", "CHECKPRESENT WORM--b")
say(tags[1] + "CHECKPRESENT-FAILURE WORM--b")
third = hear_all("CHECKPRESENT WORM--c")
say(tags[0] + "CHECKPRESENT-SUCCESS WORM--a")
say(third[0] + "CHECKPRESENT-UNKNOWN WORM--c why")
hear()
""")
    expect_run(room, "./remote", checks("a", "b", "c"), "1 present\n2 absent\n3 unknown why\n", jobs=2, busy=2)


def case_eight_tasks_are_asked_and_the_last_is_answered_first(room):
    replies = [(letter, check_reply(letter, how)) for letter, how in zip("hgfedcba", ["SUCCESS", "FAILURE"] * 4)]
    # job 2 is the first task's, and may say something of its own between the others' answers
    child = TAGGED + asked_all("abcdefgh", replies).replace("say(tags[2]", 'say("J 2 DEBUG wait")\nsay(tags[2]')
    room.children("remote", child + "hear()\n")
    out = "1 absent\n2 present\n3 absent\n4 present\n5 absent\n6 present\n7 absent\n8 present\n"
    expect_run(room, "./remote", checks(*"abcdefgh"), out, jobs=8, busy=8)


def case_one_job_at_a_time_over_a_child_that_takes_tags(room):
    room.children("remote", TAGGED + f"serve({check_answers(a='SUCCESS', b='FAILURE')!r})\n")
    journal = expect_run(room, "./remote", checks("a", "b"), "1 present\n2 absent\n", jobs=1)
    require(journal.most_busy() == 1, "two tasks are open at once")


# What is said of the key of a number, and what is printed then.
REPLIES = [("SUCCESS", "", "present"), ("FAILURE", "", "absent"), ("UNKNOWN", "why", "unknown why")]


def many_checks(count):
    """So many checks: the tasks, the answers of the remote, and what is printed."""
    tasks = checks(*range(count))
    answers = {f"CHECKPRESENT WORM--{n}": check_reply(n, *REPLIES[n % 3][:2]) for n in range(count)}
    out = "".join(f"{n + 1} {REPLIES[n % 3][2]}\n" for n in range(count))
    return tasks, answers, out


@limits(60)
@table([(f"{tasks} tasks by {jobs} workers", jobs, tasks)
        for jobs, tasks in [(1, 3), (2, 8), (8, 2), (8, 50), (64, 1), (64, 5), (64, 500)]])
def each_task_is_answered_once(room, jobs, tasks):
    lines, answers, out = many_checks(tasks)
    room.children("remote", TAGGED + f"serve({answers!r})\n")
    expect_run(room, "./remote", lines, out, jobs=jobs)


@limits(60)
@table([(f"{jobs} workers", jobs) for jobs in (2, 8, 64)])
def as_many_tasks_are_open_at_once_as_there_are_workers(room, jobs):
    lines, answers, out = many_checks(jobs)
    room.children("remote", TAGGED + f"""
answers = {answers!r}
tags = hear_all(*answers)
for tag, answer in reversed(list(zip(tags, answers.values()))):
    say(tag + answer)
hear()
""")
    expect_run(room, "./remote", lines, out, jobs=jobs, busy=jobs)


@limits(60)
def case_answers_come_in_pieces_of_each_size(room):
    # all three are asked before the last is answered first; the answers of one size are 102 bytes or more
    most = 120
    tasks = [f"{size}{letter}" for size in range(1, most) for letter in "abc"]
    room.children("remote", TAGGED + f"""
for size in range(1, {most}):
    keys = [f"WORM--{{size}}{{letter}}" for letter in "abc"]
    tags = hear_all(*[f"CHECKPRESENT {{key}}" for key in keys])
    say_in_pieces(
        size,
        tags[2] + f"CHECKPRESENT-SUCCESS {{keys[2]}}",
        tags[0] + f"CHECKPRESENT-FAILURE {{keys[0]}}",
        tags[1] + f"CHECKPRESENT-UNKNOWN {{keys[1]}} why",
    )
hear()
""")
    answers = ["absent", "unknown why", "present"] * most
    out = "".join(f"{task} {answer}\n" for task, answer in zip(range(1, len(tasks) + 1), answers))
    expect_run(room, "./remote", checks(*tasks), out, jobs=3, busy=3)


def case_a_check_and_a_drop_of_one_key_wait_and_a_check_of_another_goes_before(room):
    room.children("remote", TAGGED + """
tags = hear_all("CHECKPRESENT WORM--a", "CHECKPRESENT WORM--b")
say(tags[0] + "CHECKPRESENT-SUCCESS WORM--a")
say(tags[1] + "CHECKPRESENT-SUCCESS WORM--b")
serve({"REMOVE WORM--a": "REMOVE-SUCCESS WORM--a"})
""")
    tasks = "check WORM--a\ndrop WORM--a\ncheck WORM--b\n"
    journal = expect_run(room, "./remote", tasks, "1 present\n2 dropped\n3 present\n", jobs=2, busy=2)
    require(journal.waits(1, 2), "the drop is claimed before the check of its key is answered")
    require(journal.most_busy() == 2, "three tasks are open at once")


@table([(f"{jobs} workers", jobs) for jobs in (2, 8, 64)])
def four_tasks_of_one_key_are_done_one_after_the_other(room, jobs):
    room.children("remote", TAGGED + """
for request, answer in [
    ("CHECKPRESENT", "CHECKPRESENT-SUCCESS"),
    ("REMOVE", "REMOVE-SUCCESS"),
    ("CHECKPRESENT", "CHECKPRESENT-FAILURE"),
    ("REMOVE", "REMOVE-SUCCESS"),
]:
    tags = hear_all(request + " WORM--a")
    say(tags[0] + answer + " WORM--a")
hear()
""")
    tasks = "check WORM--a\ndrop WORM--a\n" * 2
    journal = expect_run(room, "./remote", tasks, "1 present\n2 dropped\n3 absent\n4 dropped\n", jobs=jobs)
    for first in (1, 2, 3):
        require(journal.waits(first, first + 1), f"task {first + 1} is claimed before task {first} is answered")
    require(journal.most_busy() == 1, "two tasks are open at once")


def case_two_keys_of_one_file_wait_and_another_file_goes_before(room):
    room.write("f", "abc")
    room.write("g", "hi")
    room.children("remote", TAGGED + """
tags = hear_all("TRANSFER STORE WORM--a f", "TRANSFER STORE WORM--c g")
say(tags[1] + "TRANSFER-SUCCESS STORE WORM--c")
say(tags[0] + "TRANSFER-SUCCESS STORE WORM--a")
serve({"TRANSFER STORE WORM--b f": "TRANSFER-SUCCESS STORE WORM--b"})
""")
    tasks = "store WORM--a f\nstore WORM--b f\nstore WORM--c g\n"
    journal = expect_run(room, "./remote", tasks, "1 stored\n2 stored\n3 stored\n", jobs=8, busy=2)
    require(journal.waits(1, 2), "the second store of the file is claimed before the first is answered")
    require(journal.most_busy() == 2, "three tasks are open at once")


@limits(60)
@table([
    ("one file", 3000, "f", "f"),
    ("one file, and now and then the same with .part", 3000, "f", "f.part"),
])
def thousands_of_tasks_of_one_file_are_done_one_after_the_other(room, count, file, seldom):
    room.write("f", "abc")
    room.write("f.part", "abc")
    room.children("remote", TAGGED + """
for tag, words in requests():
    say(tag + f"TRANSFER-SUCCESS {words[1]} {words[2]}")
""")
    tasks = "".join(f"store WORM--{n} {seldom if n % 100 == 7 else file}\n" for n in range(count))
    out = "".join(f"{n + 1} stored\n" for n in range(count))
    journal = expect_run(room, "./remote", tasks, out, jobs=8)
    require(journal.most_busy() == 1, "two tasks of one file are open at once")


@limits(60)
def case_checks_go_on_beside_thousands_of_tasks_of_one_file(room):
    # nothing is answered before a store and seven checks are asked
    room.write("f", "abc")
    room.children("remote", TAGGED + """
def answer(tag, words):
    store = words[0] == "TRANSFER"
    say(tag + (f"TRANSFER-SUCCESS {words[1]} {words[2]}" if store else f"CHECKPRESENT-SUCCESS {words[1]}"))

first = [untagged(hear()) for _ in range(8)]
for tag, line in first:
    answer(tag, line.split(" "))
for tag, words in requests():
    answer(tag, words)
""")
    stores, later = 2000, 1000
    tasks = "".join(f"store WORM--{n} f\n" for n in range(stores)) + checks(*range(stores, stores + later))
    out = "".join(f"{n + 1} {'stored' if n < stores else 'present'}\n" for n in range(stores + later))
    expect_run(room, "./remote", tasks, out, jobs=8, busy=8)
