"""Children that take tags and end with jobs open, and the starts after them."""

from harness import audit, expect, limits, require, table
from runs import check_answers, checks, expect_run

BOTH = 'greet("ASYNC")\na, b = hear_all("CHECKPRESENT WORM--a", "CHECKPRESENT WORM--b")\n'
LAST = f"greet('ASYNC')\nserve({check_answers(c='SUCCESS')!r})\n"


@table([
    ("a tag of no job", 'say("J 99 CHECKPRESENT-SUCCESS WORM--a")\nhear()\n',
     "foul J 99 CHECKPRESENT-SUCCESS WORM--a"),
    ("no tag", 'say("CHECKPRESENT-SUCCESS WORM--a")\nhear()\n',
     "foul CHECKPRESENT-SUCCESS WORM--a"),
    ("an answer about another key", 'say("J 2 CHECKPRESENT-SUCCESS WORM--c")\nhear()\n',
     "foul J 2 CHECKPRESENT-SUCCESS WORM--c"),
    ("ERROR with the tag of one job", 'say(b + "ERROR no disk")\nhear()\n',
     "ended error no disk"),
    ("ERROR without a tag", 'say("ERROR gone")\nhear()\n',
     "ended error gone"),
    ("nothing more", "",
     "ended eof"),
])
def a_child_ends_with_both_jobs_and_the_next_does_the_rest(room, last_words, answer):
    room.children("remote", BOTH + last_words, LAST)
    out = f"1 {answer}\n2 {answer}\n3 present\n"
    expect_run(room, "./remote", checks("a", "b", "c"), out, jobs=2, starts=2, children=2, busy=2)


def case_an_answer_about_the_other_jobs_key_ends_both_jobs(room):
    room.children("remote", BOTH + 'say(a + "CHECKPRESENT-SUCCESS WORM--b")\nhear()\n', LAST)
    done = room.run_command("./remote", checks("a", "b", "c"), "--jobs", "2", "--starts", "2")
    # Either check may have been asked first.
    said = [line[2:] for line in room.text("remote.1.log").splitlines() if line.startswith("> ")]
    answer = f"foul {said[-1]}"
    require(said[-1].endswith(" CHECKPRESENT-SUCCESS WORM--b"), f"the child said {said[-1]}")
    expect(done, (1, f"1 {answer}\n2 {answer}\n3 present\n", ""))
    expect(audit(room.text("journal")), (0, "legal\n", ""), "the audit")


def case_no_start_is_left_after_a_child_that_ended_with_both_jobs(room):
    room.children("remote", BOTH + 'say("J 99 CHECKPRESENT-SUCCESS WORM--a")\nhear()\n', LAST)
    foul = "foul J 99 CHECKPRESENT-SUCCESS WORM--a"
    expect_run(room, "./remote", checks("a", "b", "c"), f"1 {foul}\n2 {foul}\n3 nochild\n", jobs=2, busy=2)


def case_an_answer_that_is_cut_off_is_none(room):
    room.children("remote", BOTH + """
say(a + "CHECKPRESENT-SUCCESS WORM--a")
say_cut(b + "CHECKPRESENT-SUC")
""")
    expect_run(room, "./remote", checks("a", "b"), "1 present\n2 ended eof\n", jobs=2, busy=2)


# What a child says of three keys once it was asked for all of them, without the tags; and the tasks' answers by how many lines it said.
ANSWERS = [(1, "CHECKPRESENT-SUCCESS WORM--b"), (2, "CHECKPRESENT-FAILURE WORM--c"), (0, "CHECKPRESENT-UNKNOWN WORM--a why")]
ANSWERED = [
    ["ended eof", "ended eof", "ended eof"],
    ["ended eof", "present", "ended eof"],
    ["ended eof", "present", "absent"],
    ["unknown why", "present", "absent"],
]
ENDS = [len("".join(f"J 2 {answer}\n" for _, answer in ANSWERS[:count])) for count in range(4)]


@limits(60)
@table([(f"after {count} bytes", count) for count in sorted(
    {0, *range(1, ENDS[3], 9), *[end + by for end in ENDS[1:] for by in (-1, 0, 1)]})])
def a_child_dies_within_its_answers(room, count):
    room.children("remote", f"""
greet("ASYNC")
tags = hear_all("CHECKPRESENT WORM--a", "CHECKPRESENT WORM--b", "CHECKPRESENT WORM--c")
text = "".join(tags[at] + answer + "\\n" for at, answer in {ANSWERS!r}) + "DEBUG"
for line in text[:{count}].split("\\n")[:-1]:
    note(b"> ", line.encode())
say_cut(text[:{count}])
""")
    answers = ANSWERED[sum(end <= count for end in ENDS[1:])]
    out = "".join(f"{task} {answer}\n" for task, answer in enumerate(answers, 1))
    expect_run(room, "./remote", checks("a", "b", "c"), out, jobs=3, busy=3)


EIGHT = "abcdefgh"
DIES_OF_EIGHT = f"""
greet("ASYNC")
hear_all(*{[f"CHECKPRESENT WORM--{letter}" for letter in EIGHT]!r})
say_cut("J")
"""
EIGHT_ENDED = "".join(f"{task} ended eof\n" for task in range(1, 9))


def case_a_child_dies_with_eight_jobs_open_and_the_next_does_the_rest(room):
    room.children("remote", DIES_OF_EIGHT, """
greet("ASYNC")
i, j = hear_all("CHECKPRESENT WORM--i", "CHECKPRESENT WORM--j")
say(j + "CHECKPRESENT-FAILURE WORM--j", i + "CHECKPRESENT-SUCCESS WORM--i")
hear()
""")
    out = EIGHT_ENDED + "9 present\n10 absent\n"
    expect_run(room, "./remote", checks(*EIGHT, "i", "j"), out, jobs=8, starts=2, children=2, busy=8)


def case_a_child_dies_with_eight_jobs_open_and_no_start_is_left(room):
    room.children("remote", DIES_OF_EIGHT)
    out = EIGHT_ENDED + "9 nochild\n10 nochild\n"
    expect_run(room, "./remote", checks(*EIGHT, "i", "j"), out, jobs=8, busy=8)


def case_a_child_dies_with_eight_jobs_open_then_a_start_fails_and_then_a_child_does_the_rest(room):
    room.children("remote", 'os.rename("remote.fails", "remote")\n' + DIES_OF_EIGHT,
                  f"greet('ASYNC')\nserve({check_answers(j='SUCCESS')!r})\n")
    room.fail_a_start("remote")
    out = EIGHT_ENDED + "9 startfault\n10 present\n"
    expect_run(room, "./remote", checks(*EIGHT, "i", "j"), out, jobs=8, starts=3, children=2, busy=8)


@limits(60)
def case_a_child_dies_with_its_first_job_open_after_thousands_of_others(room):
    count = 3000
    room.children("remote", f"""
greet("ASYNC")
asked = answered = 0
for tag, words in requests():
    asked += 1
    if words[1] != "WORM--0":
        say(tag + "CHECKPRESENT-SUCCESS " + words[1])
        answered += 1
    if asked == {count} and answered == {count} - 1:
        break
""")
    out = "1 ended eof\n" + "".join(f"{task} present\n" for task in range(2, count + 1))
    expect_run(room, "./remote", checks(*range(count)), out, jobs=8, busy=2)


def case_a_child_that_ends_in_its_greeting_costs_a_task(room):
    room.children("remote", """
say("VERSION 1")
hear()
say("EXTENSIONS ASYNC")
hear()
say_cut("J 1 PREPARE-SUC")
""", """
greet("ASYNC")
b, c = hear_all("CHECKPRESENT WORM--b", "CHECKPRESENT WORM--c")
say(c + "CHECKPRESENT-SUCCESS WORM--c", b + "CHECKPRESENT-SUCCESS WORM--b")
hear()
""")
    out = "1 ended eof\n2 present\n3 present\n"
    expect_run(room, "./remote", checks("a", "b", "c"), out, jobs=2, starts=2, children=2, busy=2)


GREETING = "VERSION 1\nEXTENSIONS ASYNC\nJ 1 PREPARE-SUCCESS\n"


@limits(60)
@table([(f"after {first} to {last - 1} bytes", first, last) for first, last in ((0, 16), (16, 32), (32, len(GREETING)))])
def a_child_dies_within_its_greeting(room, first, last):
    room.children("remote", *[f"""
text = {GREETING[:count]!r}
for line in text.split("\\n")[:-1]:
    note(b"> ", line.encode())
say_cut(text)
os.close(1)
while True:
    hear()
""" for count in range(first, last)])
    starts = last - first
    out = "".join(f"{task} ended eof\n" for task in range(1, starts + 1))
    expect_run(room, "./remote", checks(*range(starts)), out, jobs=2, starts=starts, children=starts)


def case_each_child_that_cannot_get_ready_costs_a_task(room):
    refuses = 'greet("ASYNC", ready="PREPARE-FAILURE no disk")\nhear()\n'
    room.children("remote", refuses, refuses, LAST)
    out = "1 notprepared no disk\n2 notprepared no disk\n3 present\n"
    expect_run(room, "./remote", checks("a", "b", "c"), out, jobs=64, starts=3, children=3)


def case_each_start_that_fails_costs_a_task(room):
    out = "1 startfault\n2 startfault\n3 nochild\n"
    expect_run(room, "./not-there", checks("a", "b", "c"), out, jobs=8, starts=2, children=0)


def case_nothing_is_started_without_tasks(room):
    room.children("remote", LAST)
    expect_run(room, "./remote", "", "", jobs=8, starts=2, children=0, busy=0)
    expect(room.has("remote.1.log"), False, "a log of the remote")
