"""Tasks side by side over a pool: several children that take no tags, each started in a slot of its own."""

import os

from harness import expect, limits, require, table
from runs import check_answers, checks, expect_run
from test_overlap import many_checks

THREE = checks("a", "b", "c")
ANSWERS = check_answers(a="SUCCESS", b="FAILURE", c="SUCCESS")
WHOLE = f"greet()\nserve({ANSWERS!r})\n"
# It knows nothing of extensions.
OLD = f"greet(None)\nserve({ANSWERS!r})\n"
# It ends where it is asked for the third key.
TWO_OF_THREE = f"greet()\nserve({check_answers(a='SUCCESS', b='SUCCESS')!r})\n"
REFUSED = 'greet(ready="PREPARE-FAILURE no disk")\nhear()\n'
# It ends in its greeting.
BROKEN = 'say("VERSION 1")\nhear()\nsay("EXTENSIONS")\nhear()\nsay_cut("PREP")\n'
# It ends at the first request after its greeting.
SHORT = "greet()\nhear()\n"
# It says a line out of turn where it is asked for one of the first two keys.
FOUL = f"greet()\nserve({dict.fromkeys(['CHECKPRESENT WORM--a', 'CHECKPRESENT WORM--b'], 'REMOVE-SUCCESS WORM--x')!r})\n"
SETS_AND_ASKS = """
greet()
for _, words in requests():
    if words[0] == "CHECKPRESENT":
        say("SETSTATE WORM--a here", "CHECKPRESENT-SUCCESS WORM--a")
    elif ask("GETSTATE WORM--a") == "here":
        say("REMOVE-SUCCESS WORM--a")
    else:
        say("REMOVE-FAILURE WORM--a not told")
"""
DROPS = f"""
greet(None)
serve({ANSWERS | {"REMOVE WORM--a": "REMOVE-SUCCESS WORM--a", "REMOVE WORM--b": "REMOVE-FAILURE WORM--b no line"}!r})
"""
# The starts after it fail.
REMOVES_ITSELF = "os.unlink(sys.argv[0])\n"
# The next start fails, where a room makes one fail.
FAILS_NEXT = 'os.rename("remote.fails", "remote")\n'


@table([
    ("the child that is asked for the third key ends", 2, THREE, [TWO_OF_THREE] * 2, 2,
     "1 present\n2 present\n3 ended eof\n"),
    ("three tasks over three children", 3, THREE, [OLD, WHOLE, OLD], 3,
     "1 present\n2 absent\n3 present\n"),
    ("no more children than tasks", 8, checks("a", "c"), [WHOLE] * 3, 2,
     "1 present\n2 present\n"),
    ("one task has one child", 64, checks("b"), [OLD, WHOLE], 1,
     "1 absent\n"),
    ("one job at a time has one child", 1, THREE, [WHOLE] * 2, 1,
     "1 present\n2 absent\n3 present\n"),
    ("what one child sets, the one is told that has the next task of the key", 2, "check WORM--a\ndrop WORM--a\n",
     [SETS_AND_ASKS] * 2, 2, "1 present\n2 dropped\n"),
])
def children_without_tags_serve_side_by_side(room, jobs, tasks, bodies, started, out):
    room.children("remote", *bodies)
    journal = expect_run(room, "./remote", tasks, out, jobs=jobs, children=started)
    expect(journal.slots_before_claims(), list(range(started)), "the slots that are started before a task is claimed")


@table([
    ("the second can't get ready", 2, [WHOLE, REFUSED], 2),
    ("the second ends in its greeting", 3, [WHOLE, BROKEN, WHOLE], 3),
    ("the second start fails", 2, [REMOVES_ITSELF + WHOLE], 1),
])
def a_child_that_is_not_ready_stays_out_and_costs_no_task(room, jobs, bodies, started):
    room.children("remote", *bodies)
    expect_run(room, "./remote", THREE, "1 present\n2 absent\n3 present\n", jobs=jobs, children=started)


def case_each_way_not_to_get_ready_and_one_child_more_that_is_ready(room):
    room.children("remote", DROPS, FAILS_NEXT + REFUSED, BROKEN, DROPS)
    room.fail_a_start("remote")
    tasks = THREE + "drop WORM--a\ndrop WORM--b\n"
    out = "1 present\n2 absent\n3 present\n4 dropped\n5 failed no line\n"
    journal = expect_run(room, "./remote", tasks, out, jobs=8, children=4)
    expect([entry.parts for entry in journal.of("nostart")], [["2"]], "the slots whose start failed")


def case_a_first_child_that_cannot_get_ready_costs_a_task_and_then_two_are_ready(room):
    room.children("remote", REFUSED, WHOLE, WHOLE)
    out = "1 notprepared no disk\n2 absent\n3 present\n"
    expect_run(room, "./remote", THREE, out, jobs=2, starts=2, children=3)


def case_a_first_start_that_fails_costs_a_task_and_then_two_give_children(room):
    room.children("remote", OLD, WHOLE)
    room.fail_a_start("remote")
    os.rename(room.path("remote.fails"), room.path("remote"))
    expect_run(room, "./remote", THREE, "1 startfault\n2 absent\n3 present\n", jobs=2, starts=2, children=2)


LAST_TWO = f"greet()\nserve({check_answers(c='FAILURE', d='SUCCESS')!r})\n"
FOUL_TWICE = "1 foul REMOVE-SUCCESS WORM--x\n2 foul REMOVE-SUCCESS WORM--x\n"


@table([
    ("two children say a foul line each", 2, 1, THREE, [FOUL] * 2, 2,
     FOUL_TWICE + "3 nochild\n"),
    ("after them the next two do the rest", 2, 2, THREE + checks("d"), [FOUL] * 2 + [LAST_TWO] * 2, 4,
     FOUL_TWICE + "3 absent\n4 present\n"),
    ("after them one task is left, and one child does it", 2, 2, THREE, [FOUL] * 2 + [WHOLE] * 2, 3,
     FOUL_TWICE + "3 present\n"),
    ("two rounds of three children that end at their first request", 3, 2, checks(*"abcdefgh"), [SHORT] * 6, 6,
     "".join(f"{task} ended eof\n" for task in range(1, 7)) + "7 nochild\n8 nochild\n"),
])
def each_child_of_a_pool_ends_with_its_own_task_alone(room, jobs, starts, tasks, bodies, started, out):
    room.children("remote", *bodies)
    expect_run(room, "./remote", tasks, out, jobs=jobs, starts=starts, children=started)


ALL_EIGHT = check_answers(
    a="SUCCESS", b="FAILURE", c="SUCCESS", d="FAILURE", e="SUCCESS", f="FAILURE", g="SUCCESS", h="UNKNOWN why"
)
MEETS = """
for _, words in requests():
    meet("asked", {count})
    say({answers!r}[" ".join(words)])
"""


@table([
    ("two children", 2, checks("a", "b"), ["greet()\n"] * 2, "1 present\n2 absent\n"),
    ("two children of which one knows nothing of extensions, and then a third task", 2, THREE,
     ["greet(None)\n", "greet()\n"], "1 present\n2 absent\n3 present\n"),
    ("eight children", 8, checks(*"abcdefgh"), ["greet()\n"] * 8,
     "1 present\n2 absent\n3 present\n4 absent\n5 present\n6 absent\n7 present\n8 unknown why\n"),
])
def no_child_of_a_pool_answers_before_each_was_asked(room, jobs, tasks, greets, out):
    meets = MEETS.format(count=jobs, answers=ALL_EIGHT)
    room.children("remote", *[greet + meets for greet in greets])
    expect_run(room, "./remote", tasks, out, jobs=jobs, children=jobs, busy=jobs)


@table([
    ("two stores", 2, "store WORM-s2--a f\nstore WORM-s3--b g\n", "1 stored\n2 stored\n"),
    ("a store, a get and a drop", 3, "store WORM-s2--a f\nget WORM-s3--b o\ndrop WORM--c\n", "1 stored\n2 got\n3 dropped\n"),
])
def works_overlap_over_children_that_take_no_tags(room, jobs, tasks, out):
    room.write("f", "hi")
    room.write("g", "abc")
    room.children("remote", *["""
greet()
for _, words in requests():
    meet("asked", %d)
    if words[1] == "RETRIEVE":
        open(words[3], "w").write("abc")
    say("REMOVE-SUCCESS WORM--c" if words[0] == "REMOVE" else f"TRANSFER-SUCCESS {words[1]} {words[2]}")
""" % jobs] * jobs)
    expect_run(room, "./remote", tasks, out, jobs=jobs, children=jobs, busy=jobs)


@limits(60)
@table([(f"{tasks} tasks by {children} children", children, tasks) for children, tasks in [(2, 20), (8, 100)]])
def many_tasks_are_answered_once_by_many_children(room, children, tasks):
    lines, answers, out = many_checks(tasks)
    room.children("remote", *[f"greet()\nserve({answers!r})\n"] * children)
    expect_run(room, "./remote", lines, out, jobs=children, children=children)


@limits(60)
def case_answers_of_children_without_tags_come_in_pieces_of_each_size(room):
    count, most = 240, 60
    lines, answers, out = many_checks(count)
    room.children("remote", *[f"""
greet()
size = 0
for _, words in requests():
    size = size % {most} + 1
    say_in_pieces(size, "DEBUG wait", {answers!r}[" ".join(words)])
"""] * 2)
    expect_run(room, "./remote", lines, out, jobs=2, children=2)


# It answers as many_checks has it, and is quick to start.
QUICK = """
echo "VERSION 1"
while IFS= read -r line; do
  case "$line" in
    EXTENSIONS*) echo EXTENSIONS ;;
    PREPARE) echo PREPARE-SUCCESS ;;
    *)
      number=${line#CHECKPRESENT WORM--}
      case $((number % 3)) in
        0) echo "CHECKPRESENT-SUCCESS WORM--$number" ;;
        1) echo "CHECKPRESENT-FAILURE WORM--$number" ;;
        2) echo "CHECKPRESENT-UNKNOWN WORM--$number why" ;;
      esac ;;
  esac
done
"""


@limits(60)
def case_100_tasks_are_answered_once_by_64_children(room):
    lines, _, out = many_checks(100)
    room.script("remote", QUICK)
    expect_run(room, "./remote", lines, out, jobs=64, children=64)


def case_all_children_of_two_pools_end_one_by_one(room):
    # each child does one task and ends with its second, whichever these are, and two tasks are left
    child = 'greet()\nkey = hear().split(" ")[1]\nsay("CHECKPRESENT-SUCCESS " + key)\nhear()\n'
    room.children("remote", *[child] * 6)
    words = ["--jobs", "3", "--starts", "2"]
    done = room.run_command("./remote", checks(*range(14)), *words)
    lines = done.out.splitlines()
    require(done.status == 1 and done.err == "", f"the status is {done.status}, and err has {done.err!r}")
    expect(lines[12:], ["13 nochild", "14 nochild"], "the tasks that are left")
    for first, last in [(0, 6), (6, 12)]:
        endings = sorted(line.partition(" ")[2] for line in lines[first:last])
        expect(endings, ["ended eof"] * 3 + ["present"] * 3, f"what is printed of tasks {first + 1} to {last}")
    journal = room.journal()
    expect(len(journal.of("start")), 6, "the number of children")
    expect(journal.odd_tasks(), [], "the tasks that are not claimed once and answered once")
