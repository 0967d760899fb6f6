"""Tasks that are run again on another child, side by side. `rows/agains.txt` has those of one child at a time."""

from harness import UUID, audit, expect, limits, require, table
from runs import check_answers, checks, expect_run, expect_transcript, status_of
from test_ends import DIES_OF_EIGHT, EIGHT, EIGHT_ENDED
from test_overlap import many_checks

LOST = ("ended eof", "ended error ", "foul ", "unsent", "nochild")


def of_task(journal, task, *words):
    """The task's entries of these words."""
    return [entry for entry in journal.of(*words) if entry.parts[0] == str(task)]


def expect_answer(journal, task, answer, right, starts_left):
    """The answer is the right one, or tells of the task's last run, where it may not be run again or no start is left."""
    claims = of_task(journal, task, "claim")
    agains = of_task(journal, task, "again")
    require(len(agains) <= journal.again, f"task {task} is run again {len(agains)} times")
    expect(len(claims), len(agains) + 1, f"how often task {task} is claimed")
    if answer == right:
        return
    require(answer.startswith(LOST), f"task {task} is answered {answer}, and not {right}")
    if claims[-1].parts[1] != "0":
        expect(len(agains), journal.again, f"how often task {task} is run again, which is answered {answer}")
        return
    expect(starts_left, 0, f"starts that are left where task {task} is answered without a child")
    last = agains[-1].parts[1:] if agains else ["nochild"]
    expect(of_task(journal, task, "answer")[0].parts[1:], last, f"the answer of task {task}, for which no start is left")


def expect_agains(room, program, tasks, rights, *words, jobs, starts, again):
    """Does the tasks, and gives the journal. Each answer is the right one or that of the task's last run, and all else is as of any run."""
    done = room.run_command(program, tasks, "--jobs", str(jobs), "--starts", str(starts), "--again", str(again), *words)
    expect(done, (status_of(done.out), done.out, ""), "the status and the errors")
    expect(audit(room.text("journal")), (0, "legal\n", ""), "the audit")
    journal = room.journal()
    expect(journal.again, again, "how often a task may be run again")
    expect(journal.odd_tasks(), [], "the tasks that are not claimed and ended in turn, or not answered once")
    lines = [line.partition(" ") for line in done.out.splitlines()]
    expect([number for number, _, _ in lines], [str(task) for task in range(1, len(rights) + 1)], "the numbers of the answers")
    slots = [entry.parts[-1] if entry.word == "nostart" else entry.parts[1] for entry in journal.of("start", "nostart")]
    for task, ((_, _, answer), right) in enumerate(zip(lines, rights), 1):
        expect_answer(journal, task, answer, right, starts - slots.count("0"))
    for child in range(1, len(journal.of("start")) + 1):
        expect_transcript(room, program, journal, child)
    return journal


# ---- one child that takes tags

DOES_EIGHT = f"greet('ASYNC')\nserve({check_answers(**dict.fromkeys(EIGHT, 'SUCCESS'))!r})\n"
EIGHT_PRESENT = "".join(f"{task} present\n" for task in range(1, 9))


@table([
    ("the second does them all", 2, 1, EIGHT_PRESENT, 8),
    ("so does the second, and the third does them all", 2, 2, EIGHT_PRESENT, 16),
    ("so do the second and the third, and they may be run again no more", 2, 3, EIGHT_ENDED, 16),
    ("they may be run again once, and the second dies too", 1, 2, EIGHT_ENDED, 8),
])
def a_tagged_child_dies_with_eight_jobs_open(room, again, dying, out, agains):
    room.children("remote", *[DIES_OF_EIGHT] * dying, DOES_EIGHT)
    children = dying + 1 if out == EIGHT_PRESENT else dying
    journal = expect_run(room, "./remote", checks(*EIGHT), out, "--again", str(again), jobs=8, starts=4, children=children, busy=8)
    expect([entry.parts[1:] for entry in journal.of("again")], [["ended", "eof"]] * agains, "what is said of each run that is lost")


def case_no_start_is_left_after_a_tagged_child_that_died_with_eight_jobs_open(room):
    room.children("remote", DIES_OF_EIGHT)
    out = EIGHT_ENDED + "9 nochild\n"
    journal = expect_run(room, "./remote", checks(*EIGHT, "i"), out, "--again", "2", jobs=8, busy=8)
    expect(len(journal.of("again")), 8, "how often a task is run again")
    expect([entry.parts[1] for entry in journal.of("claim")][-9:], ["0"] * 9, "the children of the last claims")


def case_a_job_that_was_answered_is_not_run_again(room):
    letters = "ab"
    room.children("remote", """
greet("ASYNC")
a, b = hear_all("CHECKPRESENT WORM--a", "CHECKPRESENT WORM--b")
say(b + "CHECKPRESENT-FAILURE WORM--b")
say_cut(a + "CHECKPRESENT-SUC")
""", f"greet('ASYNC')\nserve({check_answers(a='SUCCESS')!r})\n")
    journal = expect_run(room, "./remote", checks(*letters), "1 present\n2 absent\n", "--again", "8", jobs=2, starts=2, children=2, busy=2)
    expect([entry.parts for entry in journal.of("again")], [["1", "ended", "eof"]], "the task that is run again")


# ---- pools

# It does two tasks, whichever these are, and ends with its third request.
DIES_AT_THIRD = """
greet()
for _ in range(2):
    say("CHECKPRESENT-SUCCESS " + hear().split(" ")[1])
hear()
"""


@limits(120)
@table([(f"{jobs} at a time", jobs) for jobs in (4, 8)])
def each_child_of_a_pool_dies_at_its_third_request(room, jobs):
    room.children("remote", *[DIES_AT_THIRD] * (16 * jobs))
    journal = expect_agains(room, "./remote", checks(*range(64)), ["present"] * 64, jobs=jobs, starts=16, again=8)
    require(len(journal.of("again")) > 0, "no task is run again")


def case_children_of_a_pool_that_die_at_once_are_told_of_when_no_start_is_left(room):
    room.children("remote", *["greet()\nhear()\n"] * 4)
    journal = expect_agains(room, "./remote", checks(*"abcd"), ["ended eof"] * 4, jobs=2, starts=2, again=8)
    expect(len(journal.of("start")), 4, "the number of children")


def case_a_task_that_is_lost_last_waits_for_the_other_child_or_the_next_start(room):
    # both are asked; one answers, and the other one ends when the worker of the first has mostly heard that no task is left
    room.children("remote", """
greet()
hear()
open("asked", "w").close()
wait_for("answered")
time.sleep(0.3)
""", """
greet()
for _, words in requests():
    wait_for("asked")
    say("CHECKPRESENT-SUCCESS " + words[1])
    open("answered", "w").close()
""", f"greet()\nserve({check_answers(a='SUCCESS', b='SUCCESS')!r})\n")
    journal = expect_agains(room, "./remote", checks("a", "b"), ["present"] * 2, jobs=2, starts=2, again=1)
    expect(len(journal.of("again")), 1, "how often a task is run again")
    require(len(journal.of("start")) in (2, 3), "another number of children")


# ---- children that die at random

# It answers by a table, and at some requests it dies: it ends, says ERROR, says a line that may not stand there, or half of one.
DIES_AT_RANDOM = """
import random
number = log_as({name!r})
chance = random.Random({seed} * 1000 + number)
answers = {answers!r}
greet({extensions!r})
for tag, words in requests():
    if chance.random() < {share}:
        way = chance.randrange(4)
        if way == 1:
            say(tag + "ERROR no disk")
        elif way == 2:
            say("CHECKPRESENT-SUCCESS WORM--another")
            hear()
        elif way == 3:
            say_cut(tag + "CHECKPRESENT-SUC")
        sys.exit(0)
    say(tag + answers[" ".join(words)])
"""


@limits(240)
@table([
    (f"{kind}, {again} times, seed {seed}", extensions, share, again, seed)
    for kind, extensions, share in [
        ("a pool", "", 0.08), ("a pool whose starts are used up", "", 0.5),
        ("a child with tags", "ASYNC", 0.02), ("a child with tags whose starts are used up", "ASYNC", 0.1),
    ]
    for again, seed in [(1, 1), (2, 2), (8, 3)]
])
def children_die_at_random_over_500_tasks_by_8_workers(room, extensions, share, again, seed):
    tasks, answers, out = many_checks(500)
    rights = [line.partition(" ")[2] for line in out.splitlines()]
    room.child("remote", DIES_AT_RANDOM.format(
        name=room.path("remote"), seed=seed, answers=answers, extensions=extensions, share=share))
    journal = expect_agains(room, "./remote", tasks, rights, jobs=8, starts=16, again=again)
    require(len(journal.of("again")) > 0, "no task is run again")


# ---- files

# It keeps contents in files of the room, and ends when it was asked so often.
STORES = """
greet({extensions!r})
done = 0
for tag, line in requests():
    word, way, key, file = (line + [""] * 3)[:4] if line[0] == "TRANSFER" else (line[0], "", line[1], "")
    place = "there." + key
    if done == {count}:
        sys.exit(0)
    done += 1
    if word == "CHECKPRESENT":
        say(tag + "CHECKPRESENT-" + ("SUCCESS" if os.path.exists(place) else "FAILURE") + " " + key)
    elif word == "REMOVE":
        if os.path.exists(place):
            os.unlink(place)
        say(tag + "REMOVE-SUCCESS " + key)
    else:
        with open(file if way == "STORE" else place, "rb") as content:
            data = content.read()
        with open(place + tag if way == "STORE" else file, "wb") as copy:
            copy.write(data)
        if way == "STORE":
            os.rename(place + tag, place)
        say(tag + "TRANSFER-SUCCESS " + way + " " + key)
"""


@limits(120)
@table([("over a pool, seven each", "", 7), ("over children with tags, sixteen each", "ASYNC", 16)])
def chunks_are_stored_got_and_dropped_over_children_that_die_after_some_requests(room, extensions, count):
    contents = {letter: (letter * 40).encode() for letter in "abcdef"}
    for letter, content in contents.items():
        room.write(f"f{letter}", content)
    room.mkdir("work")
    room.children("remote", *[STORES.format(extensions=extensions, count=count)] * 64)
    words = ["--chunk", "10", "--keep", "kept", "--work", "work"]
    for task, right in [("store WORM-s40--{0} f{0}", "stored"), ("get WORM-s40--{0} o{0}", "got"), ("check WORM-s40--{0}", "present"),
                        ("drop WORM-s40--{0}", "dropped")]:
        tasks = "".join(task.format(letter) + "\n" for letter in contents)
        run_to_the_end(room, tasks, right, len(contents), words)
        if right == "got":
            expect({letter: room.read(f"o{letter}") for letter in contents}, contents, "what was got")
    expect(list(room.folder.glob("there.*")), [], "what the remote has at the end")


def run_to_the_end(room, tasks, right, count, words):
    """Does the tasks; all are answered as they should be, since each child goes on from what the one before it did."""
    words = ["run", "--program", "./remote", "--uuid", UUID, "--journal", "journal", "--jobs", "3", "--starts", "16", "--again", "8", *words]
    done = room.special(*words, input=tasks)
    expect(done, (0, "".join(f"{number} {right}\n" for number in range(1, count + 1)), ""), f"tasks that are {right}")
    expect(audit(room.text("journal")), (0, "legal\n", ""), "the audit")
    expect(room.journal().odd_tasks(), [], "the tasks that are not claimed and ended in turn, or not answered once")


# ---- texts of earlier programs

def case_the_text_of_a_run_with_the_first_head_is_legal(room):
    room.children("remote", f"greet()\nserve({check_answers(a='SUCCESS')!r})\n")
    expect_run(room, "./remote", checks("a"), "1 present\n", jobs=1)
    text = room.text("journal")
    require(text.startswith("annex-journal 2\n") and "\nagain 0\n" in text, "the head, and the line after the stamp's")
    early = text.replace("annex-journal 2\n", "annex-journal 1\n").replace("\nagain 0\n", "\n")
    expect(audit(early), (0, "legal\n", ""), "the audit of the same text as an earlier program wrote it")


def case_the_text_of_a_run_with_the_first_head_has_no_run_again(room):
    room.children("remote", "greet()\nhear()\n", f"greet()\nserve({check_answers(a='SUCCESS')!r})\n")
    journal = expect_run(room, "./remote", checks("a"), "1 present\n", "--again", "1", jobs=1, starts=2, children=2)
    text = room.text("journal")
    again = journal.of("again")[0]
    lines = text.replace("annex-journal 2\n", "annex-journal 1\n").replace("\nagain 1\n", "\n").splitlines()
    at = lines.index("begin") + 2 + again.place
    expect(audit("".join(line + "\n" for line in lines)), (3, "", f"special: line {at}: entry\n"), "the audit with the first head")
    none = text.replace("\nagain 1\n", "\nagain 0\n")
    expect(audit(none), (1, f"wrong {again.place} 15\n", ""), "the audit where no task may be run again")
