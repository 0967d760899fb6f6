"""ASYNC: several jobs of one process at the same time."""

import os

from .bench import ADVICE, EXTENSIONS, PAGE, TESTREMOTE, Fails, Skips, contents_differ, key_file, odd, test
from .contents import BASE, COMPLETED, WRONG

TAGS = "Messages are tagged with a job number, and the reply to a question carries the tag of its job."
NEEDS = (*BASE, "extensions-async")


def tagged(bench):
    """A session with jobs."""
    if not bench.facts.get("async"):
        raise Skips("it doesn't use ASYNC")
    session = bench.ready(f"{EXTENSIONS} ASYNC")
    if not session.is_tagged:
        raise Skips("it doesn't use ASYNC")
    return session


def at_once(bench, session, lines, numbers=None):
    """Makes all the requests, and hears until each is answered."""
    numbers = numbers or range(1, len(lines) + 1)
    answers = [session.begin(line, f"J {number} ") for number, line in zip(numbers, lines)]
    session.pump(lambda: all(answer.outcome is not None for answer in answers))
    for answer in answers:
        session.give_up(answer)
    return answers


def require(answers, outcome, what):
    """Goes on only where each answer is this."""
    for answer in answers:
        if answer.outcome in ("silent", "ended", "odd", "error"):
            raise odd(answer, answer.request.line, TESTREMOTE)
        if answer.outcome != outcome:
            raise Fails(TESTREMOTE if answer.outcome == "failure" else PAGE,
                        f"{answer} to `{answer.tag}{answer.request.line}`, {what}",
                        "The remote can do several jobs at the same time; each is answered as if it were alone.",
                        "The command fails with -J.")


def rounds(bench, session, count, numbers):
    """Stores, checks, gets and removes as many contents as there are jobs, each at the same time."""
    contents = [os.urandom(65536 + at) for at in range(count)]
    keys = [bench.key(len(content)) for content in contents]
    numbers = iter(numbers)

    def step(lines, outcome, what):
        require(at_once(bench, session, lines, [next(numbers) for _ in lines]), outcome, what)

    what = f"one of {count} jobs"
    step([f"CHECKPRESENT {key}" for key in keys], "absent", what)
    for key in keys:
        bench.stored[key] = session.number
    step([f"TRANSFER STORE {key} {bench.file(key_file(key), content)}" for key, content in zip(keys, contents)], "success", what)
    step([f"CHECKPRESENT {key}" for key in keys], "present", what)
    paths = [bench.file(key_file(key)) for key in keys]
    step([f"TRANSFER RETRIEVE {key} {path}" for key, path in zip(keys, paths)], "success", what)
    for content, path in zip(contents, paths):
        if contents_differ(content, bench.content(path)):
            raise Fails(PAGE, f"in {count} jobs: {contents_differ(content, bench.content(path))}", COMPLETED, WRONG)
    step([f"REMOVE {key}" for key in keys], "success", what)
    step([f"CHECKPRESENT {key}" for key in keys], "absent", f"after its removal, {what}")


@test("async-eight", "with ASYNC, eight jobs at the same time are each answered", NEEDS)
def async_eight(bench):
    session = tagged(bench)
    rounds(bench, session, 8, range(2, 50))


@test("async-numbers-again", "with ASYNC, a job's number is used again after its answer, as git-annex does", NEEDS)
def async_numbers_again(bench):
    session = tagged(bench)
    for _ in range(3):
        rounds(bench, session, 1, [1] * 6)
    rounds(bench, session, 3, [1, 2, 3] * 6)


@test("async-numbers-fresh", "with ASYNC, each job has a number of its own, up to 10,000", NEEDS)
def async_numbers_fresh(bench):
    session = tagged(bench)
    rounds(bench, session, 4, list(range(2, 14)) + list(range(9989, 10001)))


@test("async-order", "with ASYNC, a check doesn't wait for a store of 8 MiB", NEEDS)
def async_order(bench):
    session, content, key = tagged(bench), os.urandom(8 << 20), bench.key(8 << 20)
    first = at_once(bench, session, [f"CHECKPRESENT {key}"], [2])
    require(first, "absent", "a check")
    for number in range(3, 13, 2):
        store = bench.begin_store(session, key, bench.file(key_file(key), content), f"J {number} ")
        check = session.begin(f"CHECKPRESENT {bench.key(1)}", f"J {number + 1} ")
        session.pump(lambda: store.outcome is not None and check.outcome is not None)
        for answer in (store, check):
            session.give_up(answer)
        require([store], "success", "beside a check")
        require([check], "absent", "beside a store")
        if check.replied < store.replied:
            return
    raise Fails(ADVICE, "each of five checks was answered only after a store of 8 MiB",
                "The remote can perform several requests at the same time.",
                "With -J, jobs wait for each other.")


@test("async-question", "with ASYNC, a job that waits for the answer to its question doesn't hold up the others", NEEDS)
def async_question(bench):
    session, content = tagged(bench), os.urandom(1000)
    keys = [bench.key(1000), bench.key(1000)]
    session.hold = lambda tag, word: tag in ("J 2 ", "J 3 ")
    answers = [session.begin(f"CHECKPRESENT {key}", f"J {number} ") for number, key in enumerate(keys, 2)]
    session.pump(lambda: len(session.held) == 2 or all(answer.outcome is not None for answer in answers), 1)
    if not session.held:
        raise Skips("it asks nothing in a check")
    other = session.begin(f"CHECKPRESENT {bench.key(1)}", "J 4 ")
    is_free = session.pump(lambda: other.outcome is not None, 2)
    session.hold = None
    held, session.held = session.held, []
    for line in reversed(held):
        session.send(line)
    session.pump(lambda: all(answer.outcome is not None for answer in (*answers, other)))
    for answer in (*answers, other):
        session.give_up(answer)
    require([*answers, other], "absent", "after its question was answered")
    if not is_free:
        raise Fails(ADVICE, "a check waited until the question of another job was answered",
                    "The remote can perform several requests at the same time.",
                    "With -J, jobs wait for each other.")
