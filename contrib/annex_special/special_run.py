"""Remotes of type=external: a place whose contents `special` stores, gets, checks and drops."""

import time

from .digests import wrong_after_special
from .keys import refusal
from .places import ABSENT, DAMAGED, DROPPED, FAILED, GOT, PRESENT, STORED, Answer, Place, remove_file
from .text import Problem

# A batch that takes less than the first number of seconds is followed by a larger one, and one that takes more than
# the second by a smaller one: answers come at a batch's end, and the host slows down as its journal grows. None is so
# small that the start of the remote is what takes the time.
SHORT_BATCH, LONG_BATCH = 1, 3
FIRST_IN_BATCH, MOST_IN_BATCH = 32, 1024
MOST_BYTES = 1 << 30


class SpecialPlace(Place):
    """The remote, by runs of `special` over batches of keys, which grow with its speed."""

    def __init__(self, runner, way, jobs):
        self.runner, self.way, self.jobs = runner, way, jobs
        self.size = self.least = max(FIRST_IN_BATCH, jobs * 2)

    def refusal(self, item):
        """Why no task can be about the item; None where one can."""
        return refusal(item.key)

    def check_task(self, item):
        return f"check {item.key}"

    def get_task(self, item, file):
        return f"get {item.key} {file}"

    def batches(self, items, task_of):
        """Lists of items with the answers of `special`. An item that can be no task is answered at once."""
        refused = {item.key: why for item in items if (why := self.refusal(item))}
        if refused:
            yield [(item, refused[item.key]) for item in items if item.key in refused]
        waiting = [item for item in items if item.key not in refused]
        while waiting:
            batch = first_of(waiting, self.size)
            waiting = waiting[len(batch):]
            began = time.monotonic()
            answers = self.answers(batch, task_of)
            taken = time.monotonic() - began
            if taken < SHORT_BATCH:
                self.size = min(self.size * 2, MOST_IN_BATCH)
            elif taken > LONG_BATCH:
                self.size = max(self.size // 2, self.least)
            yield list(zip(batch, answers))

    def answers(self, batch, task_of):
        """The answers of one batch, by the way that the remote needs."""
        self.way.find(self.runner, batch[0], self.check_task(batch[0]))
        tasks = [task_of(item) for item in batch]
        answers, journal = self.runner.do(batch, tasks, self.way.plain, self.jobs)
        if self.way.must_change(answers, journal):
            answers, journal = self.runner.do(batch, tasks, self.way.plain, self.jobs)
        return answers

    def present(self, items):
        for batch in self.batches(items, self.check_task):
            yield [answer_of(item, text, PRESENT, ABSENT) for item, text in batch]

    def fetch(self, items, file_of):
        spelled = self.runner.repository.spelled
        for batch in self.batches(items, lambda item: self.get_task(item, spelled(file_of(item)))):
            yield [self.fetched(item, text, file_of(item)) for item, text in batch]

    def fetched(self, item, text, file):
        if text == GOT:
            if not file.exists():
                raise Problem(f"special made no file of {item.key}")
            wrong = wrong_after_special(item.key, file)
            if wrong is None:
                return Answer(item, GOT)
            remove_file(file)
            return Answer(item, DAMAGED, wrong)
        if text.startswith(("size ", "hash ")):
            return Answer(item, DAMAGED, text)
        return Answer(item, FAILED, text)

    def put(self, items, file_of):
        spelled = self.runner.repository.spelled
        for batch in self.batches(items, lambda item: f"store {item.key} {spelled(file_of(item))}"):
            yield [answer_of(item, text, STORED) for item, text in batch]

    def remove(self, items):
        for batch in self.batches(items, lambda item: f"drop {item.key}"):
            yield [answer_of(item, text, DROPPED) for item, text in batch]


def answer_of(item, text, *plain):
    """An answer of `special`: a plain one, or else a failure."""
    return Answer(item, text) if text in plain else Answer(item, FAILED, text)


def first_of(items, most):
    """The first items, so many and not too large together."""
    size = 0
    for place, item in enumerate(items[:most]):
        size += item.size or 0
        if place and size > MOST_BYTES:
            return items[:place]
    return items[:most]
