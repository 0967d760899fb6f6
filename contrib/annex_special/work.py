"""check, get, copy and drop."""

import os
import shutil

from .places import ABSENT, DROPPED, GOT, HerePlace, PRESENT, STORED, groups
from .taking import take
from .text import Problem


class Work:
    """A command over a remote: what came of each key is counted, and told to git-annex where that is wanted."""

    def __init__(self, repository, opened, tally, record, source=None):
        self.repository, self.tally, self.record = repository, tally, record
        self.remote, self.notes, self.place = opened
        self.source = source

    def check(self, items):
        given, uuid = self.notes.given, self.remote.uuid
        for answers in self.place.present(items):
            for answer in answers:
                recorded = given.is_at(answer.item.key, uuid)
                words = {PRESENT: "present" if recorded else "unrecorded", ABSENT: "missing" if recorded else "absent"}
                self.tell(answer, answer.word)
                self.tally.count(words.get(answer.word, answer.word), answer.item, answer.more)
            self.tally.watch.draw()

    def tell(self, answer, word):
        """Notes for git-annex's log what a plain answer says."""
        if word in (PRESENT, STORED):
            self.record.tell(answer.item, True)
        elif word in (ABSENT, DROPPED):
            self.record.tell(answer.item, False)

    def get(self, items):
        left = [item for item in items if self.notes.fetched.has_right(item)]
        self.take(left)  # an earlier run fetched these, and was broken off
        left = {item.key for item in left}
        for answers in self.place.fetch([item for item in items if item.key not in left], self.notes.fetched.file_of):
            self.take([answer.item for answer in answers if answer.word == GOT])
            self.count_others(answers, GOT)
            self.tally.watch.draw()

    def take(self, items):
        """Puts what was fetched into the annex."""
        for item, is_taken in take(items, self.notes.fetched.file_of):
            self.notes.fetched.remove(item)
            if is_taken:
                self.tally.count("got", item)
            else:
                self.tally.count("failed", item, "git-annex did not take it")

    def count_others(self, answers, word):
        """Counts the answers that are no success."""
        for answer in answers:
            if answer.word != word:
                self.tally.count(answer.word, answer.item, answer.more)

    def absent_of(self, items):
        """The items that the remote doesn't have; the others are counted."""
        absent = []
        self.tally.watch.phase = "asking what is there"
        for answers in self.place.present(items):
            absent += [answer.item for answer in answers if answer.word == ABSENT]
            for answer in answers:
                if answer.word != ABSENT:
                    self.tell(answer, answer.word)
                    self.tally.count(answer.word, answer.item, answer.more)
            self.tally.watch.draw()
        self.tally.watch.phase = ""
        return absent

    def copy(self, items):
        absent = self.absent_of(items)
        if self.source:
            for group in groups(absent):
                self.copy_over(group)
        else:
            self.put(self.sendable(absent), self.file_here)

    def sendable(self, items):
        """The items whose content here may be sent; the others are counted."""
        here = HerePlace(self.repository)
        sendable = []
        for item in items:
            wrong = here.wrong_here(item)
            if wrong is None:
                sendable.append(item)
            else:
                self.tally.count("failed", item, wrong if wrong.startswith("its ") else f"its content here is changed: {wrong}")
        return sendable

    def file_here(self, item):
        """The file with the content; where no task can name it, another link to it."""
        path = self.repository.content_of(item.key)
        try:
            self.repository.spelled(path)
            return path
        except Problem:
            return self.linked(item, path)

    def linked(self, item, path):
        file = self.notes.fetched.file_of(item)
        file.unlink(missing_ok=True)
        try:
            os.link(path, file)
        except OSError:
            shutil.copyfile(path, file)
        return file

    def copy_over(self, group):
        """Copies from the other remote, by way of files here that are checked first."""
        file_of = self.source.notes.fetched.file_of
        for answers in self.source.place.fetch(group, file_of):
            self.put([answer.item for answer in answers if answer.word == GOT], file_of)
            for answer in answers:
                self.source.notes.fetched.remove(answer.item)
            self.count_others(answers, GOT)

    def put(self, items, file_of):
        for answers in self.place.put(items, file_of) if items else ():
            for answer in answers:
                self.tell(answer, answer.word)
                self.tally.count(answer.word, answer.item, answer.more)
                if not self.source:
                    self.notes.fetched.remove(answer.item)
            self.tally.watch.draw()

    def drop(self, items):
        for answers in self.place.remove(items):
            for answer in answers:
                self.tell(answer, answer.word)
                self.tally.count(answer.word, answer.item, answer.more)
            self.tally.watch.draw()
