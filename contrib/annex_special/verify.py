"""verify: fetches contents and checks them against their keys; with another place, puts right what is wrong."""

from .digests import is_verified, wrong_of
from .places import ABSENT, DROPPED, FAILED, GOT, STORED


class Verify:
    """Checks all contents of a remote. `source` is the place from which a right content may come."""

    def __init__(self, opened, tally, record, source=None):
        self.remote, self.notes, self.place = opened
        self.tally, self.record, self.source = tally, record, source

    def run(self, items):
        for answers in self.place.verify(items, self.notes.fetched):
            failed = [answer for answer in answers if answer.word == FAILED]
            absent = self.absent_of([answer.item for answer in failed]) if failed else set()
            for answer in answers:
                word, more = answer.word, answer.more
                if answer.word == GOT:
                    word = "verified" if is_verified(answer.item.key) else "unverified"
                    self.record.tell(answer.item, True)
                elif answer.item.key in absent:
                    word, more = "missing", ""
                    self.record.tell(answer.item, False)
                if word in ("missing", "damaged") and self.source:
                    word, more = self.repair(answer.item, word, more)
                self.tally.count(word, answer.item, more)
            self.tally.watch.draw()

    def absent_of(self, items):
        """The keys of those that the remote plainly says it doesn't have."""
        return {answer.item.key for answers in self.place.present(items) for answer in answers if answer.word == ABSENT}

    def one(self, lists):
        """The answer of a call for one item."""
        return [answer for answers in lists for answer in answers][0]

    def repair(self, item, word, more):
        """Puts a right content in the place of a wrong or missing one, and says what came of it."""
        saved = self.notes.saved.file_of
        was = f"{word}{f' ({more})' if more else ''}"
        if not self.is_saved(item):
            answer = self.one(self.source.fetch([item], saved))
            if answer.word != GOT:
                self.notes.saved.remove(item)
                return word, f"{more}{', ' if more else ''}and not repaired: {answer.more}"
        if word == "damaged":
            dropped = self.one(self.place.remove([item]))
            if dropped.word != DROPPED:
                return "failed", f"{was}; it could not be dropped: {dropped.more}; {self.kept(item)}"
        stored = self.one(self.place.put([item], saved))
        if stored.word != STORED:
            self.record.tell(item, False) if self.is_absent(item) else None
            return "failed", f"{was}; a right content could not be stored: {stored.more}; {self.kept(item)}"
        again = self.one(self.place.verify([item], self.notes.fetched))
        if again.word != GOT:
            return "failed", f"{was}; what was stored is {again.word}: {again.more}; {self.kept(item)}"
        self.record.tell(item, True)
        self.notes.saved.remove(item)
        return "repaired", f"it was {was}"

    def is_saved(self, item):
        """Whether a repair that was broken off left a right content here."""
        file = self.notes.saved.file_of(item)
        return file.exists() and wrong_of(item.key, file) is None

    def is_absent(self, item):
        return self.one(self.place.present([item])).word == ABSENT

    def kept(self, item):
        """Says where the right content stays."""
        return f"the right content is kept here as {self.notes.saved.file_of(item)}"
