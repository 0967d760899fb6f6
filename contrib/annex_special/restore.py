"""restore: fills a clone, or a folder, from one remote; without git-annex."""

from .places import ABSENT, DAMAGED, FAILED, GOT, PRESENT, UNVERIFIED, groups
from .text import shown


class Restore:
    """Fetches what the target lacks, and says at the end what is still missing and where the log says it is."""

    def __init__(self, opened, target, tally, descriptions):
        self.remote, self.notes, self.place = opened
        self.target, self.tally, self.descriptions = target, tally, descriptions

    def run(self, items):
        """Keys that the log has in the remote come first. Of the others the remote is asked."""
        wanted = [item for item in items if not self.skip(item)]
        given, uuid = self.notes.given, self.remote.uuid
        recorded = [item for item in wanted if given.is_at(item.key, uuid)]
        others = [item for item in wanted if not given.is_at(item.key, uuid)]
        self.fetch(recorded)
        there = []
        for answers in self.place.present(others) if others else ():
            there += [answer.item for answer in answers if answer.word == PRESENT]
            for answer in answers:
                if answer.word != PRESENT:
                    self.lacking(answer)
        self.fetch(there)

    def skip(self, item):
        """Counts what needs no fetching."""
        state, more = self.target.state(item)
        if state == "here":
            self.tally.count("here", item)
        elif state == "left":
            self.tally.count("left", item, more)
        elif self.notes.fetched.has_right(item):
            self.put(item)  # an earlier run fetched it, and was broken off
            return True
        return state in ("here", "left")

    def fetch(self, items):
        for group in groups(items):
            for answers in self.place.fetch(group, self.notes.fetched.file_of):
                failed = []
                for answer in answers:
                    if answer.word == GOT:
                        self.put(answer.item)
                    else:
                        failed.append(answer)
                self.tell_failed(failed)
                self.tally.watch.draw()

    def put(self, item):
        """Puts a content that was checked in its place."""
        try:
            left = self.target.put(item, self.notes.fetched.file_of(item))
        except OSError as why:
            self.tally.count("failed", item, f"{why.strerror}: {why.filename2 or why.filename}")
            return
        self.notes.fetched.remove(item)
        if left:
            self.tally.count("left", item, f"other content is in its place: {', '.join(map(shown, left))}")
        else:
            self.tally.count("restored", item)

    def tell_failed(self, answers):
        """A get that failed is told as missing where the remote then says that it doesn't have the content."""
        items = [answer.item for answer in answers if answer.word == FAILED]
        asked = [answer for some in self.place.present(items) for answer in some] if items else []
        absent = {answer.item.key for answer in asked if answer.word == ABSENT}
        for answer in answers:
            self.lacking(answer._replace(word=ABSENT, more="") if answer.item.key in absent else answer)

    def lacking(self, answer):
        """Counts what could not be restored, with where else the log says it is."""
        uuids = [uuid for uuid in self.notes.given.places(answer.item.key) if uuid != self.remote.uuid]
        names = [f"{uuid} ({shown(self.descriptions[uuid])})" if uuid in self.descriptions else uuid for uuid in uuids]
        also = f"the log has it in {', '.join(names)}" if names else "the log has it nowhere else"
        word = {ABSENT: "missing", DAMAGED: "damaged", UNVERIFIED: "unverified"}.get(answer.word, "failed")
        self.tally.count(word, answer.item, f"{answer.more}; {also}" if answer.more else also)
