"""Contents in chunks, over a place that keeps the chunks by their keys."""

import time

from .digests import PIECE, wanted_size, wrong_of
from .keys import Item, chunk_key
from .places import ABSENT, DAMAGED, DROPPED, FAILED, GOT, PRESENT, STORED, Answer, Place, groups, open_private, remove_file


class ChunkedPlace(Place):
    """A layer: each content lies below in chunks, by one of the layouts that are noted of its key, or whole.

    A layout is `(size, count)`; `(0, 1)` is the whole content.
    """

    def __init__(self, below, remote, notes, scratch):
        self.below, self.remote, self.notes, self.scratch = below, remote, notes, scratch

    def layouts(self, item):
        """Where to look, in order: a note that doesn't fit the key's size is passed over, as git-annex does."""
        noted = self.notes.given.layouts(item.key)
        fitting = [(size, count) for size, count in noted if item.size is not None and count == max(1, -(-item.size // size))]
        return [*fitting, (0, 1)]

    def parts(self, item, layout):
        """The items below that the content consists of."""
        size, count = layout
        if not size:
            return [item]
        keys = [chunk_key(item.key, size, number) for number in range(1, count + 1)]
        return [Item(key, wanted_size(key), item.file) for key in keys]

    def by_layouts(self, items, attempt):
        """Tries one layout after the other. `attempt(pairs)` yields answers for pairs of an item and its layout."""
        waiting = {item.key: self.layouts(item) for item in items}
        last = {}
        while items:
            pairs = [(item, waiting[item.key].pop(0)) for item in items]
            for answer in attempt(pairs):
                last[answer.item.key] = worse(last.get(answer.item.key), answer)
                if answer.word in (PRESENT, GOT):
                    waiting[answer.item.key] = []
            done = [item for item in items if not waiting[item.key]]
            items = [item for item in items if waiting[item.key]]
            yield [last[item.key] for item in done]

    def answers_below(self, pairs, ask):
        """What the place below says of all the parts of these items: a dict by the parts' keys."""
        parts = [part for item, layout in pairs for part in self.parts(item, layout)]
        return {answer.item.key: answer for answers in ask(parts) for answer in answers}

    def is_empty(self):
        return self.below.is_empty()

    def present(self, items):
        def attempt(pairs):
            answers = self.answers_below(pairs, self.below.present)
            for item, layout in pairs:
                words = [answers[part.key] for part in self.parts(item, layout)]
                failed = [answer for answer in words if answer.word not in (PRESENT, ABSENT)]
                absent = any(answer.word == ABSENT for answer in words)
                yield Answer(item, ABSENT) if absent else failed[0]._replace(item=item) if failed else Answer(item, PRESENT)

        return self.by_layouts(items, attempt)

    def fetch(self, items, file_of):
        def attempt(pairs):
            whole = [item for item, (size, _) in pairs if not size]
            for answers in self.below.fetch(whole, file_of) if whole else []:
                yield from answers
            chunked = [(item, layout) for item, layout in pairs if layout[0]]
            if chunked:
                answers = self.answers_below(chunked, lambda parts: self.below.fetch(parts, self.scratch.file_of))
                for item, layout in chunked:
                    yield self.join(item, [answers[part.key] for part in self.parts(item, layout)], file_of(item))

        for group in groups(items):
            yield from self.by_layouts(group, attempt)

    def join(self, item, answers, file):
        """Puts the chunks together, and compares the whole with the key."""
        bad = [answer for answer in answers if answer.word != GOT]
        if not bad:
            with open_private(file) as whole:
                for answer in answers:
                    with open(self.scratch.file_of(answer.item), "rb") as part:
                        while piece := part.read(PIECE):
                            whole.write(piece)
        for answer in answers:
            self.scratch.remove(answer.item)
        if bad:
            return min(bad, key=lambda answer: answer.word != DAMAGED)._replace(item=item)
        wrong = wrong_of(item.key, file)
        if wrong:
            remove_file(file)
        return Answer(item, DAMAGED, wrong) if wrong else Answer(item, GOT)

    def verify(self, items, scratch):
        whole = [item for item in items if self.layouts(item) == [(0, 1)]]
        chunked = [item for item in items if self.layouts(item) != [(0, 1)]]
        if whole:
            yield from self.below.verify(whole, scratch)
        if chunked:
            yield from Place.verify(self, chunked, scratch)

    def put(self, items, file_of):
        """Stores by the remote's setting. Chunks that are there are not sent again."""
        size = self.remote.chunk
        whole = [item for item in items if not size or item.size is None]
        if whole:
            yield from self.below.put(whole, file_of)
        for group in groups(item for item in items if size and item.size is not None):
            wrong = {item.key: wrong_of(item.key, file_of(item)) for item in group}
            right = [item for item in group if not wrong[item.key]]
            more = "what is to be sent has the wrong content"
            yield [Answer(item, FAILED, f"{more}: {wrong[item.key]}") for item in group if wrong[item.key]]
            if right:
                yield self.put_chunks([(item, (size, max(1, -(-item.size // size)))) for item in right], file_of)

    def put_chunks(self, pairs, file_of):
        """Stores the chunks of several contents together, and notes those that are whole there then."""
        there = {key for key, answer in self.answers_below(pairs, self.below.present).items() if answer.word == PRESENT}
        cuts = {}
        for item, layout in pairs:
            for number, part in enumerate(self.parts(item, layout)):
                if part.key not in there:
                    cuts[part.key] = (part, item, number * layout[0])
        bad = {}
        for group in groups(part for part, _, _ in cuts.values()):
            group = [part for part in group if cuts[part.key][1].key not in bad]
            for part in group:
                _, item, place = cuts[part.key]
                copy_some(file_of(item), place, part.size, self.scratch.file_of(part))
            for answer in (answer for answers in self.below.put(group, self.scratch.file_of) for answer in answers):
                self.scratch.remove(answer.item)
                if answer.word != STORED:
                    item = cuts[answer.item.key][1]
                    bad.setdefault(item.key, answer._replace(item=item))
        for item, layout in pairs:
            if item.key not in bad:
                self.notes.note_chunks(item.key, *layout, int(time.time() * 1000000))
        return [bad.get(item.key, Answer(item, STORED)) for item, _ in pairs]

    def remove(self, items):
        """Removes the chunks of all layouts, and the whole content."""
        pairs = [(item, self.layouts(item)) for item in items]
        parts = {part.key: part for item, layouts in pairs for layout in layouts for part in self.parts(item, layout)}
        answers = {answer.item.key: answer for some in self.below.remove(parts.values()) for answer in some}
        for item, layouts in pairs:
            words = [answers[part.key] for layout in layouts for part in self.parts(item, layout)]
            failed = [answer for answer in words if answer.word != DROPPED]
            for size, _ in layouts if not failed else ():
                if size:
                    self.notes.note_chunks(item.key, size, 0, int(time.time() * 1000000))
            yield [failed[0]._replace(item=item) if failed else Answer(item, DROPPED)]


def copy_some(source, place, size, target):
    """Writes so many bytes of the source, from this place on, to a file."""
    with open(source, "rb") as whole, open_private(target) as file:
        whole.seek(place)
        while size and (piece := whole.read(min(size, PIECE))):
            file.write(piece)
            size -= len(piece)


def worse(before, after):
    """Which of two answers of an item tells more: a success, then damage, then an error, then an absence."""
    order = (PRESENT, GOT, DAMAGED, FAILED, ABSENT)
    return after if before is None else min(before, after, key=lambda answer: order.index(answer.word))
