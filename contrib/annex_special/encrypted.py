"""Contents that are encrypted, over a place that keeps what gpg made of them."""

import concurrent.futures
import os
import threading

from .digests import Checker, pieces_of, wanted_size
from .gpg import Outcome, Stopped
from .places import DAMAGED, FAILED, GOT, Answer, Place, groups, open_private, remove_file
from .text import Problem

# So many contents that no key opens end a command in which none was opened before.
TRIES = 8


class EncryptedPlace(Place):
    """A layer: each content lies below encrypted, under a key that only the cipher finds.

    `sealed` is where encrypted files lie on their way. What is decrypted goes where the caller says, and nowhere for
    `verify`. Until a key has opened something one gpg works at a time, so that its agent asks once for a passphrase.
    """

    def __init__(self, below, name, cipher, gpg, sealed, jobs):
        self.below, self.name, self.cipher, self.gpg = below, name, cipher, gpg
        self.sealed, self.jobs = sealed, jobs
        self.proved, self.closed = set(cipher.proved), 0

    def hidden(self, items):
        """The items below, and what each stands for by its key."""
        pairs = [(item._replace(key=self.cipher.hidden_key(item.key)), item) for item in items]
        return [below for below, _ in pairs], {below.key: item for below, item in pairs}

    def asked(self, items, ask):
        """The answers from below, of the items themselves."""
        hidden, item_of = self.hidden(items)
        for answers in ask(hidden):
            yield [answer._replace(item=item_of[answer.item.key]) for answer in answers]

    def present(self, items):
        return self.asked(items, self.below.present)

    def remove(self, items):
        return self.asked(items, self.below.remove)

    def is_empty(self):
        return self.below.is_empty()

    def fetch(self, items, file_of):
        return self.opened(items, file_of)

    def verify(self, items, scratch):
        return self.opened(items, lambda item: os.devnull)

    def opened(self, items, file_of):
        """Fetches and decrypts: several at a time, and while the place below fetches more."""
        with Workers(self.jobs) as workers:
            for group in groups(items):
                hidden, item_of = self.hidden(group)
                tasks, closed = set(), []
                for answers in self.below.fetch(hidden, self.sealed.file_of):
                    yield [answer._replace(item=item_of[answer.item.key]) for answer in answers if answer.word != GOT]
                    for sealed in (answer.item for answer in answers if answer.word == GOT):
                        item = item_of[sealed.key]
                        tasks.add(workers.start(self.open_one, item, sealed, file_of(item)))
                        if not self.proved:
                            concurrent.futures.wait(tasks)
                        done = {task for task in tasks if task.done()}
                        tasks -= done
                        yield self.answers_of(done, closed)
                for task in concurrent.futures.as_completed(tasks):
                    yield self.answers_of([task], closed)
                yield [self.answer_closed(item, opening) for item, opening in closed]

    def open_one(self, is_stopped, item, sealed, target):
        """Decrypts one file: what came of it, and what is wrong with the content."""
        checker, most = Checker(item.key), wanted_size(item.key)
        is_large = False
        with open(self.sealed.path_of(sealed), "rb") as source, open_private(target) as file:

            def take(piece):
                nonlocal is_large
                checker.take(piece)
                is_large = most is not None and checker.size > most
                if is_large or is_stopped():
                    raise Stopped
                file.write(piece)

            opening = self.gpg.decrypt(source, take, self.cipher.passphrase)
        self.sealed.remove(sealed)
        wrong = f"size over {most}" if is_large else checker.wrong()
        if target != os.devnull and (wrong or opening.outcome != Outcome.OPENED):
            remove_file(target)
        return item, opening, wrong

    def answers_of(self, tasks, closed):
        """The answers of these; those that no key opens join the others that are closed."""
        answers = []
        for item, opening, wrong in (task.result() for task in tasks):
            if opening.outcome == Outcome.UNASKED:
                raise Problem(f"gpg can't decrypt what {self.name} has: {opening.said}")
            if opening.outcome == Outcome.CLOSED:
                closed.append((item, opening))
                self.count_closed(opening)
                continue
            self.proved |= opening.ids
            if opening.outcome == Outcome.BROKEN:
                wrong = f"it can't be decrypted: {opening.said}"
            answers.append(Answer(item, DAMAGED, wrong) if wrong else Answer(item, GOT))
        return answers

    def count_closed(self, opening):
        """Ends a command that would fetch all for nothing."""
        self.closed += 1
        if self.closed == TRIES and not self.proved and not self.gpg.has_secret_key(self.cipher.recipients):
            raise Problem(f"gpg can't decrypt anything that {self.name} has: {opening.said}")

    def answer_closed(self, item, opening):
        """What is closed to a key that opened others is damaged. Else that key may be the wrong one, or not be here."""
        if opening.ids & self.proved:
            return Answer(item, DAMAGED, f"it can't be decrypted: {opening.said}")
        return Answer(item, FAILED, f"no key here decrypts it: {opening.said}")

    def put(self, items, file_of):
        with Workers(self.jobs) as workers:
            for group in groups(items):
                hidden, item_of = self.hidden(group)
                tasks = [workers.start(self.seal, item, one, file_of(item)) for item, one in zip(group, hidden)]
                wrong = [task.result() for task in tasks]
                yield [Answer(item, FAILED, more) for item, more in zip(group, wrong) if more]
                sealed = [one for one, more in zip(hidden, wrong) if not more]
                for answers in self.below.put(sealed, self.sealed.file_of) if sealed else ():
                    for answer in answers:
                        self.sealed.remove(answer.item)
                    yield [answer._replace(item=item_of[answer.item.key]) for answer in answers]

    def seal(self, is_stopped, item, sealed, source):
        """Encrypts a file, and says what is wrong with its content; then nothing is sealed."""
        checker = Checker(item.key)

        def pieces():
            for piece in pieces_of(source):
                if is_stopped():
                    raise Stopped
                checker.take(piece)
                yield piece

        said = self.gpg.encrypt(pieces(), self.sealed.file_of(sealed), self.cipher)
        if said:
            raise Problem(f"gpg does not encrypt for {self.name}: {said}")
        wrong = checker.wrong()
        if wrong:
            self.sealed.remove(sealed)
        return f"what is to be sent has the wrong content: {wrong}" if wrong else None


class Workers:
    """Threads, each with a gpg. However the work ends, what they do is broken off."""

    def __init__(self, jobs):
        self.pool, self.stopped = concurrent.futures.ThreadPoolExecutor(jobs), threading.Event()

    def __enter__(self):
        return self

    def __exit__(self, *_):
        self.stopped.set()
        self.pool.shutdown(cancel_futures=True)

    def start(self, function, *arguments):
        return self.pool.submit(function, self.stopped.is_set, *arguments)
