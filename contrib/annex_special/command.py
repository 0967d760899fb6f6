"""The words of `annex-special`, and the whole command."""

import contextlib
import errno
import os
import shutil
import signal
import sys
import traceback
from pathlib import Path

from .branch import Branch
from .gpg import gpg_program
from .notes import Notes
from .opening import Opened, open_place
from .places import HerePlace
from .plans import Plan, choose, make_plan
from .record import Record
from .remotes import find_remote
from .report import Tally, say_what_follows, tell_plan
from .repository import find_entries, find_repository, items_of
from .restore import Restore
from .targets import Checkout, Clone, KeyFolder
from .text import OutputFailed, Problem, shown, warn
from .verify import Verify
from .words import read_words
from .work import Work


def find_programs(words, remotes):
    """Refuses what can't be started."""
    programs = [remote.program for remote in remotes if remote.kind == "external"]
    programs += ["special"] if programs else []
    programs += ["annex-remote-plain"] if programs and words.plain else []
    programs += [gpg_program()] if any(remote.encryption for remote in remotes) else []
    for program in programs:
        if shutil.which(program) is None:
            raise Problem(f"there is no program {program} on the PATH")
    if words.journals is not None and not os.path.isdir(words.journals):
        raise Problem(f"there is no folder {words.journals}")


class Session:
    """What one command works with."""

    def __init__(self, words):
        self.words = words
        self.repository = find_repository()
        if words.command in ("get", "drop") or words.record:
            self.repository.need_annex("--record" if words.record else words.command)
        self.branch = Branch(self.repository)
        if not self.branch.refs and not self.branch.journaled:
            raise Problem("there is no branch git-annex here, nor one of a remote: run `git annex init`, or fetch one")
        self.remote = find_remote(words.remote, self.branch, words.set)
        if self.remote.trees is not None and (words.command in ("copy", "drop") or words.repair_from):
            raise Problem(f"{self.remote.name} has exporttree=yes: only `git annex export` changes what is in it")
        self.source = None
        if words.other not in (None, "here"):
            self.source = find_remote(words.other, self.branch)
            if self.source.uuid == self.remote.uuid:
                raise Problem(f"{words.other} is the same remote")
        find_programs(words, [self.remote, *([self.source] if self.source else [])])
        folder = Path(words.folder) / ".annex-special" if words.folder and not words.dry_run else None
        self.notes = Notes(self.repository, self.remote, folder)
        self.source_notes = Notes(self.repository, self.source) if self.source else None

    def open(self, watch):
        return Opened(self.remote, self.notes, open_place(self.repository, self.remote, self.notes, self.words, watch))

    def open_source(self, watch, items):
        """The other place: a remote, or this repository itself."""
        if self.words.other == "here":
            return Opened(None, None, HerePlace(self.repository, watch))
        if self.source is None:
            return None
        self.source_notes.load(self.branch, {item.key for item in items})
        self.source_notes.guess(items)
        place = open_place(self.repository, self.source, self.source_notes, self.words, watch)
        return Opened(self.source, self.source_notes, place)

    def run(self):
        """Does the command, and gives its status."""
        if self.words.command == "restore":
            return self.restore()
        words = self.words
        plan = make_plan(words.command, words, self.repository, self.notes, self.branch, self.source)
        if words.dry_run:
            tell_plan(words.command, plan, words)
            return 0
        tally = Tally(words.command, plan.items, words, plan.left)
        record = Record(self.remote, self.notes.given, words.record)
        opened = self.open(tally.watch)
        self.refuse_empty(opened, plan)
        source = self.open_source(tally.watch, plan.items)
        if words.command == "verify":
            act = Verify(opened, tally, record, source.place if source else None).run
        else:
            act = getattr(Work(self.repository, opened, tally, record, source), words.command)
        with self.ending(tally):
            try:
                act(plan.items)
            finally:
                record.write()
        return tally.status()

    @contextlib.contextmanager
    def ending(self, tally):
        """Tells what was done, also where the command is broken off."""
        try:
            yield
        finally:
            tally.watch.clear()
            tally.report()
            say_what_follows(self.words, tally, self.notes, self.repository.uuid is not None)
        self.close()

    def close(self):
        self.notes.close()
        if self.source_notes:
            self.source_notes.close()

    def leave(self):
        self.notes.leave()
        if self.source_notes:
            self.source_notes.leave()

    def refuse_empty(self, opened, plan):
        """An empty folder that should have contents is mostly that of a disk that isn't mounted."""
        if self.words.command == "copy" or not opened.place.is_empty():
            return
        given = self.notes.given
        if any(given.is_at(item.key, self.remote.uuid) for item in plan.items):
            raise Problem(f"the folder {self.remote.settings['directory']} is empty: is the disk mounted there?")

    def restore(self):
        words, repository = self.words, self.repository
        entries = find_entries(repository, everything=True)
        if words.all or words.key or words.in_remote or words.unused:
            items = choose(words, repository, self.notes, self.branch)
        else:
            items = items_of(entries)
            self.notes.load(self.branch, {item.key for item in items})
            self.notes.guess(items)
        if words.folder is None:
            target = Clone(repository, entries)
        elif words.all or words.key or words.in_remote or words.unused:
            target = KeyFolder(words.folder)
        else:
            target = Checkout(words.folder, entries, self.notes.work)
        if words.dry_run:
            wanted = [item for item in items if target.state(item)[0] == "wanted"]
            tell_plan("restore", Plan(wanted, []), words)
            return 0
        tally = Tally("restore", items, words)
        opened = self.open(tally.watch)
        left = []
        with self.ending(tally):
            Restore(opened, target, tally, self.branch.descriptions()).run(items)
            left = target.finish() or []
        for name in left:
            warn(f"other content is in the place of {shown(name)}: it stays")
        if words.folder:
            shutil.rmtree(Path(words.folder) / ".annex-special", ignore_errors=True)
        return 1 if left else tally.status()


def open_missing_streams():
    """Makes sure that what is opened later isn't taken for a standard stream that was closed."""
    while (number := os.open(os.devnull, os.O_RDWR)) < 3:
        pass
    os.close(number)


def main():
    is_closed = sys.stdout is None
    open_missing_streams()
    signal.signal(signal.SIGTERM, signal.default_int_handler)
    for stream in (sys.stdout, sys.stderr):
        if stream is not None:
            stream.reconfigure(errors="surrogateescape")
    try:
        if is_closed:
            raise OutputFailed("it is closed")
        session = Session(read_words(sys.argv[1:]))
        try:
            return session.run()
        finally:
            session.leave()
    except Problem as problem:
        warn(problem)
    except OutputFailed as why:
        if str(why) != os.strerror(errno.EPIPE):
            warn(f"standard output: {why}")
        give_up_output()
    except KeyboardInterrupt:
        warn("stopped")
        return 130
    except OSError as why:
        warn(f"{why.strerror or why}{f': {why.filename}' if why.filename else ''}")
    except Exception as why:
        place = traceback.extract_tb(why.__traceback__)[-1]
        warn(f"a mistake of this program: {type(why).__name__}: {why} ({os.path.basename(place.filename)}:{place.lineno})")
    return 2


def give_up_output():
    """Nothing more is written at the end."""
    try:
        os.dup2(os.open(os.devnull, os.O_WRONLY), 1)
    except OSError:
        pass
