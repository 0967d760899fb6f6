"""Exports: contents under names of their own, where the remote says that it supports them."""

import os
import secrets

from .bench import FAILS, PAGE, TESTREMOTE, Fails, Skips, contents_differ, odd, test
from .contents import COMPLETED, WRONG

NEEDS = ("prepare", "exportsupported")
STORED = (*NEEDS, "export-store-get")


class Place:
    """A name of the tester's own, and what is asked about it."""

    def __init__(self, bench, ending):
        if not bench.facts.get("exports"):
            raise Skips("it doesn't support exports")
        self.bench, self.session = bench, bench.export_session()
        self.top = f"annex-remote-try-{secrets.token_hex(8)}"
        self.name = f"{self.top}{ending}"
        self.content = os.urandom(1000)
        self.key = bench.key(1000)

    def ask(self, line, name=None):
        return self.session.ask(line, f"EXPORT {name or self.name}")

    def check(self, name=None):
        return self.ask(f"CHECKPRESENTEXPORT {self.key}", name)

    def store(self):
        """Stores the content under the name, which was found absent."""
        self.bench.need(self.check(), "absent", "a check of the name before its store")
        self.bench.exported[self.name] = self.key
        return self.ask(f"TRANSFEREXPORT STORE {self.key} {self.bench.file('content', self.content)}")

    def get(self, name=None):
        path = self.bench.file("fetched")
        return self.ask(f"TRANSFEREXPORT RETRIEVE {self.key} {path}", name), self.bench.content(path)

    def require_content(self, name=None):
        answer, found = self.get(name)
        if answer.outcome != "success":
            raise odd(answer, f"TRANSFEREXPORT RETRIEVE {self.key} ..", TESTREMOTE)
        if contents_differ(self.content, found):
            raise Fails(PAGE, f"of {name or self.name}: {contents_differ(self.content, found)}", COMPLETED, WRONG)

    def stored(self):
        self.bench.need(self.store(), "success", "a store")
        return self


@test("export-check-before", "CHECKPRESENTEXPORT says that a name is absent that was never stored", NEEDS)
def check_before(bench):
    place = Place(bench, ".txt")
    answer = place.check()
    if answer.outcome == "present":
        raise Fails(PAGE, "`CHECKPRESENT-SUCCESS` of a name that was never stored",
                    "CHECKPRESENT-SUCCESS says that the content was positively verified to be present.", FAILS)
    if answer.outcome != "absent":
        raise odd(answer, f"CHECKPRESENTEXPORT {place.key}", TESTREMOTE)


def there_and_back(bench, ending, rank=TESTREMOTE):
    place = Place(bench, ending)
    answer = place.store()
    asks = "The Name is a relative path, and may contain path separators, whitespace and other special characters."
    if answer.outcome in ("failure", "error") and ending != ".txt":
        raise Fails(PAGE, f"{answer} to a store under `{place.name}`", asks, FAILS)
    if answer.outcome != "success":
        raise odd(answer, f"TRANSFEREXPORT STORE {place.key} ..", TESTREMOTE)
    place.require_content()
    answer = place.check()
    if answer.outcome != "present":
        raise Fails(PAGE, f"{answer} to `CHECKPRESENTEXPORT` after a store", COMPLETED, "git-annex takes the copy for lost.")
    other = f"{place.name}x"
    if place.check(other).outcome == "present":
        raise Fails(PAGE, f"`CHECKPRESENT-SUCCESS` of `{other}`, though only `{place.name}` was stored", asks, FAILS)


@test("export-store-get", "content is exported under a name, is present and comes back", (*NEEDS, "export-check-before"))
def store_get(bench):
    there_and_back(bench, ".txt")


@test("export-slashes", "a name with slashes is kept", STORED)
def slashes(bench):
    there_and_back(bench, "/folder/deeper/file.txt")


@test("export-spaces", "a name with spaces and quotes is kept", STORED)
def spaces(bench):
    there_and_back(bench, "/a  folder/it's a \"file\" .txt")


@test("export-remove", "a removed name is absent", STORED)
def remove(bench):
    place = Place(bench, ".txt").stored()
    answer = place.ask(f"REMOVEEXPORT {place.key}")
    if answer.outcome != "success":
        raise odd(answer, f"REMOVEEXPORT {place.key}", TESTREMOTE)
    if place.check().outcome == "present":
        raise Fails(PAGE, "`CHECKPRESENT-SUCCESS` after `REMOVE-SUCCESS`",
                    "REMOVE-SUCCESS says that the content has been removed.", FAILS)


@test("export-remove-absent", "a removal of a name that isn't there is answered", (*NEEDS, "export-check-before"))
def remove_absent(bench):
    place = Place(bench, ".txt")
    bench.need(place.check(), "absent", "a check")
    answer = place.ask(f"REMOVEEXPORT {place.key}")
    if answer.outcome != "success":
        raise odd(answer, f"REMOVEEXPORT {place.key}", TESTREMOTE)


@test("export-get-absent", "a get of a name that isn't there fails", (*NEEDS, "export-check-before"))
def get_absent(bench):
    place = Place(bench, ".txt")
    bench.need(place.check(), "absent", "a check")
    answer, found = place.get()
    if answer.outcome == "success":
        raise Fails(PAGE, "`TRANSFER-SUCCESS` of a name that isn't there", COMPLETED, WRONG)
    if answer.outcome not in ("failure", "unsupported"):
        raise odd(answer, f"TRANSFEREXPORT RETRIEVE {place.key} ..", TESTREMOTE)


@test("export-rename", "a renamed file is under its new name alone", STORED)
def rename(bench):
    place = Place(bench, "/old-name.txt").stored()
    new = f"{place.top}/new-folder/new-name.txt"
    bench.need(place.check(new), "absent", "a check of the new name")
    bench.exported[new] = place.key
    answer = place.ask(f"RENAMEEXPORT {place.key} {new}")
    if answer.outcome == "unsupported":
        raise Skips("it doesn't support RENAMEEXPORT, and needn't")
    if answer.outcome == "failure":
        raise Fails(TESTREMOTE, f"{answer} to `RENAMEEXPORT {place.key} {new}`",
                    "RENAMEEXPORT-SUCCESS when it was renamed; UNSUPPORTED-REQUEST where it can't rename.",
                    "git-annex removes the file and exports it again.")
    if answer.outcome != "success":
        raise odd(answer, f"RENAMEEXPORT {place.key} {new}")
    if place.check().outcome == "present":
        raise Fails(PAGE, "the old name is present after `RENAMEEXPORT-SUCCESS`",
                    "The file is renamed from the Name to the NewName.", FAILS)
    place.require_content(new)


@test("export-directory", "a folder that isn't there is removed without failure", NEEDS)
def directory(bench):
    place = Place(bench, "/none")
    answer = place.session.ask(f"REMOVEEXPORTDIRECTORY {place.top}/never made")
    if answer.outcome == "failure":
        raise Fails(PAGE, "`REMOVEEXPORTDIRECTORY-FAILURE` of a folder that doesn't exist",
                    "It should not be returned if the directory did not exist.", FAILS)
    if answer.outcome not in ("success", "unsupported"):
        raise odd(answer, f"REMOVEEXPORTDIRECTORY {place.top}")
