"""Faults: kills, a place that is gone or full, a host that reads slowly, and several processes on one key."""

import os
import select
import time

from .bench import ADVICE, FAILS, PAGE, TESTREMOTE, Fails, Skips, contents_differ, key_file, odd, test
from .contents import BASE, COMPLETED, REMOVED, SHARED, UNCOUNTED, WRONG
from .place import at_place, place_of

MOMENTS = 10
# Of a remote that stores 4 MiB in less than QUICK seconds, a larger content is in the middle at more of the moments.
QUICK, SIZE, LARGE = 0.2, 4 << 20, 16 << 20
NOT_YET = "While a key is being transferred, CHECKPRESENT must not say that it is present until all the data has been sent."
INSTANCES = "git-annex may start multiple instances of the program."
BELIEVES = "git-annex counts it as a copy, and may drop the last good one."


def require_whole(bench, session, key, content, when, is_stored=False):
    """Goes on only where the key is absent, or its content whole."""
    answer = session.ask(f"CHECKPRESENT {key}")
    if answer.outcome == "present":
        got, found = bench.get(session, key)
        differs = contents_differ(content, found) if got.outcome == "success" else f"a get failed ({got})"
        if differs and got.outcome in ("success", "failure"):
            said = f"`TRANSFER-SUCCESS STORE`, but {when} {differs}" if is_stored else f"`CHECKPRESENT-SUCCESS` {when}, but {differs}"
            raise Fails(PAGE, said, COMPLETED if is_stored else NOT_YET, BELIEVES)
    elif answer.outcome == "absent" and is_stored:
        raise Fails(PAGE, f"`TRANSFER-SUCCESS STORE`, but {when} `CHECKPRESENT-FAILURE`", COMPLETED,
                    "git-annex takes the copy for lost.")
    elif answer.outcome in ("silent", "ended"):
        raise Fails(PAGE, f"{answer} to `CHECKPRESENT` {when}", "Once the remote has done a request, it says one of its replies.",
                    FAILS)
    return answer.outcome


def content_for_kills(bench, session):
    """A content that takes a while, its key in the remote, its file, and how long its store took."""
    for size in (SIZE, LARGE):
        content, key = os.urandom(size), bench.key(size)
        path = bench.file("content", content)
        began = time.monotonic()
        bench.need(bench.store(session, key, content, linked(bench, key, path)), "success", "a store")
        took = time.monotonic() - began
        if took > QUICK:
            break
    return content, key, path, took


def linked(bench, key, path):
    """The file of a key, with what another file holds."""
    link = bench.file(key_file(key))
    os.link(path, link)
    return link


def ready_after(bench, when):
    """A session after something went wrong; one that doesn't get ready then is told of."""
    try:
        return bench.ready()
    except Skips as why:
        raise Fails(ADVICE, f"{when}, {why}", "What a kill leaves behind should not stop the next process.", FAILS)


@test("slow-host", "it serves a host that reads and writes slowly", BASE)
def slow_host(bench):
    session, content, key = bench.ready(), os.urandom(100000), bench.key(100000)
    bench.need(bench.store(session, key, content), "success", "a store")
    path = bench.file(key_file(key))
    answer = session.begin(f"TRANSFER RETRIEVE {key} {path}")
    time.sleep(0.5)
    session.slow = (7, 0.002)
    session.pump(lambda: answer.outcome is not None)
    session.give_up(answer)
    if answer.outcome != "success" or contents_differ(content, bench.content(path)):
        raise Fails(PAGE, f"{answer} to a host that reads slowly", "A pipe holds lines until the host reads them.", FAILS)
    session.slow = None
    before = session.ask(f"CHECKPRESENT {key}").outcome
    line = f"CHECKPRESENT {key}\n".encode()
    bench.is_muted = True
    session.write(line[:9])
    time.sleep(0.1)
    session.settle(0.05)
    session.write(line[9:-1])
    time.sleep(0.1)
    session.write(line[-1:])
    answer = session.expect(line[:-1].decode())
    bench.is_muted = False
    if answer.outcome != before:
        raise Fails(PAGE, f"{answer} to a line that came in three writes",
                    "The protocol is line based: a line ends with a line feed.", FAILS)


def at_once(bench, sessions, lines):
    """Makes a request of each session at the same time, and gives the answers."""
    answers = [session.begin(line) for session, line in zip(sessions, lines)]
    deadline = time.monotonic() + bench.wait
    while time.monotonic() < deadline:
        waiting = [session for session, answer in zip(sessions, answers) if answer.outcome is None and not session.is_over]
        if not waiting:
            break
        for session in waiting:
            if select.select([session.out], [], [], 0.005)[0]:
                session.hear(0)
            elif session.process.poll() is not None:
                session.hear(0.001)
    for session, answer in zip(sessions, answers):
        session.give_up(answer)
        if answer.outcome in ("silent", "ended"):
            raise Fails(PAGE, f"{answer} to `{answer.request.word}` beside another process", INSTANCES, FAILS)
    return answers


def contend(bench, sessions, works, key, content):
    """One round: each process does its work on the key at the same time."""
    paths = [bench.file(key_file(key), content if work == "STORE" else None) for work in works]
    lines = [f"REMOVE {key}" if work == "REMOVE" else f"TRANSFER {work} {key} {path}" for work, path in zip(works, paths)]
    bench.stored[key] = sessions[0].number
    answers = at_once(bench, sessions, lines)
    for work, path, answer in zip(works, paths, answers):
        is_got = work == "RETRIEVE" and answer.outcome == "success" and not bench.has_failed("get-absent")
        differs = contents_differ(content, bench.content(path)) if is_got else ""
        if differs:
            raise Fails(PAGE, f"`TRANSFER-SUCCESS RETRIEVE` with {' and '.join(works)} at the same time: {differs}", COMPLETED, WRONG)
    stores = [answer.outcome for work, answer in zip(works, answers) if work == "STORE"]
    is_stored = "REMOVE" not in works and "success" in stores
    require_whole(bench, sessions[0], key, content, f"after {' and '.join(works)} at the same time", is_stored)
    if failed := [answer for work, answer in zip(works, answers) if work == "STORE" and answer.outcome in ("failure", "error")]:
        raise Fails(ADVICE, f"{failed[0]} with {' and '.join(works)} at the same time", INSTANCES, FAILS)


def removed_elsewhere(bench, session, other):
    """What one process stores and another removes is absent for the first."""
    key = bench.key(1000)
    bench.need(bench.store(session, key, os.urandom(1000)), "success", "a store")
    bench.need(session.ask(f"CHECKPRESENT {key}"), "present", "a check")
    bench.need(other.ask(f"REMOVE {key}"), "success", "a removal")
    if session.ask(f"CHECKPRESENT {key}").outcome == "present":
        raise Fails(PAGE, "`CHECKPRESENT-SUCCESS` of a key that another process had removed",
                    "CHECKPRESENT-SUCCESS says that the key was positively verified to be present.", BELIEVES)


def processes_test(count, rounds, needs):
    @test(f"processes-{count}", f"{count} processes store, get and remove one key at the same time, and what is present is whole",
          (*SHARED, *needs))
    def contended(bench):
        content = os.urandom(1 << 20)
        sessions = [bench.ready() for _ in range(count)]
        removed_elsewhere(bench, sessions[0], sessions[-1])
        for works in rounds:
            for _ in range(3):
                key = bench.key(1 << 20)
                if works == rounds[0]:
                    bench.require_absent(sessions[0], key)
                else:
                    bench.need(bench.store(sessions[0], key, content), "success", "a store")
                contend(bench, sessions, works, key, content)


processes_test(2, (("STORE", "STORE"), ("STORE", "REMOVE"), ("STORE", "RETRIEVE")), ("remove",))
processes_test(4, (("STORE",) * 4, ("STORE", "REMOVE", "RETRIEVE", "STORE"), ("STORE", "RETRIEVE", "RETRIEVE", "STORE")),
               ("processes-2",))


def ask_without_place(bench, session, key, content, state, rank):
    """Asks for a stored key while the place isn't there."""
    answer = session.ask(f"CHECKPRESENT {key}")
    if answer.outcome == "absent":
        raise Fails(rank, f"`CHECKPRESENT-FAILURE` of a key that was stored, while its folder was {state}",
                    "CHECKPRESENT-UNKNOWN says that it is not currently possible to verify if the key is present.",
                    "git-annex takes the copy for lost.")
    got, found = bench.get(session, key)
    if got.outcome == "success" and contents_differ(content, found) and not bench.has_failed("get-absent"):
        raise Fails(PAGE, f"`TRANSFER-SUCCESS RETRIEVE` with {contents_differ(content, found)}", COMPLETED, WRONG)


def ask_away(bench, session, key, other, content, state, rank):
    """All that is asked while the place isn't there, of a process that was ready before and of a new one."""
    session.note("!", f"its folder is {state} now")
    ask_without_place(bench, session, key, content, state, rank)
    try:
        new = bench.ready()
    except Skips:
        return
    new.note("!", f"its folder is still {state}")
    ask_without_place(bench, new, key, content, state, rank)
    if state == "gone":
        bench.stored[other] = new.number
        answer = new.ask(f"TRANSFER STORE {other} {bench.file(key_file(other), content)}")
        if answer.outcome == "success":
            raise Fails(PAGE, "`TRANSFER-SUCCESS STORE` while its place was gone", COMPLETED, BELIEVES)


def place_test(state, shows, rank):
    @test(f"place-{state}", shows, SHARED)
    def placed(bench):
        place = place_of(bench, state)
        content, key, other = os.urandom(1000), bench.key(1000), bench.key(1000)
        session = bench.ready()
        bench.require_absent(session, other)
        bench.need(bench.store(session, key, content), "success", "a store")
        with at_place(bench, place, state, (key, other)):
            ask_away(bench, session, key, other, content, state, rank)
            is_removed = rank == PAGE and session.ask(f"REMOVE {key}").outcome == "success"
        if is_removed:
            session = bench.ready()
            session.note("!", "its folder is back")
            if session.ask(f"CHECKPRESENT {key}").outcome == "present":
                raise Fails(ADVICE, f"`REMOVE-SUCCESS` while its folder was {state}, and the content is still there",
                            REMOVED, UNCOUNTED)


place_test("gone", "with its folder gone, it says neither absent nor success", PAGE)
place_test("empty", "with its folder empty, as if its disk were unmounted, it doesn't say absent", ADVICE)
place_test("unreadable", "with its folder unreadable, it says neither absent nor success", PAGE)


@test("disk-full", "a store that can't write all of the content fails, and the key isn't present", SHARED)
def disk_full(bench):
    content, key = os.urandom(1 << 20), bench.key(1 << 20)
    try:
        session = bench.ready(file_limit=1 << 16)
    except Skips:
        return
    session.note("!", "it can't write more than 65,536 bytes to a file")
    answer = bench.store(session, key, content)
    normal = bench.ready()
    if answer.outcome == "success":
        found = bench.get(normal, key)[1]
        if contents_differ(content, found):
            raise Fails(PAGE, "`TRANSFER-SUCCESS` though files of more than 65,536 bytes couldn't be written: "
                        f"{contents_differ(content, found)} came back", COMPLETED, BELIEVES)
        raise Skips("files that can't grow don't stop it")
    require_whole(bench, normal, key, content, "after a store that failed on a full disk")
    another = bench.key(len(content))
    bench.need(bench.store(normal, another, content), "success", "a store")
    require_whole(bench, normal, another, content, "after a store on a full disk, and another store", True)


@test("kill-get", "killed at ten points during a get, it completes the next get into the same file",
      (*SHARED, "get-partial"))
def kill_get(bench):
    session = bench.ready()
    content, key, _, _ = content_for_kills(bench, session)
    began = time.monotonic()
    bench.need(bench.get(session, key)[0], "success", "a get")
    took = time.monotonic() - began
    for moment in range(MOMENTS):
        path = bench.file(key_file(key))
        answer = session.begin(f"TRANSFER RETRIEVE {key} {path}")
        session.pump(lambda: answer.outcome is not None, took * (moment + 0.5) / MOMENTS)
        session.kill()
        when = f"after a kill {100 * (moment + 1) // MOMENTS}% into a get"
        session = ready_after(bench, when)
        require_whole(bench, session, key, content, when, True)
        again, found = bench.get(session, key, path)
        differs = contents_differ(content, found)
        if again.outcome == "success" and differs:
            raise Fails(PAGE, f"{when}, the next get into the same file: {differs}", COMPLETED, WRONG)
        if again.outcome != "success":
            raise odd(again, f"TRANSFER RETRIEVE {key} {path}", TESTREMOTE)


@test("kill-store", "killed at ten points during a store, it says present only if the content is whole", SHARED)
def kill_store(bench):
    session, absent = bench.ready(), None
    content, _, path, took = content_for_kills(bench, session)
    for moment in range(MOMENTS):
        key = bench.key(len(content))
        bench.require_absent(session, key)
        answer = bench.begin_store(session, key, linked(bench, key, path))
        session.pump(lambda: answer.outcome is not None, took * (moment + 0.5) / MOMENTS)
        session.kill()
        is_stored = answer.outcome == "success"
        when = "after a kill right after it" if is_stored else f"after a kill {100 * (moment + 1) // MOMENTS}% into a store"
        session = ready_after(bench, when)
        if require_whole(bench, session, key, content, when, is_stored) == "absent":
            absent = key
    if absent:
        again = bench.store(session, absent, content, linked(bench, absent, path))
        if again.outcome == "success":
            require_whole(bench, session, absent, content, "after a killed store was made again", True)
        elif again.outcome == "failure":
            raise Fails(ADVICE, f"{again} to a store that was killed before",
                        "What a kill leaves behind should not stop the next store.", FAILS)
