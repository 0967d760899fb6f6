"""`annex-remote-dir` under a host that tags its lines: several requests are open at once, each with a number of its own."""

import os
import random
import threading

import journal
from harness import ANNEX_REMOTE_DIR, SPECIAL, UUID, Done, as_bytes, as_text, expect, limits, preloaded, require, run, start, table

# How many random sessions run, and whether on one processor.
SESSIONS = int(os.environ.get("ASYNC_SESSIONS", "10"))
ONE_PROCESSOR = os.environ.get("ASYNC_ONE_PROCESSOR") == "1"

BEGINS = "EXTENSIONS INFO ASYNC\nJ 1 PREPARE\nJ 1 VALUE d\n"
IS_READY = "VERSION 1\nEXTENSIONS ASYNC\nJ 1 GETCONFIG directory\nJ 1 PREPARE-SUCCESS\n"
TAGGED = "VERSION 1\nEXTENSIONS ASYNC\n"
UNEXPECTED = "ERROR unexpected message\n"
CONFIGS = ["CONFIG directory the folder in which the contents of keys are kept", "CONFIGEND"]


def served(room, says, env=None):
    """What the remote says to these lines, which are all there from the start."""
    return room.run([ANNEX_REMOTE_DIR], input=says, env={"ANNEX_REMOTE_DIR_SYNC": "0", **(env or {})})


# The host's lines, all that is said, and the status. No two requests are open at once that could be answered in two orders.
SESSION_ROWS = [
    ("a host that tags nothing", "EXTENSIONS INFO\nPREPARE\nVALUE d\nCHECKPRESENT WORM--a\n",
     "VERSION 1\nEXTENSIONS \nGETCONFIG directory\nPREPARE-SUCCESS\nCHECKPRESENT-FAILURE WORM--a\n", 0),
    ("a request", BEGINS + "J 2 CHECKPRESENT WORM--a\n", IS_READY + "J 2 CHECKPRESENT-FAILURE WORM--a\n", 0),
    ("a request before it is ready", "EXTENSIONS ASYNC\nJ 7 REMOVE WORM--a\n",
     TAGGED + "J 7 REMOVE-FAILURE WORM--a not prepared\n", 0),
    ("what its one setting is", "EXTENSIONS ASYNC\nJ 4 LISTCONFIGS\n",
     TAGGED + "".join(f"J 4 {line}\n" for line in CONFIGS), 0),
    ("its cost", "EXTENSIONS ASYNC\nJ 4 GETCOST\n", TAGGED + "J 4 COST 100\n", 0),
    ("from where it can be reached", "EXTENSIONS ASYNC\nJ 4 GETAVAILABILITY\n", TAGGED + "J 4 AVAILABILITY LOCAL\n", 0),
    ("where a content is", BEGINS + "J 2 WHEREIS WORM--a\n", IS_READY + "J 2 UNSUPPORTED-REQUEST\n", 0),
    ("a request that it doesn't know", BEGINS + "J 2 CLAIMURL http://a/b\n", IS_READY + "J 2 UNSUPPORTED-REQUEST\n", 0),
    ("a question about exports", "EXTENSIONS ASYNC\nJ 2 EXPORTSUPPORTED\n", TAGGED + "J 2 UNSUPPORTED-REQUEST\n", 0),
    ("names to export to, and requests about them", BEGINS + "J 2 EXPORT a b.txt\nJ 2 TRANSFEREXPORT STORE WORM--a f\n"
     "J 3 EXPORT c\nJ 3 CHECKPRESENTEXPORT WORM--a\nJ 3 EXPORT\nJ 3 REMOVEEXPORT WORM--a\nJ 4 EXPORT c\nJ 4 RENAMEEXPORT WORM--a d\n",
     IS_READY + "".join(f"J {n} UNSUPPORTED-REQUEST\n" for n in (2, 3, 3, 4)), 0),
    ("a name to export to in the place of a value", "EXTENSIONS ASYNC\nJ 1 PREPARE\nJ 1 EXPORT a\n",
     TAGGED + "J 1 GETCONFIG directory\n" + UNEXPECTED, 1),
    ("no directory", "EXTENSIONS ASYNC\nJ 1 PREPARE\nJ 1 VALUE \n",
     TAGGED + "J 1 GETCONFIG directory\nJ 1 PREPARE-FAILURE no directory\n", 0),
    ("a value that never comes", "EXTENSIONS ASYNC\nJ 1 PREPARE\n", TAGGED + "J 1 GETCONFIG directory\n", 0),
    ("set up under a number", "EXTENSIONS ASYNC\nJ 3 INITREMOTE\nJ 3 VALUE d\n",
     TAGGED + "J 3 GETCONFIG directory\nJ 3 SETCONFIG directory {here}/d\nJ 3 INITREMOTE-SUCCESS\n", 0),
    ("a value that nobody asked for", "EXTENSIONS ASYNC\nJ 5 VALUE x\n", TAGGED + UNEXPECTED, 1),
    ("a request in the place of a value", "EXTENSIONS ASYNC\nJ 1 PREPARE\nJ 1 CHECKPRESENT WORM--a\n",
     TAGGED + "J 1 GETCONFIG directory\n" + UNEXPECTED, 1),
    ("another request to get ready meanwhile", "EXTENSIONS ASYNC\nJ 1 PREPARE\nJ 2 PREPARE\n",
     TAGGED + "J 1 GETCONFIG directory\n" + UNEXPECTED, 1),
    ("credentials", "EXTENSIONS ASYNC\nJ 1 CREDS a b\n", TAGGED + UNEXPECTED, 1),
    ("nothing after what is unexpected", BEGINS + "J 5 VALUE x\nJ 2 CHECKPRESENT WORM--a\n", IS_READY + UNEXPECTED, 1),
    ("a line without a tag", "EXTENSIONS ASYNC\nPREPARE\n", TAGGED, 1),
    ("the tag 0", "EXTENSIONS ASYNC\nJ 0 PREPARE\n", TAGGED, 1),
    ("an error", "EXTENSIONS ASYNC\nJ 1 ERROR enough\n", TAGGED, 1),
    ("a line that is too long", "EXTENSIONS ASYNC\nJ 1 " + "x" * 131_072 + "\n", TAGGED, 1),
    ("nothing", "", "VERSION 1\n", 0),
]


@table(SESSION_ROWS)
def a_session_with_tags(room, says, said, status):
    expect(served(room, says), Done(status, said.replace("{here}", room.path()), ""))


@table([(f"{most} threads, {name}", most, *row) for most in (0, 1, 5) for name, *row in SESSION_ROWS])
def a_session_with_tags_where_more_threads_are_refused(room, most, says, said, status):
    few = {"LD_PRELOAD": preloaded(room, "tests/failing_calls.c"), "MOST_THREADS": most}
    expect(served(room, says, few), Done(status, said.replace("{here}", room.path()), ""))


def started_and_ready(room, tag):
    """A remote that is ready, asked one request after the other under that tag."""
    os.mkdir(room.path("d"))
    remote = start([ANNEX_REMOTE_DIR], cwd=room.path())
    for line in ["EXTENSIONS INFO ASYNC" if tag else "EXTENSIONS INFO", tag + "PREPARE", tag + "VALUE d"]:
        require(remote.stdout.readline(), "it ended")
        remote.stdin.write(as_bytes(line) + b"\n")
        remote.stdin.flush()
    require(remote.stdout.readline() == as_bytes(tag + "PREPARE-SUCCESS\n"), "it isn't ready")
    return remote


def asked(remote, line):
    """What the remote answers to the line."""
    remote.stdin.write(as_bytes(line) + b"\n")
    remote.stdin.flush()
    return as_text(remote.stdout.readline()).removesuffix("\n")


def threads_of(remote):
    """How many threads the process has."""
    return len(os.listdir(f"/proc/{remote.pid}/task"))


@table([("without tags", ""), ("with tags", "J 1 ")])
def checks_that_come_one_by_one_start_no_thread(room, tag):
    remote = started_and_ready(room, tag)
    for number in range(20):
        expect(asked(remote, f"{tag}CHECKPRESENT WORM--{number}"), f"{tag}CHECKPRESENT-FAILURE WORM--{number}", "an answer")
        expect(asked(remote, f"{tag}REMOVE WORM--{number}"), f"{tag}REMOVE-SUCCESS WORM--{number}", "an answer")
    expect(threads_of(remote), 1, "threads")
    remote.stdin.close()
    expect(remote.wait(), 0, "the status")


def case_a_transfer_without_tags_starts_no_thread(room):
    remote = started_and_ready(room, "")
    room.write("f", "x")
    expect(asked(remote, f"TRANSFER STORE WORM--a {room.path('f')}"), "TRANSFER-SUCCESS STORE WORM--a", "an answer")
    expect(threads_of(remote), 1, "threads")
    remote.stdin.close()
    expect(remote.wait(), 0, "the status")


def by_job(lines):
    """The lines after the tag of each number, in order."""
    jobs = {}
    for line in lines:
        word, number, text = line.split(" ", 2)
        require(word == "J", f"a line without a tag: {line}")
        jobs.setdefault(int(number), []).append(text)
    return jobs


def case_two_checks_are_answered_each_under_its_number(room):
    done = served(room, BEGINS + "J 2 CHECKPRESENT WORM--b\nJ 3 CHECKPRESENT WORM--a\n")
    require(done.out.startswith(IS_READY), f"how it got ready: {done.out}")
    jobs = by_job(done.out[len(IS_READY):].splitlines())
    expect((jobs, done.status, done.err),
           ({2: ["CHECKPRESENT-FAILURE WORM--b"], 3: ["CHECKPRESENT-FAILURE WORM--a"]}, 0, ""))


def case_requests_on_one_key_are_answered_in_their_order(room):
    room.write("f", b"hello")
    done = served(room, BEGINS + "J 2 TRANSFER STORE WORM-s5--a f\nJ 3 CHECKPRESENT WORM-s5--a\nJ 4 REMOVE WORM-s5--a\n"
                  "J 5 CHECKPRESENT WORM-s5--a\nJ 6 TRANSFER RETRIEVE WORM-s5--a g\n")
    expect(done, Done(0, IS_READY + "J 2 TRANSFER-SUCCESS STORE WORM-s5--a\nJ 3 CHECKPRESENT-SUCCESS WORM-s5--a\n"
                      "J 4 REMOVE-SUCCESS WORM-s5--a\nJ 5 CHECKPRESENT-FAILURE WORM-s5--a\n"
                      "J 6 TRANSFER-FAILURE RETRIEVE WORM-s5--a no such file\n", ""))
    require(not room.has("g"), "a file was made of a content that isn't there")


def case_what_is_open_at_the_end_of_the_input_is_answered(room):
    keys = [f"WORM-s4--{n}" for n in range(40)]
    for key in keys:
        room.write(f"from/{key}", key[-4:].rjust(4, "-"))
    lines = "".join(f"J {n + 2} TRANSFER STORE {key} from/{key}\n" for n, key in enumerate(keys))
    done = served(room, BEGINS + lines)
    expect((by_job(done.out[len(IS_READY):].splitlines()), done.status),
           ({n + 2: [f"TRANSFER-SUCCESS STORE {key}"] for n, key in enumerate(keys)}, 0))
    done = served(room, BEGINS + "".join(f"J {n + 2} TRANSFER RETRIEVE {key} to-{key}\n" for n, key in enumerate(keys)))
    for key in keys:
        expect(room.read(f"to-{key}"), room.read(f"from/{key}"), f"the content of {key}")


def case_an_output_that_is_closed_is_status_5(room):
    read_end, write_end = os.pipe()
    process = start([ANNEX_REMOTE_DIR], cwd=room.folder, stdout=write_end)
    os.close(write_end)
    os.close(read_end)
    _, err = process.communicate(as_bytes(BEGINS))
    expect((process.returncode, as_text(err)), (5, ""))


def case_an_input_that_cannot_be_read_is_status_4(room):
    folder = os.open(room.path(), os.O_RDONLY)
    process = start([ANNEX_REMOTE_DIR], cwd=room.folder, stdin=folder)
    os.close(folder)
    out, err = process.communicate()
    expect((process.returncode, as_text(out), as_text(err)), (4, "VERSION 1\n", ""))


class Host:
    """A host that keeps several numbers busy. Each answer is handed to whoever asked under its number."""

    def __init__(self, room, env=None):
        self.process = start([ANNEX_REMOTE_DIR], cwd=room.folder, env={"ANNEX_REMOTE_DIR_SYNC": "0", **(env or {})})
        expect(self.process.stdout.readline(), b"VERSION 1\n")
        self.say("EXTENSIONS INFO ASYNC")
        expect(self.process.stdout.readline(), b"EXTENSIONS ASYNC\n")
        self.say("J 1 PREPARE")
        expect(self.process.stdout.readline(), b"J 1 GETCONFIG directory\n")
        self.say("J 1 VALUE d")
        expect(self.process.stdout.readline(), b"J 1 PREPARE-SUCCESS\n")

    def say(self, line):
        self.process.stdin.write(as_bytes(line + "\n"))
        self.process.stdin.flush()

    def hear(self):
        """The next line, as its number and its text."""
        line = as_text(self.process.stdout.readline()).rstrip("\n")
        word, number, text = line.split(" ", 2)
        require(word == "J", f"a line without a tag: {line}")
        return int(number), text

    def end(self):
        self.process.stdin.close()
        expect((self.process.stdout.read(), self.process.stderr.read(), self.process.wait()), (b"", b"", 0))


def case_a_check_is_answered_while_a_store_waits_for_its_file(room):
    os.mkfifo(room.path("pipe"))
    host = Host(room)
    host.say("J 2 TRANSFER STORE WORM-s5--a pipe")
    for n in range(3, 13):
        host.say(f"J {n} CHECKPRESENT WORM--{n}")
        expect(host.hear(), (n, f"CHECKPRESENT-FAILURE WORM--{n}"))
    # Another request on the key that is stored waits, and others don't.
    host.say("J 3 CHECKPRESENT WORM-s5--a")
    host.say("J 4 CHECKPRESENT WORM--b")
    expect(host.hear(), (4, "CHECKPRESENT-FAILURE WORM--b"))
    # Whoever writes to the pipe lets the store go on, which fails: a pipe can't be read at a place.
    writer = os.open(room.path("pipe"), os.O_WRONLY)
    number, text = host.hear()
    require(number == 2 and text.startswith("TRANSFER-FAILURE STORE WORM-s5--a "), f"the store of a pipe: {number} {text}")
    expect(host.hear(), (3, "CHECKPRESENT-FAILURE WORM-s5--a"))
    os.close(writer)
    host.end()


def play(room, seed):
    """One session: 8 numbers are kept busy with 200 requests over 6 keys, and each answer is what those before it on its key leave."""
    dice = random.Random(seed)
    host = Host(room)
    keys = [f"WORM-s8--{seed}-{n}" for n in range(6)]
    kept = {}
    free = list(range(1, 9))
    wanted = {}
    files = 0
    for _ in range(200):
        while not free or (wanted and dice.random() < 0.3):
            number, text = host.hear()
            require(number in wanted, f"an answer under the number {number}, which isn't open: {text}")
            final, check = wanted.pop(number)
            expect(text, final, f"session {seed}, number {number}")
            check()
            free.append(number)
        number = free.pop(dice.randrange(len(free)))
        key = dice.choice(keys)
        what = dice.choice(["STORE", "RETRIEVE", "CHECK", "REMOVE", "STORE", "CLAIM"])
        files += 1
        name = f"file-{seed}-{files}"
        check = lambda: None
        if what == "STORE":
            content = f"{files:08}"
            room.write(name, content)
            kept[key] = content
            line, final = f"TRANSFER STORE {key} {name}", f"TRANSFER-SUCCESS STORE {key}"
        elif what == "RETRIEVE":
            line = f"TRANSFER RETRIEVE {key} {name}"
            if key in kept:
                final = f"TRANSFER-SUCCESS RETRIEVE {key}"
                check = lambda name=name, content=kept[key]: expect(room.text(name), content, f"session {seed}, {name}")
            else:
                final = f"TRANSFER-FAILURE RETRIEVE {key} no such file"
        elif what == "CHECK":
            line, final = f"CHECKPRESENT {key}", f"CHECKPRESENT-{'SUCCESS' if key in kept else 'FAILURE'} {key}"
        elif what == "REMOVE":
            kept.pop(key, None)
            line, final = f"REMOVE {key}", f"REMOVE-SUCCESS {key}"
        else:
            line, final = "CLAIMURL http://a/b", "UNSUPPORTED-REQUEST"
        wanted[number] = (final, check)
        host.say(f"J {number} {line}")
    while wanted:
        number, text = host.hear()
        final, check = wanted.pop(number)
        expect(text, final, f"session {seed}, number {number}")
        check()
    host.end()


@limits(60 + SESSIONS)
def case_eight_numbers_kept_busy_at_random(room):
    if ONE_PROCESSOR:
        os.sched_setaffinity(0, {min(os.sched_getaffinity(0))})
    for seed in range(SESSIONS):
        play(room, seed)


def case_two_processes_store_one_key_at_once(room):
    contents = [letter * 100_000 for letter in "ab"]
    for n, content in enumerate(contents):
        room.write(f"from-{n}", content)
    hosts = [Host(room) for _ in contents]

    def store(n):
        for _ in range(20):
            hosts[n].say(f"J 2 TRANSFER STORE WORM-s100000--k from-{n}")
            expect(hosts[n].hear(), (2, "TRANSFER-SUCCESS STORE WORM-s100000--k"))

    failures = []

    def guarded(n):
        try:
            store(n)
        except Exception as why:  # noqa: BLE001
            failures.append(why)

    threads = [threading.Thread(target=guarded, args=(n,)) for n in range(2)]
    for thread in threads:
        thread.start()
    for thread in threads:
        thread.join()
    require(not failures, f"a store: {failures}")
    hosts[0].say("J 3 TRANSFER RETRIEVE WORM-s100000--k back")
    expect(hosts[0].hear(), (3, "TRANSFER-SUCCESS RETRIEVE WORM-s100000--k"))
    require(room.text("back") in contents, "the content is neither of those that were stored")
    for host in hosts:
        host.end()


@limits(120)
def case_a_thousand_keys_by_eight_jobs_of_special(room):
    count = 1_000
    for n in range(count):
        room.write(f"from/{n}", f"content {n}\n")
    room.mkdir("to")
    sizes = [len(f"content {n}\n") for n in range(count)]
    kept = room.write("keep", "annex-keep 1\nconfig directory d\n")
    words = [SPECIAL, "run", "--program", ANNEX_REMOTE_DIR, "--uuid", UUID, "--work", room.path(), "--keep", kept,
             "--jobs", "8", "--journal", room.path("journal")]
    env = {"ANNEX_REMOTE_DIR_SYNC": "0"}
    for verb, folder, answer in [("store", "from", "stored"), ("get", "to", "got")]:
        tasks = "".join(f"{verb} WORM-s{sizes[n]}--{n} {room.path(folder)}/{n}\n" for n in range(count))
        done = room.run(words, input=tasks, env=env)
        expect((done.out, done.err, done.status), ("".join(f"{n + 1} {answer}\n" for n in range(count)), "", 0))
        require(len(journal.read(room.text("journal")).of("start")) == 1, "more than one child was started")
        expect(run([SPECIAL, "audit"], input=room.read("journal")).out, "legal\n")
    for n in range(count):
        expect(room.read(f"to/{n}"), room.read(f"from/{n}"), f"the content of key {n}")
