"""Children that do what they may not, and an outside that fails."""

import os
import random
import resource
import signal
import time

from harness import SPECIAL, UUID, audit, expect, finish, limits, require, run, table
from runs import WELL

E = "WORM-s5--b"
GREETING = "echo VERSION 1\nread -r line\necho EXTENSIONS\nread -r line\necho PREPARE-SUCCESS\n"
ASKED = GREETING + "read -r line\n"
TAGGED = "echo VERSION 1\nread -r line\necho EXTENSIONS ASYNC\nread -r line\necho J 1 PREPARE-SUCCESS\nread -r line\n"


def printed(line):
    """Text of sh that says the line."""
    return "printf '%s\\n' '" + line + "'\n"


# ---- one line that may not stand there

@table([
    ("an answer about another key", "CHECKPRESENT-SUCCESS WORM--x", "foul CHECKPRESENT-SUCCESS WORM--x"),
    ("a blank after the key", f"CHECKPRESENT-SUCCESS {E} ", f"foul CHECKPRESENT-SUCCESS {E} "),
    ("a carriage return", f"CHECKPRESENT-SUCCESS {E}\r", f"foul CHECKPRESENT-SUCCESS {E}\r"),
    ("unknown without a message", f"CHECKPRESENT-UNKNOWN {E}", "unknown "),
    ("the answer to a store", f"TRANSFER-SUCCESS STORE {E}", f"foul TRANSFER-SUCCESS STORE {E}"),
    ("a tag", f"J 2 CHECKPRESENT-SUCCESS {E}", f"foul J 2 CHECKPRESENT-SUCCESS {E}"),
    ("a message of the host", "VALUE x", "foul VALUE x"),
    ("an empty line", "", "foul "),
    ("the greeting again", "VERSION 1", "foul VERSION 1"),
    ("an error", "ERROR out of disk", "ended error out of disk"),
])
def a_line_of_a_child_without_tags(room, line, answer):
    room.script("child.sh", ASKED + printed(line))
    expect(room.special("check", "./child.sh", E), (1, f"1 {answer}\n", ""))


@table([
    ("no tag", ["CHECKPRESENT-SUCCESS WORM--a"], "foul CHECKPRESENT-SUCCESS WORM--a"),
    ("two tags", ["J 2 J 2 CHECKPRESENT-SUCCESS WORM--a"], "foul J 2 J 2 CHECKPRESENT-SUCCESS WORM--a"),
    ("a zero before the tag's number", ["J 02 CHECKPRESENT-SUCCESS WORM--a"], "present"),
    ("progress of a job that is over", ["J 1 PROGRESS 5", "J 2 CHECKPRESENT-SUCCESS WORM--a"], "present"),
    ("tag 0", ["J 0 DEBUG x"], "foul J 0 DEBUG x"),
    ("a tag past 64 bits", ["J 18446744073709551616 DEBUG x"], "foul J 18446744073709551616 DEBUG x"),
    ("an error with a tag that names no job", ["J 99 ERROR no"], "ended error no"),
    ("an error without a tag", ["ERROR no"], "ended error no"),
])
def a_line_of_a_child_with_tags(room, lines, answer):
    room.script("child.sh", TAGGED + "".join(map(printed, lines)))
    done = room.run_command("./child.sh", "check WORM--a\n", "--jobs", "1", "--starts", "1")
    expect(done, (0 if answer == "present" else 1, f"1 {answer}\n", ""))
    expect(audit(room.text("journal")), (0, "legal\n", ""), "the audit")


# ---- a child that ends

@table([(f"after {count} lines", count) for count in range(4)])
def a_child_that_ends_early(room, count):
    lines = ["VERSION 1", "EXTENSIONS", "PREPARE-SUCCESS"][:count]
    room.script("child.sh", "".join(printed(line) + "read -r line\n" for line in lines))
    expect(room.special("check", "./child.sh", E), (1, "1 ended eof\n", ""))


@table([("before EXTENSIONS", 0), ("before PREPARE", 1), ("before the request", 2)])
def a_child_that_closes_its_input_and_stays(room, heard):
    steps = [printed("VERSION 1"), printed("EXTENSIONS"), printed("PREPARE-SUCCESS")]
    body = "".join(step + "read -r line\n" for step in steps[:heard])
    room.script("child.sh", body + "exec 0<&-\n" + steps[heard] + "sleep 1\n")
    expect(room.special("check", "./child.sh", E), (1, "1 unsent\n", ""))


def case_a_child_that_closes_its_input_and_goes_on_talking(room):
    heard = printed("VERSION 1") + "read -r line\n" + printed("EXTENSIONS") + "read -r line\nexec 0<&-\n"
    says = printed("PREPARE-SUCCESS") + printed("DEBUG I hear nothing more") * 100
    room.script("child.sh", heard + says + "sleep 1\n")
    expect(room.special("check", "./child.sh", E), (1, "1 unsent\n", ""))


def case_a_grandchild_that_holds_the_pipe_delays_nobody(room):
    room.script("child.sh", "sleep 15 2>/dev/null &\n" + ASKED + printed(f"CHECKPRESENT-SUCCESS {E}"))
    began = time.monotonic()
    expect(room.special("check", "./child.sh", E), (0, "1 present\n", ""))
    require(time.monotonic() - began < 10, "the host waited for the grandchild")


def case_a_gibibyte_without_a_line_end(room):
    room.script("child.sh", ASKED + "head -c 1073741824 /dev/zero\n")
    expect(room.special("check", "./child.sh", E), (1, "1 ended longline\n", ""))


@limits(240)
def case_a_child_that_fills_the_journal_is_ended(room):
    room.script("child.sh", ASKED + "yes 'PROGRESS 1' | head -n 7999988\n")
    done = room.run_command("./child.sh", f"check {E}\n", "--jobs", "1", "--starts", "1")
    expect(done, (1, "1 ended full\n", ""))
    with open(room.path("journal"), "rb") as journal:
        journal.seek(-120, os.SEEK_END)
        last = journal.read().decode().split("\n")[-6:]
        wanted = ["0 got 1 PROGRESS 1", "0 end 1 full", "0 verdict 1 2 ended full", "0 answer 1 ended full", "end 8000003", ""]
        expect(last, wanted, "the journal's last lines")
        journal.seek(0)
        expect(finish(room.start([SPECIAL, "audit"], stdin=journal)), (0, "legal\n", ""), "the audit")


@limits(20, waits=True)
def case_a_child_that_never_reads_is_waited_for_until_it_ends(room):
    room.script("child.sh", "echo $$ > pid\n" + printed("VERSION 1") + "exec sleep 15\n")
    host = room.start([SPECIAL, "check", "./child.sh", E])
    while not room.text("pid"):
        time.sleep(0.01)
    time.sleep(0.5)
    require(host.poll() is None, "the host ended before its child")
    os.kill(int(room.text("pid")), signal.SIGKILL)
    expect(host.wait(10), 1, "the status")


# ---- input, output and files

@table([
    ("too many lines", b"check WORM--a\n" * 65537, "special: line 65537: many\n"),
    ("a line that is too long", b"a" * 65537 + b"\n", "special: line 1: long\n"),
    ("an input that is too large", b"a" * 67108865, "special: line 1: large\n"),
])
@limits(60)
def an_input_past_a_limit(room, text, err):
    done = room.special("run", "--program", "false", "--uuid", UUID, input=text)
    expect(done, (3, "", err))


def case_an_audit_of_something_else(room):
    expect(room.special("audit", input="x\n"), (3, "", "special: line 1: entry\n"))


@table([("in a run", "run"), ("in an init", "init")])
@limits(60)
def a_kept_file_that_is_too_large(room, command):
    room.script("child.sh", "touch started\n")
    with open(room.path("keep"), "wb") as file:
        file.truncate(268435457)
    words = {"run": ["run", "--program", "./child.sh", "--uuid", UUID, "--keep", "keep"],
             "init": ["init", "./child.sh", UUID, "keep"]}[command]
    expect(room.special(*words, input="check WORM--a\n"), (6, "", "special: keep large\n"))
    require(not room.has("started"), "a child was started")


def case_out_on_a_full_device(room):
    room.script("child.sh", ASKED + printed(f"CHECKPRESENT-SUCCESS {E}"))
    with open("/dev/full", "wb") as full:
        host = room.start([SPECIAL, "check", "./child.sh", E], stdout=full)
        err = host.communicate()[1]
    expect((host.returncode, err), (5, b""))


def case_out_that_nobody_reads(room):
    room.script("child.sh", ASKED + printed(f"CHECKPRESENT-SUCCESS {E}"))
    reading, writing = os.pipe()
    os.close(reading)
    host = room.start([SPECIAL, "check", "./child.sh", E], stdout=writing)
    err = host.communicate()[1]
    os.close(writing)
    expect((host.returncode, err), (5, b""), "a write to a pipe without a reader is a fault and no signal")


def small_files(most):
    """Makes each later write past so many bytes of a file fail."""
    def limit():
        signal.signal(signal.SIGXFSZ, signal.SIG_IGN)
        resource.setrlimit(resource.RLIMIT_FSIZE, (most, most))
    return limit


def case_a_disk_that_fills_while_part_is_written(room):
    room.write("content", b"x" * 300000)
    room.script("child.sh", "trap '' XFSZ\n" + ASKED + "ln content \"${line##* }\"\n"
                + printed("TRANSFER-SUCCESS RETRIEVE WORM-s300000--c"))
    words = [SPECIAL, "run", "--program", "./child.sh", "--uuid", UUID, "--work", "."]
    import subprocess
    host = subprocess.Popen(words, cwd=room.folder, stdin=subprocess.PIPE, stdout=subprocess.PIPE,
                            stderr=subprocess.PIPE, preexec_fn=small_files(200000))
    out, err = host.communicate(b"get WORM-s300000--c got\n")
    expect((host.returncode, out, err), (1, b"1 filefault\n", b""))
    require(not room.has("got"), "the file is there")
    expect(len(room.read("got.part")), 200000, "the length of part")


def case_a_work_folder_that_is_a_file(room):
    room.write("file", b"abc")
    room.write("work", b"this is no folder")
    room.script("child.sh", GREETING + "while read -r line; do " + printed("CHECKPRESENT-FAILURE WORM-s3-S2-C1--c") + "done\n")
    done = room.special("run", "--program", "./child.sh", "--uuid", UUID, "--work", "work", "--chunk", "2",
                        input="store WORM-s3--c file\n")
    expect(done, (6, "", "special: file failed\n"))


@limits(20, waits=True)
def case_a_host_that_is_told_to_stop_leaves_no_child_and_no_other_file(room):
    room.write("file", b"abc")
    room.script("child.sh", "echo $$ > pid\n" + ASKED + "touch asked\nread -r line\n")
    host = room.start([SPECIAL, "run", "--program", "./child.sh", "--uuid", UUID, "--work", "work", "--chunk", "2"])
    host.stdin.write(b"store WORM-s3--c file\n")
    host.stdin.close()
    while not room.has("asked"):
        time.sleep(0.01)
    host.send_signal(signal.SIGTERM)
    expect(host.wait(10), -signal.SIGTERM, "the status")
    wait_until_gone([int(room.text("pid"))])
    left = sorted(str(path.relative_to(room.folder)) for path in room.folder.rglob("*") if path.is_file())
    expect([name for name in left if not name.startswith("work/")], ["asked", "child.sh", "file", "pid"])
    require(all(name.endswith((".chunk", ".fetch")) for name in left if name.startswith("work/")), f"left: {left}")


def wait_until_gone(pids):
    """Goes on once none of these processes is there."""
    deadline = time.monotonic() + 5
    while True:
        left = [pid for pid in pids if is_running(pid)]
        if not left:
            return
        require(time.monotonic() < deadline, f"still running: {left}")
        time.sleep(0.01)


def is_running(pid):
    """Whether there is such a process, also one that has ended and nobody waited for."""
    try:
        with open(f"/proc/{pid}/stat") as stat:
            return stat.read().rsplit(")", 1)[1].split()[0] != "Z"
    except FileNotFoundError:
        return False


# ---- children that do right and wrong by a seed

KEYS = ["WORM--a", "WORM-s3--b", "WORM-s10--c", "SHA256E-s3--x.txt"]
NAMES = ["n", "docs/a b.txt", "EXPORT", "ä"]
RUNS = int(os.environ.get("HOSTILE_RUNS") or 200)
FIRST = int(os.environ.get("HOSTILE_SEED") or 1)
PER_CASE = 10
WORDS = {"stored", "got", "present", "dropped", "absent", "unsupported", "unsent", "startfault", "nochild", "filefault",
         "nofile", "memory", "failed", "renamed", "unknown", "notprepared", "ended", "size", "hash", "foul"}


@table([(f"seeds from {first}", first) for first in range(FIRST, FIRST + RUNS, PER_CASE)])
@limits(240)
def hostile_children(room, first):
    for seed in range(first, first + PER_CASE):
        Trial(room, seed).run()


class Trial:
    """One run over children of a seed."""

    def __init__(self, room, seed):
        self.room, self.seed = room, seed
        self.random = random.Random(seed)
        self.tags = self.random.random() < 0.5
        self.name = f"remote-{seed}"
        self.program = room.child(self.name, "import hostile\n"
                                  f"hostile.live({seed}, {room.path(self.name)!r}, {self.tags})\n")

    def run(self):
        command = self.random.choice(["check", "info", "init", "run", "run", "run", "run", "run"])
        began = time.monotonic()
        getattr(self, f"try_{command}")()
        require(time.monotonic() - began < 100, f"{self}: it took too long")
        wait_until_gone([pid for pid, _, _ in self.logs()])

    def __str__(self):
        return f"seed {self.seed}"

    def try_check(self):
        done = self.room.special("check", self.program, self.random.choice(KEYS))
        require(done.status in (0, 1) and done.err == "", f"{self}: check gave {done}")
        self.check_answers(done, 1)

    def try_info(self):
        done = self.room.special("info", self.program)
        require(done.status in (0, 1) and done.err == "", f"{self}: info gave {done}")

    def try_init(self):
        done = self.room.special("init", self.program, UUID, f"keep-{self.seed}", "name=value")
        require(done.status in (0, 1) and done.err == "", f"{self}: init gave {done}")
        expect(self.room.has(f"keep-{self.seed}"), done.status == 0, f"{self}: whether the kept file is there")

    def try_run(self):
        tasks = [self.task(number) for number in range(self.random.choice([1, 5, 30]))]
        jobs = self.random.randint(1, 8)
        words = ["--jobs", str(jobs), "--starts", str(self.random.randint(1, 4)), "--chunk", self.random.choice(["0", "2"]),
                 "--again", self.random.choice(["0", "1", "8"])]
        done = self.room.run_command(self.program, "".join(task + "\n" for task in tasks), *words, journal=f"journal-{self.seed}")
        require(done.status in (0, 1) and done.err == "", f"{self}: run gave {done}")
        self.check_answers(done, len(tasks))
        expect(audit(self.room.text(f"journal-{self.seed}")), (0, "legal\n", ""), f"{self}: the audit")
        journal = self.room.journal(f"journal-{self.seed}")
        expect(journal.odd_tasks(), [], f"{self}: tasks that were not claimed and answered once")
        self.check_lines(journal)

    def task(self, number):
        key = self.random.choice(KEYS)
        name = self.random.choice(NAMES)
        word = self.random.choice(["store", "get", "check", "drop", "xstore", "xget", "xcheck", "xdrop", "xrename"])
        if word.endswith("store"):
            self.room.write(f"content-{self.seed}", b"abc")
            task = f"{word} {key} content-{self.seed}"
        else:
            task = f"{word} {key} got-{self.seed}-{number}" if word.endswith("get") else f"{word} {key}"
        if word in ("xstore", "xget"):
            task += f"\t{name}"
        elif word in ("xcheck", "xdrop", "xrename"):
            task += f" {name}"
        return f"{task}\t{self.random.choice(NAMES)}" if word == "xrename" else task

    def check_answers(self, done, count):
        lines = done.out.rstrip("\n").split("\n")
        expect([line.split(" ")[0] for line in lines], [str(n + 1) for n in range(count)], f"{self}: the numbers of the answers")
        odd = [line for line in lines if line.split(" ")[1] not in WORDS]
        expect(odd, [], f"{self}: answers")
        well = all(line.split(" ")[1] in WELL for line in lines)
        expect(done.status, 0 if well else 1, f"{self}: the status")

    def logs(self):
        """The process, the lines heard and the lines said of each start."""
        found = []
        while (text := self.room.text(f"{self.name}.{len(found) + 1}.log")) is not None:
            lines = text.split("\n")[:-1]
            heard = [line[2:] for line in lines if line.startswith("< ")]
            said = [line[2:] for line in lines if line.startswith("> ")]
            found.append((int(lines[0].split()[1]), heard, said))
        return found

    def check_lines(self, journal):
        """Each child's own record agrees with the journal."""
        starts = [entry.child for entry in journal.of("start")]
        logs = self.logs()
        expect(len(starts), len(logs), f"{self}: starts")
        for child, (_, heard, said) in zip(starts, logs):
            fed = journal.heard(child)
            expect(fed, said[:len(fed)], f"{self}: what child {child} said")
            owed = [entry.line for entry in journal.of("lead", "ask", "put") if entry.child == child]
            expect(heard, owed[:len(heard)], f"{self}: what child {child} heard")

