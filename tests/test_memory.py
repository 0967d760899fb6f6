"""Runs of which one allocation is refused, each in its turn, and the order in which a child's pipes are closed.

All need a library that is preloaded, built by `cc`.
"""

import contextlib
import itertools
import os
import re
import select
from concurrent.futures import ThreadPoolExecutor

from harness import ANNEX_REMOTE_DIR, SPECIAL, TOP, UUID, as_bytes, expect, limits, preloaded, require, run, start, table
from kits import signed

TASKS = "check WORM-s1--a\ncheck WORM-s1--b\n"

# The words are read twice, first for the folder that `--work` names: so many allocations at most, without which it isn't made.
FOR_THE_FOLDER = 120


def tells_of_memory(done):
    """The run says that it is out of memory: at its end, or in an answer. A start that fails may have failed for memory."""
    return (done.status, done.err) == (7, "special: memory\n") or (done.status == 1 and any(line.split()[1] in ("memory", "startfault") for line in done.out.splitlines()))


@table([
    ("one job", 1, "folder-remote.sh"),
    ("two jobs over a pool", 2, "folder-remote.sh"),
    ("two jobs over a child with tags", 2, "async-remote.sh"),
])
@limits(seconds=120)
def a_run_that_is_refused_an_allocation_says_so_unless_others_do_its_tasks(room, jobs, remote):
    """Where a thread is refused the others do the tasks, or the main thread does; and where a pool's second child isn't ready, the first."""
    refusing = preloaded(room, "tools/refuse.c")
    for name in ("WORM-s1--a", "WORM-s1--b"):
        room.write(f"contents/{name}", "x")

    def outcome(number):
        """What came of the run whose allocation of that number is refused, and whether others could do its tasks; None if it makes fewer."""
        names = {name: room.path(f"{name}-{number}") for name in ("refused", "threaded", "journal")}
        words = [SPECIAL, "run", "--program", f"{TOP}/examples/{remote}", "--uuid", UUID, "--work", room.path(), "--jobs", jobs, "--journal", names["journal"]]
        done = run(words, TASKS, {"LD_PRELOAD": refusing, "REFUSE_AT": number, "REFUSED": names["refused"], "THREADED": names["threaded"],
                                  "REMOTE_DIR": room.path("contents")})
        if not os.path.exists(names["refused"]):
            return None
        return done, os.path.exists(names["threaded"]) or bool(re.search("nostart 1\n|end 2 memory\n", room.text(f"journal-{number}") or ""))

    refused = well = 0
    with ThreadPoolExecutor(4) as pool:
        for first in itertools.count(1, 32):
            for number, came in zip(itertools.count(first), pool.map(outcome, range(first, first + 32))):
                if came:
                    done, may_go_well = came
                    refused += 1
                    well += done.status == 0 and number > FOR_THE_FOLDER
                    require(tells_of_memory(done) or (done.status == 0 and (may_go_well or number <= FOR_THE_FOLDER)), f"allocation {number} was refused\ngot: {done}")
            if not came:
                break
    require(refused > 100, f"only {refused} allocations were refused")
    require(well < refused // 8, f"{well} of {refused} runs went well")


# How many requests a host of `annex-remote-dir` has open at once, and how many allocations are refused, each in its turn. A kit that is
# broken off ends within so many seconds.
AT_ONCE = 16
REFUSALS = 400
SOON = 2


def host_that_waits(kit, lines, answers):
    """What becomes of a kit whose host says all this at once, and ends its input only where so many requests are answered: its status, and
    how many were. One that is silent for too long is killed."""
    with contextlib.suppress(BrokenPipeError):
        kit.stdin.write(as_bytes(lines))
        kit.stdin.flush()
    said = b""
    while True:
        if not select.select([kit.stdout], [], [], SOON)[0]:
            kit.kill()
        piece = os.read(kit.stdout.fileno(), 65536)
        if not piece:
            return kit.wait(), said.count(b" TRANSFER-")
        said += piece
        if said.count(b" TRANSFER-") == answers:
            kit.stdin.close()


@limits(seconds=120)
def case_a_kit_that_is_refused_an_allocation_ends_though_its_host_waits(room):
    """Its threads end where one of them finds no memory, also the one that reads: the host neither writes nor ends its input."""
    refusing = preloaded(room, "tools/refuse.c")
    file = room.write("f", "x")

    def outcome(number):
        folder, refused = signed(room.mkdir(f"d{number}")), room.path(f"refused-{number}")
        kit = start([ANNEX_REMOTE_DIR], {"LD_PRELOAD": refusing, "REFUSE_AT": number, "REFUSED": refused, "ANNEX_REMOTE_DIR_SYNC": "0"})
        stores = "".join(f"J {tag} TRANSFER STORE WORM--{tag} {file}\n" for tag in range(2, 2 + AT_ONCE))
        came = host_that_waits(kit, f"EXTENSIONS ASYNC\nJ 1 PREPARE\nJ 1 VALUE {folder}\n{stores}", AT_ONCE)
        return came if os.path.exists(refused) else None

    with ThreadPoolExecutor(4) as pool:
        outcomes = list(pool.map(outcome, range(1, REFUSALS + 1)))
    for number, came in enumerate(outcomes, 1):
        require(came, f"only {number - 1} allocations were refused")
        status, answered = came
        require(status == 7 or (status, answered) == (0, AT_ONCE), f"allocation {number} was refused\nstatus: {status}\nanswers: {answered}")


# Tells in a file whether its output was still read when its input had ended.
LISTENING = """
import select
while os.read(0, 4096):
    pass
output = select.poll()
output.register(1, 0)
state = "broken" if output.poll(0) else "open"
with open(f"ends.{number}", "w") as file:
    file.write(state)
"""


@table([
    ("check", ["check", "./remote", "WORM--a"], "", 'greet()\nhear("CHECKPRESENT WORM--a")\nsay("CHECKPRESENT-SUCCESS WORM--a")\n'),
    ("info", ["info", "./remote"], "", "greet()\nfor _ in range(5):\n    hear()\n    say('UNSUPPORTED-REQUEST')\n"),
    ("one job", ["run", "--program", "./remote", "--uuid", UUID, "--work", ".", "--jobs", "1"], "check WORM--a\n",
     'greet()\nhear("CHECKPRESENT WORM--a")\nsay("CHECKPRESENT-SUCCESS WORM--a")\n'),
    ("two jobs over a child that takes tags", ["run", "--program", "./remote", "--uuid", UUID, "--work", ".", "--jobs", "2"], "check WORM--a\n",
     'greet("ASYNC")\ntags = hear_all("CHECKPRESENT WORM--a")\nsay(tags[0] + "CHECKPRESENT-SUCCESS WORM--a")\n'),
])
def a_child_sees_its_input_end_before_its_output_breaks(room, words, data, body):
    slow = preloaded(room, "tests/slow_close.c")
    room.children("remote", body + LISTENING)
    done = room.special(*words, input=data, env={"LD_PRELOAD": slow})
    expect(done.status, 0, f"the status, after {done}")
    expect(room.text("ends.1"), "open", "its output, when its input had ended")
