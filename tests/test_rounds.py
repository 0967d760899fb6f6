"""What rounds of several workers leave, and what they cost while they wait."""

import os

from harness import SPECIAL, UUID, expect, require, table
from runs import check_answers, checks, expect_run

KEYS = [chr(ord("a") + number) for number in range(10)]
ANSWERS = repr(check_answers(**{letter: "SUCCESS" for letter in KEYS}))
PRESENT = "".join(f"{number} present\n" for number in range(1, len(KEYS) + 1))
# Seconds that the remote lets a check wait, and what the host may spend in the meantime.
WAITS = 1.5
MOST_SPENT = 0.5


@table([(f"{jobs} workers over {name}", jobs, greeting, children)
        for jobs in (1, 2, 8)
        for name, greeting, children in (("a child with tags", 'greet("ASYNC")\n', 1), ("a pool", "greet()\n", jobs))])
def a_round_in_which_all_goes_well_closes_its_children(room, jobs, greeting, children):
    room.children("remote", *[greeting + f"serve({ANSWERS})\n"] * children)
    journal = expect_run(room, "./remote", checks(*KEYS), PRESENT, jobs=jobs, children=children)
    expect([entry.parts for entry in journal.of("end")], [[str(child), "closed"] for child in range(1, children + 1)], "how each ended")


@table([("a child with tags", 'greet("ASYNC")\n'), ("a child without tags", "greet()\n")])
def workers_with_nothing_to_do_wait_without_spending_processor_time(room, greeting):
    room.child("remote", f"import time\n{greeting}tag = hear_all('CHECKPRESENT WORM--a')[0]\ntime.sleep({WAITS})\n"
                         f"say(tag + {ANSWERS}['CHECKPRESENT WORM--a'])\nhear()\n")
    words = [SPECIAL, "run", "--program", "./remote", "--uuid", UUID, "--jobs", "4", "--again", "1"]
    with open(os.devnull, "wb") as nowhere:
        host = room.start(words, stderr=nowhere)
        host.stdin.write(b"check WORM--a\n")
        host.stdin.close()
        said = host.stdout.read()
        _, status, spent = os.wait4(host.pid, 0)
    host.returncode = os.waitstatus_to_exitcode(status)
    expect((host.returncode, said), (0, b"1 present\n"), "the run")
    require(spent.ru_utime + spent.ru_stime < MOST_SPENT, f"{spent.ru_utime + spent.ru_stime} s of processor time")
