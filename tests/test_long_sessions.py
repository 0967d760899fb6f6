"""`annex-remote-dir` over long sessions, and under hosts that say lines which spell no message."""

import os
import random

from harness import ANNEX_REMOTE_DIR, expect, limits, require, table
from test_async_kit import CONFIGS, Host

# How many requests a long session has, and how many random sessions run.
REQUESTS = int(os.environ.get("LONG_SESSION", "20000"))
SHORT = 3000
# How many KiB a session may take more after them, whatever its length.
SPARE = 1024
STRANGE_SESSIONS = int(os.environ.get("STRANGE_SESSIONS", "200"))

# An address sanitizer holds on to what was freed, unless it is told not to.
NO_QUARANTINE = {"ASAN_OPTIONS": "quarantine_size_mb=0:thread_local_quarantine_size_kb=0:detect_leaks=0"}


def resident(process):
    """How many KiB of the process are in memory."""
    with open(f"/proc/{process.pid}/status", encoding="ascii") as status:
        return next(int(line.split()[1]) for line in status if line.startswith("VmRSS:"))


def checks(host, first, count, open_at_once):
    """Asks about so many missing keys, of which so many requests at most are open at once, and hears each answer."""
    asked, wanted = first, {}
    while asked < first + count or wanted:
        if asked < first + count and len(wanted) < open_at_once:
            number = 2 + asked % open_at_once
            if number not in wanted:
                wanted[number] = f"CHECKPRESENT-FAILURE WORM--{asked}"
                host.say(f"J {number} CHECKPRESENT WORM--{asked}")
                asked += 1
                continue
        number, text = host.hear()
        expect(text, wanted.pop(number))


@table([
    ("one request at a time", 1),
    ("sixteen requests at once", 16),
])
@limits(seconds=120 + REQUESTS // 500)
def a_long_session_takes_the_memory_of_a_short_one(room, open_at_once):
    host = Host(room, NO_QUARANTINE)
    checks(host, 0, SHORT, open_at_once)
    short = resident(host.process)
    checks(host, SHORT, REQUESTS - SHORT, open_at_once)
    whole = resident(host.process)
    host.end()
    # A journal in memory would take some 400 bytes a request.
    require(whole <= short + SPARE, f"{short} KiB after {SHORT} requests, {whole} KiB after {REQUESTS}")


def strange(dice):
    """A line that spells no message."""
    known = ["CLAIMURL http://a/b", "CHECKURL http://a/b", "FROBNICATE", "prepare", "PREPARED", "GETCOST 1", "EXPORTS a", "TRANSFER STORE"]
    return dice.choice(known + ["".join(dice.choices("ABCXYZ abc", k=dice.randrange(12))) for _ in known])


def session(dice):
    """The host's lines after the first, what is said to them, and the status. What the kit is to do is told here line by line."""
    lines, said, awaiting = [], [], None
    for _ in range(dice.randrange(30)):
        number = dice.randrange(1, 5)
        kind = dice.choices(["strange", "cost", "configs", "export", "prepare", "value", "error", "untagged", "zero"], [12, 4, 2, 2, 4, 4, 0.2, 0.2, 0.2])[0]
        text = {"strange": strange(dice), "cost": "GETCOST", "configs": "LISTCONFIGS", "export": "EXPORT a", "prepare": "PREPARE", "value": "VALUE d",
                "error": "ERROR enough", "untagged": "CLAIMURL http://a/b", "zero": "CLAIMURL http://a/b"}[kind]
        lines.append({"untagged": text, "zero": f"J 0 {text}"}.get(kind, f"J {number} {text}"))
        if kind in ("error", "untagged", "zero") or (kind == "strange" and awaiting == number):
            return lines, said, 1
        if (kind == "value") != (awaiting == number) or (kind == "prepare" and awaiting):
            return lines, said + ["ERROR unexpected message"], 1
        if kind == "prepare":
            awaiting = number
            said.append(f"J {number} GETCONFIG directory")
        elif kind == "value":
            awaiting = None
            said.append(f"J {number} PREPARE-SUCCESS")
        else:
            answer = {"strange": ["UNSUPPORTED-REQUEST"], "cost": ["COST 100"], "configs": CONFIGS, "export": []}[kind]
            said += [f"J {number} {line}" for line in answer]
    return lines, said, 0


@limits(seconds=60 + STRANGE_SESSIONS // 10)
def case_random_lines_between_requests_are_answered_as_they_are_to_be(room):
    for seed in range(STRANGE_SESSIONS):
        lines, said, status = session(random.Random(seed))
        done = room.run([ANNEX_REMOTE_DIR], input="\n".join(["EXTENSIONS ASYNC", *lines, ""]), env={"ANNEX_REMOTE_DIR_SYNC": "0"})
        expect((done.out.splitlines(), done.status), (["VERSION 1", "EXTENSIONS ASYNC", *said], status), f"session {seed}: {lines}")
