#!/usr/bin/env python3
"""Runs the tests of the built programs.

    python3 tests/run.py [--list] [--times] [--jobs N] [--patience N] [NAME..]

A NAME chooses the cases whose file or name has it; without one all run. Each
case runs in a process group of its own, which is ended when the case has ended
or its time is over; it has more time where others use the processors. The last
line is `N passed, N failed`, and the status is 0 only where none failed and at
least one ran.
"""

import argparse
import ctypes
import importlib
import json
import os
import selectors
import shutil
import signal
import sys
import tempfile
import time
import traceback
from pathlib import Path

sys.dont_write_bytecode = True
TESTS = Path(__file__).resolve().parent
sys.path.insert(0, str(TESTS))

import harness  # noqa: E402

PR_SET_CHILD_SUBREAPER = 36
# How many cases that only wait may run for each processor, beside the others.
WAITING_PER_PROCESSOR = 4


def adopt_orphans():
    """Makes what a case leaves running a child of this process, so that its end can be waited for."""
    try:
        ctypes.CDLL(None).prctl(PR_SET_CHILD_SUBREAPER, 1, 0, 0, 0)
    except (OSError, AttributeError):
        pass


def load_cases():
    """The cases of all files, each file's in the order in which they stand there."""
    cases = []
    for path in sorted(TESTS.glob("test_*.py")):
        module = importlib.import_module(path.stem)
        cases += harness.cases_of(module)
    names = [case.name for case in cases]
    twice = sorted({name for name in names if names.count(name) > 1})
    if twice:
        raise SystemExit(f"run.py: two cases with one name: {', '.join(twice)}")
    return cases


def chosen(cases, names):
    return [case for case in cases if not names or any(name in case.name for name in names)]


def outcome_of(case, room):
    """Runs the case here, and tells how it went."""
    try:
        case.function(room)
    except harness.Skipped as why:
        return "skipped", str(why)
    except harness.Differs as differs:
        place = traceback.extract_tb(differs.__traceback__)
        lines = [f"{frame.filename}:{frame.lineno}" for frame in place if "/test_" in frame.filename]
        return "failed", "\n".join([str(differs), *lines[-1:]])
    except BaseException:
        return "failed", traceback.format_exc()
    return "passed", ""


def busyness():
    """How many want each processor; 1 where not all are wanted. A case gets that much more time."""
    return max(1, os.getloadavg()[0] / len(os.sched_getaffinity(0)))


class Running:
    """A case that runs in a process of its own."""

    def __init__(self, case, folder):
        self.case = case
        self.folder = folder
        self.said = b""
        self.began = time.monotonic()
        self.limit = round(case.limit * busyness())
        self.deadline = self.began + self.limit
        (folder / "room").mkdir(parents=True)
        self.outlet, inlet = os.pipe()
        sys.stdout.flush()
        self.pid = os.fork()
        if self.pid == 0:
            self.become(inlet)
        os.close(inlet)
        try:
            os.setpgid(self.pid, self.pid)
        except OSError:
            pass  # it has done so itself, or has ended

    def become(self, inlet):
        """The case's own process."""
        try:
            os.setpgid(0, 0)
            signal.signal(signal.SIGTERM, signal.SIG_DFL)
            signal.signal(signal.SIGINT, signal.SIG_DFL)
            os.environ["CASE_LIMIT"] = str(self.limit)
            nothing = os.open(os.devnull, os.O_RDONLY)
            prints = os.open(self.folder / "prints", os.O_WRONLY | os.O_CREAT, 0o600)
            os.dup2(nothing, 0)
            os.dup2(prints, 1)
            os.dup2(prints, 2)
            outcome = outcome_of(self.case, harness.Room(self.folder / "room"))
            sys.stdout.flush()
            sys.stderr.flush()
            with os.fdopen(inlet, "w") as pipe:
                json.dump(outcome, pipe)
        finally:
            os._exit(0)

    def end(self):
        """Ends what is left of the case, and tells how it went and what it printed."""
        try:
            os.killpg(self.pid, signal.SIGKILL)
        except ProcessLookupError:
            pass
        os.close(self.outlet)
        while True:
            try:
                os.waitpid(-self.pid, 0)
            except ChildProcessError:
                break
        try:
            state, text = json.loads(self.said)
        except ValueError:
            is_late = time.monotonic() >= self.deadline
            state, text = "failed", f"no end within {self.limit} s" if is_late else "it ended without a word"
        try:
            prints = (self.folder / "prints").read_text(errors="backslashreplace")
        except OSError:
            prints = ""
        remove(self.folder)
        return state, text, prints


def remove(folder):
    """Removes the folder, also where a case took rights of folders in it away."""
    for path, names, _ in os.walk(folder):
        for inner in (os.path.join(path, name) for name in names):
            if not os.path.islink(inner):
                os.chmod(inner, 0o700)
    shutil.rmtree(folder, onerror=pass_over_vanished)


def pass_over_vanished(_, path, why):
    """What is ending, as gpg's agent, removes files of its own meanwhile."""
    if not issubclass(why[0], FileNotFoundError):
        raise why[1]


class Runner:
    """Runs cases side by side, and counts how they went."""

    def __init__(self, top, processors, times):
        self.top = top
        self.limits = {False: processors, True: processors * WAITING_PER_PROCESSOR}
        self.times = times
        self.counts = {"passed": 0, "failed": 0, "skipped": 0}
        self.running = []
        self.selector = selectors.DefaultSelector()

    def run(self, cases):
        queues = {waits: [case for case in cases if case.waits == waits] for waits in (False, True)}
        number = 0
        try:
            while self.running or any(queues.values()):
                for waits, queue in queues.items():
                    while queue and self.count(waits) < self.limits[waits]:
                        self.start(queue.pop(0), self.top / str(number))
                        number += 1
                self.step()
        finally:
            for one in self.running:
                one.end()

    def count(self, waits):
        return sum(one.case.waits == waits for one in self.running)

    def start(self, case, folder):
        one = Running(case, folder)
        self.running.append(one)
        self.selector.register(one.outlet, selectors.EVENT_READ, one)

    def step(self):
        """Waits until a case says something or its time is over."""
        pause = min(one.deadline for one in self.running) - time.monotonic()
        ready = [key.data for key, _ in self.selector.select(max(pause, 0))]
        now = time.monotonic()
        for one in list(self.running):
            if one in ready:
                piece = os.read(one.outlet, 65536)
                one.said += piece
                if not piece:
                    self.finish(one)
            elif one.deadline <= now:
                self.finish(one)

    def finish(self, one):
        self.selector.unregister(one.outlet)
        self.running.remove(one)
        taken = time.monotonic() - one.began
        state, text, prints = one.end()
        self.counts[state] += 1
        if state != "passed":
            print(f"{state}: {one.case.name}")
            for line in (text.splitlines() + prints.splitlines())[:200]:
                print(f"    {line}")
        elif self.times:
            print(f"passed: {one.case.name} ({taken:.1f} s)")
        sys.stdout.flush()


def stop(number, _):
    """Ends the run, and with it the cases; a second signal changes nothing."""
    signal.signal(signal.SIGTERM, signal.SIG_IGN)
    signal.signal(signal.SIGINT, signal.SIG_IGN)
    raise SystemExit(128 + number)


def main():
    parser = argparse.ArgumentParser(description="Runs the tests of the built programs.")
    parser.add_argument("--list", action="store_true", help="print the cases' names alone")
    parser.add_argument("--times", action="store_true", help="print how long each case took")
    parser.add_argument("--jobs", type=int, default=len(os.sched_getaffinity(0)), help="cases side by side")
    parser.add_argument("--patience", type=float, default=1, help="how much longer cases may take, as with slow builds")
    parser.add_argument("names", nargs="*", metavar="NAME", help="run the cases whose file or name has it")
    words = parser.parse_args()
    cases = [
        case._replace(limit=case.limit * words.patience) for case in chosen(load_cases(), words.names)
    ]
    if words.list:
        print("\n".join(case.name for case in cases))
        return 0
    for program in (harness.SPECIAL, harness.ANNEX_REMOTE_DIR):
        if not os.access(program, os.X_OK):
            raise SystemExit(f"run.py: there is no program {program}: build it, or name another in the environment")
    adopt_orphans()
    signal.signal(signal.SIGTERM, stop)
    signal.signal(signal.SIGINT, stop)
    top = Path(tempfile.mkdtemp(prefix="special-tests-"))
    try:
        runner = Runner(top, max(words.jobs, 1), words.times)
        runner.run(cases)
    finally:
        remove(top)
    counts = runner.counts
    skipped = f", {counts['skipped']} skipped" if counts["skipped"] else ""
    print(f"{counts['passed']} passed, {counts['failed']} failed{skipped}")
    return 0 if counts["failed"] == 0 and counts["passed"] > 0 else 1


if __name__ == "__main__":
    sys.exit(main())
