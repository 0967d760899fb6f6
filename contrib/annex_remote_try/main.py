"""The command: its words, its run of the tests, and its status."""

import argparse
import os
import shutil
import signal
import sys
import tempfile
import time
import traceback

from . import VERSION, excerpts, report
from .bench import ADVICE, Bench, Fails, Failure, Skips, TESTS
from . import conversation, contents, tagged, exports, special, faults, lines  # noqa: F401  (each adds its tests)

STATUSES = """exit status: 0 if no test failed (advice doesn't count), 1 if one failed, 2 if the arguments are wrong or
PROGRAM can't be started"""


def words(arguments):
    """The parsed command line."""
    parser = argparse.ArgumentParser(prog="annex-remote-try",
                                     description="Tests an external special remote of git-annex, line by line.",
                                     epilog=STATUSES, formatter_class=argparse.RawDescriptionHelpFormatter)
    parser.add_argument("program", metavar="PROGRAM", nargs="?", help="the remote: a path, or a name that is looked for in PATH")
    parser.add_argument("settings", metavar="NAME=VALUE", nargs="*", help="a setting, as for git annex initremote")
    parser.add_argument("--place", metavar="NAME", help="the setting that is the remote's folder; it is moved away and back in some tests")
    parser.add_argument("--only", metavar="NAMES", action="append", default=[],
                        help="run only these tests or groups, separated by commas")
    parser.add_argument("--list", action="store_true", help="list the tests, and run none")
    parser.add_argument("--wait", metavar="SECONDS", type=float, default=10, help="how long an answer may take (default 10)")
    parser.add_argument("--gitdir", metavar="DIR", help="the answer to GETGITDIR (default: an empty folder)")
    parser.add_argument("--json", action="store_true", help="print the report as JSON")
    parser.add_argument("--html", metavar="FILE", help="also write the report and the whole conversation as a web page")
    parser.add_argument("--version", action="version", version=f"annex-remote-try {VERSION}")
    given = parser.parse_intermixed_args(arguments)
    names = [name for text in given.only for name in text.split(",") if name]
    known = {test.name for test in TESTS} | {test.group for test in TESTS}
    if unknown := [name for name in names if name not in known]:
        parser.error(f"there is no test {unknown[0]}; --list prints them")
    if given.list:
        return given, names
    if given.program is None:
        parser.error("PROGRAM is missing")
    if wrong := [text for text in given.settings if "=" not in text or text.startswith("=") or " " in text.partition("=")[0] or "\n" in text]:
        parser.error(f"{wrong[0]!r} isn't NAME=VALUE")
    if given.place and given.place not in [text.partition("=")[0] for text in given.settings]:
        parser.error(f"--place {given.place}: there is no setting {given.place}=VALUE")
    return given, names


def chosen(names):
    """The tests to make, with those that they need before them, and those to report."""
    told = [test for test in TESTS if not names or test.name in names or test.group in names]
    if told and all(test.group == "lines" for test in told):
        return list(TESTS), told
    made = {test.name for test in told}
    by_name = {test.name: test for test in TESTS}
    waiting = list(told)
    while waiting:
        test = waiting.pop()
        # A remote is set up before it is used, but one that can't be set up may be used all the same.
        for name in (*test.needs, *(["initremote"] if test.name == "prepare" else [])):
            if name not in made:
                made.add(name)
                waiting.append(by_name[name])
    return [test for test in TESTS if test.name in made], told


class Run:
    """The tests, made one after the other."""

    def __init__(self, bench, tests, progress):
        self.bench, self.tests, self.progress = bench, tests, progress
        self.results = {}

    def make(self, told, show):
        """Makes the tests, and gives the outcomes of those that are told of, and of those that others needed and that failed."""
        names = {test.name for test in told}
        for number, test in enumerate(self.tests, 1):
            if test.group == "lines":
                continue
            self.progress(f"{number}/{len(self.tests)} {test.name}")
            outcome = self.one(test)
            self.results[test.name] = outcome
            if outcome.result == "failed":
                names.add(test.name)
            if test.name in names:
                show(outcome)
        self.bench.test = None
        left = self.bench.clean()
        told = [test for test in TESTS if test.name in names or self.bench.faults.get(test.name)]
        for test in told:
            if test.group == "lines":
                self.results[test.name] = self.rule(test)
                show(self.results[test.name])
        show(None)
        return [self.results[test.name] for test in told], left

    def rule(self, test):
        """A test of lines: what was found in all the others."""
        failures = self.bench.faults.get(test.name, [])
        return report.Outcome(test.name, test.group, test.shows, "failed" if failures else "ok", "", failures, 0)

    def one(self, test):
        """Makes one test."""
        needed = [name for name in test.needs if name in self.results and self.results[name].result not in ("ok", "advice")]
        result, why, failures = "ok", "", []
        began = time.monotonic()
        self.bench.test = test
        if test.group == "exports" and self.bench.facts.get("exports") is False:
            result, why = "skipped", "it doesn't support exports"
        elif needed:
            result, why = "skipped", f"it needs {needed[0]}"
        else:
            try:
                test.function(self.bench)
            except Skips as skips:
                result, why = "skipped", str(skips)
            except Fails as fails:
                result = "advice" if fails.rank == ADVICE else "failed"
                self.bench.facts.setdefault("failed", set()).add(test.name)
                failures = [Failure(fails.rank, excerpts.shown(self.bench, fails.said), fails.asks, fails.annex, excerpts.of_test(self.bench))]
            except Exception as why:  # What was stored is removed all the same.
                traceback.print_exc()
                result, why = "skipped", f"annex-remote-try failed: {why!r}"
        self.bench.finish()
        return report.Outcome(test.name, test.group, test.shows, result, why, failures, time.monotonic() - began)


def program_path(name):
    """The program as it is started, or None."""
    found = shutil.which(name)
    return os.path.abspath(found) if found else None


def progress_line():
    """What shows how far it is, on a terminal."""
    if not sys.stderr.isatty():
        return lambda text: None
    return lambda text: print(f"\r\x1b[K{text}", end="", file=sys.stderr, flush=True)


def print_list(names):
    for test in chosen(names)[1]:
        print(f"{test.name:20} {test.group:13} {test.shows}")


def main(arguments):
    """Runs the command, and gives its status."""
    sys.stdout.reconfigure(errors="replace")
    given, names = words(arguments)
    if given.list:
        print_list(names)
        return 0
    program = program_path(given.program)
    if program is None:
        print(f"annex-remote-try: there is no program {given.program}", file=sys.stderr)
        return 2
    signal.signal(signal.SIGINT, signal.default_int_handler)
    signal.signal(signal.SIGTERM, lambda number, frame: (_ for _ in ()).throw(KeyboardInterrupt()))
    settings = dict(text.partition("=")[::2] for text in given.settings)
    settings = {name: os.path.abspath(value) if name == given.place else value for name, value in settings.items()}
    with tempfile.TemporaryDirectory(prefix="annex-remote-try-") as folder:
        bench = Bench(program, settings, folder, given.place, given.wait, given.gitdir and os.path.abspath(given.gitdir))
        try:
            return run(given, names, bench)
        except KeyboardInterrupt:
            bench.kill_all()
            left = bench.clean()
            print("".join(f"may be left in the remote: {name}\n" for name in left), end="", file=sys.stderr)
            return 130
        finally:
            bench.kill_all()


def run(given, names, bench):
    made, told = chosen(names)
    progress = progress_line()
    began = time.monotonic()

    def say(line):
        if not given.json:
            progress("")
            print(line, flush=True)

    outcomes, left = Run(bench, made, progress).make(told, report.Lines(say).show)
    progress("")
    seconds = time.monotonic() - began
    if given.json:
        print(report.as_json(given.program, outcomes, left, seconds))
    else:
        print(report.text(outcomes, left, seconds))
    if given.html:
        from . import html
        html.write(given.html, given.program, bench, outcomes, left, seconds)
    return 2 if bench.facts.get("unstarted") else report.status_of(outcomes)
