"""The report: a line a test, each failure with its part of the conversation, and the same as JSON."""

import json
import textwrap
from typing import NamedTuple

from .bench import RANKS

LEGEND = """`>` the remote, `<` the host, `!` an event, `2` the remote's standard error.
The page: https://git-annex.branchable.com/design/external_special_remote_protocol/"""


class Outcome(NamedTuple):
    """How a test went: `ok`, `failed`, `advice` or `skipped`; why, and its failures."""

    name: str
    group: str
    shows: str
    result: str
    why: str
    failures: list
    seconds: float


def cut(text, length):
    return text if len(text) <= length else f"{text[:length - 2]}.."


def line_of(outcome):
    """The line of a test."""
    if outcome.result in ("failed", "advice"):
        rank = f" ({outcome.failures[0].rank})" if outcome.result == "failed" else ""
        return f"{outcome.result:8} {outcome.name}{rank}: {cut(outcome.failures[0].said, 120)}"
    return f"ok       {outcome.name}"


class Lines:
    """The lines of the tests, as they come; tests that are skipped for one reason share a line."""

    def __init__(self, say):
        self.say = say
        self.skipped = []

    def show(self, outcome):
        if self.skipped and (outcome is None or (outcome.result, outcome.group, outcome.why) != ("skipped",
                                                                                                 *self.skipped[0][1:3])):
            names = [name for name, _, _ in self.skipped]
            told = ", ".join(names) if len(names) <= 3 else f"{names[0]} to {names[-1]} ({len(names)} tests)"
            self.say(f"skipped  {told}: {self.skipped[0][2]}")
            self.skipped = []
        if outcome and outcome.result == "skipped":
            self.skipped.append((outcome.name, outcome.group, outcome.why))
        elif outcome:
            self.say(line_of(outcome))


def details(outcome):
    """A failure for a reader: what it said, what the page asks for, what git-annex makes of it, and the conversation."""
    lines = [f"{outcome.name}: {outcome.shows}"]
    for failure in outcome.failures:
        lines += [f"  rank       {failure.rank}"]
        for head, text in (("it", cut(failure.said, 600)), ("page", failure.asks), ("git-annex", failure.annex)):
            wrapped = textwrap.wrap(text, 104, break_long_words=False, break_on_hyphens=False) or [""]
            lines += [f"  {head:10} {wrapped[0]}", *(f"             {rest}" for rest in wrapped[1:])]
        lines += [f"    {line}" for line in failure.lines] + [""]
    return "\n".join(lines)


def counts(outcomes):
    return {result: len([1 for outcome in outcomes if outcome.result == result]) for result in ("ok", "failed", "advice",
                                                                                                "skipped")}


def status_of(outcomes):
    """1 where some test failed."""
    return 1 if counts(outcomes)["failed"] else 0


def summary(outcomes, seconds):
    numbers = counts(outcomes)
    return f"{numbers['ok']} ok, {numbers['failed']} failed, {numbers['advice']} advice, {numbers['skipped']} skipped, in {seconds:.1f} s"


def by_rank(outcomes):
    """The names of the tests that failed, by rank, those that matter most first."""
    ranks = {}
    for outcome in sorted(outcomes, key=lambda outcome: RANKS.index(outcome.failures[0].rank)):
        ranks.setdefault(outcome.failures[0].rank, []).append(outcome.name)
    return ranks


def text(outcomes, left, seconds):
    """What follows the lines of the tests."""
    lines = []
    told = [outcome for outcome in outcomes if outcome.failures]
    if told:
        lines += ["", *(details(outcome) for outcome in sorted(told, key=lambda outcome: outcome.result == "advice"))]
        lines += [LEGEND, ""]
        lines += [f"{rank}: {', '.join(names)}" for rank, names in by_rank(told).items()]
    if left:
        lines += [f"may be left in the remote: {name}" for name in left]
    return "\n".join([*lines, summary(outcomes, seconds)])


def as_json(program, outcomes, left, seconds):
    """The report as JSON."""
    tests = [{"name": outcome.name, "group": outcome.group, "shows": outcome.shows, "result": outcome.result, "why": outcome.why,
              "seconds": round(outcome.seconds, 3), "failures": [failure._asdict() for failure in outcome.failures]} for outcome in outcomes]
    return json.dumps({"program": program, "status": status_of(outcomes), "seconds": round(seconds, 1),
                       "counts": counts(outcomes),
                       "left": left, "tests": tests}, indent=1, ensure_ascii=False).encode("utf-8", "replace").decode()
