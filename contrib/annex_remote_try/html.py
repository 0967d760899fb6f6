"""The report as a page: what failed, and all that was said, in the view of special-view."""

import html
import os

from special_view import page
from special_view.model import Model
from special_view.reader import Run

from .excerpts import hide
from .report import summary

GROUPS = ("conversation", "contents", "faults", "tagged", "exports", "special", "lines", "at its end")
STYLE = """
<style>
#report { margin-bottom: 18px; }
#report details { border: 1px solid var(--line); border-radius: 4px; margin: 6px 0; padding: 4px 10px; }
#report summary { cursor: pointer; }
#report dl { display: grid; grid-template-columns: 90px 1fr; gap: 2px 10px; margin: 6px 0; }
#report dt { color: var(--soft); }
#report dd { margin: 0; overflow-wrap: anywhere; }
#report pre { margin: 6px 0; padding: 6px 8px; background: var(--lane); white-space: pre-wrap; overflow-wrap: anywhere; font: 12.5px/1.5 ui-monospace, "DejaVu Sans Mono", monospace; }
</style>
"""


def failure_text(failure):
    rows = (("rank", failure.rank), ("it", failure.said), ("page", failure.asks), ("git-annex", failure.annex))
    listed = "".join(f"<dt>{name}</dt><dd>{html.escape(text)}</dd>" for name, text in rows)
    return f"<dl>{listed}</dl><pre>{html.escape(chr(10).join(failure.lines))}</pre>"


def report_text(program, outcomes, left, seconds):
    """The failures, above the lanes."""
    parts = [STYLE, '<section id="report">', f"<h1>annex-remote-try {html.escape(program)}</h1>",
             f"<p>{html.escape(summary(outcomes, seconds))}</p>"]
    for outcome in sorted((outcome for outcome in outcomes if outcome.failures), key=lambda outcome: outcome.result == "advice"):
        kind = "bad" if outcome.result == "failed" else "odd"
        opened = " open" if outcome.result == "failed" else ""
        parts.append(f'<details{opened}><summary><b class="{kind}">{outcome.result}</b> <b>{outcome.name}</b>: {html.escape(outcome.shows)}</summary>')
        parts += [failure_text(failure) for failure in outcome.failures] + ["</details>"]
    parts += [f"<p>May be left in the remote: {html.escape(name)}</p>" for name in left]
    return "".join([*parts, "</section>"])


class Lines:
    """The tester's record as the entries of a journal: each session is a child, each test a task."""

    def __init__(self, bench, names):
        self.bench = bench
        self.numbers = {name: number for number, name in enumerate(names, 1)}
        self.groups = {}
        self.entries, self.turns, self.open = [], [], {}

    def add(self, by, text):
        self.entries.append(f"{by} {text}".replace("\n", " "))
        return len(self.entries) - 1

    def take(self, number, session, mark, text, test):
        """One record: a line either way, what happened, or that a request is settled."""
        task, by = self.numbers.get(test, 0), self.groups.get(test, len(GROUPS))
        text = hide(text, self.bench.secrets)
        if task and (not self.turns or self.turns[-1][0] != task or self.turns[-1][4] != session):
            self.turns.append([task, len(self.entries), len(self.entries) + 1, by, session, ""])
        if mark == "!" and text == "started":
            self.add(by, f"start {session} 0 plain")
        elif mark == "!" and text.startswith(("ended", "killed", "closed its output")):
            if session in self.open:
                self.add(by, f"end {session} {'closed' if text == 'ended with status 0' else text}")
                self.open.pop(session)
        elif mark == "<" and number in self.bench.asked:
            self.add(by, f"ask {session} {number} {task} {text}")
        elif mark == "=":
            asked, outcome = text.split(" ")
            verdict = {"success": "done", "present": "done", "failure": "failed"}.get(outcome, outcome)
            self.add(by, f"verdict {session} {asked} {verdict} 0")
        elif mark in "<>":
            self.add(by, f"put {session} 0 {text}" if mark == "<" else f"got {session} {text}")
        else:
            self.add(by, f"got {session} ({text})")
        if mark == "!" and text == "started":
            self.open[session] = True
        if task:
            self.turns[-1][2] = len(self.entries)


def write(path, program, bench, outcomes, left, seconds):
    """Writes the page."""
    names = [outcome.name for outcome in outcomes]
    lines = Lines(bench, names)
    lines.groups = {outcome.name: GROUPS.index(outcome.group) + 1 for outcome in outcomes}
    for number, (session, mark, text, test) in enumerate(bench.entries):
        lines.take(number, session, mark, text, test)
    model = Model(Run({}, [f"{outcome.name}: {outcome.shows}" for outcome in outcomes], 0, 0, lines.entries, "", True))
    model.turns = [[*turn[:5], outcomes[turn[0] - 1].result] for turn in lines.turns]
    for number, outcome in enumerate(outcomes, 1):
        said = outcome.failures[0].said if outcome.failures else outcome.why
        model.answers[number] = (None, f"{outcome.result}: {said}" if said else outcome.result)
    counts = {}
    for outcome in outcomes:
        counts[outcome.result] = counts.get(outcome.result, 0) + 1
    data = {"name": os.path.basename(program), "title": "What was said",
            "facts": [f"{len(outcomes)} tests", f"{len(bench.sessions)} starts of the program",
            f"{len(bench.entries):,} lines and events"], "legal": None, "wrong": None, "audit": "", "counts": counts,
            "unreadable": None,
            "childWord": "start", "taskWord": "tests", "workers": ["", *GROUPS], **model.as_data()}
    with open(path, "wb") as out:
        out.write(page.of_data(f"annex-remote-try {program}", data, report_text(program, outcomes, left, seconds)))
