"""Reads the text that `special run --journal` writes."""

from typing import NamedTuple

HEAD = "annex-journal 2"


class Entry(NamedTuple):
    """An entry: its place, the number of its thread, its word, and the parts behind that."""

    place: int
    by: int
    word: str
    parts: list

    @property
    def child(self):
        """The child's number; of a claim it is the second part, of a failed start there is none."""
        if self.word == "claim":
            return int(self.parts[1])
        return None if self.word in ("nostart", "answer", "note", "again") else int(self.parts[0])

    @property
    def line(self):
        """The line of the wire that the entry has."""
        return self.parts[-1] if self.word in LINES else None


# The number of parts before a line of the wire, which is the last part and may hold spaces.
LINES = {"lead": 2, "ask": 3, "put": 2, "got": 1}


class Journal(NamedTuple):
    """What a run began with, and its entries."""

    uuid: str
    name: str
    gitdir: str
    stamp: int
    again: int
    tasks: list
    keep: list
    entries: list

    def of(self, *words):
        """The entries with one of these words."""
        return [entry for entry in self.entries if entry.word in words]

    def written(self, child):
        """The lines that the host wrote to the child."""
        lines = [entry.line for entry in self.of("lead", "ask", "put") if entry.child == child]
        return lines[: len([entry for entry in self.of("sent") if entry.child == child])]

    def heard(self, child):
        """The lines that the child said, as far as they were fed."""
        return [entry.line for entry in self.of("got") if entry.child == child]

    def most_busy(self):
        """How many tasks were claimed and not yet answered or given up for another run, at most."""
        busy = most = 0
        for entry in self.of("claim", "answer", "again"):
            busy += 1 if entry.word == "claim" else -1
            most = max(most, busy)
        return most

    def odd_tasks(self):
        """The tasks that were not claimed once for each run and then answered, each run ended by the number that claimed it."""
        turns = {str(task): [] for task in range(1, len(self.tasks) + 1)}
        for entry in self.of("claim", "answer", "again"):
            turns[entry.parts[0]].append((entry.word, entry.by))
        return [
            task for task, turn in turns.items()
            if [word for word, _ in turn[:-2]] != ["claim", "again"] * (len(turn) // 2 - 1)
            or [word for word, _ in turn[-2:]] != ["claim", "answer"]
            or any(turn[at][1] != turn[at + 1][1] for at in range(0, len(turn), 2))
        ]

    def waits(self, first, second):
        """Whether the second task was claimed after the answer of the first."""
        answered = [entry.place for entry in self.of("answer") if entry.parts[0] == str(first)]
        claimed = [entry.place for entry in self.of("claim") if entry.parts[0] == str(second)]
        return answered[0] < claimed[0]

    def slots_before_claims(self):
        """The slots of the starts before the first claim."""
        first = self.of("claim")[0].place
        return [int(entry.parts[1]) for entry in self.of("start") if entry.place < first]


def entry_of(place, text):
    by, word, *rest = text.split(" ", 2)
    rest = rest[0] if rest else ""
    parts = rest.split(" ", LINES[word]) if word in LINES else rest.split(" ")
    return Entry(place, int(by), word, parts)


def read(text):
    """The journal of a text that is whole; a ValueError where it isn't."""
    if text is None or not text.endswith("\n"):
        raise ValueError("no journal, or one that was cut")
    lines = text[:-1].split("\n")
    if lines.pop(0) != HEAD:
        raise ValueError("the first line is another one")
    head = []
    for word in ("uuid", "name", "gitdir", "stamp", "again"):
        got, _, value = lines.pop(0).partition(" ")
        if got != word:
            raise ValueError(f"no line {word}")
        head.append(value)
    tasks, keep = [], []
    while lines[0] != "begin":
        word, _, value = lines.pop(0).partition(" ")
        {"task": tasks, "keep": keep}[word].append(value)
    entries = [entry_of(place, line) for place, line in enumerate(lines[1:-1])]
    if lines[-1] != f"end {len(entries)}":
        raise ValueError("the last line is another one")
    return Journal(*head[:3], int(head[3]), int(head[4]), tasks, keep, entries)
