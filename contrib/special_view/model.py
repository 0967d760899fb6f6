"""What a page shows of a run: children, jobs, turns of tasks and their answers."""

import re

from .reader import parts_of

TAG = re.compile("J [0-9]+ ")
# How many parts of a line stand before its text.
TEXT_AFTER = {"TRANSFER-FAILURE": 3, "REMOVE-FAILURE": 2, "CHECKPRESENT-UNKNOWN": 2, "PREPARE-FAILURE": 1, "ERROR": 1}


class Model:
    """The run as lists, by the places of its entries."""

    def __init__(self, run):
        self.run = run
        self.children = {}
        self.jobs = []
        self.turns = []
        self.answers = {}
        self.notes = []
        self.nostarts = []
        self.unreadable = None
        self.open = {}
        self.claimed = {}
        for place, line in enumerate(run.entries):
            self.take(place, line)

    def take(self, place, line):
        """Takes an entry; what can't be read is kept as a line alone."""
        by, word, parts = parts_of(line)
        if not word:
            if self.unreadable is None:
                self.unreadable = place
            return
        getattr(self, f"take_{word}", self.take_other)(place, by, parts)

    def take_other(self, place, by, parts):
        """An entry that only its own line shows: sent, put, got and lead belong to the job by their lines."""

    def take_start(self, place, by, parts):
        self.children[int(parts[0])] = {"start": place, "slot": parts[1], "tags": False, "end": None, "why": "", "mute": None}

    def take_nostart(self, place, by, parts):
        self.nostarts.append([place, parts[0]])

    def take_mute(self, place, by, parts):
        if child := self.children.get(int(parts[0])):
            child["mute"] = place

    def take_end(self, place, by, parts):
        if child := self.children.get(int(parts[0])):
            child["end"], child["why"] = place, parts[1]

    def take_claim(self, place, by, parts):
        self.claimed[parts[0]] = len(self.turns)
        self.turns.append([int(parts[0]), place, None, by, int(parts[1]), ""])

    def take_answer(self, place, by, parts, is_again=False):
        task = parts[0]
        at = self.claimed.pop(task, None)
        if at is None:
            at = len(self.turns)
            self.turns.append([int(task), place, None, by, 0, ""])
        self.turns[at][2], self.turns[at][5] = place, self.worded(parts[1])
        if not is_again:
            self.answers[int(task)] = (place, self.worded(parts[1]))

    def take_again(self, place, by, parts):
        self.take_answer(place, by, parts, is_again=True)

    def take_note(self, place, by, parts):
        self.notes.append([place, int(parts[0]), parts[1], parts[2]])

    def take_ask(self, place, by, parts):
        self.open[parts[0], parts[1]] = len(self.jobs)
        if parts[3].startswith("J ") and int(parts[0]) in self.children:
            self.children[int(parts[0])]["tags"] = True
        self.jobs.append([int(parts[0]), int(parts[1]), int(parts[2]) if parts[2].isdigit() else 0, place, None, by, ""])

    def take_verdict(self, place, by, parts):
        at = self.open.pop((parts[0], parts[1]), None)
        if at is not None:
            self.jobs[at][4], self.jobs[at][6] = place, parts[2].split(" ")[0]

    def worded(self, answer):
        """An answer as it was printed: the text of its line in place of the line's number."""
        words = answer.split(" ")
        if not words[-1].isdigit() or words[0] not in ("failed", "unknown", "notprepared",
                                                       "ended") or int(words[-1]) >= len(self.run.entries):
            return answer
        _, word, parts = parts_of(self.run.entries[int(words[-1])])
        if word != "got":
            return answer
        line = TAG.sub("", parts[-1])
        if words[:2] == ["ended", "foul"]:
            return f"foul {parts[-1]}"
        said = line.split(" ", TEXT_AFTER.get(line.split(" ")[0], 0))
        text = said[-1] if len(said) > TEXT_AFTER.get(said[0], 0) > 0 else line if words[0] == "ended" else ""
        return " ".join([*words[:-1], text]).rstrip(" ")

    def counts(self):
        """How many tasks have each answer."""
        counts = {}
        for _, answer in self.answers.values():
            word = answer.split(" ")[0]
            counts[word] = counts.get(word, 0) + 1
        if missing := len(self.run.tasks) - len(self.answers):
            counts["unanswered"] = missing
        return counts

    def tasks(self):
        """Each task: its text, its answer, and whether that is a good one."""
        return [[text, self.answers.get(number, (None, ""))[1], self.answers.get(number, (None, ""))[0]]
                for number, text in enumerate(self.run.tasks, 1)]

    def as_data(self):
        """What the page's script works on."""
        children = [[number, child["start"], child["end"], child["slot"], child["tags"], child["why"], child["mute"]]
                    for number, child in sorted(self.children.items())]
        return {"head": self.run.head, "tasks": self.tasks(), "children": children, "jobs": self.jobs, "turns": self.turns,
                "notes": self.notes,
                "nostarts": self.nostarts, "lines": self.run.entries, "first": self.run.first, "end": self.run.end,
                "keep": self.run.keep}
