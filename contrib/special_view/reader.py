"""Reads the text of a run, also one that was cut off or is wrong somewhere."""

from typing import NamedTuple

HEADS = ("annex-journal 1", "annex-journal 2")
# The number of parts before a line of the wire, which is the last part and may hold spaces.
LINES = {"lead": 2, "ask": 3, "put": 2, "got": 1}
PARTS = {"claim": 2, "start": 3, "nostart": 1, "sent": 1, "mute": 1, "end": 2, "verdict": 3, "lost": 2, "answer": 2, "note": 3,
         "again": 2}


class NoJournal(Exception):
    """The text isn't that of a run; a sentence says why."""


class Run(NamedTuple):
    """What was read: the head, the tasks, how many lines stand before the first entry, the entries' lines, and how it ends."""

    head: dict
    tasks: list
    keep: int
    first: int
    entries: list
    end: str
    is_whole: bool


def read(data):
    """The run of a text, as bytes."""
    text = data.decode("utf-8", "surrogateescape")
    lines = text.split("\n")
    is_cut_in_line = lines[-1] != ""
    lines.pop()
    if not lines or lines[0] not in HEADS:
        raise NoJournal("the first line isn't that of a journal, `annex-journal 2`")
    if "begin" not in lines:
        raise NoJournal("there is no line `begin`: it was cut off before the first entry")
    begin = lines.index("begin")
    head, tasks, keep = {"format": lines[0]}, [], 0
    for line in lines[1:begin]:
        word, _, rest = line.partition(" ")
        if word == "task":
            tasks.append(rest)
        elif word == "keep":
            keep += 1
        else:
            head[word] = rest
    entries = lines[begin + 1:]
    is_whole = bool(entries) and entries[-1].startswith("end ")
    if is_whole:
        is_whole = entries.pop() == f"end {len(entries)}" and not is_cut_in_line
        return Run(head, tasks, keep, begin + 2, entries, "" if is_whole else "its last line counts other entries than there are",
                   is_whole)
    return Run(head, tasks, keep, begin + 2, entries,
               f"it is cut off after entry {len(entries) - 1:,}" if entries else "it is cut off before the first entry", False)


def parts_of(line):
    """The thread, the word and the parts of an entry; the word is empty where it is none."""
    by, _, rest = line.partition(" ")
    word, _, rest = rest.partition(" ")
    if not by.isdigit() or word not in LINES and word not in PARTS:
        return 0, "", []
    parts = rest.split(" ", LINES[word] if word in LINES else PARTS[word] - 1)
    numbers = parts[:LINES.get(word, 1)]
    if len(parts) <= LINES.get(word, 0) or not all(number.isdigit() for number in numbers):
        return int(by), "", []
    return int(by), word, parts
