"""What a terminal sees while a command works."""

import os
import re
import sys
import time

from .text import clock, human

# After so many seconds in which nothing moved the wait is told.
STILL = 3
PAUSE = 0.2
ANSWERED = re.compile(rb"^\d+ answer ", re.MULTILINE)
MOVED = re.compile(rb"^\d+ got (\d+ (?:J \d+ )?)PROGRESS (\d+)$", re.MULTILINE)


class Watch:
    """One line on a terminal: keys, bytes, rate and the time that is left, within a file too.

    What is on its way is seen by the growth of the files in the work folder, and by the run's journal where `special`
    writes that as it goes.
    """

    def __init__(self, command, items, silent):
        self.command, self.total = command, len(items)
        self.bytes_total = sum(item.size or 0 for item in items)
        self.is_shown = not silent and sys.stderr is not None and sys.stderr.isatty()
        self.began = self.last_moved = self.last_drawn = time.monotonic()
        self.done = self.failed = self.bytes_done = self.moving = 0
        self.phase, self.notes, self.is_drawn = "", None, False

    def begin(self, notes):
        """A run of `special` begins."""
        self.notes, self.place, self.answered, self.sent = notes, 0, 0, {}
        self.moving, self.last_moved = 0, time.monotonic()
        self.files_before = self.size_of_files() if self.is_shown else 0

    def size_of_files(self):
        """The bytes that are in the work folder."""
        total = 0
        for folder, _, names in os.walk(self.notes.work):
            for name in names:
                try:
                    total += os.lstat(os.path.join(folder, name)).st_size
                except OSError:
                    continue
        return total

    def read_journal(self):
        """What was added to the journal since the last look."""
        try:
            with open(self.notes.journal, "rb") as file:
                file.seek(self.place)
                added = file.read()
        except OSError:
            return
        added = added[:added.rfind(b"\n") + 1]
        self.place += len(added)
        self.answered += len(ANSWERED.findall(added))
        self.sent.update((match[1], int(match[2])) for match in MOVED.finditer(added))

    def look(self):
        """Looks at the run that is going on."""
        before = self.moving, self.place
        self.read_journal()
        self.moving = max(self.size_of_files() - self.files_before, sum(self.sent.values()), 0)
        if (self.moving, self.place) != before:
            self.last_moved = time.monotonic()
        self.draw()

    def moved(self, count):
        """So many bytes more have moved, which this process copied itself."""
        self.moving += count
        self.last_moved = time.monotonic()
        if self.is_shown and self.last_moved - self.last_drawn > PAUSE:
            self.draw()

    def counted(self, item, is_failed):
        """A key is done."""
        self.done += 1
        self.failed += is_failed
        self.bytes_done += item.size or 0
        self.moving, self.last_moved = 0, time.monotonic()

    def line(self):
        now = time.monotonic()
        seconds = max(now - self.began, 0.001)
        parts = [f"{self.done} of {self.total} done", f"{self.failed} failed"]
        done, total = self.done, self.total
        if self.command != "check" and self.bytes_total:
            done, total = min(self.bytes_done + self.moving, self.bytes_total), self.bytes_total
            parts += [human(done), f"{human(done / seconds)}/s"]
        if self.phase:
            parts.insert(0, self.phase)
        elif done:
            parts.append(f"{clock((total - done) * seconds / done)} left")
        if now - self.last_moved >= STILL:
            parts.append(f"waiting for the remote for {now - self.last_moved:.0f} s")
        return f"{self.command}: {', '.join(parts)}"

    def draw(self):
        if not self.is_shown:
            return
        self.last_drawn = time.monotonic()
        try:
            width = os.get_terminal_size(sys.stderr.fileno()).columns
        except OSError:
            width = 0
        line, self.is_drawn = self.line(), True
        self.write(f"\r\033[K{line[:width - 1] if width > 1 else line}")

    def clear(self):
        """Takes the line away, before another is printed."""
        if self.is_drawn:
            self.write("\r\033[K")
            self.is_drawn = False

    def write(self, text):
        try:
            print(text, end="", file=sys.stderr, flush=True)
        except OSError:
            self.is_shown = False
