"""What the children of a scene run: each says a text that is given, and logs what it hears.

The child that is started as the Nth says `saying/N.says`, as soon as it can, and
logs each byte that it hears into `saying/N.heard`. In the text

    \\h  stands for waiting until one more line was heard,
    \\c  for closing its input.

Before a line about a `RETRIEVE` it waits for the request. Where the line is a
success, it writes the next of the contents `saying/M.fetch` to the file that the
request names, where there is one.
"""

import os
import re

FOLDER = "saying"
MARKS = re.compile(rb"(\\[hc])")


class Child:
    """A child that talks over its standard streams."""

    def __init__(self):
        self.number = 1
        self.log = None
        while self.log is None:
            try:
                self.log = os.open(self.file("heard"), os.O_WRONLY | os.O_CREAT | os.O_EXCL | os.O_APPEND, 0o600)
            except FileExistsError:
                self.number += 1
        self.kept = b""
        self.lines = []

    def file(self, kind):
        return f"{FOLDER}/{self.number}.{kind}"

    def content(self, kind):
        try:
            with open(self.file(kind), "rb") as file:
                return file.read()
        except FileNotFoundError:
            return b""

    def hear(self):
        """The next line; None at the end of the input."""
        while b"\n" not in self.kept:
            piece = os.read(0, 65536)
            if not piece:
                return None
            os.write(self.log, piece)
            self.kept += piece
        line, _, self.kept = self.kept.partition(b"\n")
        return line

    def say(self, text):
        step = int(self.content("bytes") or len(text) or 1)
        for at in range(0, len(text), step):
            piece = text[at:at + step]
            while piece:
                piece = piece[os.write(1, piece):]

    def fetch(self, line):
        """Waits for a request to fetch, and does it where the line says so and there is a content for it."""
        words = self.retrieve()
        if words is None or b"SUCCESS" not in line:
            return
        number = 1
        while os.path.exists(f"{FOLDER}/{number}.fetched"):
            number += 1
        try:
            os.rename(f"{FOLDER}/{number}.fetch", f"{FOLDER}/{number}.fetched")
        except FileNotFoundError:
            return
        os.makedirs(os.path.dirname(words[3]) or b".", exist_ok=True)
        with open(f"{FOLDER}/{number}.fetched", "rb") as content, open(words[3], "wb") as file:
            file.write(content.read())

    def retrieve(self):
        """The words of the next request to fetch; None where there is none."""
        while True:
            line = self.hear()
            if line is None:
                return None
            words = re.sub(rb"^J \d+ ", b"", line).split(b" ", 3)
            if words[0] in (b"TRANSFER", b"TRANSFEREXPORT") and words[1:2] == [b"RETRIEVE"]:
                return words

    def play(self):
        for part in MARKS.split(self.content("says")):
            if part == b"\\h":
                self.hear()
            elif part == b"\\c":
                os.close(0)
            else:
                self.say_lines(part)
        os.close(1)
        try:
            while self.hear() is not None:
                pass
        except OSError:
            pass  # it closed its input

    def say_lines(self, text):
        """Says the text, and does what is to be fetched before the line that says so."""
        said = b""
        for line in text.splitlines(keepends=True):
            if line.startswith(b"TRANSFER-") and b" RETRIEVE " in line:
                self.say(said)
                said = b""
                self.fetch(line)
            said += line
        self.say(said)


if __name__ == "__main__":
    Child().play()
