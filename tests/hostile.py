"""A remote that does right and wrong by a seed: what `test_hostile.py` starts.

Each start takes the next number, and logs its process, the lines that it heard and those that it said whole. What it
does is a row of weights (a mood), so that some runs are nearly well and others end at once.
"""

import os
import random
import sys
import time

from child import say_cut, untagged

ASIDES = ["PROGRESS 5", "PROGRESS 18446744073709551615", "DEBUG some text", "INFO ", "DIRHASH WORM--a",
          "DIRHASH-LOWER WORM-s3--b", "GETCONFIG name", "SETCONFIG name a value", "GETCREDS c", "SETCREDS c user word",
          "GETUUID", "GETGITDIR", "GETGITREMOTENAME", "GETWANTED", "SETWANTED include=*", "GETSTATE WORM--a",
          "SETSTATE WORM--a some state", "SETURLPRESENT WORM--a http://a/", "SETURLMISSING WORM--a http://a/",
          "GETURLS WORM--a http"]
WRONG = ["", " ", "VERSION 1", "VERSION 2", "CHECKPRESENT-SUCCESS WORM--other", "TRANSFER-SUCCESS STORE WORM--a",
         "TRANSFER-SUCCESS RETRIEVE WORM-s3--b", "REMOVE-SUCCESS WORM--a", "VALUE x", "EXTENSIONS ASYNC",
         "PREPARE-SUCCESS", "PROGRESS -1", "PROGRESS 18446744073709551616", "J 1 PROGRESS 1", "J 0 DEBUG x", "J 5",
         "J 5 ", "J 99999 PROGRESS 1", "J 2 J 3 DEBUG x", "UNSUPPORTED-REQUEST", "CONFIGEND", "INFOEND", "INFOFIELD x",
         "\udcff\udcfe", "GETSTATE not-a-key", "SETSTATE", "ERROR", "CHECKPRESENT-UNKNOWN WORM--a",
         "RENAMEEXPORT-SUCCESS WORM--a", "EXPORT x"]


class Remote:
    """One start of the remote."""

    def __init__(self, seed, name, wants_tags):
        self.number, self.log = first_free(name)
        self.random = random.Random(f"{seed}.{self.number}")
        self.wants_tags = wants_tags
        self.mood = self.random.choice([0.0, 0.01, 0.05, 0.2, 0.6])
        self.held = b""
        self.late = []
        os.write(self.log, b"pid %d\n" % os.getpid())

    def say(self, line):
        """Says a line, now and then in pieces."""
        data = line.encode("utf-8", "surrogateescape")
        os.write(self.log, b"> " + data + b"\n")
        data += b"\n"
        while data:
            count = len(data) if self.random.random() < 0.9 else self.random.randint(1, len(data))
            os.write(1, data[:count])
            data = data[count:]
            if data and self.random.random() < 0.3:
                time.sleep(0.001)

    def hear(self):
        """The next line; it ends where there is none."""
        while b"\n" not in self.held:
            piece = os.read(0, 4096)
            if not piece:
                sys.exit(0)
            self.held += piece
        line, _, self.held = self.held.partition(b"\n")
        os.write(self.log, b"< " + line + b"\n")
        return line.decode("utf-8", "surrogateescape")

    def is_moved(self, share=1.0):
        return self.random.random() < self.mood * share

    def misbehave(self, tag):
        """One wrong thing."""
        kind = self.random.randrange(9)
        if kind == 0:
            self.say(tag + self.random.choice(WRONG))
        elif kind == 1:
            self.say(self.random.choice(WRONG))
        elif kind == 2:
            self.say(f"{tag}ERROR it went wrong")
        elif kind == 3:
            say_cut("CHECKPRESENT-SUC")
            sys.exit(0)
        elif kind == 4:
            sys.exit(self.random.randrange(3))
        elif kind == 5:
            os.close(0)
            for _ in range(3):
                self.say(tag + "DEBUG I hear nothing more")
            time.sleep(0.02)
            sys.exit(1)
        elif kind == 6:
            self.say("x" * self.random.choice([65535, 65536, 65537, 200000]))
        elif kind == 7:
            os.kill(os.getpid(), 9)
        else:
            for _ in range(self.random.choice([10, 3000])):
                self.say(tag + "PROGRESS 1")

    def asides(self, tag):
        """Some messages of a request that is at work."""
        while self.random.random() < 0.3:
            line = self.random.choice(ASIDES)
            self.say(tag + line)
            if line.startswith(("GET", "DIR")) and not self.wants_tags:
                self.take_values(line)

    def take_values(self, line):
        """Hears what the question is answered by."""
        while True:
            word, _, rest = untagged(self.hear())[1].partition(" ")
            if word not in ("VALUE", "CREDS") or not line.startswith("GETURLS") or not rest:
                return

    def answer(self, tag, text):
        """The answer to a request, right or wrong."""
        word, *rest = text.split(" ")
        if self.is_moved():
            self.misbehave(tag)
        self.asides(tag)
        self.say(tag + self.final(word, rest))
        if self.is_moved(0.5):
            self.misbehave(tag)

    def final(self, word, rest):
        """A line that may end the request."""
        fails = self.random.random() < 0.2
        if word == "EXTENSIONS":
            return self.random.choice(["EXTENSIONS INFO ASYNC", "EXTENSIONS ASYNC"]) if self.wants_tags else "EXTENSIONS"
        if word in ("PREPARE", "INITREMOTE"):
            return f"{word}-FAILURE not today" if fails and self.random.random() < 0.2 else f"{word}-SUCCESS"
        if word in ("TRANSFER", "TRANSFEREXPORT"):
            if rest[0] == "RETRIEVE" and not fails:
                put(" ".join(rest[2:]), b"abc")
            return f"TRANSFER-FAILURE {rest[0]} {rest[1]} no" if fails else f"TRANSFER-SUCCESS {rest[0]} {rest[1]}"
        if word in ("CHECKPRESENT", "CHECKPRESENTEXPORT"):
            ending = self.random.choice([f"FAILURE {rest[0]}", f"UNKNOWN {rest[0]} who knows"])
            return f"CHECKPRESENT-{ending}" if fails else f"CHECKPRESENT-SUCCESS {rest[0]}"
        if word in ("REMOVE", "REMOVEEXPORT"):
            return f"REMOVE-FAILURE {rest[0]} no" if fails else f"REMOVE-SUCCESS {rest[0]}"
        if word == "RENAMEEXPORT":
            return f"RENAMEEXPORT-FAILURE {rest[0]}" if fails else f"RENAMEEXPORT-SUCCESS {rest[0]}"
        finals = {"LISTCONFIGS": "CONFIGEND", "GETCOST": "COST 100", "GETAVAILABILITY": "AVAILABILITY LOCAL",
                  "GETINFO": "INFOEND", "EXPORTSUPPORTED": "EXPORTSUPPORTED-SUCCESS", "WHEREIS": "WHEREIS-FAILURE"}
        return "UNSUPPORTED-REQUEST" if fails else finals.get(word, "UNSUPPORTED-REQUEST")

    def live(self):
        """From the first line to the end."""
        if self.is_moved(0.3):
            self.misbehave("")
        self.say("VERSION 1")
        while True:
            tag, text = untagged(self.hear())
            if text.split(" ")[0] not in ("VALUE", "CREDS", "EXPORT"):
                self.late.append((tag, text))
            # Not put off until a line that never comes: a value may be the last that the host had to say.
            if self.late and not (self.wants_tags and self.random.random() < 0.3 and self.is_waiting()):
                self.random.shuffle(self.late)
                while self.late:
                    self.answer(*self.late.pop())

    def is_waiting(self):
        """Whether more requests may come before these are answered: a line is held already."""
        return b"\n" in self.held


def first_free(name):
    number = 0
    while True:
        number += 1
        try:
            return number, os.open(f"{name}.{number}.log", os.O_WRONLY | os.O_CREAT | os.O_EXCL | os.O_APPEND, 0o600)
        except FileExistsError:
            pass


def put(path, content):
    try:
        with open(path, "wb") as file:
            file.write(content)
    except OSError:
        pass


def live(seed, name, wants_tags):
    """Plays the remote of that seed, whose starts log into NAME.N.log."""
    try:
        Remote(seed, name, wants_tags).live()
    except BrokenPipeError:
        sys.exit(1)
