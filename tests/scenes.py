"""Plays scenes: rows of what children say and which files there are, and of what must come.

`rows/*.txt` have them. `# TEXT` is a heading, and the scenes after it are one case. In a scene

- `says TEXT` is what the first child says, `then TEXT` what the next one does, as `saying.py` tells; without a `says`
  nothing is said;
- `bytes N`: the first child says so many bytes a write; `fill N`: so many letters stand for `$FILL`;
- `file NAME TEXT`: a file that is there; `fetch TEXT`: the content that the next request to fetch gets;
- `input TEXT`: the input of the program;
- `special WORD|WORD|.. => STATUS OUT ERR N`: the call, what comes of it, and how many children were started. `p` is the
  program of the children;
- `asked => TEXT`: what was written to the children;
- `kept NAME => TEXT`, `kept NAME => no file`: a file afterwards;
- `audited NAME => ..`: `special audit` of that file, as `special`.

`\\n`, `\\r`, `\\t` and `\\f` stand for bytes 10, 13, 9 and 255, `$KEY` for a key, and `$ROOM` for the room. STAMP is the
clock's time in names of files and in a journal, NOW the same in a note of chunks.
"""

import re
import sys
from pathlib import Path

from harness import SPECIAL, TESTS, as_bytes, expect, require

ROWS = TESTS / "rows"
KEY = "SHA256E-s0--e3b0c44298fc1c149afbf4c8996fb92427ae41e4649b934ca495991b7852b855"
ESCAPES = {"n": b"\n", "r": b"\r", "t": b"\t", "f": b"\xff", "\\": b"\\", '"': b'"'}
# The first of November 2025: a test runs later, and the times that are written in rows are earlier.
LATE = 1_761_955_200


def sections(name):
    """The rows of a file by their headings: pairs of a heading and rows."""
    found = []
    for row in (ROWS / name).read_text(encoding="utf-8").splitlines():
        if row.startswith("# "):
            found.append((row[2:], []))
        elif row:
            found[-1][1].append(row)
    return found


def bytes_of(text):
    """The bytes that the text of a row spells; `\\h` and `\\c` stay."""
    parts = re.split(r"\\(.)", text)
    data = parts[0].encode()
    for letter, rest in zip(parts[1::2], parts[2::2]):
        data += ESCAPES.get(letter, b"\\" + letter.encode()) + rest.encode()
    return data


def outcome(text):
    """The status, and the texts in quotes, of what is wanted of a call; and the number of children where it is told."""
    match = re.fullmatch(r'(\d+) "(.*)" "(.*)"(?: (\d+))?', text)
    require(match, f"a row that can't be read: {text}")
    status, out, err, count = match.groups()
    return int(status), bytes_of(out), bytes_of(err), None if count is None else int(count)


class Scene:
    """One scene in a folder of its own."""

    def __init__(self, room, number):
        self.room = room
        self.top = f"scene{number}"
        for name in ("saying", "w"):
            room.mkdir(f"{self.top}/{name}")
        self.children = 0
        self.fetches = 0
        self.input = b""
        self.fill = ""
        room.script(f"{self.top}/p", f"#!/bin/sh\nexec {sys.executable} -BESs {TESTS}/saying.py\n")

    def folder(self):
        return Path(self.room.path(self.top))

    def spelled(self, text):
        return bytes_of(text.replace("$KEY", KEY).replace("$FILL", self.fill).replace("$ROOM", str(self.folder())))

    def play(self, row):
        word, _, rest = row.partition(" ")
        getattr(self, f"row_{word}")(rest)

    def row_says(self, text):
        self.children += 1
        self.says = text
        self.room.write(f"{self.top}/saying/{self.children}.says", self.spelled(text))

    row_then = row_says

    def row_bytes(self, count):
        self.room.write(f"{self.top}/saying/1.bytes", count)

    def row_fill(self, count):
        self.fill = "x" * int(count)
        self.room.write(f"{self.top}/saying/1.says", self.spelled(self.says))

    def row_file(self, text):
        name, _, content = text.partition(" ")
        name = name.removeprefix("$ROOM/")
        self.room.write(f"{self.top}/{name}", self.spelled(content))

    def row_fetch(self, text):
        self.fetches += 1
        self.room.write(f"{self.top}/saying/{self.fetches}.fetch", self.spelled(text))

    def row_input(self, text):
        self.input = self.spelled(text)

    def call(self, words):
        """The status and the bytes of a call in the scene's folder; the children's program is found by its name."""
        path = f"{self.folder()}:/usr/bin:/bin"
        done = self.room.run(["/bin/sh", "-c", 'cd "$0" && exec "$@"', self.top, SPECIAL, *words],
                             input=self.input, env={"PATH": path})
        return done.status, as_bytes(done.out), as_bytes(done.err)

    def row_special(self, row):
        words, _, wanted = row.partition(" => ")
        words = [self.spelled(word) for word in words.split("|")] if words else []
        status, out, err, count = outcome(wanted.replace("$KEY", KEY))
        expect(self.call(words), (status, out, err), f"special {row}")
        if count is not None:
            expect(len(self.heard()), count, f"children started by special {row}")

    def heard(self):
        files = list((self.folder() / "saying").glob("*.heard"))
        return [file.read_bytes() for file in sorted(files, key=lambda file: int(file.stem))]

    def row_asked(self, row):
        wanted = self.spelled(row.removeprefix("=> ")).removeprefix(b'"').removesuffix(b'"')
        got = re.sub(rb"\d{16}(-\d+-\d+(?:-\d+)?\.)", rb"STAMP\1", b"".join(self.heard()))
        expect(got, wanted, "what was written to the children")

    def row_kept(self, row):
        name, _, wanted = row.partition(" => ")
        found = list(self.folder().glob(name.removeprefix("$ROOM/").replace("STAMP", "*")))
        if wanted == "no file":
            expect(found, [], f"files {name}")
            return
        require(found, f"there is no file {name}")
        got = timeless(found[0].read_bytes())
        expect(got, self.spelled(wanted).removeprefix(b'"').removesuffix(b'"'), f"the file {name}")

    def row_audited(self, row):
        name, _, wanted = row.partition(" => ")
        self.input = (self.folder() / name).read_bytes()
        status, out, err, _ = outcome(wanted)
        expect(self.call(["audit"]), (status, out, err), f"the audit of {name}")


def timeless(data):
    """The text of a file with STAMP and NOW for the clock's time."""
    data = re.sub(rb"(?m)^stamp \d{16}$", b"stamp STAMP", data)
    return re.sub(rb"\b(\d{10})\.\d{6}s\b", lambda m: b"NOW" if int(m[1]) >= LATE else m[0], data)


def play(room, rows):
    """Plays the scenes of a section; a row that sets something after a call begins the next one."""
    number = 0
    scene = Scene(room, number)
    called = False
    for row in rows:
        word = row.partition(" ")[0]
        if called and word not in ("asked", "kept", "audited"):
            number += 1
            scene, called = Scene(room, number), False
        called = called or word == "special"
        scene.play(row)
