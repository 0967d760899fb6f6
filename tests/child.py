"""What a scripted remote is written with.

`say` and `hear` are one line of the wire each, `greet` is the usual beginning, and
`serve` answers requests by a table. A child ends before the time of its case is
over, so that the case can tell what came.
"""

import os
import signal
import sys
import time

# The requests before which a name is said.
EXPORTS = ("TRANSFEREXPORT", "CHECKPRESENTEXPORT", "REMOVEEXPORT", "RENAMEEXPORT")

signal.alarm(int(float(os.environ.get("CASE_LIMIT", "30")) * 0.7))
log = None


def log_as(name):
    """Logs what is heard as `< LINE` and what is said as `> LINE`, in the first NAME.N.log that isn't there; gives N."""
    global log
    number = 0
    while log is None:
        number += 1
        try:
            log = os.open(f"{name}.{number}.log", os.O_WRONLY | os.O_CREAT | os.O_EXCL | os.O_APPEND, 0o600)
        except FileExistsError:
            pass
    return number


def note(mark, data):
    if log is not None:
        os.write(log, mark + data + b"\n")


def say(*lines):
    """Says the lines in one write."""
    data = [line.encode("utf-8", "surrogateescape") if isinstance(line, str) else line for line in lines]
    for line in data:
        note(b"> ", line)
    rest = b"".join(line + b"\n" for line in data)
    while rest:
        rest = rest[os.write(1, rest):]


def say_in_pieces(size, *lines):
    """Says the lines in writes of so many bytes."""
    for line in lines:
        note(b"> ", line.encode())
    data = "".join(line + "\n" for line in lines).encode()
    for at in range(0, len(data), size):
        os.write(1, data[at:at + size])


def say_cut(text):
    """Says a text without the end of its line."""
    os.write(1, text.encode("utf-8", "surrogateescape"))


def hear(wanted=None):
    """The next line. Ends where there is none, or where it is another than is wanted."""
    line = sys.stdin.buffer.readline()
    if not line.endswith(b"\n"):
        sys.exit(0)
    note(b"< ", line[:-1])
    line = line[:-1].decode("utf-8", "surrogateescape")
    if wanted is not None and line != wanted:
        print(f"child: wanted {wanted!r}, got {line!r}", file=sys.stderr)
        sys.exit(1)
    return line


def ask(line):
    """Says a line, and gives the value of the answer."""
    say(line)
    return hear().partition(" ")[2]


def greet(extensions="", ready="PREPARE-SUCCESS"):
    """Gets ready. With the extension ASYNC the lines after it have tags; with None the extensions are unknown."""
    say("VERSION 1")
    require_start(hear(), "EXTENSIONS")
    say("UNSUPPORTED-REQUEST" if extensions is None else f"EXTENSIONS {extensions}".strip())
    tag, line = untagged(hear())
    require_start(line, "PREPARE")
    say(tag + ready)


def require_start(line, word):
    if not line.startswith(word):
        print(f"child: wanted {word}, got {line!r}", file=sys.stderr)
        sys.exit(1)


def untagged(line):
    """The tag `J N ` of a line, or nothing, and the rest."""
    if line.startswith("J "):
        number, _, rest = line[2:].partition(" ")
        return f"J {number} ", rest
    return "", line


def requests():
    """Each request to the end of the input: its tag, and its words."""
    while True:
        tag, line = untagged(hear())
        yield tag, line.split(" ")


def serve(answers):
    """Answers each request by its text; ends at one that has no answer there."""
    for tag, words in requests():
        answer = answers.get(" ".join(words))
        if answer is None:
            sys.exit(0)
        say(tag + answer)


def hear_all(*messages):
    """Hears each of the messages, in any order, and gives their tags in the order of the messages."""
    tags = [None] * len(messages)
    while None in tags:
        tag, line = untagged(hear())
        left = [at for at, message in enumerate(messages) if tags[at] is None and message == line]
        if not left:
            print(f"child: {line!r} came, which is none of {messages!r}", file=sys.stderr)
            sys.exit(1)
        tags[left[0]] = tag
    return tags


def hear_export():
    """The next request about a name: its tag, the name and the request. Ends where the name and the request are parted."""
    tag, lead = untagged(hear())
    require_start(lead, "EXPORT ")
    own, request = untagged(hear())
    if own != tag or request.partition(" ")[0] not in EXPORTS:
        print(f"child: {own}{request} came after {tag}{lead}", file=sys.stderr)
        sys.exit(1)
    return tag, lead.partition(" ")[2], request


def hear_exports(*names):
    """Hears a request about each of the names, in any order, and gives by the name its tag and its words."""
    found = {}
    while len(found) < len(names):
        tag, name, request = hear_export()
        if name not in names or name in found:
            print(f"child: a request about {name!r} came, which is none of {names!r}", file=sys.stderr)
            sys.exit(1)
        found[name] = tag, request.split(" ", 3)
    return found


def serve_exports(answers):
    """Answers each request about a name by its text: a table by `NAME: REQUEST`; ends at one that has no answer there."""
    while True:
        tag, name, request = hear_export()
        answer = answers.get(f"{name}: {request}")
        if answer is None:
            sys.exit(0)
        say(tag + answer)


def meet(folder, count):
    """Waits until as many as `count` have come to the folder."""
    os.makedirs(folder, exist_ok=True)
    number = 0
    while True:
        number += 1
        try:
            os.close(os.open(os.path.join(folder, str(number)), os.O_CREAT | os.O_EXCL))
            break
        except FileExistsError:
            pass
    wait_for(os.path.join(folder, str(count)))


def wait_for(path):
    """Waits until the file is there."""
    while not os.path.exists(path):
        time.sleep(0.002)
