"""The messages of the protocol, and what is wrong with a line that a remote said.

The tables are those of git-annex's page on the external special remote protocol
and its two appendixes. A message is written as its word and the kinds of its
parameters; the last parameter may hold spaces.
"""

import re
from typing import NamedTuple

# Replies to a request: by the word, the kinds of its parameters, and what it says.
CHECKS = {
    "CHECKPRESENT-SUCCESS": (("Key",), "present"),
    "CHECKPRESENT-FAILURE": (("Key",), "absent"),
    "CHECKPRESENT-UNKNOWN": (("Key", "ErrorMsg"), "unknown"),
}
REMOVES = {"REMOVE-SUCCESS": (("Key",), "success"), "REMOVE-FAILURE": (("Key", "ErrorMsg"), "failure")}
TRANSFERS = {
    "TRANSFER-SUCCESS": (("Way", "Key"), "success"),
    "TRANSFER-FAILURE": (("Way", "Key", "ErrorMsg"), "failure"),
}
UNSUPPORTED = "UNSUPPORTED-REQUEST"
REPLIES = {
    "EXTENSIONS": {"EXTENSIONS": (("List",), "success")},
    "INITREMOTE": {"INITREMOTE-SUCCESS": ((), "success"), "INITREMOTE-FAILURE": (("ErrorMsg",), "failure")},
    "PREPARE": {"PREPARE-SUCCESS": ((), "success"), "PREPARE-FAILURE": (("ErrorMsg",), "failure")},
    "TRANSFER": TRANSFERS,
    "CHECKPRESENT": CHECKS,
    "REMOVE": REMOVES,
    "LISTCONFIGS": {"CONFIG": (("Name", "Description"), None), "CONFIGEND": ((), "success")},
    "GETCOST": {"COST": (("Int",), "success")},
    "GETAVAILABILITY": {"AVAILABILITY": (("Availability",), "success")},
    "CLAIMURL": {"CLAIMURL-SUCCESS": ((), "success"), "CLAIMURL-FAILURE": ((), "failure")},
    "WHEREIS": {"WHEREIS-SUCCESS": (("String",), "success"), "WHEREIS-FAILURE": ((), "failure")},
    "GETINFO": {"INFOFIELD": (("String",), None), "INFOVALUE": (("Value",), None), "INFOEND": ((), "success")},
    "EXPORTSUPPORTED": {"EXPORTSUPPORTED-SUCCESS": ((), "success"), "EXPORTSUPPORTED-FAILURE": ((), "failure")},
    "TRANSFEREXPORT": TRANSFERS,
    "CHECKPRESENTEXPORT": CHECKS,
    "REMOVEEXPORT": REMOVES,
    "REMOVEEXPORTDIRECTORY": {
        "REMOVEEXPORTDIRECTORY-SUCCESS": ((), "success"), "REMOVEEXPORTDIRECTORY-FAILURE": ((), "failure"),
    },
    "RENAMEEXPORT": {"RENAMEEXPORT-SUCCESS": (("Key",), "success"), "RENAMEEXPORT-FAILURE": (("Key",), "failure")},
}
# The requests that every remote has to answer by one of its replies.
REQUIRED = ("INITREMOTE", "PREPARE", "TRANSFER", "CHECKPRESENT", "REMOVE")
# What a remote may say at any time while it handles a request.
ASIDES = {
    "PROGRESS": ("Int",), "DIRHASH": ("Name",), "DIRHASH-LOWER": ("Name",), "SETCONFIG": ("Name", "Value"),
    "GETCONFIG": ("Name",), "SETCREDS": ("Name", "User", "Password"), "GETCREDS": ("Name",), "GETUUID": (), "GETGITDIR": (),
    "GETGITREMOTENAME": (), "SETWANTED": ("Expression",), "GETWANTED": (), "SETSTATE": ("Name", "Value"),
    "GETSTATE": ("Name",), "SETURLPRESENT": ("Name", "Url"), "SETURLMISSING": ("Name", "Url"),
    "SETURIPRESENT": ("Name", "Uri"), "SETURIMISSING": ("Name", "Uri"), "GETURLS": ("Name", "Prefix"),
    "DEBUG": ("Message",), "INFO": ("Message",),
}
# What only a host says.
HOST_WORDS = ("VALUE", "CREDS", "EXPORT", *(word for word in REPLIES if word != "EXTENSIONS"))
NEEDS_EXTENSION = {"INFO": "INFO", "GETGITREMOTENAME": "GETGITREMOTENAME"}
ALL_WORDS = {**{word: kinds for replies in REPLIES.values() for word, (kinds, _) in replies.items()}, **ASIDES}
STOPS = "git-annex stops with a protocol error: it says ERROR, and the request has failed."
TAKES = "git-annex takes it all the same; another host need not."


class Fault(NamedTuple):
    """What is wrong with a line: the test that it fails, and what the page asks for, and what git-annex makes of it."""

    test: str
    said: str
    asks: str
    annex: str


class Request(NamedTuple):
    """A request of the host: its whole line, and what its replies have to name."""

    line: str
    word: str
    way: str = ""
    key: str = ""


class Said(NamedTuple):
    """What a line of the remote is: `aside`, `reply`, `part` (of a block), `error` or `strange`."""

    what: str
    word: str
    parts: list
    outcome: str
    faults: list


def request_of(line):
    """A request, with the way and the key that its replies have to name."""
    word, _, rest = line.partition(" ")
    if word in ("TRANSFER", "TRANSFEREXPORT"):
        way, key, _ = rest.split(" ", 2)
        return Request(line, word, way, key)
    if word == "RENAMEEXPORT":
        return Request(line, word, "", rest.partition(" ")[0])
    key = rest if word in ("CHECKPRESENT", "REMOVE", "CHECKPRESENTEXPORT", "REMOVEEXPORT") else ""
    return Request(line, word, "", key)


def spelled(word, kinds):
    """A message as the page writes it."""
    return " ".join([word, *("STORE|RETRIEVE" if kind == "Way" else kind for kind in kinds)])


def read_line(line, request):
    """What a line is while a request is open; `request` is None where none is."""
    word = line.partition(" ")[0].rstrip("\r")
    replies = REPLIES.get(request.word, {}) if request else {}
    if word == "ERROR":
        return Said("error", word, [line[6:]], "error", [])
    if word in replies:
        kinds, outcome = replies[word]
        parts, faults = parts_of(line, word, kinds, request)
        return Said("reply" if outcome else "part", word, parts, outcome or "", faults)
    if word == UNSUPPORTED and request:
        parts, faults = parts_of(line, word, (), request)
        return Said("reply", word, parts, "unsupported", faults + unsupported_faults(line, request))
    if word in ASIDES:
        parts, faults = parts_of(line, word, ASIDES[word], request)
        return Said("aside", word, parts, "", faults)
    return Said("strange", word, [], "odd", [strange_fault(line, word, request)])


def unsupported_faults(line, request):
    if request.word not in REQUIRED:
        return []
    return [Fault("must-support", f"`{line}` to `{request.word}`",
                  f"{request.word} is one of the requests that all remotes must support.",
                  "git-annex can't use the remote for this: the command fails.")]


def strange_fault(line, word, request):
    """What is wrong with a line whose word has no place there."""
    said = f"`{line}`" + (f" to `{request.line}`" if request else "")
    known = [other for other in ALL_WORDS if line.startswith(other) and line != other]
    if word in HOST_WORDS:
        return Fault("line-host-word", said, f"{word} is a message of git-annex to the remote; a remote never sends it.", STOPS)
    if word == "VERSION":
        return Fault("line-version", said, "VERSION is sent once, first thing at startup.", "git-annex answers ERROR and stops.")
    if word in ALL_WORDS or word == UNSUPPORTED:
        asks = f"The replies to {request.word} are {replies_to(request)}." if request else "A reply comes after its request."
        return Fault("line-reply", said, asks, STOPS)
    if known and not line[len(max(known, key=len))].isalpha():
        best = max(known, key=len)
        return Fault("line-space", said, f"A line is a word and its parameters, separated by single spaces: `{spelled(best, ALL_WORDS[best])}`.", STOPS)
    return Fault("line-word", said, "Only messages of the protocol go to standard output; anything else goes to standard error.",
                 STOPS)


def replies_to(request):
    """The replies that a request may get, for a reader."""
    texts = [f"`{spelled(word, kinds)}`" for word, (kinds, _) in REPLIES.get(request.word, {}).items()]
    if request.word not in REQUIRED:
        texts.append(f"`{UNSUPPORTED}`")
    return texts[0] if len(texts) == 1 else f"{', '.join(texts[:-1])} or {texts[-1]}"


def parts_of(line, word, kinds, request):
    """The parameters of a message, and what is wrong with them."""
    asks = f"The message is `{spelled(word, kinds)}`"
    if not kinds:
        rest = line[len(word):]
        if rest.strip() == "":
            return [], []
        return [], [Fault("line-parameter", f"`{line}`", f"{asks}, without parameters.", STOPS)]
    parts = line.split(" ", len(kinds))[1:]
    missing = kinds[len(parts):]
    if kinds == ("List",):
        return parts or [""], []
    if missing and all(kind not in ("Key", "Way", "Int", "Availability", "Name") for kind in missing):
        parts += [""] * len(missing)
        fault = Fault("line-space", f"`{line}`", f"{asks}. A parameter may be empty, but the space before it is still required.",
                      TAKES)
        return parts, [fault]
    parts += [""] * len(missing)
    faults = [fault for part, kind in zip(parts, kinds) for fault in part_faults(line, asks, part, kind, request)]
    return parts, faults[:1]


def part_faults(line, asks, part, kind, request):
    """What is wrong with one parameter."""
    if kind == "Key" and part != request.key:
        return [Fault("line-key", f"`{line}` to `{request.line}`", f"{asks}, and the key is that of the request.", STOPS)]
    if kind == "Way" and part != request.way:
        return [Fault("line-way", f"`{line}` to `{request.line}`", f"{asks}, with {request.way} to this request.", STOPS)]
    if kind == "Int" and not re.fullmatch("-?[0-9]+", part):
        decimal = line.startswith("COST ") and re.fullmatch(r"[0-9]+\.[0-9]+", part)
        return [Fault("line-number", f"`{line}`", f"{asks}; an Int is written in digits.", TAKES if decimal else STOPS)]
    if kind == "Availability" and part not in ("GLOBAL", "LOCAL"):
        return [Fault("line-parameter", f"`{line}`", "The message is `AVAILABILITY GLOBAL` or `AVAILABILITY LOCAL`.", STOPS)]
    if kind == "Name" and part == "":
        return [Fault("line-parameter", f"`{line}`", f"{asks}, and the first parameter isn't empty.", STOPS)]
    return []
