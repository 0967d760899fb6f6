#!/usr/bin/env -S python3 -BESs
"""A remote over a folder that is right in all, but for the one fault that $REMOTE_FAULT names.

Each fault is asked for by `has(NAME)` where it is done. Without a name the remote has none.
"""

import contextlib
import fcntl
import hashlib
import os
import re
import signal
import sys
import threading
import time

FAULT = os.environ.get("REMOTE_FAULT", "")
LOG = os.open(os.environ["REMOTE_LOG"], os.O_WRONLY | os.O_CREAT | os.O_APPEND, 0o600) if "REMOTE_LOG" in os.environ else None
HERE = threading.local()
WRITING = threading.Lock()
VALUES, WAITING = {}, []
STATE = {"directory": None, "offered": "", "tagged": False, "seen": set(), "memory": {}, "name": "", "said": 0, "running": 0}


def has(name):
    return FAULT == name


def say(line, more=None):
    """Says a line, and perhaps another at once."""
    with WRITING:
        tag = getattr(HERE, "tag", "") if STATE["tagged"] else ""
        if has("untagged line") and line.startswith("CHECKPRESENT-FAILURE"):
            tag = ""
        lines = "".join(f"{tag}{said}\n" for said in (line, more) if said is not None)
        os.write(1, lines.encode("utf-8", "surrogateescape"))


def hear():
    """The next line of the host."""
    if has("half lines"):
        data = os.read(0, 65536)
        if not data:
            raise EOFError
        return data.decode("utf-8", "surrogateescape").rstrip("\n")
    line = sys.stdin.buffer.readline()
    if not line:
        raise EOFError
    if LOG:
        os.write(LOG, line)
    return line.decode("utf-8", "surrogateescape").rstrip("\n")


def ask(line):
    if not STATE["tagged"]:
        say(line)
        return hear().partition(" ")[2]
    come = threading.Event()
    WAITING.append((HERE.tag, come))
    say(line)
    come.wait()
    return VALUES.pop(HERE.tag)


# The folder.

def path_of(key):
    """The file of a key, whose name is a digest, so that any key has one."""
    if has("percent as git-annex's file"):
        key = key.replace("%", "&s")
    if has("ampersand as git-annex's file"):
        key = key.replace("&", "&a") if "&a" not in key else key
    if has("colon as git-annex's file"):
        key = key.replace(":", "&c")
    if has("equals left out"):
        key = key.replace("=", "")
    if has("only ASCII"):
        key = "".join(letter for letter in key if letter < "\x80")
    if has("long keys cut"):
        key = key[:200]
    return os.path.join(STATE["directory"], "k" + hashlib.sha256(key.encode("utf-8", "surrogateescape")).hexdigest())


@contextlib.contextmanager
def locked():
    """One process at a time."""
    with open(STATE["directory"] + ".lock", "w") as lock:
        fcntl.flock(lock, fcntl.LOCK_EX)
        yield


def write_all(path, content, pause=0):
    with open(path, "wb", 0) as out:
        for at in range(0, len(content), 1 << 18):
            out.write(content[at:at + (1 << 18)])
            time.sleep(pause)


def put(path, content):
    """Writes a file and gives it its name at once."""
    if has("writes in place"):
        with locked():
            try:
                write_all(path, content, 0.003)
            except OSError:
                os.unlink(path)
                raise
        return
    part = f"{path}.{os.getpid()}.{threading.get_ident()}.part"
    try:
        write_all(part, content)
    except OSError:
        if not has("write errors ignored"):
            os.unlink(part)
            raise
    os.rename(part, path)


def read(path):
    with open(path, "rb") as file:
        return file.read()


def store(key, file):
    content = read(file)
    if has("last byte lost") and len(content) > 65536 and len(content) % 65536 == 1:
        content = content[:-1]
    if has("memory only"):
        STATE["memory"][key] = content
        return
    if has("second store refused") and os.path.exists(path_of(key)):
        raise OSError("already there")
    if has("content kept after removal"):
        STATE["memory"][key] = content
    put(path_of(os.path.basename(file) if has("named by the file") else key), content)
    if has("moves the file"):
        os.unlink(file)
    if has("remembers what it stored"):
        STATE["seen"].add(key)


def retrieve(key, file):
    path = path_of(os.path.basename(file) if has("named by the file") else key)
    if key in STATE["memory"]:
        content = STATE["memory"][key]
    elif has("gets nothing with success") and not os.path.exists(path):
        content = b""
    elif has("takes the content away in a get"):
        with locked():
            os.rename(path, path + ".taken")
            time.sleep(0.01)
            content = read(path + ".taken")
            time.sleep(0.02)
            os.rename(path + ".taken", path)
    elif has("writes in place"):
        with locked():
            content = read(path)
    else:
        content = read(path)
    if has("no file for no bytes") and not content:
        return
    mode = "ab" if has("appends to a part") else "wb"
    with open(file, mode) as out:
        out.write(content)


def is_there(key):
    if key in STATE["memory"] and not has("content kept after removal"):
        return True
    if has("always present") or has("remembers what it stored") and key in STATE["seen"]:
        return True
    return os.path.exists(path_of(key)) and not has("always absent")


def remove(key):
    if not os.access(STATE["directory"], os.X_OK) and not has("removal without its folder"):
        raise OSError("the folder is gone")
    if not os.path.exists(path_of(key)):
        if has("removal of nothing fails"):
            raise OSError("it is not here")
        STATE["memory"].pop(key, None)
        return
    STATE["seen"].discard(key)
    if not has("removal does nothing"):
        os.unlink(path_of(key))


# The requests.

def transfer(way, key, file):
    if has("progress in words") and way == "STORE":
        say("PROGRESS 10%")
    if has("noise on standard output") and way == "STORE":
        say("copying 1 file")
    if has("INFO that was not offered") and way == "STORE":
        say("INFO storing")
    if has("file up to a space"):
        file = re.split(" ", file)[0]
    if has("quotes left out"):
        file = file.replace('"', "").replace("'", "")
    success = f"TRANSFER-SUCCESS {'RETRIEVE' if has('way mixed up') else way} {key}"
    is_early = has("success before the content is stored") and way == "STORE" and os.path.getsize(file) > 1 << 20
    if is_early:
        say(success)
        time.sleep(0.2)
    try:
        store(key, file) if way == "STORE" else retrieve(key, file)
    except OSError as why:
        message = f"TRANSFER-FAILURE {way} {key}"
        say(message if has("failure without a message") else f"{message} {why.strerror or why}")
        return
    if not is_early:
        say(success)


def check(key):
    if has("asks in a check") or has("answers in their order"):
        ask(f"DIRHASH {key}")
    if has("VALUE unasked"):
        say("VALUE ")
    if has("VERSION again") and not STATE["said"]:
        STATE["said"] = 1
        say("VERSION 1")
    if not os.path.isdir(STATE["directory"]) and not has("absent without its folder"):
        say(f"CHECKPRESENT-UNKNOWN {key} the folder is gone")
    elif os.path.isdir(STATE["directory"]) and not os.access(STATE["directory"], os.X_OK) and not has("absent in an unreadable folder"):
        say(f"CHECKPRESENT-UNKNOWN {key} the folder can't be read")
    else:
        after = "DEBUG checked" if has("DEBUG after the answer") else None
        if is_there(key):
            say(f"CHECKPRESENT-SUCCESS {'WORM--other' if has('another key') else key}", after)
        else:
            say(f"CHECKPRESENT-FAILURE {key}", after)


def removal(key):
    if has("REMOVE unsupported"):
        say("UNSUPPORTED-REQUEST")
    elif has("a reply to another request"):
        say(f"CHECKPRESENT-FAILURE {key}")
    else:
        try:
            remove(key)
        except OSError as why:
            say(f"REMOVE-FAILURE {key} {why}")
            return
        say("REMOVE-SUCCESS" if has("no key") else f"REMOVE-SUCCESS {key}")
    if has("answers twice"):
        say(f"REMOVE-SUCCESS {key}")


def get_ready(word):
    folder = ask("GETCONFIG directory")
    if not folder:
        if has("ends without a setting"):
            sys.exit(1)
        say(f"{word}-FAILURE directory is missing")
        return
    STATE["directory"] = folder
    if word == "PREPARE":
        say("PREPARE-SUCCESS" if os.path.isdir(folder) else "PREPARE-FAILURE there is no folder")
        return
    if has("INITREMOTE fails") or has("INITREMOTE only once") and os.path.exists(folder + "/once"):
        say("INITREMOTE-FAILURE it is there already")
        return
    os.makedirs(folder, exist_ok=True)
    open(folder + "/once", "w").close()
    say("INITREMOTE-SUCCESS now" if has("a parameter too many") else "INITREMOTE-SUCCESS")


def extensions(offered):
    STATE["offered"] = offered.split()
    if has("ends at ASYNC") and "ASYNC" in STATE["offered"]:
        sys.exit(1)
    if has("ASYNC to an empty list") and not offered:
        say("EXTENSIONS ASYNC")
        return
    takes = "ASYNC" in STATE["offered"] and FAULT in ASYNC_FAULTS
    say("EXTENSIONS ASYNC" if takes else "EXTENSIONS ")
    STATE["tagged"] = takes


def about(word):
    """The optional requests without parameters."""
    if word == "LISTCONFIGS":
        say("CONFIG directory where the contents are")
        if not has("no CONFIGEND"):
            say("CONFIGEND")
    elif word == "EXPORTSUPPORTED":
        if has("ends at EXPORTSUPPORTED"):
            sys.exit(1)
        say("EXPORTSUPPORTED-SUCCESS" if FAULT.startswith("export") else "EXPORTSUPPORTED-FAILURE")
    elif word == "GETCOST":
        say("COST cheap" if has("cost in words") else "COST 100")
    elif word == "GETAVAILABILITY":
        say("AVAILABILITY local" if has("local in small letters") else "AVAILABILITY LOCAL")
    elif word == "GETINFO":
        lines = ["INFOFIELD folder", f"INFOVALUE {STATE['directory']}"]
        for line in reversed(lines) if has("INFOVALUE first") else lines:
            say(line)
        say("INFOEND")


# Exports: a file under its name.

def export(word, rest):
    name = STATE["name"].split(" ")[0] if has("export: name up to a space") else STATE["name"]
    path = os.path.join(STATE["directory"], "exports", name)
    key = rest.split(" ")[1 if word == "TRANSFEREXPORT" else 0]
    if word == "TRANSFEREXPORT":
        way, _, file = rest.split(" ", 2)
        transfer_export(way, key, file, path)
    elif word == "CHECKPRESENTEXPORT":
        say(f"CHECKPRESENT-{'SUCCESS' if os.path.isfile(path) else 'FAILURE'} {key}")
    elif word == "REMOVEEXPORT":
        if os.path.isfile(path) and not has("export: removal does nothing"):
            os.unlink(path)
        say(f"REMOVE-SUCCESS {key}")
    elif word == "RENAMEEXPORT":
        new = os.path.join(STATE["directory"], "exports", rest.split(" ", 1)[1])
        os.makedirs(os.path.dirname(new), exist_ok=True)
        with open(new, "wb") as out:
            out.write(read(path))
        if not has("export: rename keeps the old name"):
            os.unlink(path)
        say(f"RENAMEEXPORT-SUCCESS {key}")


def transfer_export(way, key, file, path):
    try:
        if way == "STORE":
            os.makedirs(os.path.dirname(path), exist_ok=True)
            put(path, read(file))
        elif os.path.exists(path) or not has("export: gets nothing with success"):
            content = read(path)
            with open(file, "wb") as out:
                out.write(content)
        say(f"TRANSFER-SUCCESS {way} {key}")
    except OSError as why:
        say(f"TRANSFER-FAILURE {way} {key} {why.strerror}")


def remove_directory(folder):
    path = os.path.join(STATE["directory"], "exports", folder)
    if has("export: no folder is a failure") and not os.path.isdir(path):
        say("REMOVEEXPORTDIRECTORY-FAILURE")
        return
    with contextlib.suppress(OSError):
        os.rmdir(path)
    say("REMOVEEXPORTDIRECTORY-SUCCESS")


def serve(line):
    """One request."""
    word, _, rest = line.partition(" ")
    if word in ("INITREMOTE", "PREPARE"):
        get_ready(word)
    elif word in ("LISTCONFIGS", "EXPORTSUPPORTED", "GETCOST", "GETAVAILABILITY", "GETINFO"):
        about(word)
    elif word == "TRANSFER":
        transfer(*rest.split(" ", 2))
    elif word == "CHECKPRESENT":
        check(rest)
    elif word == "REMOVE":
        removal(rest)
    elif word == "EXPORT":
        STATE["name"] = rest
    elif word in ("TRANSFEREXPORT", "CHECKPRESENTEXPORT", "REMOVEEXPORT", "RENAMEEXPORT"):
        export(word, rest)
    elif word == "REMOVEEXPORTDIRECTORY":
        remove_directory(rest)
    else:
        if has("ends at an unknown request"):
            sys.exit(1)
        say("UNSUPPORTED-REQUEST")


# Jobs.

ASYNC_FAULTS = ("tagged", "untagged line", "asks in a check", "answers in their order", "each number once", "small numbers", "four jobs")


def take_tagged(line):
    """A line with a tag: an answer to a question, or a request for a thread of its own."""
    number, _, text = line[2:].partition(" ")
    tag = f"J {number} "
    if text.startswith("VALUE"):
        at = 0 if has("answers in their order") else [one for one, _ in WAITING].index(tag)
        waiting, come = WAITING.pop(at)
        if waiting != tag:
            os._exit(1)
        VALUES[tag] = text.partition(" ")[2]
        come.set()
        return
    if has("each number once") and number in STATE["seen"] or has("small numbers") and int(number) > 64:
        os._exit(1)
    STATE["seen"].add(number)
    threading.Thread(target=work, args=(tag, text), daemon=True).start()


def work(tag, text):
    HERE.tag = tag
    STATE["running"] += 1
    if has("four jobs"):
        time.sleep(0.2)
        if STATE["running"] > 4:
            os._exit(1)
    serve(text)
    STATE["running"] -= 1


def main():
    if has("SIGTERM ignored"):
        signal.signal(signal.SIGTERM, signal.SIG_IGN)
    if has("SIGINT ignored"):
        signal.signal(signal.SIGINT, signal.SIG_IGN)
    say("Welcome" if has("a greeting first") else "VERSION 3" if has("VERSION 3") else "VERSION 2")
    is_first = True
    while True:
        line = hear()
        if line.startswith("EXTENSIONS"):
            extensions(line[11:])
        elif line.startswith("ERROR"):
            if has("hangs after ERROR"):
                time.sleep(60)
            return
        elif STATE["tagged"] and line.startswith("J "):
            take_tagged(line)
        else:
            if has("needs EXTENSIONS") and is_first and line == "PREPARE":
                return
            serve(line)
        is_first = False


if __name__ == "__main__":
    try:
        main()
    except EOFError:
        if has("runs on without input"):
            time.sleep(60)
    except KeyboardInterrupt:
        pass
