"""`annex-remote-dir` as a host talks to it: one process, one request after the other."""

import os

from harness import ANNEX_REMOTE_DIR, Differs, as_bytes, as_text, start


# What shows that an empty folder is a remote's, and not a mount point without its disk.
SIGN = ".annex-remote-dir"


def signed(directory):
    """The folder, with the small file that INITREMOTE leaves in it."""
    with open(os.path.join(directory, SIGN), "a", encoding="utf-8"):
        return directory


class Kit:
    """A remote that keeps contents in a folder, and is ready."""

    def __init__(self, directory, env=None):
        self.directory = signed(directory)
        self.process = start([ANNEX_REMOTE_DIR], env=env, stderr=None)
        self.hear("VERSION 1")
        self.say("EXTENSIONS INFO")
        self.hear_start("EXTENSIONS")
        self.say("PREPARE")
        self.hear("PREPARE-SUCCESS")

    def say(self, line):
        self.process.stdin.write(as_bytes(line) + b"\n")
        self.process.stdin.flush()

    def hear_line(self):
        """The next line that is no aside; the setting is told."""
        while True:
            line = as_text(self.process.stdout.readline()).removesuffix("\n")
            if line == "GETCONFIG directory":
                self.say(f"VALUE {self.directory}")
            elif not line.startswith(("PROGRESS ", "DEBUG ", "INFO ")):
                return line

    def hear(self, wanted):
        line = self.hear_line()
        if line != wanted:
            raise Differs(f"what a remote says\nwanted: {wanted}\ngot:    {line}")

    def hear_start(self, wanted):
        line = self.hear_line()
        if not line.startswith(wanted):
            raise Differs(f"what a remote says\nwanted: {wanted}..\ngot:    {line}")

    def begin_store(self, key, file):
        self.say(f"TRANSFER STORE {key} {file}")

    def end_store(self, key):
        self.hear(f"TRANSFER-SUCCESS STORE {key}")

    def store(self, key, file):
        self.begin_store(key, file)
        self.end_store(key)

    def retrieve(self, key, file):
        self.say(f"TRANSFER RETRIEVE {key} {file}")
        self.hear(f"TRANSFER-SUCCESS RETRIEVE {key}")

    def check(self, key):
        self.say(f"CHECKPRESENT {key}")
        self.hear(f"CHECKPRESENT-SUCCESS {key}")

    def remove(self, key):
        self.say(f"REMOVE {key}")
        self.hear(f"REMOVE-SUCCESS {key}")

    def close(self):
        """Ends its input, and expects that it ends well."""
        self.process.stdin.close()
        rest = self.process.stdout.read()
        status = self.process.wait()
        if (status, rest) != (0, b""):
            raise Differs(f"the end of a remote\nwanted: {(0, b'')}\ngot:    {(status, rest)}")


def contents(directory):
    """The files of contents below the folder, by their names: what is being put together isn't among them."""
    found = {}
    for path, folders, names in os.walk(directory):
        if path == directory and "tmp" in folders:
            folders.remove("tmp")
        for name in names if path != directory else []:
            found[name] = os.path.join(path, name)
    return found


def unfinished(directory):
    """The files of the folder that are being put together, or were left there."""
    try:
        return sorted(os.listdir(os.path.join(directory, "tmp")))
    except FileNotFoundError:
        return []
