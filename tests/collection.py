"""A repository of sixty files of all kinds of names and backends, and remotes of several kinds that git-annex fills."""

import gzip
import os
import shutil

from annexed import ANNEX_SPECIAL, Annex
from harness import as_text, require, run, skip
from test_real_remotes import ANNEXREMOTE, EXAMPLES, RCLONE

BACKENDS = ("SHA256E", "SHA256", "SHA1E", "MD5", "SHA512E", "SHA3_256E", "BLAKE2B256E", "BLAKE2S160", "SKEIN256E", "WORM")
# No digest of these is known here.
UNVERIFIED = ("SKEIN256E", "WORM", "URL")
NAMES = [
    "plain", "with space", " leading", "trailing ", "-dash", "--all", "quote'd", 'double"d', "dollar$HOME", "back\\slash",
    "star*", "semi;colon", "colon:s", "per%cent", "amper&and", "hash#", "tab\there", "line\nend", "café", "日本",
    as_text(b"caf\xe9"), as_text(b"\xff\xfe"), "x" * 200, "a.tar.gz", "ends.", ".hidden", "UPPER.TXT", "e\u0301", "[x]", "~",
]
URL_KEY = "URL-s7--https://example.org/a%20b?c=d&e"


def sixty_files():
    """The files by their names: each name twice, the second time in a folder, of sizes from none to a few chunks."""
    files = {}
    for number, name in enumerate(NAMES * 2):
        folder = "" if number < len(NAMES) else f"in folder/{number % 7}/"
        size = (0, 1, 5, 1000, 3000)[number % 5]
        files[folder + name] = (f"{number} ".encode() * size)[:size + 8] if size else b""
    return files


class Sixty(Annex):
    """The repository. `files` are its contents by name, `keys` the keys."""

    def __init__(self, room):
        super().__init__(room)
        self.files = sixty_files()
        for name, content in self.files.items():
            self.room.write(f"repository/{name}", content)
        names = list(self.files)
        for number, backend in enumerate(BACKENDS):
            chosen = [f"./{name}" for name in names[number::10]]
            self.well("git", "-c", "annex.dotfiles=true", "annex", "add", "-q", f"--backend={backend}", "--", *chosen)
        content = self.room.write("url-content", b"content")
        self.well("git", "annex", "setkey", "-q", URL_KEY, content)
        self.well("git", "annex", "fromkey", "-q", "--force", URL_KEY, "from url")
        self.files["from url"] = b"content"
        # git-annex itself makes a new key of an unlocked file with a line end in its name.
        self.unlocked = [name for name in names[5::7] if "\n" not in name]
        self.well("git", "annex", "unlock", "-q", "--", *(f"./{name}" for name in self.unlocked))
        self.room.write("repository/git's own", "no key\n")
        os.symlink("git's own", f"{self.top}/link")
        self.well("git", "-c", "annex.largefiles=nothing", "add", "git's own", "link")
        self.well("git", "commit", "-qm", "sixty")
        lines = self.well("git", "annex", "find", "--include=*", r"--format=${key}\000${file}\000").split("\0")[:-1]
        self.keys = dict(zip(lines[1::2], lines[0::2]))
        lacking = sorted(self.files.keys() ^ self.keys.keys())
        require(not lacking, f"not in the annex: {lacking}")

    def count(self):
        """How many keys there are: some files have the same."""
        return len(set(self.keys.values()))

    def unverified(self, lacking=()):
        keys = {key for name, key in self.keys.items() if name not in lacking}
        return len({key for key in keys if key.split("-")[0] in UNVERIFIED})

    def fill(self, remote):
        """Copies all to the remote, and gives the files that git-annex itself doesn't find there afterwards."""
        self.run("git", "annex", "copy", "-q", "--to", remote)
        self.run("git", "annex", "fsck", "-q", "--fast", "--from", remote)
        return sorted(self.well("git", "annex", "find", "--not", f"--in={remote}", r"--format=${file}\000").split("\0")[:-1])

    def clone(self, name="clone"):
        """A plain clone, without git-annex."""
        self.well("git", "clone", "-q", self.top, self.room.path(name))
        return self.room.path(name)

    def without(self, folder, *words, env=None):
        """Runs annex-special where there is no git-annex."""
        return run([ANNEX_SPECIAL, *words], env={**self.env, **(env or {}), "PATH": path_without(self)}, cwd=folder)

    def differing(self, folder, names=None):
        """The files whose content isn't the right one there."""
        return [name for name in names or self.files if read(f"{folder}/{name}") != self.files[name]]


def read(path):
    try:
        with open(os.fsencode(path), "rb") as file:
            return file.read()
    except OSError as why:
        return why


def path_without(annex):
    """A PATH with all programs but git-annex itself."""
    made = annex.room.path("without")
    if not os.path.isdir(made):
        os.mkdir(made)
        for folder in reversed(annex.env["PATH"].split(":")):
            for name in os.listdir(folder) if os.path.isdir(folder) else ():
                if name not in ("git-annex", "git-annex-shell"):
                    link = f"{made}/{name}"
                    if os.path.lexists(link):
                        os.unlink(link)
                    os.symlink(f"{folder}/{name}", link)
    return made


# Remotes: each makes one of the name `kept`, and gives the environment that it needs, and the words for annex-special.


def milgroez(annex, *settings, name="kept"):
    words = ["type=external", "externaltype=milgroez", f"directory={annex.room.mkdir(folder_of(name))}"]
    annex.well("git", "annex", "initremote", "-q", "--fast", name, *words, *with_encryption(settings))
    return []


def directory(annex, *settings, name="kept"):
    folder = annex.room.mkdir(folder_of(name))
    words = ["type=directory", f"directory={folder}", *with_encryption(settings)]
    annex.well("git", "annex", "initremote", "-q", "--fast", name, *words)
    return ["--set", f"directory={folder}"]


def folder_of(name):
    """The folder in the room of the remote of this name."""
    return "contents" if name == "kept" else f"contents-{name}"


def with_encryption(settings):
    return settings if any(setting.startswith("encryption=") for setting in settings) else ["encryption=none", *settings]


def example(annex):
    """git-annex's own example. Its copies remove one folder of theirs, so only one may run at a time."""
    for name in EXAMPLES:
        if os.path.exists(name):
            with (gzip.open if name.endswith(".gz") else open)(name, "rb") as file:
                annex.room.script("bin/git-annex-remote-example", file.read())
            annex.env.update(MYLOGIN="somebody", MYPASSWORD="something")
            words = ["type=external", "externaltype=example", f"directory={annex.room.mkdir('contents')}", "encryption=none"]
            annex.well("git", "annex", "initremote", "-q", "kept", *words)
            return ["-J1"]
    skip("git-annex's documentation isn't installed")


def annexremote(annex):
    if not os.path.exists("/usr/bin/python3") or run(["/usr/bin/python3", "-c", "import annexremote"]).status != 0:
        skip("python3-annexremote isn't installed")
    told = "class Folder(SpecialRemote):\n    def listconfigs(self):\n        return {'directory': 'a folder'}\n"
    annex.room.script("bin/git-annex-remote-annexremote", ANNEXREMOTE.replace("class Folder(SpecialRemote):\n", told))
    words = ["type=external", "externaltype=annexremote", f"directory={annex.room.mkdir('contents')}", "encryption=none"]
    annex.well("git", "annex", "initremote", "-q", "kept", *words)
    return []


def rclone(annex):
    """rclone over a folder of this computer, in the remote's default layout."""
    client = shutil.which("rclone")
    if shutil.which("git-annex-remote-rclone") is None or client is None:
        skip("git-annex-remote-rclone and rclone aren't both installed")
    annex.room.script("bin/rclone", RCLONE.replace("RCLONE", client))
    annex.env["RCLONE_CONFIG"] = annex.room.write("rclone.conf", "[here]\ntype = local\n")
    words = ["type=external", "externaltype=rclone", "target=here", f"prefix={annex.room.mkdir('contents')}"]
    annex.well("git", "annex", "initremote", "-q", "kept", *words, "encryption=none")
    return []
