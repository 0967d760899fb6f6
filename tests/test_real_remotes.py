"""Remotes that other people wrote: git-annex's own example, python3-annexremote's, and rclone's.

`special` speaks the plain words of version 1. Each remote is run over `annex-remote-plain` with 50 keys, and without
it with a few.
"""

import gzip
import hashlib
import os
import shutil

from harness import TOP, UUID, expect, limits, run, skip, table

PLAIN = os.path.abspath(os.environ.get("ANNEX_REMOTE_PLAIN") or str(TOP / "crates/remote_plain_bin/out/remote_plain_bin"))
EXAMPLES = [
    "/usr/share/doc/git-annex/html/special_remotes/external/example.sh.gz",
    "/usr/share/doc/git-annex/html/special_remotes/external/example.sh",
]
MANY, FEW = 50, 8
WORDS = {"store": "stored", "check": "present", "get": "got", "drop": "dropped"}


class Keys:
    """Files of the room with their keys. Each file is named by its key, as git-annex's objects are."""

    def __init__(self, room, count):
        self.room = room
        self.contents = {}
        for number in range(count):
            content = f"content {number}\n" * (number * 40 + 1)
            key = f"SHA256E-s{len(content)}--{hashlib.sha256(content.encode()).hexdigest()}.txt"
            self.contents[key] = content
            room.write(f"in/{key}", content)
        room.mkdir("out")

    def tasks(self, word):
        file = {"store": " in/{}", "get": " out/{}"}.get(word, "")
        return "".join(f"{word} {key}{file.format(key)}\n" for key in self.contents)

    def expect_got(self):
        expect([self.room.text(f"out/{key}") for key in self.contents], list(self.contents.values()), "what was got")


    def all(self, answer):
        """What a run prints that answers so for each key."""
        return "".join(f"{number} {answer}\n" for number in range(1, len(self.contents) + 1))


class Remote:
    """A remote that somebody else wrote, with its settings and its environment."""

    def __init__(self, room, program, settings, env=None, jobs=4):
        self.room, self.program, self.env, self.jobs = room, program, env or {}, jobs
        self.keep = "annex-keep 1\n" + "".join(f"config {name} {value}\n" for name, value in settings.items())

    def plain(self):
        """The same remote over the plain program."""
        if not os.access(PLAIN, os.X_OK):
            skip("annex-remote-plain wasn't built")
        self.env = {**self.env, "ANNEX_REMOTE_PROGRAM": self.program}
        self.program = PLAIN
        return self

    def do(self, keys, word):
        """What a run prints that does this with all keys. What the remote writes to standard error is passed over."""
        self.room.write("keep", self.keep)
        words = ["--keep", "keep", "--jobs", str(self.jobs)]
        return self.room.run_command(self.program, keys.tasks(word), *words, env=self.env).out

    def expect_all_done(self, count):
        """Each key is stored, checked, got and dropped, and then absent."""
        keys = Keys(self.room, count)
        for word, answer in WORDS.items():
            expect(self.do(keys, word), keys.all(answer), word)
        keys.expect_got()
        expect(self.do(keys, "check"), keys.all("absent"), "a check after the drops")


# git-annex's own example remote.


def example(room):
    """The example as git-annex ships it. Its copies remove one folder of theirs, so only one may run at a time."""
    for name in EXAMPLES:
        if os.path.exists(name):
            open_file = gzip.open if name.endswith(".gz") else open
            with open_file(name, "rb") as file:
                program = room.script("example.sh", file.read())
            return Remote(room, program, {"directory": room.mkdir("directory")}, jobs=1)
    skip("git-annex's documentation isn't installed")


@limits(400)
def case_git_annex_s_example_works_over_the_plain_program(room):
    example(room).plain().expect_all_done(MANY)


@limits(200)
def case_git_annex_s_example_alone_says_version_2(room):
    # It is started three times at most.
    keys = Keys(room, 5)
    lines = [f"{number} ended version\n" for number in (1, 2, 3)] + ["4 nochild\n", "5 nochild\n"]
    expect(example(room).do(keys, "check"), "".join(lines))


# A remote over python3-annexremote.

ANNEXREMOTE = """#!/usr/bin/python3
import os
import shutil

from annexremote import Master, RemoteError, SpecialRemote


class Folder(SpecialRemote):
    def initremote(self):
        self.prepare()

    def prepare(self):
        self.directory = self.annex.getconfig("directory")
        if not os.path.isdir(self.directory):
            raise RemoteError("directory is not there")

    def place(self, key):
        return os.path.join(self.directory, self.annex.dirhash(key).replace("/", "-") + key)

    def transfer_store(self, key, filename):
        shutil.copyfile(filename, self.place(key) + ".new")
        self.annex.progress(os.path.getsize(filename))
        os.replace(self.place(key) + ".new", self.place(key))

    def transfer_retrieve(self, key, filename):
        shutil.copyfile(self.place(key), filename)

    def checkpresent(self, key):
        return os.path.exists(self.place(key))

    def remove(self, key):
        if os.path.exists(self.place(key)):
            os.remove(self.place(key))


master = Master()
master.LinkRemote(Folder(master))
master.Listen()
"""


@limits(400)
@table([("alone", False), ("over the plain program", True)])
def an_annexremote_remote_works(room, plain):
    if not os.path.exists("/usr/bin/python3") or run(["/usr/bin/python3", "-c", "import annexremote"]).status != 0:
        skip("python3-annexremote isn't installed")
    remote = Remote(room, room.script("annexremote-folder", ANNEXREMOTE), {"directory": room.mkdir("directory")})
    if plain:
        remote.plain().expect_all_done(MANY)
    else:
        remote.expect_all_done(FEW)


# rclone's remote, over a folder of this computer.

# rclone 1.60 says `Total objects: 1 (1)` where version 0.6 of the remote wants `Total objects: 1`: with git-annex too
# it can't tell what is present. So the brackets are taken away.
RCLONE = """
if [ "$1" = size ]; then exec RCLONE "$@" | sed 's/^\\(Total objects: [0-9]*\\) (.*/\\1/'; fi
exec RCLONE "$@"
"""


def rclone(room, **settings):
    program, client = shutil.which("git-annex-remote-rclone"), shutil.which("rclone")
    if program is None or client is None:
        skip("git-annex-remote-rclone and rclone aren't both installed")
    room.script("bin/rclone", RCLONE.replace("RCLONE", client))
    config = room.write("rclone.conf", "[here]\ntype = local\n")
    env = {"RCLONE_CONFIG": config, "PATH": f"{room.path('bin')}:{os.environ['PATH']}"}
    return Remote(room, program, {"target": "here", "prefix": room.mkdir("prefix"), **settings}, env)


@limits(400)
def case_rclone_in_its_default_layout_works_over_the_plain_program(room):
    rclone(room).plain().expect_all_done(MANY)


@limits(400)
def case_rclone_in_its_default_layout_does_not_find_alone_what_it_stored(room):
    # It puts the key right after the hash directories, and counts on the slash that git-annex gives at their end.
    keys, remote = Keys(room, FEW), rclone(room)
    expect(remote.do(keys, "store"), keys.all("stored"), "a store")
    expect(remote.do(keys, "check"), keys.all("absent"), "a check")


@limits(400)
def case_rclone_without_hash_directories_works_alone(room):
    rclone(room, rclone_layout="nodir").expect_all_done(FEW)
