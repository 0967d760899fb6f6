"""The blocks of shell in README and the manual: each is run as it stands, and does what the text around it says.

A block is known by its first line. What it needs (a repository, files, tasks) is made before, and what it leaves is looked at after.
A new block needs a function here, under `@shows(FIRST LINE)`; one that begins with `annex-special` runs over a remote that has all.
"""

import os
import re
import shutil

from annexed import ANNEX_SPECIAL, Annex, need
from harness import ANNEX_REMOTE_DIR, SPECIAL, TOP, UUID, expect, limits, require, run, table

BUILT = "crates/remote_{0}_bin/out/remote_{0}_bin"
PROGRAMS = {
    "SPECIAL": SPECIAL,
    "ANNEX_REMOTE_DIR": ANNEX_REMOTE_DIR,
    **{f"ANNEX_REMOTE_{name}": os.path.abspath(os.environ.get(f"ANNEX_REMOTE_{name}") or TOP / BUILT.format(name.lower()))
       for name in ("PLAIN", "MIRROR")},
}
IN_PATH = {
    "special": PROGRAMS["SPECIAL"],
    "annex-special": ANNEX_SPECIAL,
    "annex-remote-dir": PROGRAMS["ANNEX_REMOTE_DIR"],
    "annex-remote-plain": PROGRAMS["ANNEX_REMOTE_PLAIN"],
    "annex-remote-mirror": PROGRAMS["ANNEX_REMOTE_MIRROR"],
    "special-view": str(TOP / "contrib/special-view"),
    "git-annex-remote-milgroez": PROGRAMS["ANNEX_REMOTE_DIR"],
    "git-annex-remote-mirror": PROGRAMS["ANNEX_REMOTE_MIRROR"],
    "git-annex-remote-exporting": str(TOP / "examples/export-remote.sh"),
}
EXEMPT = {
    "make try": "it compiles two programs, for two minutes",
    "./test": "it proves and builds everything, and then runs these tests",
}
HELLO = "store WORM-s6--hello hello\nget WORM-s6--hello hello.again\n"
SHOWS = {}


def shows(first):
    """Registers what shows that the block with this first line works."""

    def mark(function):
        SHOWS[first] = function
        return function

    return mark


def blocks():
    """Each block: its first line, and its text."""
    for file in ("README.md", "docs/MANUAL.md"):
        for text in re.findall(r"^```sh\n(.*?)^```$", (TOP / file).read_text(), re.M | re.S):
            yield text.split("\n", 1)[0], text


def block(first):
    return dict(blocks())[first]


class Stage:
    """A folder to run blocks in, with a home, and with all programs in PATH."""

    def __init__(self, room):
        self.room = room
        self.folder = room.mkdir("here")
        self.env = {"HOME": room.mkdir("home"), "PATH": f"{room.mkdir('bin')}:{os.environ['PATH']}", "U": UUID}
        self.fill()

    def fill(self):
        for name, program in IN_PATH.items():
            if not self.room.has(f"bin/{name}"):
                os.symlink(program, self.room.path(f"bin/{name}"))

    def write(self, name, content):
        return self.room.write(os.path.join(self.folder, name), content)

    def text(self, name):
        return self.room.text(os.path.join(self.folder, name))

    def run(self, text, **more):
        """Runs the lines; variables and another folder may be given."""
        return run(["sh", "-c", text], env={**self.env, **more.get("env", {})}, cwd=more.get("folder", self.folder))

    def well(self, text, **more):
        """What lines print that have to end with 0."""
        done = self.run(text, **more)
        require(done.status == 0, f"status {done.status} of\n{text}\n{done.out}{done.err}")
        return done.out

    def keep(self, folder="contents"):
        """Makes a remote over the folder of the home, with its kept file `kept`."""
        self.room.mkdir(f"home/{folder}")
        self.well(f'special init annex-remote-dir "$U" kept directory="$HOME/{folder}"')


class Repository(Stage):
    """The same in a repository of git-annex with two files, and perhaps with README's remote, which has them."""

    def __init__(self, room, remote=True):
        self.annex = Annex(room)
        self.room, self.folder, self.env = room, self.annex.top, self.annex.env
        self.fill()
        self.annex.add({"one.txt": "content of one", "two/b c.txt": "content of two"})
        self.env = {**self.env, "U": UUID}
        if remote:
            self.well(block('mkdir -p "$HOME/annex-contents"'))
            self.env["U"] = self.well("git config remote.folder.annex-uuid").strip()

    def keep(self, folder="annex-contents"):
        self.write("kept", f"annex-keep 1\nconfig directory {self.room.path('home')}/{folder}\n")


@shows("make install PREFIX=$HOME/.local")
def installs(room, text):
    need("make")
    out = Stage(room).well(f"{text}\ncommand -v special\ncommand -v annex-special\nspecial --version", folder=TOP, env=PROGRAMS)
    bin = room.path("home/.local/bin")
    require(out.endswith(f"{bin}/special\n{bin}/annex-special\nspecial 0.1.0\n"), f"what is found: {out}")


@shows("uuid=6f9619ff-8b86-d011-b42d-00cf4fc964ff")
def stores_and_gets(room, text):
    stage = Stage(room)
    expect(stage.run(text), (0, "initialized\n1 stored\n2 got\n", ""))
    expect(stage.text("hello.again"), "hello\n", "what was got")


@shows('mkdir -p "$HOME/annex-contents"')
def git_annex_copies_and_checks(room, text):
    annex = Repository(room, remote=False).annex
    require(annex.run("sh", "-c", text).status == 0, "it failed")
    expect(annex.recorded(), ["one.txt", "two/b c.txt"], "what the remote has")


@shows("git ls-tree -r --name-only git-annex | grep '\\.log\\.cnk$' | while read -r log; do")
def makes_notes_of_chunks(room, text):
    stage = Repository(room)
    stage.well("git annex enableremote -q folder chunk=5")
    stage.write("many", "more than five bytes")
    stage.well("git annex add -q many && git annex copy -q --to folder many")
    stage.keep()
    check = 'echo "check $(git annex lookupkey many)" | special run --program annex-remote-dir --uuid "$U" --keep kept'
    expect(stage.run(check).out, "1 absent\n", "a check without notes")
    stage.well(text)
    expect(stage.well(check), "1 present\n", "a check with notes")


@shows('ANNEX_REMOTE_PROGRAM=git-annex-remote-rclone special run --program annex-remote-plain --uuid "$U" --keep kept < tasks')
def runs_over_a_lax_remote(room, text):
    stage = Stage(room)
    lax = (TOP / "examples/folder-remote.sh").read_text().replace('echo "VERSION 1"', 'echo "VERSION 2"')
    room.script("bin/git-annex-remote-rclone", lax)
    stage.write("kept", f"annex-keep 1\nconfig directory {room.mkdir('home/contents')}\n")
    stage.write("hello", "hello\n")
    stage.write("tasks", HELLO)
    expect(stage.run(text), (0, "1 stored\n2 got\n", ""))


@shows('mkdir -p "$HOME/a" "$HOME/b"')
def sets_two_remotes_up(room, text):
    expect(Stage(room).run(text), (0, "initialized\ninitialized\n", ""))


@shows("git annex initremote both type=external externaltype=mirror encryption=none \\")
def git_annex_copies_to_a_mirror(room, text):
    stage = Repository(room, remote=False)
    stage.well(block('mkdir -p "$HOME/a" "$HOME/b"') + text + "\ngit annex copy -q --to both one.txt")
    key = stage.annex.key("one.txt")
    for folder in ("a", "b"):
        names = [name for _, _, names in os.walk(room.path(f"home/{folder}")) for name in names]
        require(key in names, f"{key} isn't in {folder}: {names}")


@shows('special init annex-remote-mirror "$U" kept mirror1="annex-remote-dir directory=$HOME/a" mirror2="annex-remote-dir directory=$HOME/b"')
def runs_over_a_mirror(room, text):
    stage = Stage(room)
    stage.write("hello", "hello\n")
    stage.write("tasks", HELLO)
    stage.well(block('mkdir -p "$HOME/a" "$HOME/b"'))
    expect(stage.run(text), (0, "initialized\n1 stored\n2 got\n", ""))


@shows("git show git-annex:remote.log")
def shows_settings_and_keeps_one(room, text):
    stage = Repository(room)
    directory = room.path("home/annex-contents")
    out = stage.well(text)
    require(out.startswith(f"{stage.env['U']} directory={directory} "), f"the settings: {out}")
    expect(stage.text("kept"), f"annex-keep 1\nconfig directory {directory}\n", "the kept file")


@shows("git annex find --anything --format='${key} ${file}\\n' > keys")
def prints_what_the_remote_lacks(room, text):
    stage = Repository(room)
    stage.keep()
    expect(stage.run(text).out, "", "what is missing of all")
    key = stage.annex.key("two/b c.txt")
    stage.well(f"find {room.path('home/annex-contents')} -name {key} -exec rm -f {{}} +")
    expect(stage.run(text).out, f"2 absent {key} two/b c.txt\n", "what is missing")


@shows('git clone "$BACKUP/repo" restored && cd restored')
def restores_a_repository(room, text):
    source = Repository(room)
    shutil.copytree(source.folder, room.path("media/repo"), symlinks=True)
    shutil.copytree(room.path("home/annex-contents"), room.path("media/contents"))
    out = Stage(room).well(text, env={"BACKUP": room.path("media")})
    require(out.endswith("1 got\n2 got\n"), f"the answers: {out}")
    expect(room.text("here/restored/two/b c.txt"), "content of two", "what was restored")


@shows("git -c core.quotePath=false grep -l '^/annex/objects/' | while IFS= read -r file; do")
def finds_the_tasks_of_unlocked_files(room, text):
    source = Repository(room)
    source.well("git annex unlock -q 'two/b c.txt' && git commit -qam unlocked")
    stage = Stage(room)
    stage.well(f"git clone -q {source.folder} restored")
    stage.well(text, folder=room.path("here/restored"))
    expect(stage.text("tasks"), f"get {source.annex.key('two/b c.txt')} two/b c.txt\n", "the tasks")


@shows("find files -type f | while IFS= read -r file; do")
def stores_all_files(room, text):
    stage = Stage(room)
    for n in range(20):
        stage.write(f"files/a {n}", f"content of {n}")
    stage.keep()
    expect(stage.well(text).split(), ["20", "stored", "legal"], "what is printed")


@shows("mkdir -p site && echo draft > index && echo final > new")
def exports_and_renames(room, text):
    stage = Stage(room)
    os.symlink(TOP / "examples", os.path.join(stage.folder, "examples"))
    expect(stage.run(text), (0, "1 stored\n2 stored\n1 renamed\nfinal\n", ""))


@shows('mkdir -p "$HOME/site"')
def git_annex_exports(room, text):
    stage = Repository(room, remote=False)
    stage.well(text)
    expect(room.text("home/site/two/b c.txt"), "content of two", "an exported file")


@shows("grep -n '^[0-9]* answer 4 ' journal")
def finds_what_was_said_of_a_task(room, text):
    stage = Stage(room)
    stage.keep()
    stage.write("tasks", "".join(f"get WORM--{n} {n}\n" for n in range(4)))
    stage.run('special run --program annex-remote-dir --uuid "$U" --keep kept --jobs 1 --journal journal < tasks')
    lines = stage.well(text).splitlines()
    expect([re.sub(r"^\d+:", "", line).split()[1:3] for line in lines[:2]], [["answer", "4"], ["claim", "4"]], f"of {lines}")
    require(" TRANSFER RETRIEVE WORM--3 " in lines[2], f"the request: {lines}")


@shows('TRACE_PROGRAM=annex-remote-dir special run --program examples/trace.sh --uuid "$U" --keep kept < tasks')
def shows_what_is_said(room, text):
    stage = Stage(room)
    os.symlink(TOP / "examples", os.path.join(stage.folder, "examples"))
    stage.keep()
    stage.write("tasks", "check WORM--a\n")
    done = stage.run(text)
    expect((done.status, done.out), (1, "1 absent\n"), "the run")
    require("< J 2 CHECKPRESENT WORM--a\n> J 2 CHECKPRESENT-FAILURE WORM--a\n" in done.err, f"what is shown: {done.err}")


@shows('annex-special backup restore --set directory="$BACKUP/contents"')
def restores_from_a_disk(room, text):
    source = Repository(room)
    source.well("git annex renameremote -q folder backup")
    os.rename(room.path("home/annex-contents"), room.mkdir("media") + "/contents")
    stage = Stage(room)
    stage.well(f"git clone -q {source.folder} clone")
    expect(stage.well(text, folder=room.path("here/clone"), env={"BACKUP": room.path("media")}), "restore: 2 keys: 2 restored\n")
    expect(room.text("here/clone/two/b c.txt"), "content of two", "what was restored")


@shows('annex-special vault restore --set directory="$BACKUP/contents"')
def restores_an_encrypted_remote(room, text):
    source = Repository(room, remote=False)
    words = f"type=directory encryption=shared directory={room.mkdir('media/contents')}"
    source.well(f"git annex initremote -q --fast vault {words} && git annex copy -q --to vault")
    stage = Stage(room)
    stage.well(f"git clone -q {source.folder} clone")
    expect(stage.well(text, folder=room.path("here/clone"), env={"BACKUP": room.path("media")}), "restore: 2 keys: 2 restored\n")
    expect(room.text("here/clone/two/b c.txt"), "content of two", "what was restored")


def annex_special_works(room, text):
    Repository(room).well(text)


@shows("special-view journal -o run.html")
def a_journal_is_made_a_page(room, text):
    stage = Stage(room)
    stage.write("hello", "hello\n")
    stage.keep()
    stage.write("tasks", HELLO)
    stage.well('special run --program annex-remote-dir --uuid "$U" --keep kept --journal journal < tasks')
    expect(stage.well(text), "", "what is printed")
    page = stage.text("run.html")
    require("store WORM-s6--hello hello" in page and '"audit":"legal"' in page, "the page has another run")


@limits(90)
@table([(first, first, text) for first, text in blocks() if first not in EXEMPT])
def the_block_works(room, first, text):
    show = SHOWS.get(first, annex_special_works if first.startswith("annex-special ") else None)
    require(show is not None, "nothing shows that it works: write a function for it in this file")
    show(room, text)


def case_each_first_line_is_that_of_one_block(room):
    there = [first for first, _ in blocks()]
    expect(sorted(there), sorted(set(there)), "the first lines")
    expect([first for first in [*EXEMPT, *SHOWS] if first not in there], [], "lines that no block begins with")
