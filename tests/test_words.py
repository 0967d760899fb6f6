"""What the words of `special` ask for, and the texts that it prints on request.

`rows/words.txt` has rows of words with a bar between each two, and each is a case; `# TEXT` is a heading.
`$MUST` stands for the words that `run` can't do without. After `=>` comes

- `usage`: the words are refused, and nothing is started;
- `check PROGRAM KEY`, `info PROGRAM KEY`, `init PROGRAM UUID NAME GITDIR KEEP SETTING..`, `audit`, `show PAGE`: what is done;
- `run PROGRAM UUID NAME GITDIR JOBS CHUNK STARTS KEEP WORK`, and `journal FILE` where one is named.

A row `set WORDS => SETTING..` says which settings `init` keeps. `rows/pages/` has the pages.
"""

import os
import re
import shlex

import scenes
from harness import SPECIAL, Done, as_text, expect, limits, require, table

UUID = "01234567-89ab-cdef-0123-456789abcdef"
MUST = f"--program|p|--uuid|{UUID}"
USAGE = Done(2, "", "special: usage\n")

# It asks what $ASKS says, knows no other request, and logs each line that it hears.
REMOTE = """
log=heard.$$
echo "VERSION 1"
IFS= read -r line; echo "$line" >> $log; echo EXTENSIONS
IFS= read -r request; echo "$request" >> $log
for ask in $ASKS; do echo $ask; IFS= read -r line; echo "$ask ${line#VALUE }" >> $log; done
echo "$request-SUCCESS"
while IFS= read -r line; do echo "$line" >> $log; echo UNSUPPORTED-REQUEST; done
"""


class Trial:
    """A folder with a remote of some name, which is found by PATH."""

    def __init__(self, room, name, program):
        self.room, self.name = room, name
        room.mkdir(f"{name}/w")
        room.write(f"{name}/in", "hi")
        room.script(f"{name}/bin/{program}", REMOTE)
        if "/" not in program:
            room.script(f"{name}/{program}", REMOTE)

    def special(self, words, tasks="", found=True, asks="GETUUID GETGITDIR GETGITREMOTENAME"):
        """Runs `special` in the folder; where the remote isn't to be found there is no PATH."""
        path = f"{self.room.path(self.name)}/bin:/usr/bin:/bin" if found else "/nowhere"
        line = " ".join(shlex.quote(as_text(word)) for word in words)
        script = f'cd {shlex.quote(self.name)} && PATH={shlex.quote(path)} exec "$SPECIAL_BIN" {line}'
        return self.room.run(["/bin/sh", "-c", script], input=tasks, env={"SPECIAL_BIN": SPECIAL, "ASKS": asks})

    def has(self, name):
        return self.room.has(f"{self.name}/{name}")

    def text(self, name):
        return self.room.text(f"{self.name}/{name}")

    def heard(self):
        """The lines that each child heard."""
        names = [name for name in os.listdir(self.room.path(self.name)) if name.startswith("heard.")]
        return [self.text(name).splitlines() for name in names]


def expect_identity(heard, uuid, name, gitdir):
    for lines in heard:
        for wanted in (f"GETUUID {uuid}", f"GETGITDIR {gitdir}", f"GETGITREMOTENAME {name}"):
            require(wanted in lines, f"a child heard {wanted}, of {lines}")


def quoted(text):
    """The parts of a row that stand in quotes."""
    return re.findall(r'"(.*?)"', text)


RUN = re.compile(r'run "(.*?)" (\S+) "(.*?)" "(.*?)" (\d+) (\d+) (\d+) (none|".*?") "(.*?)"(?: journal "(.*?)"(?: again (\d))?)?')


def expect_run(room, words, wanted):
    """A run over a pool of as many children as there are jobs, and one whose starts all fail."""
    program, uuid, name, gitdir, jobs, chunk, starts, keep, work, journal, again = RUN.fullmatch(wanted).groups()
    trial = Trial(room, "run", program)
    more = "".join(f"check WORM--{n}\n" for n in range(int(jobs)))
    tasks = f"store WORM-s2--a in\nget WORM-s2--b out\n{more}"
    # A large pool takes long enough without the asides.
    is_large = int(jobs) > 8
    done = trial.special(words, tasks, asks="") if is_large else trial.special(words, tasks)
    answers = "".join(f"{n} unsupported\n" for n in range(1, int(jobs) + 3))
    expect(done, Done(1, answers, ""), "the run")
    heard = trial.heard()
    expect(len(heard), int(jobs), "children")
    expect_identity([] if is_large else heard, uuid, name, gitdir)
    expect_asked([line for lines in heard for line in lines], int(chunk), work)
    keep = None if keep == "none" else keep.strip('"')
    for file, front in ((keep, "annex-keep 1\n"), (journal, "annex-journal 2\n")):
        if file and not (file == keep == journal and "keep" in front):
            require((trial.text(file) or "").startswith(front), f"the file {file} begins with {front}")
    if journal and journal != keep:
        require(f"\nagain {again or 0}\n" in trial.text(journal), f"the journal doesn't say again {again or 0}")
    if not keep and not journal:
        expect(trial.has("f"), False, "a file was written")
    tasks = "check WORM--a\n" * (int(starts) + 1)
    done = Trial(room, "none", "other").special(words, tasks, found=False)
    fails = "".join(f"{n} startfault\n" for n in range(1, int(starts) + 1))
    expect(done, Done(1, f"{fails}{int(starts) + 1} nochild\n", ""), "the run without a program")


def expect_asked(lines, chunk, work):
    """What was asked first to store two bytes, and where they were to be fetched to."""
    first = f"CHECKPRESENT WORM-s2-S{chunk}-C1--a" if chunk else "TRANSFER STORE WORM-s2--a in"
    require(first in lines, f"{first} was asked, of {lines}")
    fetches = [line for line in lines if line.startswith("TRANSFER RETRIEVE WORM-s2--b ")]
    expect(len(fetches), 1, "requests to fetch")
    wanted = re.compile(f"{re.escape(work)}/[0-9]{{16}}-2-1.fetch")
    require(wanted.fullmatch(fetches[0].split(" ", 3)[3]), f"{fetches[0]} goes to the folder {work}")


def expect_init(room, words, wanted):
    program, name, gitdir, keep, *settings = quoted(wanted)
    trial = Trial(room, "init", program)
    expect(trial.special(words), Done(0, "initialized\n", ""), "the init")
    expect_identity(trial.heard(), UUID, name, gitdir)
    values = dict(zip(settings[0::2], settings[1::2]))
    lines = "".join(f"config {name} {value}\n" for name, value in sorted(values.items()))
    expect(trial.text(keep), "annex-keep 1\n" + lines, "the kept file")


def expect_command(room, words, wanted):
    """What the words ask for, and what of it can be seen."""
    word = wanted.split(" ")[0]
    if word == "run":
        return expect_run(room, words, wanted)
    if word == "init":
        return expect_init(room, words, wanted)
    trial = Trial(room, "trial", "p")
    if word == "info" and wanted.endswith(" none"):
        done = trial.special(words)
        expect((done.status, len(trial.heard())), (0, 1), "an info, and its children")
        return expect(any("WHEREIS" in line for line in trial.heard()[0]), False, "a key was asked for")
    done = trial.special(words)
    if word == "usage":
        expect(done, USAGE)
    elif word in ("check", "info"):
        # None of these rows has a key that can be asked for.
        reason = "unsendable" if " " in quoted(wanted)[1] else "key"
        expect(done, Done(3, "", f"special: line 1: {reason}\n"))
    elif word == "audit":
        expect(done, Done(3, "", "special: line 0: cut\n"))
    elif word == "recover":
        expect(done, Done(6, "", "special: file failed\n"))
    else:
        page = (scenes.ROWS / "pages" / f"{wanted.split()[1].lower()}.txt").read_text()
        expect(done, Done(0, page, ""))
    return expect(trial.heard(), [], "children")


def words_of(text):
    """The words of a row; none where it is empty."""
    return [scenes.bytes_of(word) for word in text.replace("$MUST", MUST).split("|")] if text else []


def expect_settings(room, words, wanted):
    trial = Trial(room, "set", "p")
    expect(trial.special(words), Done(0, "initialized\n", ""), "the init")
    settings = [setting.split("=", 1) for setting in wanted.split()]
    lines = "".join(f"config {name} {value}\n" for name, value in settings)
    expect(trial.text("keep"), "annex-keep 1\n" + lines, "the kept file")


def rows():
    """The rows as cases, each named by its words."""
    for _, section in scenes.sections("words.txt"):
        for row in section:
            words, _, wanted = row.partition(" =>")
            kind, _, words = words.partition(" ")
            yield f"{kind} {words}", kind, words, wanted.strip()


@limits(60)
@table(list(rows()))
def words_ask(room, kind, words, wanted):
    check = expect_settings if kind == "set" else expect_command
    check(room, words_of(words), wanted)
