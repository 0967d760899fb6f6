"""Runs of `special`: one run over a list of tasks, its answers and its journal."""

import os
import re
import shutil
import subprocess
import time
from pathlib import Path

from .remotes import has_credentials
from .text import Problem, bytes_of, text_of, warn

# What decides which way a remote is spoken to, and what it may ask for in vain.
ASKED = re.compile(rb"^\d+ got \d+ (?:J \d+ )?(DIRHASH(?:-LOWER)? |GETCREDS (.*)$)", re.MULTILINE)
TAGS = re.compile(rb"^\d+ got \d+ EXTENSIONS(?: .*)? ASYNC(?: |$)", re.MULTILINE)
PAUSE = 0.2


class Journal:
    """What the journal of a run says of the remote."""

    def __init__(self, path):
        text = path.read_bytes()
        asked = list(ASKED.finditer(text))
        self.asks_folders = any(match[1].startswith(b"DIRHASH") for match in asked)
        self.credentials = sorted({text_of(match[2]) for match in asked if match[2] is not None})
        self.takes_tags = TAGS.search(text) is not None


class Runner:
    """Starts `special` over a remote."""

    def __init__(self, repository, remote, notes, words, watch):
        self.repository, self.remote, self.notes = repository, remote, notes
        self.words, self.watch = words, watch
        self.runs = 0

    def command_line(self, plain, jobs, starts):
        program = "annex-remote-plain" if plain else self.remote.program
        spelled = self.repository.spelled
        line = ["special", "run", "--program", program, "--uuid", self.remote.uuid, "--name", self.remote.name]
        line += ["--gitdir", spelled(self.repository.git), "--work", spelled(self.notes.work), "--jobs", str(jobs)]
        line += ["--keep", spelled(self.notes.kept), "--journal", spelled(self.notes.journal)]
        line += ["--chunk", str(self.remote.chunk)]
        return line + (["--starts", str(starts)] if starts else [])

    def do(self, items, tasks, plain, jobs, starts=None):
        """Does the tasks, one for each item, and gives their answers and the journal."""
        self.runs += 1
        self.notes.keep(items)
        self.notes.journal.unlink(missing_ok=True)
        answers = self.answers_of(self.command_line(plain, jobs, starts), tasks)
        words = [answer.partition(" ") for answer in answers]
        if [number for number, _, _ in words] != [str(number + 1) for number in range(len(tasks))]:
            raise Problem("special did not answer each task")
        self.audit()
        journal = Journal(self.notes.journal)
        for setting in journal.credentials:
            if has_credentials(self.repository, self.remote, setting):
                raise Problem(
                    f"{self.remote.name} asks for its credentials {setting}, which git-annex keeps: "
                    "they can't be handed to it here; use git-annex"
                )
        self.notes.learn(items)
        return [answer for _, _, answer in words], journal

    def answers_of(self, line, tasks):
        """The lines that `special` prints. The lock stays with it if this process is killed."""
        asked, said = self.notes.folder / "tasks", self.notes.folder / "answers"
        asked.write_bytes(bytes_of("".join(f"{task}\n" for task in tasks)))
        environment = dict(os.environ, ANNEX_REMOTE_PROGRAM=self.remote.program)
        with open(asked, "rb") as inlet, open(said, "wb") as outlet:
            process = subprocess.Popen(
                line, stdin=inlet, stdout=outlet, env=environment, cwd=self.repository.top,
                pass_fds=[self.notes.lock.fileno()],
            )
            try:
                self.wait(process)
            finally:
                if process.poll() is None:
                    process.kill()
                    process.wait()
        if process.returncode not in (0, 1):
            raise Problem(f"special ended with status {process.returncode}")
        answers = text_of(said.read_bytes()).split("\n")[:-1]
        asked.unlink()
        said.unlink()
        return answers

    def wait(self, process):
        """Waits for its end, and shows meanwhile how far it is."""
        self.watch.begin(self.notes)
        while True:
            try:
                process.wait(PAUSE if self.watch.is_shown else None)
                return
            except subprocess.TimeoutExpired:
                self.watch.look()

    def audit(self):
        """Refuses a journal that isn't legal: then nothing that the run said is believed."""
        with open(self.notes.journal, "rb") as journal:
            audited = subprocess.run(["special", "audit"], stdin=journal, stdout=subprocess.PIPE)
        if self.words.journals is not None:
            name = f"{self.remote.name}-{int(time.time())}-{self.runs}.journal".replace("/", "_")
            shutil.copyfile(self.notes.journal, Path(self.words.journals) / name)
        if audited.returncode != 0:
            said = text_of(audited.stdout).strip()
            raise Problem(f"the journal of a run is not legal ({said}): it is kept as {self.notes.journal}")


class Way:
    """How the remote is spoken to: through annex-remote-plain or directly. One start finds it out."""

    def __init__(self, remote, words):
        self.remote, self.words = remote, words
        self.plain = True if words.plain else False if words.strict else None
        self.is_found = self.plain is None

    def find(self, runner, item, task):
        """Gives the remote a task about one item, and looks at what it says."""
        if self.plain is not None:
            return
        answers, journal = runner.do([item], [task], False, 1, starts=1)
        why = self.why_plain(answers, journal)
        word, _, more = answers[0].partition(" ")
        if why is None and word in ("notprepared", "startfault"):
            asked = f" (it asks for credentials: {', '.join(journal.credentials)})" if journal.credentials else ""
            raise Problem(f"{self.remote.name} can't get ready: {more or word}{asked}")
        self.choose(why, "with tags" if journal.takes_tags else "without tags")

    def why_plain(self, answers, journal):
        """Why annex-remote-plain is needed, as the answers and the journal of a run say; None where it isn't."""
        if any(answer == "ended version" for answer in answers):
            return "its first line is not VERSION 1"
        if any(answer.startswith("foul ") for answer in answers):
            return "it says what version 1 does not allow"
        if journal.asks_folders:
            return "it asks for hash folders, which git-annex ends with a slash"
        return None

    def choose(self, why, more):
        self.plain = why is not None
        if self.plain and shutil.which("annex-remote-plain") is None:
            raise Problem(f"{self.remote.name} needs annex-remote-plain ({why}), which is not on the PATH")
        if self.words.verbose:
            how = f"through annex-remote-plain: {why}" if self.plain else f"directly, {more}"
            warn(f"{self.remote.name} is spoken to {how}")

    def must_change(self, answers, journal):
        """Whether a run showed that annex-remote-plain is needed after all."""
        why = None if self.plain or not self.is_found else self.why_plain(answers, journal)
        if why is None:
            return False
        self.choose(why, "")
        return True
