"""What the cases are written with.

A case is a function `case_...(room)` of a file `test_*.py`. A table of cases is
a function under `@table(ROWS)`, called once for each row; `@limits` gives a case
another time limit, or says that it mostly waits.
"""

import fcntl
import os
import shutil
import signal
import subprocess
import sys
import threading
import time
from pathlib import Path
from typing import Callable, NamedTuple

import journal as journals

TESTS = Path(__file__).resolve().parent
TOP = TESTS.parent
SPECIAL = os.environ.get("SPECIAL") or str(TOP / "crates/special_bin/out/special_bin")
ANNEX_REMOTE_DIR = os.environ.get("ANNEX_REMOTE_DIR") or str(TOP / "crates/remote_dir_bin/out/remote_dir_bin")
SPECIAL, ANNEX_REMOTE_DIR = os.path.abspath(SPECIAL), os.path.abspath(ANNEX_REMOTE_DIR)
UUID = "c0ffee00-0000-4000-8000-000000000001"

DEFAULT_LIMIT = 30
SHOWN = 4000


class Case(NamedTuple):
    """A case: its name, what runs it, its limit in seconds, and whether it mostly waits."""

    name: str
    function: Callable
    limit: float
    waits: bool


class Differs(Exception):
    """Something is otherwise than was wanted."""


class Skipped(Exception):
    """The case can't run here."""


def limits(seconds=DEFAULT_LIMIT, waits=False):
    """Gives a case, or each case of a table, another limit; `waits` says that it needs hardly any processor."""

    def mark(function):
        function.limit = seconds
        function.waits = waits
        return function

    return mark


def table(rows):
    """Makes a case of each row: a list whose first part is the name, or a dict with `name`. The rest are arguments."""

    def mark(function):
        function.rows = rows
        return function

    return mark


def cases_of(module):
    """The cases of a file, in their order."""
    cases = []
    for name, function in list(vars(module).items()):
        if getattr(function, "__module__", None) != module.__name__:
            continue
        limit = getattr(function, "limit", DEFAULT_LIMIT)
        waits = getattr(function, "waits", False)
        if hasattr(function, "rows"):
            for row in function.rows:
                title, call = row_call(function, row)
                cases.append(Case(f"{module.__name__}.{name}: {title}", call, limit, waits))
        elif name.startswith("case_"):
            cases.append(Case(f"{module.__name__}.{name}", function, limit, waits))
    return cases


def row_call(function, row):
    if isinstance(row, dict):
        arguments = {key: value for key, value in row.items() if key != "name"}
        return row["name"], lambda room: function(room, **arguments)
    return row[0], lambda room: function(room, *row[1:])


def skip(why):
    """Ends the case as one that can't run here."""
    raise Skipped(why)


def shown(value):
    """A value for a reader: texts of one plain line as they are, and all else as Python writes it."""
    is_plain = isinstance(value, str) and value.isprintable() and value == value.strip() != ""
    text = value if is_plain else repr(value)
    return text if len(text) <= SHOWN else f"{text[:SHOWN]}.. ({len(text)} characters)"


def expect(got, wanted, what="what came"):
    """Goes on only where both are equal."""
    if got != wanted:
        raise Differs(f"{what}\nwanted: {shown(wanted)}\ngot:    {shown(got)}")


def require(holds, what):
    """Goes on only where it holds."""
    if not holds:
        raise Differs(what)


def as_bytes(text):
    return text if isinstance(text, bytes) else text.encode("utf-8", "surrogateescape")


def as_text(data):
    return data.decode("utf-8", "surrogateescape")


class Done(NamedTuple):
    """A program that ended. Bytes that are no UTF-8 are kept as surrogates."""

    status: int
    out: str
    err: str


def environment(more):
    """The environment of a program: the present one, and `more`; None takes a name away."""
    result = dict(os.environ, LC_ALL="C.UTF-8")
    for name, value in (more or {}).items():
        if value is None:
            result.pop(name, None)
        else:
            result[name] = str(value)
    return result


def start(words, env=None, cwd=None, stdin=subprocess.PIPE, stdout=subprocess.PIPE, stderr=subprocess.PIPE):
    """Starts a program beside the case."""
    words = [word if isinstance(word, bytes) else str(word) for word in words]
    return subprocess.Popen(words, env=environment(env), cwd=cwd, stdin=stdin, stdout=stdout, stderr=stderr)


# The statuses at which `special` says more on a second line, for people, and how a notice begins.
HINTED = (2, 3, 4, 6, 7)
NOTICE = "special: note: "


def without_hint(status, err):
    """Standard error without what `special` says for people: that line, which comes last, and notices. test_hints.py looks at their words."""
    lines = [line for line in err.splitlines(keepends=True) if not line.startswith(NOTICE)]
    said = [line.startswith("special: ") for line in lines[-2:]]
    return "".join(lines[:-1] if status in HINTED and said == [True, True] else lines)


def finish(process, input=b""):
    """Gives the program its input, and waits for its end."""
    out, err = process.communicate(as_bytes(input) if process.stdin else None)
    return Done(process.returncode, as_text(out or b""), without_hint(process.returncode, as_text(err or b"")))


def run(words, input=b"", env=None, cwd=None):
    """Runs a program to its end. The time limit is the case's."""
    return finish(start(words, env=env, cwd=cwd), input)


def audit(text):
    """What `special audit` says of the text of a run."""
    return run([SPECIAL, "audit"], input=text)


def preloaded(room, source):
    """A library of the C file, built in the room, that a program loads by LD_PRELOAD."""
    if not shutil.which("cc"):
        skip("there is no cc")
    made = room.path("preloaded.so")
    subprocess.run(["cc", "-O2", "-shared", "-fPIC", "-o", made, f"{TOP}/{source}", "-ldl"], check=True)
    return made


class Room:
    """An empty folder of the case's own, and what is done in it."""

    def __init__(self, folder):
        self.folder = Path(folder)

    def path(self, name="."):
        """The full name of a file of the room."""
        return str(self.folder / name)

    def write(self, name, content=b""):
        """Makes the file with its folders, and gives its full name."""
        path = self.folder / name
        path.parent.mkdir(parents=True, exist_ok=True)
        path.write_bytes(as_bytes(content))
        return str(path)

    def mkdir(self, name):
        (self.folder / name).mkdir(parents=True, exist_ok=True)
        return self.path(name)

    def read(self, name):
        """The bytes of a file; None where there is none."""
        try:
            return (self.folder / name).read_bytes()
        except FileNotFoundError:
            return None

    def text(self, name):
        """A file as text, like what programs print; None where there is none."""
        data = self.read(name)
        return None if data is None else as_text(data)

    def has(self, name):
        return os.path.lexists(self.folder / name)

    def script(self, name, text):
        """Makes an executable file; without a first line of its own it is one of sh."""
        text = as_bytes(text)
        path = self.write(name, text if text.startswith(b"#!") else b"#!/bin/sh\n" + text)
        os.chmod(path, 0o755)
        return path

    def child(self, name, body, log=False):
        """Makes a remote of a Python text that uses what tests/child.py has.

        With `log` its starts write what they heard and said into NAME.1.log, NAME.2.log and so on.
        """
        head = f"#!{sys.executable} -BESs\nimport sys\nsys.path.insert(0, {str(TESTS)!r})\nfrom child import *\n"
        if log:
            head += f"log_as({self.path(name)!r})\n"
        return self.script(name, head + body)

    def children(self, name, *bodies):
        """Makes a remote whose first start plays the first body, and so on; further starts end at once. All are logged."""
        body = f"number = log_as({self.path(name)!r})\nbodies = {list(bodies)!r}\n"
        return self.child(name, body + "if number <= len(bodies):\n    exec(bodies[number - 1])\n")

    def fail_a_start(self, name):
        """Makes NAME.fails: the first start of it fails, and from then on the program NAME is there in its place.

        The file is open for writing, so that it can't be started. A lease on it holds a start up till the program is back,
        so that the next start finds it.
        """
        fails = self.path(name + ".fails")
        shutil.copy(self.path(name), fails)
        shutil.copy(self.path(name), self.path(name + ".good"))
        held = os.open(fails, os.O_RDWR)
        signal.signal(signal.SIGIO, signal.SIG_IGN)
        try:
            fcntl.fcntl(held, fcntl.F_SETLEASE, fcntl.F_WRLCK)
        except OSError as why:
            skip(f"no lease on a file here: {why}")

        def let_go():
            while fcntl.fcntl(held, fcntl.F_GETLEASE) == fcntl.F_WRLCK:
                time.sleep(0.001)
            os.rename(self.path(name + ".good"), self.path(name))
            fcntl.fcntl(held, fcntl.F_SETLEASE, fcntl.F_UNLCK)

        threading.Thread(target=let_go, daemon=True).start()

    def run(self, words, input=b"", env=None):
        """Runs a program in the room."""
        return run(words, input=input, env=env, cwd=self.folder)

    def start(self, words, **more):
        """Starts a program in the room."""
        return start(words, cwd=self.folder, **more)

    def special(self, *words, input=b"", env=None):
        """Runs `special` in the room."""
        return self.run([SPECIAL, *words], input=input, env=env)

    def run_command(self, program, tasks, *words, journal="journal", env=None):
        """Does the tasks with `special run`, its journal in a file of the room."""
        words = ["run", "--program", program, "--uuid", UUID, "--work", ".", "--journal", journal, *words]
        return self.special(*words, input=tasks, env=env)

    def journal(self, name="journal"):
        """The journal of a run, read."""
        return journals.read(self.text(name))
