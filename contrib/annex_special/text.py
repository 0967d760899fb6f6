"""What the other modules say and call with: problems, texts, programs that are run."""

import json
import os
import shlex
import subprocess
import sys


class Problem(Exception):
    """What ends the whole command, as a sentence."""


class OutputFailed(Exception):
    """Standard output takes no more."""


def text_of(data):
    """Bytes as text; what is no UTF-8 is kept."""
    return data.decode("utf-8", "surrogateescape")


def bytes_of(text):
    return text.encode("utf-8", "surrogateescape")


def is_utf8(text):
    return not any("\ud800" <= character <= "\udfff" for character in text)


def call(words, input=None, problem=None, folder=None):
    """What a program prints. Where it fails, the problem ends the command; without one the result is None."""
    done = subprocess.run(
        words,
        input=None if input is None else bytes_of(input),
        stdin=subprocess.DEVNULL if input is None else None,
        stdout=subprocess.PIPE,
        stderr=None if problem else subprocess.DEVNULL,
        cwd=folder,
    )
    if done.returncode == 0:
        return text_of(done.stdout)
    if problem:
        raise Problem(problem)
    return None


def git_config(name):
    value = call(["git", "config", "--null", "--get", name])
    return None if value is None else value.rstrip("\0")


def say(line):
    """Prints a line, at once."""
    try:
        sys.stdout.write(f"{line}\n")
        sys.stdout.flush()
    except (OSError, ValueError) as why:
        raise OutputFailed(getattr(why, "strerror", None) or "it is closed") from None


def warn(text):
    """Writes a line to standard error, if that is there."""
    try:
        print(f"annex-special: {text}", file=sys.stderr, flush=True)
    except (OSError, ValueError):
        pass


def shown(name):
    """A file's name on one line."""
    if name.isprintable() or not any(character < " " for character in name):
        return name
    return json.dumps(name, ensure_ascii=False)


def quoted(words):
    """A command that can be pasted into a shell."""
    return " ".join(shlex.quote(word) for word in words)


def human(count):
    for unit in ("B", "kB", "MB", "GB"):
        if count < 1000:
            return f"{count:.0f} {unit}" if unit == "B" else f"{count:.1f} {unit}"
        count /= 1000
    return f"{count:.1f} TB"


def clock(seconds):
    minutes, seconds = divmod(round(seconds), 60)
    return f"{minutes // 60}:{minutes % 60:02}:{seconds:02}" if minutes >= 60 else f"{minutes}:{seconds:02}"


def mode_of_new(mode):
    """The rights of a new file, of which the user's mask takes some away."""
    mask = os.umask(0)
    os.umask(mask)
    return mode & ~mask


def read_lines(path):
    try:
        return text_of(path.read_bytes()).split("\n")[:-1]
    except FileNotFoundError:
        return []


def write_lines(path, lines):
    """Makes the file anew: whole, or not at all."""
    new = path.with_name(path.name + ".new")
    new.write_bytes(bytes_of("".join(f"{line}\n" for line in lines)))
    os.replace(new, path)
