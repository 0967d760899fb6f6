"""Streams and files that fail."""

import os
import pty
import select
import sys
import tty
from contextlib import contextmanager

LIMITED = """
import os, resource, signal, sys
signal.signal(signal.SIGXFSZ, signal.SIG_IGN)
resource.setrlimit(resource.RLIMIT_FSIZE, (int(sys.argv[1]), resource.RLIM_INFINITY))
os.execv(sys.argv[2], sys.argv[2:])
"""


def limited(size, words):
    """The words that run a program for which a write that would make a file longer than `size` fails."""
    return [sys.executable, "-BESs", "-c", LIMITED, str(size), *words]


@contextmanager
def failing_input(data):
    """An input that gives up to 4,000 bytes, and then fails; without bytes the first read fails."""
    if not data:
        reader = os.open("/", os.O_RDONLY)
    else:
        reader, writer = pty.openpty()
        tty.setraw(writer)
        os.write(writer, data)
        select.select([reader], [], [])
        os.close(writer)
    try:
        yield reader
    finally:
        os.close(reader)


@contextmanager
def closed_output():
    """A pipe that nobody reads."""
    reader, writer = os.pipe()
    os.close(reader)
    try:
        yield writer
    finally:
        os.close(writer)
