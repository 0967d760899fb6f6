"""The command: its words, and its status."""

import argparse
import os
import sys

from . import VERSION, page
from .audit import audited
from .model import Model
from .reader import NoJournal, read


def words(arguments):
    parser = argparse.ArgumentParser(prog="special-view",
                                     description="Turns the journal of a run, from `special run --journal FILE`, into a web page in one file.",
                                     epilog="exit status: 0 if the page is written, 2 if the arguments are wrong, JOURNAL isn't a journal, or a "
                                            "file can't be read or written")
    parser.add_argument("journal", metavar="JOURNAL", help="the journal, or - for standard input")
    parser.add_argument("-o", metavar="FILE.html", dest="out", help="the page (default: JOURNAL.html; standard output if JOURNAL is -)")
    parser.add_argument("--special", metavar="PROGRAM", default="special", help="the program that audits (default: special)")
    parser.add_argument("--no-audit", action="store_true", help="don't audit the journal")
    parser.add_argument("--version", action="version", version=f"special-view {VERSION}")
    return parser.parse_args(arguments)


def problem(text):
    print(f"special-view: {text}", file=sys.stderr)
    return 2


def main(arguments):
    """Runs the command, and gives its status."""
    given = words(arguments)
    try:
        if given.journal == "-":
            data = sys.stdin.buffer.read()
        else:
            with open(given.journal, "rb") as file:
                data = file.read()
    except OSError as why:
        return problem(f"{given.journal}: {why.strerror}")
    try:
        run = read(data)
    except NoJournal as why:
        return problem(f"{given.journal}: {why}")
    name = "standard input" if given.journal == "-" else os.path.basename(given.journal)
    audit = (None, None, "") if given.no_audit or not run.is_whole else audited(data, given.special)
    made = page.of_run(name, Model(run), audit)
    try:
        if given.out or given.journal != "-":
            with open(given.out or f"{given.journal}.html", "wb") as out:
                out.write(made)
        else:
            sys.stdout.buffer.write(made)
            sys.stdout.flush()
    except OSError as why:
        return problem(f"{given.out or given.journal}: {why.strerror}")
    return 0
