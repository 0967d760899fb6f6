"""The words of the command line."""

import argparse
import sys

from .text import say

VERSION = "0.1.0"
COMMANDS = ("check", "get", "copy", "drop", "verify", "restore")


def jobs(word):
    if not word.isdecimal() or not 1 <= int(word) <= 64:
        raise argparse.ArgumentTypeError("a number from 1 to 64 is wanted")
    return int(word)


def setting(word):
    name, mark, value = word.partition("=")
    if not mark or not name or " " in name:
        raise argparse.ArgumentTypeError("NAME=VALUE is wanted")
    return name, value


class Parser(argparse.ArgumentParser):
    """One that says so where its help can't be printed."""

    def _print_message(self, message, file=None):
        if file is sys.stderr:
            super()._print_message(message, file)
        else:
            say(message.rstrip("\n"))


def make_parser():
    parser = Parser(
        prog="annex-special",
        usage="annex-special [OPTIONS] REMOTE COMMAND [PATHS ..]\n       annex-special [OPTIONS] REMOTE restore [FOLDER]",
        description="Checks, verifies, gets, copies, drops and restores the content of a git-annex repository on a "
        "special remote.",
        epilog="COMMAND is check, get, copy, drop, verify or restore. check changes nothing, and shows where git-annex's "
        "log disagrees. restore needs no git-annex. See annex-special(1).",
        allow_abbrev=False,
    )
    add = parser.add_argument
    add("remote", metavar="REMOTE", help="a special remote of this repository: its name or its UUID")
    add("command", metavar="COMMAND", choices=COMMANDS, help="what to do")
    add("paths", metavar="PATHS", nargs="*", help="files and folders (default: the current folder)")
    add("-A", "--all", action="store_true", help="all keys that the branch git-annex knows")
    add("--key", action="append", metavar="KEY", help="this key; may be given several times")
    add("-U", "--unused", action="store_true", help="the keys that `git annex unused` found last")
    add("--in-remote", action="store_true", help="all keys that the remote has according to git-annex's log")
    add("-J", "--jobs", type=jobs, default=4, metavar="N", help="tasks at a time, 1 to 64 (default 4)")
    add("--from", dest="source", metavar="OTHER", help="copy: take the content from this remote")
    add("--repair-from", metavar="OTHER", help="verify: replace damaged content with that of this remote, or of `here`")
    add("--unverified", action="store_true", help="also take content of an export whose key has no digest")
    add("--record", action="store_true", help="tell git-annex what the remote has and hasn't")
    add("--set", action="append", type=setting, default=[], metavar="NAME=VALUE", help="override a setting of the remote")
    add("--plain", action="store_true", help="start the remote through annex-remote-plain")
    add("--strict", action="store_true", help="start the remote directly")
    add("--dry-run", action="store_true", help="only print which keys would be handled")
    add("--journals", metavar="FOLDER", help="keep the journal of each run in this folder")
    add("--json", action="store_true", help="print an object for each key, and one at the end")
    add("-q", "--quiet", action="store_true", help="print only what went wrong")
    add("-v", "--verbose", action="store_true", help="print a line for each key, and how the remote is started")
    add("--version", action="version", version=f"annex-special {VERSION}")
    return parser


def read_words(words):
    """The words, with `folder` for `restore`, and `other` for a second place."""
    parser = make_parser()
    read = parser.parse_intermixed_args(words)
    if read.plain and read.strict:
        parser.error("--plain and --strict exclude each other")
    if read.source and read.command != "copy":
        parser.error("--from goes with copy")
    if read.repair_from and read.command != "verify":
        parser.error("--repair-from goes with verify")
    read.folder = None
    if read.command == "restore":
        if len(read.paths) > 1:
            parser.error("restore takes one FOLDER")
        read.folder = read.paths[0] if read.paths else None
        read.paths = []
    read.other = read.source or read.repair_from
    if read.source == "here":
        read.other = None
    read.by_paths = not (read.all or read.key or read.unused or read.in_remote)
    return read
