"""`annex-remote-dir`: what a remote of the kit says to each line of a host, and what it does to its folder."""

import os
import time

from harness import ANNEX_REMOTE_DIR, Done, as_bytes, as_text, expect, finish, require, table

READY = "PREPARE\nVALUE d\n"
IS_READY = "GETCONFIG directory\nPREPARE-SUCCESS\n"
CONFIGS = "CONFIG directory the folder in which the contents of keys are kept\nCONFIGEND\n"
UNSUPPORTED = "UNSUPPORTED-REQUEST\n"
# A line of the host may be so long, without its end.
LINE = 131_072


def served(room, says, size):
    """What the remote says to these bytes, which come in pieces."""
    process = room.start([ANNEX_REMOTE_DIR])
    data = as_bytes(says)
    try:
        for at in range(0, len(data), size):
            process.stdin.write(data[at:at + size])
            process.stdin.flush()
    except BrokenPipeError:
        # It ended before the last line.
        process.stdin = None
        return Done(process.wait(), as_text(process.stdout.read()), as_text(process.stderr.read()))
    return finish(process)


# The host's lines, what is said to them after `VERSION 1`, and the status.
GETS_READY = [
    ("a request once it is ready", "EXTENSIONS INFO\n" + READY + "CHECKPRESENT WORM--a\n",
     "EXTENSIONS \n" + IS_READY + "CHECKPRESENT-FAILURE WORM--a\n", 0),
    ("a request before", "EXTENSIONS INFO\nTRANSFER STORE WORM--a f\n",
     "EXTENSIONS \nTRANSFER-FAILURE STORE WORM--a not prepared\n", 0),
    ("each request before",
     "TRANSFER RETRIEVE WORM--a f\nCHECKPRESENT WORM--a\nREMOVE WORM--a\n",
     "TRANSFER-FAILURE RETRIEVE WORM--a not prepared\nCHECKPRESENT-UNKNOWN WORM--a not prepared\n"
     "REMOVE-FAILURE WORM--a not prepared\n", 0),
    ("no directory", "PREPARE\nVALUE\nREMOVE WORM--a\n",
     "GETCONFIG directory\nPREPARE-FAILURE no directory\nREMOVE-FAILURE WORM--a not prepared\n", 0),
    ("an empty directory, and one that is no text", "PREPARE\nVALUE \nPREPARE\nVALUE \udcff\nCHECKPRESENT WORM--a\n",
     "GETCONFIG directory\nPREPARE-FAILURE no directory\nGETCONFIG directory\nPREPARE-FAILURE not text\n"
     "CHECKPRESENT-UNKNOWN WORM--a not prepared\n", 0),
    ("set up with a relative path that is no text", "INITREMOTE\nVALUE \udcff\nCHECKPRESENT WORM--a\n",
     "GETCONFIG directory\nINITREMOTE-FAILURE directory is relative: give the whole path, such as /home/me/backup\n"
     "CHECKPRESENT-UNKNOWN WORM--a not prepared\n", 0),
    ("ready, and then no longer", READY + "PREPARE\nVALUE \nCHECKPRESENT WORM--a\n",
     IS_READY + "GETCONFIG directory\nPREPARE-FAILURE no directory\nCHECKPRESENT-UNKNOWN WORM--a not prepared\n", 0),
    ("ready, and then set up in vain", "PREPARE\nVALUE d e\nINITREMOTE\nVALUE \nREMOVE WORM--a\n",
     IS_READY + "GETCONFIG directory\nINITREMOTE-FAILURE no directory\nREMOVE-FAILURE WORM--a not prepared\n", 0),
    ("a file whose name is no text", "TRANSFER STORE WORM--a \udcff\n" + READY + "TRANSFER STORE WORM--a \udcff\n",
     "TRANSFER-FAILURE STORE WORM--a not prepared\n" + IS_READY + "TRANSFER-FAILURE STORE WORM--a not text\n", 0),
    ("a key that is no text", READY + "CHECKPRESENT WORM--\udcff\n",
     IS_READY + "CHECKPRESENT-UNKNOWN WORM--\udcff not text\n", 0),
    ("an end before the value", "PREPARE\n", "GETCONFIG directory\n", 0),
]

ANSWERS = [
    ("each request done",
     READY + "TRANSFER STORE WORM--a a file\nTRANSFER RETRIEVE WORM--a f\nCHECKPRESENT WORM--a\nREMOVE WORM--a\n"
     "CHECKPRESENT WORM--a\nREMOVE WORM--a\n",
     IS_READY + "TRANSFER-SUCCESS STORE WORM--a\nTRANSFER-SUCCESS RETRIEVE WORM--a\nCHECKPRESENT-SUCCESS WORM--a\n"
     "REMOVE-SUCCESS WORM--a\nCHECKPRESENT-FAILURE WORM--a\nREMOVE-SUCCESS WORM--a\n", 0),
    ("what is missing", READY + "TRANSFER STORE WORM--a none\nTRANSFER RETRIEVE WORM--gone f\nCHECKPRESENT WORM--gone\n"
     "REMOVE WORM--gone\n",
     IS_READY + "TRANSFER-FAILURE STORE WORM--a no such file\nTRANSFER-FAILURE RETRIEVE WORM--gone no such file\n"
     "CHECKPRESENT-FAILURE WORM--gone\nREMOVE-SUCCESS WORM--gone\n", 0),
    ("a chunk, and another one", READY + "TRANSFER STORE WORM-s3-S2-C1--a a file\nCHECKPRESENT WORM-s3-S2-C1--a\n"
     "CHECKPRESENT WORM-s3-S2-C2--a\nCHECKPRESENT WORM-s3--a\n",
     IS_READY + "TRANSFER-SUCCESS STORE WORM-s3-S2-C1--a\nCHECKPRESENT-SUCCESS WORM-s3-S2-C1--a\n"
     "CHECKPRESENT-FAILURE WORM-s3-S2-C2--a\nCHECKPRESENT-FAILURE WORM-s3--a\n", 0),
    ("what it is, before it is ready", "LISTCONFIGS\nGETCOST\nGETAVAILABILITY\nGETINFO\nWHEREIS WORM--a\n",
     CONFIGS + "COST 100\nAVAILABILITY LOCAL\n" + UNSUPPORTED * 2, 0),
    ("what it is, once it is ready", READY + "LISTCONFIGS\nGETCOST\nGETAVAILABILITY\nGETINFO\nWHEREIS WORM--a\n",
     IS_READY + CONFIGS + "COST 100\nAVAILABILITY LOCAL\nINFOFIELD directory\nINFOVALUE d\nINFOEND\n" + UNSUPPORTED, 0),
    ("its directory, which may hold a space", "PREPARE\nVALUE d e\nGETINFO\nPREPARE\nVALUE\nGETINFO\n",
     IS_READY + "INFOFIELD directory\nINFOVALUE d e\nINFOEND\n"
     "GETCONFIG directory\nPREPARE-FAILURE no directory\n" + UNSUPPORTED, 0),
    ("a key with a space", "GETCOST\nCHECKPRESENT WORM--a b\nGETCOST\n", "COST 100\n" + UNSUPPORTED + "COST 100\n", 0),
    ("an empty line", "GETCOST\n\nGETCOST\n", "COST 100\n" + UNSUPPORTED + "COST 100\n", 0),
    ("a word too many", "GETCOST\nPREPARE now\n", "COST 100\n" + UNSUPPORTED, 0),
    ("a space too many", "GETCOST\nPREPARE \n", "COST 100\n" + UNSUPPORTED, 0),
    ("a transfer without a key", "TRANSFER STORE\n", UNSUPPORTED, 0),
    ("a word that is no message", "BOO\n" + READY + "BOO\nCHECKPRESENT WORM--a\n",
     UNSUPPORTED + IS_READY + UNSUPPORTED + "CHECKPRESENT-FAILURE WORM--a\n", 0),
    ("a question about exports, and one about a URL", "EXPORTSUPPORTED\nCLAIMURL http://x/\nGETCOST\n",
     UNSUPPORTED * 2 + "COST 100\n", 0),
    ("a name to export to, and requests about it", "EXPORT a b.txt\nTRANSFEREXPORT STORE WORM--a a file\n"
     "EXPORT a b.txt\nCHECKPRESENTEXPORT WORM--a\nEXPORT\nREMOVEEXPORT WORM--a\nEXPORT a\nRENAMEEXPORT WORM--a c d\n",
     UNSUPPORTED * 4, 0),
]

UNEXPECTED = "ERROR unexpected message\n"
OUT_OF_PLACE = [
    ("a value that nobody asked for", "VALUE x\nGETCOST\n", UNEXPECTED, 1),
    ("credentials that nobody asked for", "CREDS user word\n", UNEXPECTED, 1),
    ("a value too many", READY + "VALUE e\n", IS_READY + UNEXPECTED, 1),
    ("a request in place of a value", "PREPARE\nGETCOST\n", "GETCONFIG directory\n" + UNEXPECTED, 1),
    ("to get ready in place of a value", "PREPARE\nPREPARE\n", "GETCONFIG directory\n" + UNEXPECTED, 1),
    ("credentials in place of a value", "PREPARE\nCREDS user word\n", "GETCONFIG directory\n" + UNEXPECTED, 1),
    ("a name to export to in place of a value", "PREPARE\nEXPORT a\n", "GETCONFIG directory\n" + UNEXPECTED, 1),
    ("an error in place of a value", "PREPARE\nERROR no such setting\n", "GETCONFIG directory\n", 1),
    ("an error", "ERROR\nGETCOST\n", "", 1),
    ("credentials without a name", "PREPARE\nCREDS\n", "GETCONFIG directory\n", 1),
    ("a word that is no message in place of a value", "PREPARE\nBOO\n", "GETCONFIG directory\n", 1),
]

NO_END = [
    ("nothing", "", "", 0),
    ("half a word", "GETCOST\nGETCO", "COST 100\n", 0),
    ("a line without its end", "GETCOST\nGETCOST", "COST 100\n", 0),
]


@table([(name, *row) for name, *row in GETS_READY + ANSWERS + OUT_OF_PLACE + NO_END])
def a_host_is_answered_line_by_line(room, says, lines, status):
    for size in (1, 7, 4096):
        room.write("a file", "content")
        expect(served(room, says, size), Done(status, "VERSION 1\n" + lines, ""), f"in pieces of {size} bytes")


def case_each_line_is_answered_before_the_next_one_comes(room):
    process = room.start([ANNEX_REMOTE_DIR])
    expect(process.stdout.readline(), b"VERSION 1\n", "the first line")
    for says, answer in ((b"EXTENSIONS INFO\n", b"EXTENSIONS \n"), (b"PREPARE\n", b"GETCONFIG directory\n"),
                         (b"VALUE d\n", b"PREPARE-SUCCESS\n"), (b"GETCOST\n", b"COST 100\n"),
                         (b"BOO\n", b"UNSUPPORTED-REQUEST\n"),
                         (b"CHECKPRESENT WORM--a\n", b"CHECKPRESENT-FAILURE WORM--a\n")):
        process.stdin.write(says[:-1])
        process.stdin.flush()
        time.sleep(0.02)
        process.stdin.write(says[-1:])
        process.stdin.flush()
        expect(process.stdout.readline(), answer, f"the answer to {says}")
    expect(finish(process), Done(0, "", ""), "the end")


def case_a_line_of_131072_bytes_is_taken_and_a_longer_one_is_not(room):
    line = "EXTENSIONS ".ljust(LINE, "x")
    expect(served(room, line + "\n", 4096), Done(0, "VERSION 1\nEXTENSIONS \n", ""), "as long as it may be")
    expect(served(room, line + "x\n", 4096), Done(1, "VERSION 1\n", ""), "one byte more")


def case_a_content_stands_in_the_folders_of_its_key(room):
    # The folders are the first six hexadecimal digits of the MD5 digest of the key without its chunk.
    room.write("new", "content")
    keys = {
        "WORM-s3--there": "d/ed5/b32/WORM-s3--there",
        "WORM-s3-S2-C1--there": "d/ed5/b32/WORM-s3-S2-C1--there",
        "SHA256E-s0--e3b0c44298fc1c149afbf4c8996fb92427ae41e4649b934ca495991b7852b855":
            "d/f87/4d5/SHA256E-s0--e3b0c44298fc1c149afbf4c8996fb92427ae41e4649b934ca495991b7852b855",
        "MD5--x": "d/7c9/31f/MD5--x",
        # What a file's name can't hold is spelled by & and %.
        "URL--http://x": "d/35a/24d/URL--http&c%%x",
    }
    says = READY + "".join(f"TRANSFER STORE {key} new\n" for key in keys)
    said = "VERSION 1\n" + IS_READY + "".join(f"TRANSFER-SUCCESS STORE {key}\n" for key in keys)
    expect(served(room, says, 4096), Done(0, said, ""))
    for key, file in keys.items():
        expect(room.text(file), "content", f"the content of {key}, at {file}")
    key = "URL--http://h/a&b%20c:d"
    served(room, READY + f"TRANSFER STORE {key} new\n", 4096)
    names = [name for _, _, files in os.walk(room.path("d")) for name in files]
    require("URL--http&c%%h%a&ab&s20c&cd" in names, f"{key} has its file's name, among {names}")


@table([("nothing", 0), ("one step", 65_536), ("one more than a step", 65_537), ("many steps", 300_001)])
def a_content_is_kept_and_given_back_whole(room, size):
    content = bytes((7 * n + n // 13) % 256 for n in range(size))
    room.write("new", content)
    says = READY + "TRANSFER STORE WORM--a new\nTRANSFER RETRIEVE WORM--a out\n"
    said = "VERSION 1\n" + IS_READY + "TRANSFER-SUCCESS STORE WORM--a\nTRANSFER-SUCCESS RETRIEVE WORM--a\n"
    expect(served(room, says, 4096), Done(0, said, ""))
    require(room.read("out") == content, "the file has the content")


def case_a_store_replaces_a_content_whole_and_one_that_fails_leaves_it(room):
    room.write("old", "old")
    room.write("new", "a new content")
    room.mkdir("folder")
    says = READY + "TRANSFER STORE WORM--a old\nTRANSFER STORE WORM--a none\nTRANSFER STORE WORM--a folder\n"
    said = ("VERSION 1\n" + IS_READY + "TRANSFER-SUCCESS STORE WORM--a\nTRANSFER-FAILURE STORE WORM--a no such file\n"
            "TRANSFER-FAILURE STORE WORM--a disk failed\n")
    expect(served(room, says, 4096), Done(0, said, ""))
    served(room, READY + "TRANSFER RETRIEVE WORM--a out\n", 4096)
    expect(room.text("out"), "old", "the content after two stores that failed")
    served(room, READY + "TRANSFER STORE WORM--a new\nTRANSFER RETRIEVE WORM--a out\n", 4096)
    expect(room.text("out"), "a new content", "the content after another store")


def case_a_disk_that_fails_is_told(room):
    room.write("new", "content")
    # What is no file is where the content belongs.
    room.mkdir("d/ed5/b32/WORM-s3--there/full")
    room.mkdir("out")
    requests = (("TRANSFER RETRIEVE WORM-s3--there x", "TRANSFER-FAILURE RETRIEVE WORM-s3--there disk failed"),
                ("CHECKPRESENT WORM-s3--there", "CHECKPRESENT-UNKNOWN WORM-s3--there disk failed"),
                ("REMOVE WORM-s3--there", "REMOVE-FAILURE WORM-s3--there disk failed"),
                ("TRANSFER STORE WORM-s3--there new", "TRANSFER-FAILURE STORE WORM-s3--there disk failed"),
                ("TRANSFER STORE WORM--a new", "TRANSFER-SUCCESS STORE WORM--a"),
                ("TRANSFER RETRIEVE WORM--a out", "TRANSFER-FAILURE RETRIEVE WORM--a disk failed"))
    says = READY + "".join(request + "\n" for request, _ in requests)
    said = "VERSION 1\n" + IS_READY + "".join(answer + "\n" for _, answer in requests)
    expect(served(room, says, 4096), Done(0, said, ""))


def case_words_print_or_are_refused(room):
    expect(room.run([ANNEX_REMOTE_DIR, "--version"]), Done(0, "annex-remote-dir 0.1.0\n", ""), "--version")
    done = room.run([ANNEX_REMOTE_DIR, "--help"])
    expect((done.status, done.err), (0, ""), "--help")
    require("directory" in done.out, "the help names the setting")
    for words in (["help"], ["--help", "x"], [""], ["-h"], [b"\xff"]):
        done = room.run([ANNEX_REMOTE_DIR, *words], input="PREPARE\n")
        expect((done.status, done.out), (2, ""), f"{words}")
