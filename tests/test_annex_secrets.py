"""`annex-special` over encrypted remotes whose keys or files are wrong, and what it shows of secrets: nothing."""

import base64
import hmac
import os
import random
import signal
import stat
import subprocess
import time

from annexed import ANNEX_SPECIAL, Annex
from collection import directory, milgroez, path_without
from gpg_home import with_gpg
from harness import environment, expect, limits, require, run, table

MARK = "what nobody else may read"
TEN = {f"file {number}": f"{number}: {MARK}\n" for number in range(10)}


class Encrypted(Annex):
    """A repository whose encrypted remote `kept` git-annex fills. `words` name the remote's folder, for plain clones."""

    def __init__(self, room, home, kind, *settings, files=None):
        super().__init__(room)
        self.env["GNUPGHOME"] = home.folder
        self.add(files or TEN)
        self.words = kind(self, *settings)

    def fill(self):
        self.well("git", "annex", "copy", "-q", "--to", "kept")

    def kept(self, *words):
        return self.run(ANNEX_SPECIAL, "kept", *words)

    def restore(self):
        """Restores into the folder `out`, from a plain clone and without git-annex."""
        clone = self.room.path("clone")
        if not self.room.has("clone"):
            self.well("git", "clone", "-q", self.top, clone)
        env = {**self.env, "PATH": path_without(self)}
        return run([ANNEX_SPECIAL, "kept", "restore", self.room.path("out"), *self.words], env=env, cwd=clone)

    def restored(self):
        return {name: self.room.text(f"out/{name}") for name in os.listdir(self.room.mkdir("out"))}


def contents_below(top):
    """The contents of all files below, by their full names."""
    contents = {}
    for folder, _, names in os.walk(top):
        for name in names:
            if os.path.isfile(f"{folder}/{name}"):  # and no link to content that isn't there
                with open(f"{folder}/{name}", "rb") as file:
                    contents[f"{folder}/{name}"] = file.read()
    return contents


def key_id(home, name):
    """The id that git-annex notes of a key."""
    return home.well("--with-colons", "--list-keys", name).split("pub:")[1].split(":")[3]


@limits(300)
@table([
    ("of the cipher", "hybrid", "gpg can't decrypt the cipher of kept: wrong passphrase"),
    ("of contents", "sharedpubkey", "gpg can't decrypt what kept has: wrong passphrase"),
])
@with_gpg
def a_wrong_passphrase_is_told_and_nothing_is_written(room, home, encryption, sentence):
    home.make_key("three", "the right words")
    home.answer("the right words")
    annex = Encrypted(room, home, directory, f"encryption={encryption}", "keyid=three")
    annex.fill()
    home.answer("other words")
    expect(annex.restore(), (2, told(annex, 10), f"annex-special: {sentence}\n"), "a restore")
    expect(contents_below(room.path("out")), {}, "what is written")
    home.answer("the right words")
    expect(annex.restore(), (0, "restore: 10 keys: 10 restored\n", ""), "a restore with the right one")
    expect(annex.restored(), TEN, "what is restored")


LOST = "gpg can't decrypt the cipher of kept, which is encrypted to {}: decryption failed: No secret key"


@limits(300)
@table([
    ("of a hybrid cipher", "hybrid", LOST),
    ("of a cipher for names", "pubkey", LOST),
    ("of contents alone", "sharedpubkey", "gpg can't decrypt anything that kept has: decryption failed: No secret key"),
])
@with_gpg
def a_lost_secret_key_is_told_and_nothing_is_written(room, home, encryption, sentence):
    annex = Encrypted(room, home, directory, f"encryption={encryption}", "keyid=one")
    annex.fill()
    before = contents_below(room.path("contents"))
    home.lose("one")
    said = f"annex-special: {sentence.format(key_id(home, 'one'))}\n"
    done = annex.restore()
    expect((done.status, done.err), (2, said), "a restore")
    expect(contents_below(room.path("out")), {}, "what is written")
    done = annex.kept("verify", "--repair-from", "here")
    expect((done.status, done.err), (2, said), "a repair")
    expect(contents_below(room.path("contents")) == before, True, "whether the remote is as before")
    if encryption == "sharedpubkey":
        expect(annex.kept("check").out, "check: 10 keys: 10 present\n", "a check, which needs no secret key")


@limits(300)
@with_gpg
def case_the_passphrase_of_another_cipher_is_told_and_nothing_is_dropped_for_it(room, home):
    annex = Encrypted(room, home, directory, "encryption=shared")
    annex.fill()
    before = contents_below(room.path("contents"))
    cipher = base64.b64decode(setting(annex, "cipher"))
    other = f"cipher={base64.b64encode(cipher[:256] + cipher[256:][::-1].strip()).decode()}"
    said = "annex-special: gpg can't decrypt anything that kept has: decryption failed: Bad session key\n"
    for words in (["verify", "--repair-from", "here"], ["restore", room.path("out")]):
        done = annex.kept(*words, "--set", other)
        expect((done.status, done.err), (2, said), words[0])
    done = annex.kept("verify", "--repair-from", "here", "--set", other, "file 1")
    line = "no key here decrypts it: decryption failed: Bad session key"
    expect(done.out, f"failed {annex.key('file 1')} file 1: {line}\nverify: 1 key: 1 failed\n", "a repair of one")
    expect(contents_below(room.path("contents")) == before, True, "whether the remote is as before")
    expect(contents_below(room.path("out")), {}, "what is written")


@limits(300)
@with_gpg
def case_a_lost_public_key_is_told_and_nothing_is_stored(room, home):
    annex = Encrypted(room, home, directory, "encryption=sharedpubkey", "keyid=two")
    identity = key_id(home, "two")
    home.lose("two")
    home.well("--delete-keys", "two")
    done = annex.kept("copy")
    require(done.err.startswith("annex-special: gpg does not encrypt for kept: "), f"what is told: {done.err}")
    require(identity in done.err and done.status == 2, f"what is told: {done}")
    expect(contents_below(room.path("contents")), {}, "what is stored")


def flipped(content, place):
    return content[:place] + bytes([content[place] ^ 255]) + content[place + 1:]


# Files that are wrong in each way: what becomes of the encrypted file.
WRONG = {
    "cut": lambda content: content[:len(content) // 2],
    "cut at its end": lambda content: content[:-1],
    "empty": lambda content: b"",
    "head": lambda content: flipped(content, 2),
    "middle": lambda content: flipped(content, 1500),
    "other": lambda content: b"no encrypted file\n" * 100,
    "salt": lambda content: flipped(content, 9 if content[0] == 0x8C else 40),  # of a passphrase, or a key's session key
}
SWAPPED = ["swapped 1", "swapped 2"]


@limits(300)
@table([
    ("by a passphrase", "shared", []),
    ("to a key", "pubkey", ["keyid=one"]),
    ("by a passphrase, in chunks", "hybrid", ["keyid=one", "chunk=2kB"]),
])
@with_gpg
def cut_off_changed_and_swapped_files_are_found_and_repaired(room, home, encryption, settings):
    numbers = random.Random(1)
    names = [*WRONG, *SWAPPED, "whole"]
    files = {name: base64.b64encode(numbers.randbytes(3000)).decode() for name in names}
    annex = Encrypted(room, home, directory, f"encryption={encryption}", *settings, files=files)
    annex.fill()
    stored = {name: stored_file(annex, home, annex.key(name)) for name in names}
    for name, change in WRONG.items():
        overwrite(stored[name], change)
    first, second = (open(stored[name], "rb").read() for name in SWAPPED)
    overwrite(stored[SWAPPED[0]], lambda content: second)
    overwrite(stored[SWAPPED[1]], lambda content: first)
    done = annex.kept("verify")
    keys = {annex.key(name): name for name in names}
    words = {keys[line.split(" ")[1]]: line.split(" ")[0] for line in done.out.splitlines()[:-1]}
    expect((done.status, words), (1, dict.fromkeys([*WRONG, *SWAPPED], "damaged")), "a verify")
    done = annex.restore()
    expect((done.status, annex.restored()), (1, {"whole": files["whole"]}), "what a restore puts in place")
    expect(annex.kept("verify", "--repair-from", "here").out.splitlines()[0], "verify: 10 keys: 9 repaired, 1 verified", "a repair")
    annex.well("git", "annex", "fsck", "-q", "--from", "kept")
    expect((annex.restore().status, annex.restored()), (0, files), "what a restore puts in place after it")


def plain_cipher(annex, home):
    cipher = base64.b64decode(setting(annex, "cipher"))
    if setting(annex, "encryption") == "shared":
        return cipher
    annex.room.write("cipher", cipher)
    return home.well("-q", "--decrypt", annex.room.path("cipher")).encode()


def stored_file(annex, home, key):
    """The file that git-annex made in the remote of this content, or of its first chunk, as its page on encryption says."""
    naming = plain_cipher(annex, home)[:256 if setting(annex, "encryption") in ("shared", "hybrid") else None]
    names = [key, key.replace("--", "-S2000-C1--", 1)]
    hidden = {f"GPGHMACSHA1--{hmac.new(naming, name.encode(), 'sha1').hexdigest()}" for name in names}
    found = [path for path in contents_below(annex.room.path("contents")) if os.path.basename(path) in hidden]
    expect(len(found), 1, f"how many files of {key} are in the remote")
    return found[0]


def overwrite(path, change):
    os.chmod(path, 0o644)
    with open(path, "rb") as file:
        content = file.read()
    with open(path, "wb") as file:
        file.write(change(content))


def setting(annex, name):
    """A setting of the remote, as git-annex's log has it."""
    words = annex.well("git", "show", "git-annex:remote.log").split("\n")[0].split(" ")
    return [word.partition("=")[2] for word in words if word.startswith(f"{name}=")][0]


# A gpg that hangs when it has decrypted a few contents.
HANGING = """
case "$*" in
  *--passphrase-fd*--decrypt*)
    echo >> "{count}"
    if [ "$(wc -l < "{count}")" -gt 4 ]; then touch "{hangs}"; sleep 600; fi ;;
esac
exec gpg "$@"
"""


@limits(300)
@with_gpg
def case_what_a_killed_run_has_decrypted_is_closed_to_others_and_the_next_run_removes_it(room, home):
    files = {f"file {number}": f"{number}: {MARK}\n" * 50 for number in range(3)}
    annex = Encrypted(room, home, directory, "encryption=shared", "chunk=500B", files=files)
    annex.fill()
    annex.well("git", "annex", "drop", "-q", ".")
    names = {"count": room.path("count"), "hangs": room.path("hangs")}
    annex.well("git", "config", "gpg.program", room.script("bin/hanging", HANGING.format(**names)))
    for words in (["get"], ["restore", room.path("out")]):
        for name in names.values():
            if os.path.exists(name):
                os.unlink(name)
        kill_when_it_hangs(annex, words, names["hangs"])
        left = [path for path, content in contents_below(room.path()).items() if MARK.encode() in content]
        require(left, "nothing was decrypted at that time")
        for path in left:
            require("/plain/" in path, f"what is decrypted lies in {path}")
            folder = path[:path.index("/plain/") + len("/plain")]
            modes = [stat.S_IMODE(os.stat(name).st_mode) for name in (path, folder)]
            expect(modes, [0o600, 0o700], f"the rights of {path} and of its folder")
        expect(annex.kept("check").out, "check: 3 keys: 3 present\n", "the next run")
        left = [path for path, content in contents_below(room.path()).items() if MARK.encode() in content]
        expect(left, [], "what is left of it")


def kill_when_it_hangs(annex, words, hangs):
    """Starts a command, and kills it with all that it started once its gpg hangs."""
    process = subprocess.Popen(
        [ANNEX_SPECIAL, "kept", *words, "-J1"], cwd=annex.top, env=environment(annex.env), start_new_session=True,
        stdout=subprocess.DEVNULL, stderr=subprocess.DEVNULL,
    )
    while not os.path.exists(hangs) and process.poll() is None:
        time.sleep(0.05)
    os.killpg(process.pid, signal.SIGKILL)
    process.wait()


# A program that notes all words and environments that are there, and the files of annex-special, before it goes on.
NOTING = """
cat /proc/[0-9]*/cmdline /proc/[0-9]*/environ >> "{noted}" 2> /dev/null
find "{folder}" -type f ! -path "*/plain/*" -exec cat {{}} + >> "{noted}" 2> /dev/null
exec {program} "$@"
"""


@limits(300)
@table([
    ("of a cipher that is encrypted", "hybrid", ["keyid=three"]),
    ("of a shared cipher", "shared", []),
])
@with_gpg
def nothing_secret_is_in_the_process_list_in_files_or_in_what_is_printed(room, home, encryption, settings):
    words = base64.b64encode(os.urandom(15)).decode()  # others' processes are looked at too
    home.make_key("three", words)
    home.answer(words)
    # The first chunk has the whole mark.
    annex = Encrypted(room, home, milgroez, f"encryption={encryption}", *settings, "chunk=28B", files=dict(list(TEN.items())[:3]))
    annex.fill()
    annex.well("git", "annex", "drop", "-q", ".")
    own, noted = f"{annex.top}/.git/annex-special", room.path("noted")
    remote = os.path.realpath(room.path("bin/git-annex-remote-milgroez"))
    os.unlink(room.path("bin/git-annex-remote-milgroez"))
    room.script("bin/git-annex-remote-milgroez", NOTING.format(noted=noted, folder=own, program=remote))
    annex.well("git", "config", "gpg.program", room.script("bin/noting", NOTING.format(noted=noted, folder=own, program="gpg")))
    said = [annex.kept("get", "--json", "--journals", room.mkdir("journals"))]
    said += [annex.kept("verify", "--verbose"), annex.kept("drop", "--record"), annex.kept("copy", "--json")]
    expect([done.status for done in said], [0, 0, 0, 0], f"how they ended: {said}")
    annex.well("git", "annex", "fsck", "-q", "--from", "kept")
    shown = {**contents_below(own), **contents_below(room.path("contents")), **contents_below(room.path("journals"))}
    shown.update({noted: room.read("noted"), "what is printed": "".join(done.out + done.err for done in said).encode()})
    cipher = plain_cipher(annex, home)
    halves = cipher[:256], cipher[256:].strip()
    secrets = [words.encode(), *halves, base64.b64encode(cipher)[:300], *(half.hex().encode() for half in halves)]
    for name, content in shown.items():
        require(not any(secret in content for secret in secrets), f"a secret is in {name}")
        require(name == noted or MARK.encode() not in content, f"a content is in {name}")
    require(b"--passphrase-fd" in shown[noted] and b"annex-keep 1" in shown[noted], "the processes and files were not noted")


def told(annex, count):
    """What a restore that was broken off at once prints."""
    return "" if setting(annex, "encryption") == "hybrid" else f"restore: {count} keys: {count} not done\n"
