"""`annex-special` over encrypted remotes that git-annex filled, and git-annex over what `annex-special` copied."""

import os

from annexed import ANNEX_SPECIAL, Annex
from collection import Sixty, directory, folder_of, milgroez
from gpg_home import with_gpg
from harness import expect, limits, table
from test_restore import expect_restored

SHARED = ["encryption=shared"]
HYBRID = ["encryption=hybrid", "keyid=one", "keyid+=two"]
PUBKEY = ["encryption=pubkey", "keyid=one", "keyid+=two"]
SHARED_PUBKEY = ["encryption=sharedpubkey", "keyid=one", "keyid+=two"]
KINDS = [
    ("shared, type=directory", directory, SHARED, []),
    ("shared in chunks, annex-remote-dir", milgroez, SHARED, ["mac=HMACSHA512", "chunk=2kB"]),
    ("hybrid in chunks, type=directory", directory, HYBRID, ["mac=HMACSHA224", "chunk=2kB"]),
    ("pubkey, annex-remote-dir", milgroez, PUBKEY, ["mac=HMACSHA256"]),
    ("sharedpubkey in chunks, type=directory", directory, SHARED_PUBKEY, ["mac=HMACSHA384", "chunk=2kB"]),
]
FILES = {f"in {number % 2}/{number}": f"{number}\n" * (number * 500) for number in range(6)}


def make_remote(annex, home, kind, settings, name="kept"):
    """A remote that both keys open. git-annex takes one key at first, and further ones later."""
    words = kind(annex, *[word for word in settings if not word.startswith("keyid+=")], name=name)
    added = [word for word in settings if word.startswith("keyid+=")]
    if added:
        annex.well("git", "annex", "enableremote", "-q", name, f"directory={annex.room.path(folder_of(name))}", *added)
    return words


@limits(600)
@table(KINDS)
@with_gpg
def a_clone_is_filled_byte_for_byte(room, home, kind, encryption, settings):
    annex = Sixty(room)
    annex.env["GNUPGHOME"] = home.folder
    words = make_remote(annex, home, kind, encryption + settings)
    lacking = annex.fill("kept")
    clone = annex.clone()
    home.lose("one")
    done = annex.without(clone, "kept", "restore", *words)
    expect_restored(annex, done, lacking, "restored")
    expect(sorted(annex.differing(clone)), lacking, "files that differ")
    done = annex.without(clone, "kept", "check", *words)
    expect((done.status, done.out), (0, f"check: {annex.count()} keys: {annex.count()} present\n"), "a check")


@limits(600)
@table(KINDS)
@with_gpg
def what_is_copied_git_annex_gets_and_what_it_stored_is_got_verified_and_dropped(room, home, kind, encryption, settings):
    annex = Annex(room)
    annex.env["GNUPGHOME"] = home.folder
    annex.add(FILES)
    make_remote(annex, home, kind, encryption + settings)
    done = annex.run(ANNEX_SPECIAL, "kept", "copy", "--record")
    expect(done, (0, "copy: 6 keys: 6 stored\n", ""), "a copy")
    annex.well("git", "annex", "fsck", "-q", "--from", "kept")
    expect(annex.run(ANNEX_SPECIAL, "kept", "copy").out, "copy: 0 keys\n", "a copy of nothing")
    annex.well("git", "annex", "drop", "-q", "--numcopies=1", ".")
    home.lose("two")
    annex.well("git", "annex", "get", "-q", ".")
    expect({name: room.text(f"repository/{name}") for name in FILES}, FILES, "what git-annex gets")
    annex.well("git", "annex", "drop", "-q", ".")
    expect(annex.run(ANNEX_SPECIAL, "kept", "verify"), (0, "verify: 6 keys: 6 verified\n", ""), "a verify")
    expect(annex.run(ANNEX_SPECIAL, "kept", "get"), (0, "get: 6 keys: 6 got\n", ""), "a get")
    annex.well("git", "annex", "fsck", "-q")
    expect({name: room.text(f"repository/{name}") for name in FILES}, FILES, "what was got")
    expect(annex.run(ANNEX_SPECIAL, "kept", "drop", "--record").out, "drop: 6 keys: 6 dropped\n", "a drop")
    stored = [name for _, _, names in os.walk(room.path("contents")) for name in names if name.startswith("GPG")]
    expect(stored, [], "what is left in the remote")


@limits(300)
@with_gpg
def case_a_copy_goes_from_one_encrypted_remote_to_another(room, home):
    annex = Annex(room)
    annex.env["GNUPGHOME"] = home.folder
    annex.add(FILES)
    make_remote(annex, home, milgroez, [*HYBRID, "chunk=3kB"])
    make_remote(annex, home, directory, PUBKEY, name="second")
    annex.well("git", "annex", "move", "-q", "--to", "kept")
    done = annex.run(ANNEX_SPECIAL, "second", "copy", "--from", "kept", "--record")
    expect(done, (0, "copy: 6 keys: 6 stored\n", ""), "a copy")
    annex.well("git", "annex", "fsck", "-q", "--from", "second")
    annex.well("git", "annex", "get", "-q", "--from", "second", ".")
    expect({name: room.text(f"repository/{name}") for name in FILES}, FILES, "what git-annex gets")


# A remote that finds what it has by the state that it set, which git-annex keeps under the key that it gave out.
STATEFUL = """
getstate() { echo "GETSTATE $1"; IFS= read -r line; state=${line#VALUE}; state=${state# }; }
echo "VERSION 1"
while IFS= read -r line; do
  set -- $line
  case "$1" in
    EXTENSIONS) echo EXTENSIONS ;;
    INITREMOTE) echo INITREMOTE-SUCCESS ;;
    PREPARE) echo PREPARE-SUCCESS ;;
    CHECKPRESENT)
      getstate "$2"
      if [ -n "$state" ] && [ -f "$DIRECTORY/$state" ]; then echo "CHECKPRESENT-SUCCESS $2"
      else echo "CHECKPRESENT-FAILURE $2"; fi ;;
    TRANSFER)
      key=$3
      if [ "$2" = STORE ]; then
        cp "$4" "$DIRECTORY/named-$$-$key"
        echo "SETSTATE $key named-$$-$key"
      else
        getstate "$3"
        cp "$DIRECTORY/$state" "$4"
      fi
      echo "TRANSFER-SUCCESS $2 $key" ;;
    *) echo UNSUPPORTED-REQUEST ;;
  esac
done
"""


@limits(300)
@with_gpg
def case_a_state_that_git_annex_keeps_for_an_encrypted_key_is_handed_to_the_remote(room, home):
    annex = Annex(room)
    annex.env.update(GNUPGHOME=home.folder, DIRECTORY=room.mkdir("contents"))
    annex.add({"a": "one", "b": "two"})
    room.script("bin/git-annex-remote-stateful", STATEFUL)
    annex.well("git", "annex", "initremote", "--fast", "-q", "kept", "type=external", "externaltype=stateful", *SHARED)
    annex.well("git", "annex", "move", "-q", "--to", "kept", "a")
    expect(annex.run(ANNEX_SPECIAL, "kept", "get"), (0, "get: 1 key: 1 got\n", ""), "a get of what git-annex stored")
    told = "annex-special: git-annex does not know what the remote set: states and URLs, 1 in all\n"
    expect(annex.run(ANNEX_SPECIAL, "kept", "copy", "--record", "b"), (0, "copy: 1 key: 1 stored\n", told), "a copy")
    expect(annex.run(ANNEX_SPECIAL, "kept", "verify"), (0, "verify: 2 keys: 2 verified\n", ""), "a verify of both")


@limits(300)
@with_gpg
def case_a_remote_that_is_the_same_as_another_has_its_encryption(room, home):
    annex = Annex(room)
    annex.env["GNUPGHOME"] = home.folder
    annex.add(FILES)
    make_remote(annex, home, directory, HYBRID)
    annex.well("git", "annex", "copy", "-q", "--to", "kept")
    words = ["type=directory", f"directory={room.path('contents')}"]
    annex.well("git", "annex", "initremote", "--fast", "-q", "second", "--sameas=kept", *words)
    expect(annex.run(ANNEX_SPECIAL, "second", "check"), (0, "check: 6 keys: 6 present\n", ""), "a check")
    expect(annex.run(ANNEX_SPECIAL, "second", "verify"), (0, "verify: 6 keys: 6 verified\n", ""), "a verify")


@limits(300)
@with_gpg
def case_an_encryption_that_is_not_known_is_refused_with_a_sentence(room, home):
    annex = Annex(room)
    annex.env["GNUPGHOME"] = home.folder
    annex.add({"a": "one"})
    directory(annex, *SHARED)
    sentences = {
        "encryption=strange": "kept has encryption=strange, which is not known here",
        "mac=HMACMD5": "kept has mac=HMACMD5, which is not known here",
        "cipher=": "kept has encryption=shared, and no cipher that can be read in git-annex's log",
        "cipher=YQo=": "the cipher of kept has 2 bytes, which can't be",
    }
    for setting, sentence in sentences.items():
        done = annex.run(ANNEX_SPECIAL, "kept", "copy", "--set", setting)
        expect(done, (2, "", f"annex-special: {sentence}\n"), setting)
    stored = [name for _, _, names in os.walk(room.path("contents")) for name in names]
    expect(stored, [], "what is in the remote")
