"""annex-special in bare repositories, worktrees, submodules and adjusted branches, and over remotes by other names."""

import os

from annexed import ANNEX_SPECIAL, Annex
from collection import Sixty, directory, example, path_without
from harness import as_text, expect, limits, require, run


def special(annex, *words, cwd=None, env=None):
    return run([ANNEX_SPECIAL, *words], env={**annex.env, **(env or {})}, cwd=cwd or annex.top)


def filled(room, files=None):
    """A repository whose remote has all, and the words that name its folder."""
    annex = Annex(room)
    annex.add(files or {"a": "one", "in/b": "two"})
    words = directory(annex)
    annex.well("git", "annex", "copy", "-q", "--to", "kept")
    return annex, words


@limits(300)
def case_a_bare_repository_is_checked_and_restored_and_git_annex_finds_its_contents(room):
    annex, words = filled(room)
    bare = room.path("bare.git")
    annex.well("git", "clone", "-q", "--bare", annex.top, bare)
    expect(special(annex, "kept", "check", *words, cwd=bare).out, "check: 2 keys: 2 present\n", "a check")
    expect(special(annex, "kept", "restore", *words, cwd=bare).out, "restore: 2 keys: 2 restored\n", "a restore")
    require(run(["git", "annex", "init", "-q", "bare"], env=annex.env, cwd=bare).status == 0, "git annex init failed")
    require(run(["git", "annex", "fsck", "-q"], env=annex.env, cwd=bare).status == 0, "git annex fsck failed")
    expect(run(["git", "annex", "whereis", "--in=here", "--all"], env=annex.env, cwd=bare).out.count("[here]"), 2, "what is here")


@limits(300)
def case_git_annex_takes_a_restored_clone_as_its_own(room):
    annex = Sixty(room)
    words = directory(annex)
    annex.fill("kept")
    clone = annex.clone()
    expect(annex.without(clone, "kept", "restore", *words).status, 0, "a restore")
    for command in (["init", "-q", "clone"], ["fsck", "-q"]):
        done = run(["git", "annex", *command], env=annex.env, cwd=clone)
        require(done.status == 0, f"git annex {command[0]}: {done}")
    run(["git", "add", "-u"], env=annex.env, cwd=clone)
    expect(run(["git", "status", "--porcelain"], env=annex.env, cwd=clone).out, "", "what git says is changed")
    missing = run(["git", "annex", "find", "--not", "--in=here"], env=annex.env, cwd=clone).out
    expect(missing, "", "what git-annex says isn't here")


@limits(300)
def case_a_worktree_and_an_adjusted_branch_have_the_contents_of_their_repository(room):
    annex, _ = filled(room)
    tree = room.path("tree")
    annex.well("git", "worktree", "add", "-q", tree)
    expect(special(annex, "kept", "check", cwd=tree).out, "check: 2 keys: 2 present\n", "in a worktree")
    annex.well("git", "annex", "adjust", "-q", "--unlock")
    expect(special(annex, "kept", "check").out, "check: 2 keys: 2 present\n", "in an adjusted branch")
    annex.well("git", "annex", "drop", "-q", "--force", ".")
    expect(special(annex, "kept", "get").out, "get: 2 keys: 2 got\n", "a get there")
    expect(room.text("repository/in/b"), "two", "an unlocked file")
    expect(special(annex, "kept", "verify", "in", cwd=f"{annex.top}").out, "verify: 1 key: 1 verified\n", "a verify there")


@limits(300)
def case_a_submodule_is_a_repository_like_others(room):
    annex, words = filled(room)
    outer = room.mkdir("outer")
    adding = ["git", "-c", "protocol.file.allow=always", "submodule", "--quiet", "add", annex.top, "sub"]
    for command in (["git", "init", "-q"], adding):
        require(run(command, env=annex.env, cwd=outer).status == 0, f"{command} failed")
    expect(special(annex, "kept", "check", *words, cwd=f"{outer}/sub").out, "check: 2 keys: 2 present\n", "a check")
    expect(special(annex, "kept", "restore", *words, cwd=f"{outer}/sub").out, "restore: 2 keys: 2 restored\n", "a restore")
    require(run(["git", "annex", "init", "-q", "sub"], env=annex.env, cwd=f"{outer}/sub").status == 0, "git annex init failed")
    expect(room.text("outer/sub/in/b"), "two", "a file after git annex init")


@limits(300)
def case_a_remote_that_is_the_same_as_another_is_used_with_its_own_settings(room):
    annex = Annex(room)
    annex.add({"a": "one"})
    folder = room.mkdir("contents")
    annex.well("git", "annex", "initremote", "-q", "first", "type=directory", f"directory={folder}", "encryption=none")
    words = ["--sameas=first", "type=external", "externaltype=milgroez", f"directory={folder}", "encryption=none"]
    annex.well("git", "annex", "initremote", "-q", "second", *words)
    expect(special(annex, "second", "copy", "--record").out, "copy: 1 key: 1 stored\n", "a copy to the second")
    expect(annex.well("git", "annex", "find", "--in=first"), "a\n", "what the log has in the first, which is the same")
    expect(special(annex, "second", "check").out, "check: 1 key: 1 present\n", "a check of the second")


@limits(300)
def case_a_remote_that_is_not_enabled_here_is_found_by_its_name_or_uuid_in_the_log(room):
    annex, words = filled(room)
    uuid = annex.well("git", "config", "remote.kept.annex-uuid").strip()
    clone = room.path("clone")
    annex.well("git", "clone", "-q", annex.top, clone)
    for name in ("kept", uuid):
        expect(special(annex, name, "check", *words, cwd=clone).out, "check: 2 keys: 2 present\n", f"by {name}")
    other = room.mkdir("other")
    settings = ["type=directory", f"directory={other}", "encryption=none"]
    annex.well("git", "annex", "renameremote", "-q", "kept", "old")
    annex.well("git", "annex", "initremote", "-q", "new", *settings)
    annex.well("git", "annex", "renameremote", "-q", "old", "twin")
    run(["git", "fetch", "-q"], env=annex.env, cwd=clone)
    expect(special(annex, "twin", "check", *words, cwd=clone).out, "check: 2 keys: 2 present\n", "by a new name")
    said = "annex-special: git-annex knows no remote kept here\n"
    expect(special(annex, "kept", "check", cwd=clone).err, said, "by its old name")


@limits(300)
def case_a_repository_in_a_folder_whose_name_is_not_utf_8_is_worked_in(room):
    annex, words = filled(room)
    clone = room.path(as_text(b"caf\xe9 \xff"))
    annex.well("git", "clone", "-q", annex.top, clone)
    expect(special(annex, "kept", "restore", *words, cwd=clone).out, "restore: 2 keys: 2 restored\n", "a restore")
    settings = ["type=external", "externaltype=milgroez", f"directory={room.mkdir('second')}", "encryption=none"]
    for command in (["init", "-q", "clone"], ["initremote", "-q", "second", *settings]):
        require(run(["git", "annex", *command], env=annex.env, cwd=clone).status == 0, f"git annex {command[0]} failed")
    expect(special(annex, "second", "copy", "--record", cwd=clone).out, "copy: 2 keys: 2 stored\n", "a copy")
    expect(special(annex, "second", "verify", cwd=clone).out, "verify: 2 keys: 2 verified\n", "a verify")


@limits(300)
def case_a_checkout_and_keys_are_written_as_plain_files_and_other_files_are_left(room):
    annex = Sixty(room)
    words = directory(annex)
    annex.fill("kept")
    annex.well("git", "rm", "-q", "plain")
    annex.well("git", "commit", "-qm", "an old file")
    clone, out, keys = annex.clone(), room.path("out"), room.path("keys")
    room.write("out/with space", "mine")
    done = annex.without(clone, "kept", "restore", out, *words)
    said = f"left {annex.keys['with space']} with space: other content is in its place: with space\n"
    require(done.status == 1 and said in done.out, f"what is told: {done}")
    expect([name for name in annex.differing(out) if name != "plain"], ["with space"], "files that differ")
    others = room.text("out/with space"), room.text("out/git's own"), os.readlink(f"{out}/link")
    expect(others, ("mine", "no key\n", "git's own"), "what is no content of a key")
    require(not any(os.path.islink(os.fsencode(f"{out}/{name}")) for name in annex.files), "there are links")
    require(not os.path.exists(f"{out}/.annex-special"), "its own folder is left")
    done = annex.without(clone, "kept", "restore", keys, "--all", *words)
    require(done.status == 0, f"a restore of all keys: {done}")
    expect(len(os.listdir(keys)), annex.count(), "the files of keys")
    expect(room.text(f"keys/{annex.keys['plain']}"), as_text(annex.files["plain"]), "the key of a deleted file")


@limits(300)
def case_a_restore_ends_with_what_is_missing_and_where_the_log_says_it_is(room):
    annex, words = filled(room)
    annex.add({"c": "three"})
    clone = room.path("clone")
    annex.well("git", "clone", "-q", annex.top, clone)
    here = annex.well("git", "config", "annex.uuid").strip()
    done = special(annex, "kept", "restore", *words, cwd=clone, env={"PATH": path_without(annex)})
    said = f"missing {annex.key('c')} c: the log has it in {here} (here)\nrestore: 3 keys: 1 missing, 2 restored\n"
    expect(done, (1, said, ""))


@limits(300)
def case_credentials_that_git_annex_keeps_are_not_handed_over_and_the_remote_is_refused(room):
    annex = Annex(room)
    annex.add({"a": "one"})
    example(annex)
    done = special(annex, "kept", "check")
    said = "kept asks for its credentials mycreds, which git-annex keeps: they can't be handed to it here; use git-annex"
    expect((done.status, done.err), (2, f"annex-special: {said}\n"), "what is told")
    for folder, _, names in os.walk(f"{annex.top}/.git/annex-special"):
        for name in names:
            with open(f"{folder}/{name}", "rb") as file:
                require(b"something" not in file.read(), f"the password is in {folder}/{name}")
