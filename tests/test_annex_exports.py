"""annex-special over remotes to which git-annex exported trees."""

import os

from annexed import ANNEX_SPECIAL, Annex
from collection import path_without, read
from harness import TOP, as_text, environment, expect, limits, require, run, table

EXPORT = TOP / "examples/export-remote.sh"
# It ends git-annex at the second request to rename, where there is a folder `.cut` beside its own.
CUT = '    RENAMEEXPORT)\n      if [ -d "$dir.cut" ] && ! rm "$dir.cut/once"; then kill -9 "$PPID"; exit; fi\n'
# No line of a task can name these.
UNSENDABLE = ["tab\there", as_text(b"caf\xe9")]
ODD = {
    "a": b"one", " b ": b"two", "in/a b": b"three", "in/deep/-c": b"four", "--all": b"five", "star*": b"six",
    "caf\u00e9": b"seven", "empty": b"", "unlocked": b"eight", "again": b"one", ".hidden": b"nine", "in/tail\r": b"ten",
}


class Exported(Annex):
    """A repository with a remote `site`, to which trees can be exported."""

    def __init__(self, room, type="external"):
        super().__init__(room)
        self.site = room.mkdir("site")
        room.script("bin/git-annex-remote-exporting", EXPORT.read_text().replace("    RENAMEEXPORT)\n", CUT))
        words = {"external": ["externaltype=exporting"], "directory": []}[type]
        words += [f"type={type}", f"directory={self.site}", "encryption=none", "exporttree=yes"]
        self.well("git", "annex", "initremote", "-q", "site", *words)
        self.words = ["--set", f"directory={self.site}"]

    def commit(self, files, backend="SHA256E"):
        for name, content in files.items():
            if os.path.islink(f"{self.top}/{name}"):
                os.unlink(f"{self.top}/{name}")
            self.room.write(f"repository/{name}", content)
        names = [f"./{name}" for name in files]
        self.well("git", "-c", "annex.dotfiles=true", "annex", "add", "-q", f"--backend={backend}", "--", *names)
        self.well("git", "commit", "-qm", "files")

    def export(self):
        self.well("git", "annex", "export", "-q", "HEAD", "--to=site")

    def site_does(self, *words, folder=None, env=None):
        """Runs annex-special over the remote."""
        return run([ANNEX_SPECIAL, "site", *words], env={**self.env, **(env or {})}, cwd=folder or self.top)

    def clone_without(self, name="clone"):
        """A plain clone, and the environment in which there is no git-annex."""
        self.well("git", "clone", "-q", self.top, self.room.path(name))
        return {"folder": self.room.path(name), "env": {"PATH": path_without(self)}}


def expect_files(folder, files):
    expect({name: read(f"{folder}/{name}") for name in files}, files, "the files")


@limits(300)
@table([
    ("an external remote", "external", UNSENDABLE),
    ("type=directory", "directory", []),
])
def an_exported_tree_is_checked_verified_got_and_restored(room, type, unsendable):
    annex = Exported(room, type)
    files = {**ODD, **{name: name.encode("utf-8", "surrogateescape") for name in UNSENDABLE}}
    annex.commit(files)
    annex.commit({"hash by sha1": b"eleven"}, "SHA1")
    annex.well("git", "annex", "unlock", "-q", "unlocked")
    room.write("repository/git's own", "no key\n")
    os.symlink("git's own", f"{annex.top}/link")
    annex.well("git", "-c", "annex.largefiles=nothing", "add", "git's own", "link")
    annex.well("git", "commit", "-qam", "git's own")
    annex.export()
    here = {name: content for name, content in files.items() if name not in unsendable}
    keys, failed = len(files), len(unsendable)  # two have the same content, and there is one by SHA1
    told = f"{failed} failed, " if failed else ""
    for command, word in (("check", "present"), ("verify", "verified")):
        done = annex.site_does(command)
        expect((done.status, done.out.splitlines()[-1]), (int(failed > 0), f"{command}: {keys} keys: {told}{keys - failed} {word}"))
        expect(done.out.count("its name in the export can't be sent on a line"), failed, f"names that {command} can't send")
    annex.well("git", "annex", "drop", "-q", "--force", ".")
    expect(annex.site_does("get").out.splitlines()[-1], f"get: {keys} keys: {told}{keys - failed} got")
    expect_files(annex.top, here)
    annex.well("git", "annex", "fsck", "-q", *([f"--exclude={name}" for name in unsendable]))
    clone, out = annex.clone_without(), room.path("out")
    expect(annex.site_does("restore", out, *annex.words, **clone).out.splitlines()[-1], f"restore: {keys} keys: {told}{keys - failed} restored")
    expect_files(out, {**here, "hash by sha1": b"eleven", "git's own": b"no key\n"})
    expect(annex.site_does("restore", *annex.words, **clone).status, int(failed > 0), "a restore into the clone")
    expect_files(clone["folder"], here)


@limits(300)
def case_names_follow_what_was_renamed_and_deleted_and_old_contents_are_absent(room):
    annex = Exported(room, "directory")
    annex.commit({"a": b"one", "b": b"two", "c": b"three"})
    old = annex.key("c")
    annex.export()
    annex.well("git", "mv", "a", "moved")
    annex.well("git", "rm", "-q", "c")
    annex.commit({"b": b"changed"})
    annex.export()
    expect(annex.site_does("check").out, "check: 2 keys: 2 present\n", "a check")
    expect(annex.site_does("check", "--key", old), (0, "check: 1 key: 1 absent\n", ""), "the key of a deleted file")
    out = room.path("out")
    expect(annex.site_does("restore", out, *annex.words, **annex.clone_without()).out, "restore: 2 keys: 2 restored\n", "a restore")
    expect_files(out, {"moved": b"one", "b": b"changed"})


@limits(300)
def case_an_export_that_was_cut_off_is_asked_by_both_trees_and_loses_nothing(room):
    annex = Exported(room)
    before = {"a": b"one", "b": b"two", "c": b"three", "d": b"four"}
    annex.commit(before)
    annex.export()
    for name in "ab":
        annex.well("git", "mv", name, f"{name} moved")
    annex.commit({"c": b"changed"})
    room.write("site.cut/once", "")
    done = annex.run("git", "annex", "export", "HEAD", "--to=site")
    require(done.status != 0 and not room.has("site.cut/once"), f"git-annex was not ended: {done}")
    expect(len(set(os.listdir(annex.site)) & before.keys()), 3, "how many names are left")
    said = f"failed {annex.key('c')} c: exported trees differ at c: what is there may be other content\n"
    expect(annex.site_does("check"), (1, f"{said}check: 4 keys: 1 failed, 3 present\n", ""), "a check of the new tree")
    annex.well("git", "checkout", "-q", "HEAD~1")
    annex.well("git", "annex", "drop", "-q", "--force", ".")
    expect(annex.site_does("verify").out, "verify: 4 keys: 4 verified\n", "a verify of the old tree")
    expect(annex.site_does("get").out, "get: 4 keys: 4 got\n", "a get of the old tree")
    expect_files(annex.top, before)
    annex.well("git", "checkout", "-q", "-")
    annex.well("rm", "-r", f"{annex.site}.cut")
    annex.export()
    expect(annex.site_does("check").out, "check: 4 keys: 4 present\n", "a check when it is complete")
    expect(annex.site_does("verify").out, "verify: 4 keys: 4 verified\n", "a verify when it is complete")


@limits(300)
def case_contents_without_a_digest_are_unverified_and_need_a_word_to_be_put_in_place(room):
    annex = Exported(room, "directory")
    annex.commit({"a": b"one"})
    annex.commit({"w": b"two"}, "WORM")
    annex.export()
    key = annex.key("w")
    annex.well("git", "annex", "drop", "-q", "--force", ".")
    expect(annex.site_does("verify").out, "verify: 2 keys: 1 unverified, 1 verified\n", "a verify")
    said = f"unverified {key} w: its key has no digest; --unverified takes it"
    expect(annex.site_does("get"), (1, f"{said}\nget: 2 keys: 1 got, 1 unverified\n", ""), "a get")
    require(not os.path.exists(f"{annex.top}/w"), "what is unverified was put in place")
    clone, out = annex.clone_without(), room.path("out")
    done = annex.site_does("restore", out, *annex.words, **clone)
    require(done.status == 1 and done.out.startswith(f"{said}; the log has it nowhere else\n"), f"a restore: {done}")
    expect(os.listdir(out), ["a"], "what was restored")
    expect(annex.site_does("restore", "--unverified", out, *annex.words, **clone).status, 0, "a restore with --unverified")
    expect_files(out, {"a": b"one", "w": b"two"})
    expect(annex.site_does("get", "--unverified").out.splitlines()[0], "get: 1 key: 1 got", "a get with --unverified")
    expect_files(annex.top, {"w": b"two"})


@limits(300)
def case_another_content_under_a_name_is_damaged_and_not_put_in_place(room):
    annex = Exported(room, "directory")
    annex.commit({"a": b"one", "b": b"two"})
    annex.export()
    os.rename(f"{annex.site}/a", f"{annex.site}/b")
    room.write("site/a", "")
    for command, words in (("verify", ()), ("restore", (room.path("out"),))):
        done = annex.site_does(command, *words)
        require(done.status == 1 and f"damaged {annex.key('a')} a: size 0" in done.out, f"an empty file: {done}")
        require(f"damaged {annex.key('b')} b: hash " in done.out, f"a swapped file: {done}")
    expect(os.listdir(room.mkdir("out")), [], "what was put in place")


@limits(300)
def case_objects_beside_the_tree_are_found_by_their_keys(room):
    annex = Exported(room, "directory")
    annex.commit({"a": b"one"})
    annex.export()
    annex.commit({"b": b"two"})
    key = annex.key("b")
    folder = annex.well("git", "annex", "examinekey", key, r"--format=.git/annex/objects/${hashdirlower}${key}").strip()
    room.write(f"site/{folder}/{key}", "two")
    words = ["--set", "annexobjects=yes"]
    expect(annex.site_does("check").out, "check: 2 keys: 1 absent, 1 present\n", "without the setting")
    out = room.path("out")
    expect(annex.site_does("restore", out, *words, *annex.words, **annex.clone_without()).out, "restore: 2 keys: 2 restored\n")
    expect_files(out, {"a": b"one", "b": b"two"})


@limits(300)
def case_what_two_repositories_exported_is_found_by_the_trees_of_both(room):
    annex = Exported(room, "directory")
    annex.commit({"a": b"one", "b": b"two"})
    other = room.path("other")
    annex.well("git", "clone", "-q", annex.top, other)
    env = environment(annex.env)
    for words in (["init", "-q", "other"], ["enableremote", "-q", "site", f"directory={annex.site}"], ["get", "-q"]):
        require(run(["git", "annex", *words], env=env, cwd=other).status == 0, f"git annex {words} failed")
    annex.well("git", "rm", "-q", "b")
    annex.well("git", "commit", "-qm", "without b")
    annex.export()
    require(run(["git", "annex", "export", "-q", "HEAD", "--to=site"], env=env, cwd=other).status == 0, "the other export failed")
    annex.well("git", "fetch", "-q", other, "git-annex:refs/remotes/other/git-annex")
    expect(annex.site_does("check", "--all").out, "check: 2 keys: 2 present\n", "a check of the keys of both trees")


@limits(300)
def case_only_git_annex_changes_an_export(room):
    annex = Exported(room, "directory")
    annex.commit({"a": b"one"})
    said = "annex-special: site has exporttree=yes: only `git annex export` changes what is in it\n"
    for words in (["copy"], ["drop"], ["verify", "--repair-from", "here"]):
        expect(annex.site_does(*words), (2, "", said), " ".join(words))
    expect(annex.site_does("check"), (0, "check: 1 key: 1 absent\n", ""), "a check before the first export")
    said = "annex-special: site has importtree=yes: others write there too, and what they write is not known here\n"
    expect(annex.site_does("check", "--set", "importtree=yes"), (2, "", said), "a remote that others write to")
