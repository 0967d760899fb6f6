"""`make install`, `make uninstall` and `make dist`, the manual pages and the completions."""

import hashlib
import os
import shutil
import tarfile
import tempfile
from pathlib import Path

from harness import ANNEX_REMOTE_DIR, SPECIAL, TOP, expect, limits, require, run, skip, table

PROGRAMS = {"SPECIAL": SPECIAL, "ANNEX_REMOTE_DIR": ANNEX_REMOTE_DIR}
REMOTES = ("annex-remote-dir", "annex-remote-mirror", "annex-remote-plain")
PAGES = sorted(path.name for path in (TOP / "man").iterdir())
COMPLETIONS = sorted(path.name for path in (TOP / "completions").iterdir())
BASH = ["bash", "-c", 'source "$1"; COMP_WORDS=("${@:3}"); COMP_CWORD=$(($# - 3)); "$2"; printf "%s\\n" "${COMPREPLY[@]}"', "bash"]


def need(program):
    if shutil.which(program) is None:
        skip(f"{program} isn't installed")


def make(target, room, *words):
    return run(["make", "-C", TOP, target, "PREFIX=/usr", f"DESTDIR={room.path('dest')}", *words], env=PROGRAMS)


def files(room):
    """All files and links below the folder of the install."""
    top = Path(room.path("dest"))
    return sorted(str(path.relative_to(top)) for path in top.rglob("*") if not path.is_dir())


def installed_completions():
    """Where each completion is installed: bash and fish look for a file with the command's name."""
    for name in COMPLETIONS:
        if name.startswith("_"):
            yield f"zsh/site-functions/{name}"
        elif name.endswith(".fish"):
            yield f"fish/vendor_completions.d/{name}"
        else:
            yield f"bash-completion/completions/{name.removesuffix('.bash')}"


def scripts():
    """The scripts of contrib/ and the modules that they use."""
    top = TOP / "contrib"
    return [str(path.relative_to(top)) for path in top.rglob("*") if path.is_file() and "__pycache__" not in path.parts]


def case_what_is_installed_is_all_taken_away_again(room):
    need("make")
    other = room.script("other", "exit 0\n")
    done = make("install", room, f"ANNEX_REMOTE_PLAIN={other}", f"ANNEX_REMOTE_MIRROR={other}")
    expect((done.status, done.err), (0, ""), "an install")
    programs = ["special", *REMOTES, "git-annex-remote-milgroez", "git-annex-remote-mirror"]
    programs += [name for name in scripts() if "/" not in name]
    share = [f"man/man1/{page}" for page in PAGES] + list(installed_completions()) + [f"milgroez/{name}" for name in scripts()]
    wanted = [f"usr/bin/{name}" for name in programs] + [f"usr/share/{name}" for name in share]
    expect(files(room), sorted(wanted), "what is installed")
    room.write("dest/usr/bin/other", "kept")
    expect(make("uninstall", room).status, 0, "an uninstall")
    expect(files(room), ["usr/bin/other"], "what is left")


def case_a_program_that_was_not_built_is_left_out_and_named(room):
    need("make")
    missing = room.path("missing")
    done = make("install", room, f"ANNEX_REMOTE_PLAIN={missing}", f"ANNEX_REMOTE_MIRROR={missing}")
    expect(done.status, 0, "an install")
    for name in ("annex-remote-plain", "annex-remote-mirror", "git-annex-remote-mirror"):
        require(f"usr/bin/{name}" not in files(room), f"{name} is there")
    for name in ("annex-remote-plain", "annex-remote-mirror"):
        require(f"there is no {name} at {missing}\nmake: 'make unproved' builds it" in done.err, f"{name} isn't named: {done.err}")


def case_a_program_without_proof_is_installed_and_said_to_be_one(room):
    need("make")
    mirror = room.script("out-unproved/annex-remote-mirror", "exit 0\n")
    done = make("install", room, f"ANNEX_REMOTE_MIRROR={mirror}")
    expect(done.status, 0, "an install")
    require("/usr/bin/annex-remote-mirror: NOT PROVED" in done.out, f"it isn't said: {done.out}")
    require("/usr/bin/special: NOT" not in done.out, f"special is said to be one: {done.out}")
    require("usr/bin/annex-remote-mirror" in files(room), "it isn't installed")


def case_a_proved_program_is_taken_before_one_without_proof(room):
    need("make")
    for place in ("crates/remote_dir_bin/out/remote_dir_bin", "out-unproved/annex-remote-dir", "out-unproved/special"):
        room.script(place, f"echo {place}\n")
    for folder in ("man", "completions", "contrib"):
        shutil.copytree(TOP / folder, room.path(folder))
    room.write("Makefile", (TOP / "Makefile").read_text())
    none = {"SPECIAL": None, "ANNEX_REMOTE_DIR": None, "ANNEX_REMOTE_PLAIN": None, "ANNEX_REMOTE_MIRROR": None}
    expect(room.run(["make", "install", "PREFIX=/usr", f"DESTDIR={room.path('dest')}"], env=none).status, 0, "an install")
    for name, place in (("annex-remote-dir", "crates/remote_dir_bin/out/remote_dir_bin"), ("special", "out-unproved/special")):
        expect(room.run([room.path(f"dest/usr/bin/{name}")]).out, f"{place}\n", name)


def case_an_install_twice_is_an_install(room):
    need("make")
    make("install", room)
    once = files(room)
    expect(make("install", room).status, 0, "the second install")
    expect(files(room), once, "what is installed")


def case_an_install_without_special_is_refused_and_says_what_builds_it(room):
    need("make")
    missing = room.path("missing")
    done = make("install", room, f"SPECIAL={missing}")
    expect(done.status, 2, "an install")
    for words in (f"there is no special at {missing}", "make unproved", "./test"):
        require(words in done.err, f"it doesn't say {words}: {done.err}")
    expect(files(room), [], "what is installed")


@limits(60)
def case_a_tarball_installs_without_the_toolchain(room):
    need("make")
    need("rt")
    remotes = {name: room.script(name, f"echo {name} 0.1.0\n") for name in ("annex-remote-plain", "annex-remote-mirror")}
    words = [f"{name}={file}" for name, file in {"special": SPECIAL, "annex-remote-dir": ANNEX_REMOTE_DIR, **remotes}.items()]
    done = room.run([TOP / "tools/dist", "--into", room.path("dist"), *words])
    expect(done.status, 0, f"a tarball: {done.err}")
    with tarfile.open(room.path("dist/milgroez-0.1.0.tar.gz")) as tar:
        tar.extractall(room.path())
    top = Path(room.path("milgroez-0.1.0"))
    listed = [line.split("  ", 1) for line in (top / "SHA256SUMS").read_text().splitlines()]
    there = sorted(str(path.relative_to(top)) for path in top.rglob("*") if path.is_file() and path.name != "SHA256SUMS")
    expect([name for _, name in listed], there, "the files with a sum")
    for sum_of_file, name in listed:
        expect(hashlib.sha256((top / name).read_bytes()).hexdigest(), sum_of_file, name)
    for name in ("README.md", "CHANGELOG.md", "NOTICE", "docs/MANUAL.md", "licences/sha2/LICENSE-MIT"):
        require(name in there, f"{name} isn't in the tarball")
    env = {"PATH": "/usr/bin:/bin", **dict.fromkeys(("SPECIAL", "ANNEX_REMOTE_DIR", "ANNEX_REMOTE_PLAIN", "ANNEX_REMOTE_MIRROR"))}
    done = run(["make", "-C", top, "install", "PREFIX=/usr", f"DESTDIR={room.path('dest')}"], env=env)
    expect((done.status, done.err), (0, ""), "an install from the tarball")
    require("NOT PROVED" not in done.out, f"something is said not to be proved: {done.out}")
    for name in ("special", *REMOTES, "annex-special"):
        expect(run([room.path(f"dest/usr/bin/{name}"), "--version"], env=env), (0, f"{name} 0.1.0\n", ""), name)


def case_a_tarball_has_no_program_without_proof(room):
    words = [f"{name}={room.script(f'out-unproved/{name}', 'exit 0')}" for name in ("special", *REMOTES)]
    done = room.run([TOP / "tools/dist", "--into", room.path("dist"), *words])
    expect((done.status, done.err), (1, "tools/dist: there is no proved special: run ./test first\n"), "a tarball")


def case_the_installed_programs_run_under_their_names(room):
    need("make")
    make("install", room)
    for name, version in [
        ("special", "special 0.1.0"),
        ("annex-remote-dir", "annex-remote-dir 0.1.0"),
        ("git-annex-remote-milgroez", "annex-remote-dir 0.1.0"),
        ("annex-special", "annex-special 0.1.0"),
    ]:
        expect(run([room.path(f"dest/usr/bin/{name}"), "--version"]), (0, f"{version}\n", ""), name)


@table([(name, name) for name in ("special", *REMOTES, "annex-special")])
def each_program_has_a_page_and_completions(room, name):
    require(f"{name}.1" in PAGES, "it has no page")
    for completion in (f"{name}.bash", f"_{name}", f"{name}.fish"):
        require(completion in COMPLETIONS, f"there is no {completion}")


@table([(page, page) for page in PAGES])
def groff_has_no_warning_of_the_page(room, page):
    need("groff")
    expect(run(["groff", "-man", "-Tutf8", "-ww", "-z", TOP / "man" / page]), (0, "", ""))


@table([(page, page) for page in PAGES])
def mandoc_has_no_warning_of_the_page(room, page):
    need("mandoc")
    expect(run(["mandoc", "-T", "lint", "-W", "warning", TOP / "man" / page]), (0, "", ""))


@table([(option, option) for option in (
    "--program", "--uuid", "--jobs", "--chunk", "--name", "--gitdir", "--keep", "--journal", "--work", "--starts",
    "--again",
)])
def each_option_of_run_is_in_the_help_the_page_and_the_completions(room, option):
    require(option in room.special("run", "--help").out, "it isn't in the help")
    for name, spelling in [
        ("man/special.1", option.replace("-", "\\-")),
        ("completions/special.bash", option),
        ("completions/_special", option),
        ("completions/special.fish", f"-l {option[2:]} "),
    ]:
        require(spelling in (TOP / name).read_text(), f"it isn't in {name}")


@table([(answer, answer) for answer in (
    "stored", "dropped", "renamed", "got", "present", "absent", "failed", "size", "hash", "nofile", "filefault", "nochild", "unknown",
    "unsupported", "notprepared", "ended", "memory", "foul", "unsent", "startfault",
)])
def each_answer_is_in_the_help_and_the_manual(room, answer):
    words = room.special("run", "--help").out.replace(",", " ").split()
    require(answer in words, "it isn't in the help")
    manual = (TOP / "docs/MANUAL.md").read_text()
    require(f"`{answer}`" in manual or f"`{answer} " in manual, "it isn't in the manual")


@table([(f"status {status}", str(status)) for status in range(8)])
def each_status_is_in_the_help_and_the_manual(room, status):
    lines = [line.split(" ")[0] for line in room.special("--help").out.splitlines()]
    require(status in lines, "it isn't in the help")
    require(f"\n| {status} | " in (TOP / "docs/MANUAL.md").read_text(), "it isn't in the manual")


def case_the_help_fits_a_terminal_of_120_columns(room):
    for words in (["--help"], *([command, "--help"] for command in ("check", "info", "init", "run", "audit", "recover", "rehearse"))):
        longest = max(len(line) for line in room.special(*words).out.splitlines())
        require(longest <= 120, f"{words}: a line has {longest} columns")


@table([(name, name) for name in COMPLETIONS])
def the_shell_reads_the_completion(room, name):
    shell = "fish" if name.endswith(".fish") else "zsh" if name.startswith("_") else "bash"
    need(shell)
    expect(run([shell, "-n", TOP / "completions" / name]), (0, "", ""))


@table([
    ("an option", ["special", "run", "--st"], "--starts"),
    ("a command", ["special", "in"], "info\ninit"),
    ("no option of another command", ["special", "audit", "--st"], ""),
])
def special_is_completed_in_bash(room, words, offered):
    done = run([*BASH, TOP / "completions/special.bash", "_special", *words])
    expect(done, (0, f"{offered}\n", ""))


@table([
    ("a command", ["annex-special", "folder", "ch"], "check"),
    ("a command after an option with a value", ["annex-special", "--jobs", "8", "folder", "d"], "drop"),
    ("an option", ["annex-special", "--jou"], "--journals"),
    ("a file with a space", ["annex-special", "folder", "get", "a f"], "a file"),
])
def annex_special_is_completed_in_bash(room, words, offered):
    room.write("a file")
    done = room.run([*BASH, TOP / "completions/annex-special.bash", "_annex_special", *words])
    expect(done, (0, f"{offered}\n", ""))


@table([(name, name) for name in REMOTES])
def a_remote_is_completed_in_bash(room, name):
    function = f"_{name.replace('-', '_')}"
    for words, offered in ((["--v"], "--version"), ([""], "--help\n--version"), (["--help", "--v"], "")):
        expect(run([*BASH, TOP / f"completions/{name}.bash", function, name, *words]).out, f"{offered}\n", f"{words}")


@table([
    ("an option", "special", "special run --st", "--starts"),
    *((f"an option of {name}", name, f"{name} --v", "--version") for name in REMOTES),
    ("a command", "special", "special aud", "audit"),
    ("a command of annex-special", "annex-special", "annex-special --jobs 8 folder d", "drop"),
])
def fish_completes(room, file, line, offered):
    need("fish")
    done = room.run(
        ["fish", "--no-config", "-c", f"source {TOP}/completions/{file}.fish; complete -C '{line}'"],
        env={"HOME": room.path(), "XDG_DATA_HOME": room.path(), "XDG_CONFIG_HOME": room.path()},
    )
    expect([line.split("\t")[0] for line in done.out.splitlines()], [offered])


@table([
    ("of special", "special run --st", "special run --starts"),
    *((f"of {name}", f"{name} --v", f"{name} --version") for name in REMOTES),
])
def zsh_completes_an_option(room, line, whole):
    need("zsh")
    with tempfile.NamedTemporaryFile("w", suffix=".zsh", dir=room.path()) as script:
        script.write(ZSH)
        script.flush()
        words = ["zsh", "-f", script.name, os.fspath(TOP / "completions"), line, whole]
        done = room.run(words, env={"HOME": room.path(), "TERM": "dumb"})
    require(whole in done.out, f"what the terminal shows: {done.out!r}")


# A zsh in a terminal of its own, to which the words and a tab are typed.
ZSH = r"""
zmodload zsh/zpty
zpty shell zsh -f -i
zpty -w shell "PS1=; fpath=($1 \$fpath); autoload -U compinit; compinit -u -D; print RE''ADY"
zpty -r -m shell shown '*READY*'
zpty -n -w shell "$2"$'\t'
zpty -r -m shell shown "*$3*"
print -r -- $shown
zpty -d shell
"""
