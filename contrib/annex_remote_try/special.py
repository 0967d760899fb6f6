"""A run of `special` over several processes of the remote, through annex-remote-plain, where both are in PATH."""

import os
import shutil
import signal
import subprocess

from .bench import ADVICE, FAILS, PAGE, Fails, Skips, contents_differ, key_file, test
from .contents import COMPLETED, SHARED, WRONG
from .registers import UUID

KEYS, JOBS, SECONDS = 6, 4, 60
WANTED = ("stored", "present", "got", "dropped")


def kept_text(config):
    """The remote's settings as a kept file of special."""
    lines = [f"config {name} {value}\n" for name, value in sorted(config.items(), key=lambda pair: pair[0].encode())]
    return "annex-keep 1\n" + "".join(lines)


def run(bench, programs, tasks):
    """Runs the tasks: the answers, and what was said on standard error."""
    folder = bench.path("special")
    os.makedirs(folder, exist_ok=True)
    kept = os.path.join(folder, "kept")
    with open(kept, "w", encoding="utf-8", errors="surrogateescape") as out:
        out.write(kept_text(bench.registers.config))
    words = [programs[0], "run", "--program", programs[1], "--uuid", UUID, "--keep", kept, "--work", folder, "--gitdir",
             bench.registers.gitdir, "--jobs", str(JOBS)]
    process = subprocess.Popen(words, stdin=subprocess.PIPE, stdout=subprocess.PIPE, stderr=subprocess.PIPE,
                               cwd=bench.path("cwd"),
                               env={**os.environ, "ANNEX_REMOTE_PROGRAM": bench.program}, start_new_session=True)
    try:
        out, err = process.communicate("".join(f"{task}\n" for task in tasks).encode(), SECONDS)
    except subprocess.TimeoutExpired:
        raise Fails(ADVICE, f"`special run` took more than {SECONDS} seconds for {len(tasks)} tasks", "", "")
    finally:
        if process.poll() is None:
            os.killpg(process.pid, signal.SIGKILL)
            process.communicate()
    return [line.partition(" ")[2] for line in out.decode("utf-8", "replace").splitlines()], err.decode("utf-8",
                                                                                                        "replace").strip()


@test("special-run", f"special run does {KEYS * 4} tasks, {JOBS} at the same time", (*SHARED, "remove"))
def special_run(bench):
    programs = [shutil.which(name) for name in ("special", "annex-remote-plain")]
    if None in programs:
        raise Skips("special and annex-remote-plain aren't in PATH")
    if bench.registers.creds or any(" " in name or "\n" in value for name, value in bench.registers.config.items()):
        raise Skips("special keeps no creds")
    session, contents = bench.steady(), {}
    for at in range(KEYS):
        contents[bench.key(100000 + at)] = os.urandom(100000 + at)
    files = {key: (bench.file(key_file(key), content), bench.file(key_file(key))) for key, content in contents.items()}
    for key in contents:
        bench.require_absent(session, key)
        bench.stored[key] = session.number
    tasks = [f"store {key} {files[key][0]}" for key in contents] + [f"check {key}" for key in contents]
    tasks += [f"get {key} {files[key][1]}" for key in contents] + [f"drop {key}" for key in contents]
    answers, err = run(bench, programs, tasks)
    for key, task, answer in zip([*contents] * 4, tasks, answers):
        differs = contents_differ(contents[key], bench.content(files[key][1])) if answer == "got" else ""
        if differs:
            raise Fails(PAGE, f"`{task}` of special run: {differs}", COMPLETED, WRONG)
    wanted = [word for word in WANTED for _ in contents]
    for task, answer, word in zip(tasks, answers or [f"nothing, and {err}"] * len(tasks), wanted):
        if answer != word:
            raise Fails(ADVICE, f"special answers `{answer}` to `{task}`, with {JOBS} jobs at the same time",
                        "special takes no line that the page doesn't allow there, and git-annex takes some.", FAILS)
