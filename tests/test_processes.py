"""Several processes at once: no content is damaged or lost, and what is said to be stored is stored."""

import os
import shutil
import signal
import subprocess
import time

from harness import ANNEX_REMOTE_DIR, SPECIAL, UUID, expect, finish, limits, require, run, skip, start, table
from kits import Kit, contents, signed, unfinished

SMALL, MIDDLE, LARGE = 200_000, 5_000_000, 20_000_000

# What is stored is not waited for to be on the disk, which changes nothing of what others see, and takes time.
WITHOUT_SYNC = {"ANNEX_REMOTE_DIR_SYNC": "0"}


def piece(number, size):
    """A content that is another one for each number, and doesn't repeat itself."""
    seed = bytes((number * 37 + at * 11) % 256 for at in range(1021 + 2 * number))
    return (seed * (size // len(seed) + 1))[: size + number]


def read(path):
    with open(path, "rb") as file:
        return file.read()


@limits(60)
@table([
    ("2 processes, one key, 0.2 MB", 2, True, SMALL, 80),
    ("8 processes, one key, 0.2 MB", 8, True, SMALL, 50),
    ("2 processes, different keys, 0.2 MB", 2, False, SMALL, 40),
    ("8 processes, different keys, 0.2 MB", 8, False, SMALL, 17),
    ("2 processes, one key, 20 MB", 2, True, LARGE, 6),
    ("8 processes, one key, 20 MB", 8, True, LARGE, 2),
    ("2 processes, different keys, 20 MB", 2, False, LARGE, 4),
    ("8 processes, different keys, 20 MB", 8, False, LARGE, 1),
])
def processes_that_store_at_once_damage_nothing(room, processes, is_one_key, size, rounds):
    directory = room.mkdir("directory")
    pieces = [piece(number, size) for number in range(processes)]
    files = [room.write(f"content {number}", content) for number, content in enumerate(pieces)]
    kits = [Kit(directory, env=WITHOUT_SYNC) for _ in range(processes)]
    damaged = 0
    for turn in range(rounds):
        keys = [f"WORM--t{turn}" + ("" if is_one_key else f"-{number}") for number in range(processes)]
        for kit, key, file in zip(kits, keys, files):
            kit.begin_store(key, file)
        for kit, key in zip(kits, keys):
            kit.end_store(key)
        kits[turn % processes].check(keys[0])
        kits[turn % processes].retrieve(keys[0], room.path("got"))
        stored = {name: read(path) for name, path in contents(directory).items()}
        expect(sorted(stored), sorted(set(keys)), f"the keys that are there in round {turn}")
        if is_one_key:
            whole = [stored[keys[0]] in pieces, room.read("got") == stored[keys[0]]]
        else:
            whole = [stored[key] == content for key, content in zip(keys, pieces)] + [room.read("got") == pieces[0]]
        damaged += not all(whole)
        for key in set(keys):
            kits[0].remove(key)
    for kit in kits:
        kit.close()
    expect(damaged, 0, f"how many of {rounds} rounds left a damaged content")
    expect(unfinished(directory), [], "what is left of contents that were put together")


def case_a_store_that_fails_leaves_nothing_where_contents_are_put_together(room):
    directory = room.mkdir("directory")
    kit = Kit(directory)
    # a folder can be opened, and not read
    kit.begin_store("WORM--a", room.mkdir("folder"))
    kit.hear_start("TRANSFER-FAILURE STORE WORM--a ")
    kit.close()
    expect(unfinished(directory), [], "what is left")
    expect(contents(directory), {}, "the contents")


# Names of files, and whether a store that is cut off leaves a file of such a name.
LEFT = [
    ("1.2.1-WORM--x", True), ("417.1764622432000000.4-SHA256E-s3--a&c%.b", True), ("0.0.2-WORM-s3-m4-S2-C1--x", True),
    ("old", False), ("thesis.txt", False), ("notes-WORM--x", False), ("1.2-WORM--x", False), ("1.2.9-WORM--x", False),
    ("1.2.0-WORM--x", False), ("01.2.3-WORM--x", False), ("1.2.3.4-WORM--x", False), ("WORM--x", False), ("1.2.3-thesis.txt", False),
    ("1.2.3-WORM--a:b", False), ("1.2.3-WORM--a&b", False), ("1.2.3-WORM--x&", False), ("1.2.3-", False), ("-WORM--x", False),
]


def left_long_ago(room, name, hours=25):
    """A file that nobody has written to for so long, in the folder of what is put together."""
    path = room.write(f"directory/tmp/{name}", "left")
    os.utime(path, (time.time() - hours * 3600,) * 2)


def case_only_files_that_a_store_left_a_day_ago_are_removed(room):
    directory = room.mkdir("directory")
    for name, _ in LEFT:
        left_long_ago(room, name)
    left_long_ago(room, "3.2.1-WORM--new", 23)
    room.mkdir("directory/tmp/5.2.1-WORM--folder")
    os.symlink(room.write("elsewhere"), room.path("directory/tmp/6.2.1-WORM--link"))
    os.utime(room.path("directory/tmp/6.2.1-WORM--link"), (0, 0), follow_symlinks=False)
    Kit(directory).close()
    stay = [name for name, is_left in LEFT if not is_left]
    expect(unfinished(directory), sorted([*stay, "3.2.1-WORM--new", "5.2.1-WORM--folder", "6.2.1-WORM--link"]), "what is left")


def case_files_of_another_folder_are_not_removed_through_a_link(room):
    directory = room.mkdir("directory")
    path = room.write("mine/1.2.1-WORM--x")
    os.utime(path, (0, 0))
    os.symlink(room.path("mine"), room.path("directory/tmp"))
    Kit(directory).close()
    expect(os.listdir(room.path("mine")), ["1.2.1-WORM--x"], "what is left")


def run_words(room, directory, program=ANNEX_REMOTE_DIR, number=0):
    """The words of a run over the folder, with a kept file of its own for each number."""
    kept = room.write(f"kept.{number}", f"annex-keep 1\nconfig directory {signed(directory)}\n")
    return [SPECIAL, "run", "--program", program, "--uuid", UUID, "--work", room.path(), "--keep", kept]


def case_a_key_twice_in_a_run_of_two_jobs_holds_the_second_content(room):
    directory = room.mkdir("directory")
    one, two = room.write("one", piece(1, SMALL)), room.write("two", piece(2, SMALL))
    for turn in range(3):
        tasks = f"store WORM--a{turn} {one}\nstore WORM--a{turn} {two}\n"
        done = run([*run_words(room, directory), "--jobs", "2"], input=tasks)
        expect(done, (0, "1 stored\n2 stored\n", ""))
    for name, path in contents(directory).items():
        require(read(path) == piece(2, SMALL), f"{name} has another content")
    expect(unfinished(directory), [], "what is left")


@limits(60)
def case_two_runs_of_the_same_keys_at_once_store_each_of_them_whole(room):
    directory = room.mkdir("directory")
    keys = [f"WORM--k{number}" for number in range(25)]
    files = [room.write(f"content {number}", piece(number, SMALL)) for number in range(25)]
    tasks = "".join(f"store {key} {file}\n" for key, file in zip(keys, files))
    words = [[*run_words(room, directory, number=number), "--jobs", "4"] for number in range(2)]
    processes = [start(one) for one in words]
    for process in processes:
        process.stdin.write(tasks.encode())
    for process in processes:
        expect(finish(process), (0, "".join(f"{n} stored\n" for n in range(1, 26)), ""), "what a run says")
    stored = contents(directory)
    expect(sorted(stored), sorted(keys), "the keys that are there")
    damaged = [key for number, key in enumerate(keys) if read(stored[key]) != piece(number, SMALL)]
    expect(damaged, [], "the damaged keys")


def begin_and_kill(room, task, directory, is_stopped):
    """Kills a run while its remote puts a content together, and gives the remote, which goes on or is stopped.

    None where the remote was too quick.
    """
    left = unfinished(directory)
    room.write("pid")
    killed = start(run_words(room, directory, room.path("remote")), stdout=subprocess.DEVNULL, cwd=room.path(), env=WITHOUT_SYNC)
    killed.stdin.write(task.encode())
    killed.stdin.close()
    while unfinished(directory) == left and killed.poll() is None:
        pass
    remote = int(room.text("pid"))
    if is_stopped:
        send(remote, signal.SIGSTOP)
    is_begun = unfinished(directory) != left
    killed.kill()
    killed.wait()
    if is_begun:
        return remote
    go_on_to_end(remote)
    return None


def sizes_of_unfinished(directory):
    """How long the files are that are being put together, as far as they are still there."""
    sizes = {}
    for name in unfinished(directory):
        try:
            sizes[name] = os.path.getsize(os.path.join(directory, "tmp", name))
        except FileNotFoundError:
            pass
    return sizes


def send(process, number):
    """Sends the signal to a process, which may have ended."""
    try:
        os.kill(process, number)
    except ProcessLookupError:
        pass


def go_on_to_end(process):
    """Lets a process go on that may be stopped and is no child of this one, and waits until it has ended."""
    send(process, signal.SIGCONT)
    while True:
        try:
            with open(f"/proc/{process}/stat") as file:
                if file.read().rpartition(")")[2].split()[0] == "Z":
                    return
        except FileNotFoundError:
            return
        time.sleep(0.002)


@limits(60)
def case_a_run_that_is_killed_and_started_again_at_once_stores_the_whole_content(room):
    room.script("remote", f"echo $$ >pid\nexec {ANNEX_REMOTE_DIR}\n")
    directory = room.mkdir("directory")
    content = piece(3, MIDDLE)
    file = room.write("content", content)
    damaged, turn = [], 0
    while turn < 25:
        key = f"WORM--t{turn}"
        task = f"store {key} {file}\n"
        # the remote of the killed run goes on at once, or when the next has begun its store, or after it
        when = ["at once", "beside it", "beside it", "beside it", "after it"][turn % 5]
        remote = begin_and_kill(room, task, directory, when != "at once")
        if remote is None:
            continue
        sizes = sizes_of_unfinished(directory)
        again = start(run_words(room, directory, number=1), env=WITHOUT_SYNC)
        again.stdin.write(task.encode())
        again.stdin.close()
        again.stdin = None
        if when == "beside it":
            while sizes_of_unfinished(directory) == sizes and again.poll() is None:
                pass
            send(remote, signal.SIGCONT)
        done = finish(again)
        expect(done, (0, "1 stored\n", ""), f"what the second run of round {turn} says")
        is_whole = read(contents(directory)[key]) == content
        go_on_to_end(remote)
        if not is_whole or read(contents(directory)[key]) != content:
            damaged.append(turn)
        os.unlink(contents(directory)[key])
        turn += 1
    expect(damaged, [], "the rounds that left a damaged content")
    expect(unfinished(directory), [], "what is left of contents that were put together")


# Two commands with one kept file.

SETTING = """
@BEGIN@
echo "VERSION 1"
while IFS= read -r line; do
  case "${line%% *}" in
    EXTENSIONS) echo EXTENSIONS ;;
    PREPARE) echo PREPARE-SUCCESS ;;
    *)
      @NOTE@
      echo 'SETSTATE WORM--a @STATE@'
      case "${line%% *}" in
        INITREMOTE) echo INITREMOTE-SUCCESS ;;
        *) echo "CHECKPRESENT-SUCCESS ${line#CHECKPRESENT }" ;;
      esac ;;
  esac
done
"""
WAITS = "echo >begun; while [ ! -e go ]; do sleep 0.01; done"


def remote(room, name, begin=":", note=":"):
    """A remote that sets a state of its name, and does something when it is started and when it is asked."""
    room.script(name, SETTING.replace("@BEGIN@", begin).replace("@NOTE@", note).replace("@STATE@", name))
    return f"./{name}"


def command(room, which, program, kept="kept"):
    words = {
        "run": ["run", "--program", program, "--uuid", UUID, "--keep", kept],
        "init": ["init", program, UUID, kept, "colour=red"],
    }[which]
    return [SPECIAL, *words]


DONE = {"run": (0, "1 present\n", ""), "init": (0, "initialized\n", "")}
KEPT = {
    "run": "annex-keep 1\nconfig colour blue\nstate WORM--a {}\n",
    "init": "annex-keep 1\nconfig colour red\nstate WORM--a {}\n",
}
TASK = b"check WORM--a\n"


def wait_for(path):
    while not os.path.exists(path):
        time.sleep(0.005)


@table([(f"{second} beside {first}, {where}", first, second, kept)
        for first in ("run", "init") for second in ("run", "init")
        for where, kept in [("where the file is there", True), ("where it isn't there yet", False)]])
def the_second_with_one_kept_file_is_refused_before_any_start(room, first, second, is_kept):
    if is_kept:
        room.write("kept", "annex-keep 1\nconfig colour blue\n")
    one = room.start(command(room, first, remote(room, "one", note=WAITS)))
    one.stdin.write(TASK)
    one.stdin.close()
    one.stdin = None
    wait_for(room.path("begun"))
    refused = room.run(command(room, second, remote(room, "two", begin="echo >started")), input=TASK)
    started = room.has("started")
    room.write("go")
    done = finish(one)
    expect(refused, (6, "", "special: file failed\n"), "what the second says")
    expect(started, False, "whether the second starts its remote")
    expect(done, DONE[first], "what the first says")
    wanted = KEPT[first].format("one")
    expect(room.text("kept"), wanted if is_kept else wanted.replace("config colour blue\n", ""), "the kept file")
    # once it has ended, the next has the file
    expect(room.run(command(room, second, "./two"), input=TASK), DONE[second], "what the next says")


@table([("run", "run"), ("init", "init")])
def a_killed_one_is_no_hindrance_to_the_next_with_its_kept_file(room, which):
    room.write("kept", "annex-keep 1\nconfig colour blue\n")
    killed = room.start(command(room, which, remote(room, "one", note=WAITS)))
    killed.stdin.write(TASK)
    killed.stdin.close()
    wait_for(room.path("begun"))
    killed.kill()
    killed.wait()
    # as if it had been killed when it wrote the file
    room.write("kept.new", "annex-keep 1\nconfig col")
    done = room.run(command(room, which, remote(room, "two")), input=TASK)
    expect(done, DONE[which], "what the next says")
    expect(room.text("kept"), KEPT[which].format("two"), "the kept file")
    expect(room.has("kept.new"), False, "whether the other file is left")


def give_task(process):
    """Gives the run its input; one that was refused may have ended before it reads any."""
    try:
        process.stdin.write(TASK)
        process.stdin.close()
    except BrokenPipeError:
        pass
    process.stdin = None


@limits(60)
def case_many_runs_with_one_kept_file_keep_it_whole(room):
    room.write("kept", "annex-keep 1\nconfig colour blue\n")
    program = remote(room, "one")
    processes = [room.start(command(room, "run", program)) for _ in range(8)]
    for process in processes:
        give_task(process)
    ends = {finish(process) for process in processes}
    require(DONE["run"] in ends, f"none of the runs is done: {ends}")
    expect(ends - {DONE["run"], (6, "", "special: file failed\n")}, set(), "other ends")
    expect(room.text("kept"), KEPT["run"].format("one"), "the kept file")


# git-annex as the host of two clones.


def annex_environment(room):
    """An environment in which git-annex finds the remote, and no settings but those of the room."""
    room.mkdir("home")
    os.makedirs(room.path("bin"), exist_ok=True)
    if not room.has("bin/git-annex-remote-milgroez"):
        os.symlink(os.path.realpath(ANNEX_REMOTE_DIR), room.path("bin/git-annex-remote-milgroez"))
    room.write("home/.gitconfig", "[user]\n\tname = a\n\temail = a@example.org\n[annex]\n\tautoupgraderepository = false\n")
    return {
        "HOME": room.path("home"),
        "XDG_CONFIG_HOME": room.path("home"),
        "PATH": room.path("bin") + ":" + os.environ["PATH"],
        "GIT_CONFIG_NOSYSTEM": "1",
    }


@limits(180)
def case_two_clones_that_copy_to_one_folder_at_once_lose_nothing(room):
    if not shutil.which("git-annex"):
        skip("git-annex isn't installed")
    env = annex_environment(room)
    directory = room.mkdir("directory")

    def well(where, *words):
        done = run(words, env=env, cwd=room.path(where))
        require(done.status == 0, f"{' '.join(words)} in {where}: status {done.status}\n{done.out}{done.err}")

    room.mkdir("a")
    well("a", "git", "init", "-q")
    well("a", "git", "annex", "init", "-q", "a")
    files = [f"file{number}" for number in range(40)]
    for number, name in enumerate(files):
        room.write(f"a/{name}", piece(number, SMALL))
    well("a", "git", "annex", "add", "-q", ".")
    well("a", "git", "commit", "-qm", "files")
    well("a", "git", "annex", "initremote", "-q", "folder", "type=external", "externaltype=milgroez",
         "encryption=none", f"directory={directory}")
    well(".", "git", "clone", "-q", "a", "b")
    well("b", "git", "annex", "init", "-q", "b")
    well("b", "git", "annex", "enableremote", "-q", "folder", f"directory={directory}")
    well("b", "git", "annex", "get", "-q", ".")
    for _ in range(2):
        copies = [start(["git", "annex", "copy", "--to", "folder", "--quiet"], env=env, cwd=room.path(where)) for where in "ab"]
        for copy in copies:
            done = finish(copy)
            require(done.status == 0, f"git annex copy: status {done.status}\n{done.out}{done.err}")
    # each believes the folder's word, and drops its own
    well("b", "git", "annex", "drop", "-q", ".")
    well("a", "git", "annex", "drop", "-q", ".")
    well("a", "git", "annex", "get", "-q", "--from", "folder", ".")
    lost = [name for number, name in enumerate(files) if room.read(f"a/{name}") != piece(number, SMALL)]
    expect(lost, [], "the files that were lost")
