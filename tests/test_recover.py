"""`special recover`: the answers of a run whose text was cut off, and what is kept of it.

What is wanted of each cut is made here of the lines that have ended, as docs/FORMATS.md explains them, and not by the program.
"""

import fcntl
import os

from harness import UUID, Done, expect

# A store in two chunks, a check that fails, and things that the remote sets.
REMOTE = """
echo "VERSION 1"
read -r line; echo EXTENSIONS
read -r line; echo "SETWANTED y"; echo "SETSTATE WORM--b t"; echo PREPARE-SUCCESS
while read -r line; do
    case "$line" in
        "TRANSFER STORE "*) set -- $line; echo "SETURLPRESENT $3 u"; echo "SETSTATE $3 s"; echo "TRANSFER-SUCCESS STORE $3" ;;
        *WORM--c*) echo "SETSTATE WORM--b"; echo "SETURLMISSING WORM--a v"; echo "CHECKPRESENT-UNKNOWN WORM--c too busy" ;;
        *) set -- $line; echo "$1-SUCCESS $2" ;;
    esac
done
"""

BEGAN = f"annex-keep 1\nconfig a 1\nwanted x\nurl WORM--a v\nchunks WORM-s6--k 1.000000s {UUID}:4 9\n"

TASKS = "store WORM-s6--k six\ncheck WORM--a\ncheck WORM--c\n"

WELL = {"stored", "got", "present", "dropped", "renamed"}


def a_run(room):
    """Does the tasks, and gives the text of the run, what was printed and what was kept."""
    room.script("remote.sh", REMOTE)
    room.write("six", "sixsix")
    room.write("keep", BEGAN)
    words = ["run", "--program", "./remote.sh", "--uuid", UUID, "--jobs", "1", "--chunk", "4", "--keep", "keep"]
    done = room.special(*words, "--journal", "journal", input=TASKS)
    expect(done, Done(1, "1 stored\n2 present\n3 unknown too busy\n", ""), "the run")
    return room.read("journal"), done.out, room.read("keep")


def answer_of(words, heard):
    """An answer of the text as `run` prints it: a number of an entry stands for what that line says after its key."""
    word, *rest = words
    return f"{word} {heard[int(rest[0])].split(' ', 2)[2]}" if word == "unknown" else " ".join(words)


def set_by(kept, message):
    """What a line of the remote sets."""
    word, *rest = message.split(" ", 2)
    if word == "SETWANTED":
        kept["wanted"] = {(): rest[0]}
    elif word == "SETSTATE":
        kept["state"].pop((rest[0],), None)
        kept["state"].update({(rest[0],): rest[1]} if rest[1:] else {})
    elif word == "SETURLPRESENT":
        kept["url"][tuple(rest)] = ""
    elif word == "SETURLMISSING":
        kept["url"].pop(tuple(rest), None)


def kept_text(kept):
    """The kept file that says so."""
    lines = ["annex-keep 1"]
    lines += [f"config {name} {value}" for (name,), value in sorted(kept["config"].items())]
    lines += [f"wanted {text}" for text in kept["wanted"].values()]
    lines += [f"state {key} {value}" for (key,), value in sorted(kept["state"].items())]
    lines += [f"url {key} {url}" for key, url in sorted(kept["url"])]
    lines += [f"chunks {key} {stamp} {who} {count}" for (key, who), (stamp, count) in sorted(kept["chunks"].items())]
    return "\n".join(lines) + "\n"


def began_with(lines):
    """What the lines `keep` of a text say, by kinds."""
    kept = {"config": {}, "wanted": {}, "state": {}, "url": {}, "chunks": {}}
    for line in lines:
        kind, *rest = line.split(" ")
        if kind == "wanted":
            kept[kind][()] = rest[0]
        elif kind == "url":
            kept[kind][tuple(rest)] = ""
        elif kind == "chunks":
            kept[kind][rest[0], rest[2]] = (rest[1], rest[3])
        else:
            kept[kind][rest[0],] = rest[1]
    return kept


def wanted_of(text):
    """What `recover` has to print of a text that was cut there, its status, and the kept file, or None where nothing was begun."""
    lines = text.decode().split("\n")[:-1]
    if "begin" not in lines:
        return Done(0, "", ""), None
    begin = lines.index("begin")
    given = [line.split(" ", 1) for line in lines[:begin] if " " in line]
    tasks = [rest for word, rest in given if word == "task"]
    stamp = int(next(rest for word, rest in given if word == "stamp"))
    kept = began_with([rest for word, rest in given if word == "keep"])
    answers, heard = {}, {}
    for place, line in enumerate(lines[begin + 1:]):
        _, word, *rest = line.split(" ")
        if word == "got":
            heard[place] = line.split(" ", 3)[3]
            set_by(kept, heard[place])
        elif word == "answer":
            answers[int(rest[0])] = answer_of(rest[1:], heard)
        elif word == "note":
            key = tasks[int(rest[0]) - 1].split(" ")[1]
            kept["chunks"][key, f"{UUID}:{rest[1]}"] = (f"{stamp // 10**6}.{stamp % 10**6:06}s", rest[2])
    said = [answers.get(task, "open") for task in range(1, len(tasks) + 1)]
    out = "".join(f"{task} {answer}\n" for task, answer in enumerate(said, 1))
    return Done(0 if set(said) <= WELL else 1, out, ""), kept_text(kept)


def expect_recovered(room, text, began, what):
    """What `recover` prints and keeps of the text, over a kept file with these bytes."""
    done, kept = wanted_of(text)
    room.write("cut", text)
    room.write("kept", began)
    expect(room.special("recover", "cut", "kept"), done, f"recover of {what}")
    expect(room.text("kept"), began if kept is None else kept, f"the kept file after {what}")


def case_a_text_that_is_cut_anywhere_gives_what_stands_in_it(room):
    text, out, kept = a_run(room)
    done, whole = wanted_of(text)
    expect((done.out, whole), (out, kept.decode()), "what is wanted of the whole text, and what the run left")
    ends = [at + 1 for at, byte in enumerate(text) if byte == 10]
    cuts = {cut for end in ends for cut in (end - 1, end, end + 1)} | set(range(0, len(text), 41))
    for cut in sorted(cut for cut in cuts if cut <= len(text)):
        expect_recovered(room, text[:cut], BEGAN, f"the first {cut} bytes")


def case_zero_bytes_at_the_end_are_passed_over(room):
    text, _, _ = a_run(room)
    half = text[: text.index(b"\n", len(text) // 2) + 1]
    done, kept = wanted_of(half)
    room.write("cut", half + bytes(4096))
    room.write("kept", BEGAN)
    expect((room.special("recover", "cut", "kept"), room.text("kept")), (done, kept))


def case_without_a_kept_file_it_prints_alone(room):
    text, out, kept = a_run(room)
    expect(room.special("recover", "journal"), Done(1, out, ""))
    expect(room.read("keep"), kept, "the kept file")


def case_a_kept_file_that_already_has_the_result_stays(room):
    text, out, kept = a_run(room)
    expect((room.special("recover", "journal", "keep"), room.read("keep")), (Done(1, out, ""), kept))


def case_a_kept_file_that_changed_since_is_left_alone(room):
    text, out, _ = a_run(room)
    for changed in (BEGAN + "url WORM--z u\n", BEGAN.replace("config a 1", "config a 2"), "annex-keep 1\n", "no kept file\n"):
        room.write("keep", changed)
        expect(room.special("recover", "journal", "keep"), Done(6, out, "special: keep changed\n"), f"recover over {changed}")
        expect(room.text("keep"), changed, "the kept file")


def case_a_kept_file_that_is_not_there_is_an_empty_one(room):
    room.script("remote.sh", REMOTE)
    words = ["run", "--program", "./remote.sh", "--uuid", UUID, "--jobs", "1", "--keep", "keep", "--journal", "journal"]
    expect(room.special(*words, input="check WORM--a\n").status, 0, "the status of the run")
    kept = room.read("keep")
    expect(room.special("recover", "journal", "other"), Done(0, "1 present\n", ""))
    expect(room.read("other"), kept, "the kept file that was made")


def case_while_another_process_holds_the_kept_file_it_prints_alone(room):
    text, out, kept = a_run(room)
    room.write("keep", BEGAN)
    with open(room.path("keep.lock"), "w", encoding="utf-8") as lock:
        fcntl.flock(lock, fcntl.LOCK_EX)
        expect(room.special("recover", "journal", "keep"), Done(6, out, "special: file failed\n"))
    expect(room.text("keep"), BEGAN, "the kept file")


def case_an_entry_that_is_not_allowed_changes_nothing(room):
    text, _, _ = a_run(room)
    lines = text.split(b"\n")
    begin = lines.index(b"begin")
    at = next(at for at, line in enumerate(lines) if line == b"0 claim 2 1") - begin - 1
    room.write("wrong", b"\n".join(lines[: begin + at + 1] + [b"0 claim 3 1"] + lines[begin + at + 2:]))
    room.write("keep", BEGAN)
    expect(room.special("recover", "wrong", "keep"), Done(1, f"wrong {at} 1\n", ""))
    expect(room.text("keep"), BEGAN, "the kept file")


def case_a_line_that_is_none_of_a_text_is_named(room):
    text, _, _ = a_run(room)
    lines = text.split(b"\n")
    for at in (0, 4, len(lines) - 3):
        room.write("wrong", b"\n".join(lines[:at] + [b"nonsense"] + lines[at + 1:]))
        room.write("keep", BEGAN)
        expect(room.special("recover", "wrong", "keep"), Done(3, "", f"special: line {at + 1}: entry\n"), f"line {at + 1}")
        expect(room.text("keep"), BEGAN, "the kept file")


def case_a_text_that_is_not_there_is_a_file_that_failed(room):
    room.write("keep", BEGAN)
    expect(room.special("recover", "journal", "keep"), Done(6, "", "special: file failed\n"))
    expect(room.text("keep"), BEGAN, "the kept file")


def case_the_text_stays_as_it_is_and_nothing_is_made_beside_it(room):
    text, _, _ = a_run(room)
    room.mkdir("texts")
    room.write("texts/journal", text)
    expect(room.special("recover", "texts/journal").status, 1, "the status")
    expect((room.read("texts/journal"), os.listdir(room.path("texts"))), (text, ["journal"]), "the folder of the text")
