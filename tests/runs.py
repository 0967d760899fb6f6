"""Runs of tasks over scripted children, and what is expected of each whatever the schedule."""

from harness import audit, expect, require

WELL = {"stored", "got", "present", "dropped", "renamed"}


def status_of(out):
    """The status of a run that prints this: 0 where each answer is well."""
    return 0 if all(line.partition(" ")[2] in WELL for line in out.splitlines()) else 1


def expect_run(room, program, tasks, out, *words, jobs=4, starts=1, children=1, busy=1, env=None):
    """Does the tasks, and gives the journal.

    It is expected what is printed, that the journal is legal, that so many
    children were started, that at least so many tasks were open at once, that
    each task was claimed once and then answered once by the same thread, and
    that each child heard and said what the journal has.
    """
    done = room.run_command(program, tasks, "--jobs", str(jobs), "--starts", str(starts), *words, env=env)
    expect(done.out, out, "what is printed")
    expect(done, (status_of(out), out, ""), "the status and the errors")
    expect(audit(room.text("journal")), (0, "legal\n", ""), "the audit")
    journal = room.journal()
    expect(len(journal.of("start")), children, "the number of children")
    require(journal.most_busy() >= busy, f"wanted {busy} tasks open at once, got {journal.most_busy()}")
    expect(journal.odd_tasks(), [], "the tasks that are not claimed once and answered once")
    for child in range(1, children + 1):
        expect_transcript(room, program, journal, child)
    return journal


def expect_transcript(room, program, journal, child):
    """The child's log and the journal agree, where it logs. One that ended may not have heard all that was sent, nor been heard."""
    log = room.text(f"{program}.{child}.log")
    if log is None:
        return
    lines = log.split("\n")[:-1]
    heard = [line[2:] for line in lines if line.startswith("< ")]
    said = [line[2:] for line in lines if line.startswith("> ")]
    expect(heard, journal.written(child)[: len(heard)], f"what child {child} heard, and what was sent to it")
    expect(journal.heard(child), said[: len(journal.heard(child))], f"what was heard of child {child}, and what it said")
    if any(entry.parts == [str(child), "closed"] for entry in journal.of("end")):
        expect(len(heard), len(journal.written(child)), f"how much child {child} heard")
        expect(len(said), len(journal.heard(child)), f"how much was heard of child {child}")


def checks(*letters):
    """The tasks that check the keys of these letters."""
    return "".join(f"check WORM--{letter}\n" for letter in letters)


def check_reply(letter, how="SUCCESS", text=""):
    """The answer to a check of the key of the letter."""
    return f"CHECKPRESENT-{how} WORM--{letter}" + (f" {text}" if text else "")


def check_answers(**hows):
    """A table for `serve`: of each letter's key, how its check is answered."""
    return {f"CHECKPRESENT WORM--{letter}": check_reply(letter, *how.split(" ", 1)) for letter, how in hows.items()}
