"""`special-view`: what the page of a journal holds, of legal, wrong and cut ones, and how large it is.

With SPECIAL_VIEW_BROWSER=1 the page is opened in headless Chromium too.
"""

import html
import json
import os
import re
import shutil
import time

from harness import SPECIAL, TESTS, TOP, expect, limits, require, skip, table

VIEW = str(TOP / "contrib/special-view")
JOURNALS = TESTS / "journals"


def viewed(room, text, *words):
    """The page of a journal, and the data in it."""
    room.write("journal", text)
    done = room.run([VIEW, "journal", "-o", "page.html", "--special", SPECIAL, *words])
    expect(done, (0, "", ""))
    page = room.text("page.html")
    return page, json.loads(re.search(r'<script type="application/json" id="data">(.*?)</script>', page, re.S).group(1))


def text_of(name):
    return (JOURNALS / f"{name}.txt").read_text()


@table([
    # The journal, its children with where they start and end, its tasks with their answers, and how many jobs.
    ["one child at a time", "plain", [(1, 0, 82), (2, 13, 83), (3, 26, 84), (4, 39, 85)],
     ["stored", "present", "got", "dropped", "absent"], 13],
    ["jobs with tags", "tagged", [(1, 0, 24)], ["present", "absent"], 4],
    ["chunks", "chunked", [(1, 0, 59), (2, 13, 60)], ["stored", "got"], 11],
])
def a_page_has_each_child_job_task_and_line(room, journal, children, answers, jobs):
    page, data = viewed(room, text_of(journal))
    expect([tuple(child[:3]) for child in data["children"]], children, "the children: number, start and end")
    expect([answer for _, answer, _ in data["tasks"]], answers, "the answers")
    expect(len(data["jobs"]), jobs, "the jobs")
    lines = text_of(journal).split("\nbegin\n")[1].split("\nend ")[0].split("\n")
    expect(data["lines"], lines, "the entries")
    expect((data["legal"], data["wrong"], data["end"]), (True, None, ""), "what the audit says")


def case_a_job_goes_from_its_request_to_its_verdict_and_knows_its_worker(room):
    _, data = viewed(room, text_of("tagged"))
    expect(data["jobs"], [[1, 0, 0, 2, 5, 0, "done"], [1, 1, 0, 6, 9, 0, "done"], [1, 2, 1, 12, 22, 5, "done"], [1, 3, 2, 13, 18, 4, "absent"]],
           "child, job, task, request, verdict, thread, how it ended")
    expect([child[4] for child in data["children"]], [True], "whether the child uses tags")


def case_the_notes_of_chunks_are_kept(room):
    _, data = viewed(room, text_of("chunked"))
    expect(data["notes"], [[43, 1, "4", "3"]], "the notes: place, task, size and count")


AGAIN = """annex-journal 2
uuid 00000000-0000-0000-0000-000000000000
name r
gitdir .git
stamp 0
again 1
task check WORM--a
begin
0 start 1 0 plain
0 got 1 VERSION 1
0 ask 1 0 0 EXTENSIONS INFO GETGITREMOTENAME
0 sent 1
0 got 1 EXTENSIONS
0 verdict 1 0 done 4
0 ask 1 1 0 PREPARE
0 sent 1
0 got 1 PREPARE-SUCCESS
0 verdict 1 1 done 8
0 claim 1 1
0 ask 1 2 1 CHECKPRESENT WORM--a
0 sent 1
0 end 1 eof
0 verdict 1 2 ended eof
0 again 1 ended eof
"""


def case_a_task_that_lost_its_child_has_a_turn_that_ended_so(room):
    _, data = viewed(room, AGAIN + "end 16\n", "--no-audit")
    expect(data["turns"], [[1, 10, 15, 0, 1, "ended eof"]], "the turns: task, claim, end, thread, child, answer")
    expect(data["children"][0][5], "eof", "why the child ended")
    expect(data["counts"], {"unanswered": 1}, "the answers")


def case_a_wrong_journal_shows_where_the_audit_stops(room):
    text = text_of("plain").replace("verdict 4 3 done 61", "verdict 4 3 absent 61")
    _, data = viewed(room, text)
    place = text_of("plain").split("\nbegin\n")[1].split("\n").index("5 verdict 4 3 done 61")
    expect((data["legal"], data["wrong"]), (False, place), "the audit")
    expect(data["audit"], f"wrong at entry {place}: this verdict isn't allowed there")


@table([
    ("after a line", -len("0 end 4 closed\nend 86\n"), "it is cut off after entry 84"),
    ("in a line", -30, "it is cut off after entry 83"),
    ("before its last line", -len("end 86\n"), "it is cut off after entry 85"),
])
def a_cut_journal_shows_where_it_ends(room, at, said):
    _, data = viewed(room, text_of("plain")[:at])
    expect((data["end"], data["legal"]), (said, None))


def case_a_journal_of_a_run_is_shown(room):
    room.mkdir("store")
    room.write("file", b"hello\n")
    tasks = "store WORM-s6--hello file\ncheck WORM-s6--hello\nget WORM-s6--none none\n"
    program = str(TOP / "examples/folder-remote.sh")
    room.run_command(program, tasks, "--jobs", "2", env={"REMOTE_DIR": room.path("store")})
    _, data = viewed(room, room.read("journal"))
    answers = [answer for _, answer, _ in data["tasks"]]
    expect(answers[:2], ["stored", "present"])
    require(answers[2].startswith("failed cannot copy "), answers[2])
    expect(data["legal"], True, "the audit")


def case_the_page_stands_alone(room):
    page, _ = viewed(room, text_of("plain"))
    outside = page.replace(re.search(r'id="data">(.*?)</script>', page, re.S).group(1), "")
    expect(re.findall(r"(?:src|href|url|import|fetch)\s*[=(]", outside), [], "what it would load")


def case_a_line_of_a_remote_can_not_break_out_of_the_page(room):
    foul = "0 got 1 </script><script>alert(1)</script> <!-- \u2028"
    text = AGAIN.replace("0 end 1 eof\n", f"{foul}\n0 end 1 eof\n").replace("task check WORM--a", "task check WORM--</script>")
    page, data = viewed(room, text, "--no-audit")
    require(foul in data["lines"], "the line isn't there")
    expect(page.count("<script"), 2, "the scripts of the page")


def case_bytes_that_are_no_text_are_shown(room):
    text = AGAIN.encode().replace(b"0 got 1 EXTENSIONS\n", b"0 got 1 EXTENSIONS \xff\xfe\n")
    viewed(room, text, "--no-audit")


@table([
    ("no file", "nothing", "nothing: No such file or directory"),
    ("another text", "other", "the first line isn't that of a journal"),
    ("cut in its head", "head", "there is no line `begin`"),
])
def what_is_no_journal_is_refused(room, name, said):
    room.write("other", "hello\n")
    room.write("head", "annex-journal 2\nuuid 0\n")
    done = room.run([VIEW, name])
    expect((done.status, done.out), (2, ""))
    require(said in done.err, done.err)


def many(tasks):
    """A journal of so many checks, over eight children, six entries each."""
    lines = ["annex-journal 2", "uuid 00000000-0000-0000-0000-000000000000", "name r", "gitdir .git", "stamp 0", "again 0"]
    lines += [f"task check WORM-s{task}--key{task}.dat" for task in range(1, tasks + 1)] + ["begin"]
    entries = [f"0 start {child} {child - 1} plain" for child in range(1, 9)]
    for task in range(1, tasks + 1):
        child = task % 8 + 1
        place = len(entries)
        entries += [f"{child} claim {task} {child}", f"{child} ask {child} {task} {task} CHECKPRESENT WORM-s{task}--key{task}.dat", f"{child} sent {child}",
                    f"{child} got {child} CHECKPRESENT-SUCCESS WORM-s{task}--key{task}.dat", f"{child} verdict {child} {task} done {place + 3}", f"{child} answer {task} present"]
    return "\n".join([*lines, *entries, f"end {len(entries)}"]) + "\n", len(entries)


@limits(60)
def case_100000_entries_make_a_page_of_less_than_30_megabytes(room):
    text, count = many(16667)
    require(count > 100000, f"only {count} entries")
    began = time.monotonic()
    page, data = viewed(room, text, "--no-audit")
    require(len(page) < 30_000_000, f"{len(page)} bytes")
    expect((len(data["lines"]), data["counts"]), (count, {"present": 16667}))
    print(f"{len(page)} bytes in {time.monotonic() - began:.1f} s")


def opened(room, link=""):
    """What Chromium makes of the page."""
    if os.environ.get("SPECIAL_VIEW_BROWSER") != "1" or not shutil.which("chromium"):
        skip("SPECIAL_VIEW_BROWSER=1 opens pages in Chromium")
    done = room.run(["chromium", "--headless", "--no-sandbox", "--disable-gpu", f"--user-data-dir={room.path('chromium')}",
                     "--dump-dom", f"file://{room.path('page.html')}{link}"])
    require("data-opened" in done.out, f"the script stopped: {done.out[-500:]} {done.err[-500:]}")
    return done.out


@limits(90)
def case_100000_entries_open_in_2_seconds_and_are_filtered_in_a_fifth(room):
    viewed(room, many(16667)[0], "--no-audit")
    took = {}
    for _ in range(5):  # The best of five, since other programs use the processors too.
        dom = opened(room, "#filter=key16000")
        require("1 of 16,667 tasks" in dom, "the filter found another number of tasks")
        for name, value in re.findall(r'data-(opened|filtered)="(\d+)"', dom):
            took[name] = min(int(value), took.get(name, int(value)))
        if took["opened"] < 2000 and took["filtered"] < 200:
            break
    print(took)
    require(took["opened"] < 2000 and took["filtered"] < 200, f"milliseconds: {took}")


@limits(60)
def case_a_task_shows_its_lines_in_a_browser(room):
    viewed(room, text_of("tagged"))
    dom = html.unescape(opened(room, "#task=2"))
    expect(re.findall(r'<div title="line \d+ of the journal: \d (\w+ .*?)">', dom),
           ["ask 1 3 2 J 3 CHECKPRESENT WORM--b", "got 1 J 3 PROGRESS 1", "got 1 J 3 CHECKPRESENT-FAILURE WORM--b", "verdict 1 3 absent 17"])
