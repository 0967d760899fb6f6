"""What a remote asks its host for and sets, in each request and in two jobs at once."""

from harness import UUID, expect, limits
from runs import checks, expect_run

E = "SHA256E-s0--e3b0c44298fc1c149afbf4c8996fb92427ae41e4649b934ca495991b7852b855"

# It asks for all that a remote may ask for, sets all that it may set, asks again, and says what was not as it should be.
ASKING = f"""
bad = []


def wants(question, *answers):
    say(question)
    for answer in answers:
        line = hear()
        if line != answer:
            bad.append(f"{{question}}: {{line}}")


def asides(uuid, directory):
    wants("GETUUID", "VALUE " + uuid)
    wants("GETCONFIG directory", "VALUE " + directory)
    wants("GETGITDIR", "VALUE .git")
    wants("GETGITREMOTENAME", "VALUE remote")
    wants("DIRHASH {E}", "VALUE pX/ZJ")
    wants("DIRHASH-LOWER {E}", "VALUE f87/4d5")
    wants("GETCREDS login", "CREDS  ")
    wants("GETWANTED", "VALUE ")
    wants("GETSTATE WORM--a", "VALUE ")
    say("DEBUG x", "INFO x", "PROGRESS 1")
    say("SETCONFIG made by me")
    wants("GETCONFIG made", "VALUE by me")
    say("SETCREDS login me secret")
    wants("GETCREDS login", "CREDS me secret")
    say("SETWANTED standard")
    wants("GETWANTED", "VALUE standard")
    say("SETSTATE WORM--a here")
    wants("GETSTATE WORM--a", "VALUE here")
    for url in ("http://b", "http://a", "ftp://c"):
        say("SETURLPRESENT WORM--a " + url)
    say("SETURLMISSING WORM--a http://b")
    wants("GETURLS WORM--a http:", "VALUE http://a", "VALUE ")


NONE = "00000000-0000-0000-0000-000000000000"
say("VERSION 1")
for _, words in requests():
    if words[0] == "EXTENSIONS":
        say("EXTENSIONS")
    elif words[0] == "PREPARE":
        say("PREPARE-SUCCESS")
    elif words[0] == "CHECKPRESENT":
        asides(NONE, "")
        say(f"CHECKPRESENT-UNKNOWN {{words[1]}} said {{bad}}")
    elif words[0] == "GETCOST":
        asides(NONE, "")
        say(f"DEBUG {{bad}}", "COST 8" if bad else "COST 7")
    elif words[0] == "INITREMOTE":
        asides("{UUID}", "/x y")
        say(f"INITREMOTE-FAILURE said {{bad}}")
    else:
        say("UNSUPPORTED-REQUEST")
"""


def case_each_aside_is_served_in_a_check(room):
    room.child("asking", ASKING)
    expect(room.special("check", "./asking", "WORM--a"), (1, "1 unknown said []\n", ""))


def case_each_aside_is_served_in_an_info(room):
    room.child("asking", ASKING)
    told = "configs unsupported\ncost 7\navailability unsupported\ninfos unsupported\nexport unsupported\n"
    expect(room.special("info", "./asking"), (0, told, ""))


def case_each_aside_is_served_in_an_init(room):
    room.child("asking", ASKING)
    expect(room.special("init", "./asking", UUID, "keep", "directory=/x y"), (1, "failed said []\n", ""))
    expect(room.read("keep"), None, "the kept file")


@limits(60)
def case_a_hundred_thousand_asides_before_an_answer_take_no_minute(room):
    room.child("talking", """
greet()
hear("CHECKPRESENT WORM--a")
for _ in range(100):
    say(*["PROGRESS 1"] * 1000)
say("CHECKPRESENT-SUCCESS WORM--a")
hear()
""")
    expect(room.special("check", "./talking", "WORM--a"), (0, "1 present\n", ""))


BOTH = 'greet("ASYNC")\na, b = hear_all("CHECKPRESENT WORM--a", "CHECKPRESENT WORM--b")\n'


def case_a_state_that_one_job_sets_is_told_to_the_other_and_the_other_way_round(room):
    room.children("remote", BOTH + f"""
say(b + "PROGRESS 2")
say(a + "PROGRESS 1")
say(a + "SETSTATE WORM--x one")
say(b + "GETUUID")
hear(b + "VALUE {UUID}")
say(a + "GETCONFIG colour")
hear(a + "VALUE ")
say(b + "GETSTATE WORM--x")
hear(b + "VALUE one")
say(b + "SETSTATE WORM--x two")
say(a + "GETSTATE WORM--x")
hear(a + "VALUE two")
say(a + "CHECKPRESENT-SUCCESS WORM--a")
say(b + "CHECKPRESENT-FAILURE WORM--b")
hear()
""")
    expect_run(room, "./remote", checks("a", "b"), "1 present\n2 absent\n", jobs=2, busy=2)


def case_questions_of_two_jobs_that_stand_together_are_answered_each_for_itself(room):
    room.children("remote", BOTH + f"""
say(a + "SETSTATE WORM--x one", b + "GETUUID", a + "GETCONFIG colour", b + "GETSTATE WORM--x")
tags = hear_all("VALUE {UUID}", "VALUE ", "VALUE one")
if tags == [b, a, b]:
    say(b + "CHECKPRESENT-FAILURE WORM--b", a + "CHECKPRESENT-SUCCESS WORM--a")
    hear()
""")
    expect_run(room, "./remote", checks("a", "b"), "1 present\n2 absent\n", jobs=2, busy=2)


def case_each_question_is_answered_by_the_settings_before_it(room):
    room.children("remote", BOTH + """
say(
    a + "SETCONFIG colour red",
    b + "GETCONFIG colour",
    b + "SETCONFIG colour blue",
    a + "GETCONFIG colour",
    a + "SETCONFIG colour green",
)
tags = hear_all("VALUE red", "VALUE blue")
if tags == [b, a]:
    say(b + "CHECKPRESENT-FAILURE WORM--b", a + "CHECKPRESENT-SUCCESS WORM--a")
    hear()
""")
    expect_run(room, "./remote", checks("a", "b"), "1 present\n2 absent\n", jobs=2, busy=2)


def case_what_was_set_holds_for_the_next_child(room):
    room.children("remote", BOTH + """
say(a + "SETCREDS door me secret", b + "SETSTATE WORM--c here", a + "ERROR gone")
""", """
greet("ASYNC")
c, = hear_all("CHECKPRESENT WORM--c")
say(c + "GETCREDS door")
hear(c + "CREDS me secret")
say(c + "GETSTATE WORM--c")
hear(c + "VALUE here")
say(c + "CHECKPRESENT-SUCCESS WORM--c")
hear()
""")
    out = "1 ended error gone\n2 ended error gone\n3 present\n"
    expect_run(room, "./remote", checks("a", "b", "c"), out, jobs=2, starts=2, children=2, busy=2)
