"""The conversation: the first line, extensions, requests about the remote, getting ready, errors and ends."""

import os
import signal

from .bench import ADVICE, EXTENSIONS, FAILS, PAGE, TESTREMOTE, WAITS, Fails, Skips, odd, test
from .registers import USUAL

ENDS = "git-annex waits for the program to end, and hangs if it doesn't."


@test("first-line", "its first line is VERSION 1 or VERSION 2")
def first_line(bench):
    try:
        bench.start()
    except OSError as why:
        bench.facts["unstarted"] = True
        raise Fails(PAGE, f"it can't be started: {why.strerror}", "git-annex starts the program.", FAILS)
    except Skips:
        session = bench.sessions[-1]
        said = f"`{session.first_line}`" if session.heard_version else "it ended" if session.is_over else "nothing"
        asks = "`VERSION 1` or `VERSION 2` is sent first thing at startup, before git-annex has said anything."
        raise Fails(PAGE, f"{said} as its first line", asks, WAITS if said == "nothing" else "git-annex gives up.")


def offer(bench, extensions):
    """Offers extensions: the answer has to be a list, or that they aren't supported."""
    session = bench.start()
    answer = bench.greet(session, extensions)
    if answer.outcome not in ("success", "unsupported"):
        raise odd(answer, f"EXTENSIONS {extensions}", PAGE if extensions else ADVICE)
    said = answer.text.split() if answer.outcome == "success" else []
    extra = [word for word in said if word not in extensions.split()]
    if "ASYNC" in extra:
        raise Fails(PAGE, f"`EXTENSIONS {answer.text}` to `EXTENSIONS {extensions}`",
                    "ASYNC is negotiated by an EXTENSIONS of git-annex that has it.",
                    "git-annex stops: it doesn't offer ASYNC then.")
    ready = session.ask("PREPARE")
    if ready.outcome not in ("success", "failure", "error", "odd"):
        raise odd(ready, "PREPARE")
    return said


@test("extensions", "it answers EXTENSIONS with INFO and GETGITREMOTENAME", ("first-line",))
def extensions(bench):
    bench.facts["extensions"] = offer(bench, EXTENSIONS)


@test("extensions-async", "it answers EXTENSIONS with ASYNC, and PREPARE then", ("first-line",))
def extensions_async(bench):
    bench.facts["async"] = "ASYNC" in offer(bench, f"{EXTENSIONS} ASYNC")


@test("extensions-empty", "it answers EXTENSIONS with an empty list", ("first-line",))
def extensions_empty(bench):
    offer(bench, "")


@test("initremote", "INITREMOTE with its settings succeeds", ("first-line",))
def initremote(bench):
    session = bench.start()
    bench.greet(session)
    answer = session.ask("INITREMOTE")
    if answer.outcome == "failure":
        raise Fails(TESTREMOTE, f"{answer} to `INITREMOTE`",
                    "With all the settings that it needs, INITREMOTE sets the remote up. "
                    "Give them as NAME=VALUE; `GETCONFIG` lines below show which it asked for.", "git annex initremote fails.")
    if answer.outcome != "success":
        raise odd(answer, "INITREMOTE", TESTREMOTE)


@test("prepare", "PREPARE with its settings succeeds", ("first-line",))
def prepare(bench):
    session = bench.start()
    bench.greet(session)
    answer = session.ask("PREPARE")
    if answer.outcome != "success" and bench.has_failed("initremote"):
        raise Skips("it isn't set up; see initremote")
    if answer.outcome == "failure":
        raise Fails(TESTREMOTE, f"{answer} to `PREPARE`", "PREPARE-SUCCESS once the remote is ready for use.",
                    "git-annex can't use the remote.")
    if answer.outcome != "success":
        raise odd(answer, "PREPARE", TESTREMOTE)


@test("unknown-request", "it answers a request that doesn't exist, and goes on", ("prepare",))
def unknown_request(bench):
    session = bench.ready()
    asks = "More optional requests may be added: to an unknown one it says `UNSUPPORTED-REQUEST`, and doesn't crash."
    for request in ("ANNEXREMOTETRY", "ANNEXREMOTETRY two words"):
        answer = session.ask(request)
        if answer.outcome == "odd":
            raise odd(answer, request)
        if answer.outcome != "unsupported":
            raise Fails(PAGE, f"{answer} to `{request}`", asks, FAILS)
    key = bench.key(1)
    answer = session.ask(f"CHECKPRESENT {key}")
    if answer.outcome in ("silent", "ended", "error"):
        raise Fails(PAGE, f"after the unknown request: {answer} to `CHECKPRESENT`", asks, FAILS)


@test("no-extensions", "it gets ready without EXTENSIONS, as with an older git-annex", ("prepare",))
def no_extensions(bench):
    session = bench.start()
    answer = session.ask("PREPARE")
    if answer.outcome != "success":
        raise odd(answer, "PREPARE")


@test("initremote-twice", "INITREMOTE again succeeds, and the remote gets ready", ("initremote", "prepare"))
def initremote_twice(bench):
    session = bench.start()
    bench.greet(session)
    for time in ("second", "third"):
        answer = session.ask("INITREMOTE")
        if answer.outcome not in ("success", "odd"):
            raise Fails(PAGE, f"{answer} to the {time} `INITREMOTE`",
                        "INITREMOTE may be run again and again, so what it sets up once has to be done idempotently.",
                        "git annex enableremote fails.")
    if session.ask("PREPARE").outcome not in ("success", "odd"):
        raise Fails(PAGE, "it didn't get ready after a second INITREMOTE", "INITREMOTE may be run again and again.", FAILS)


def initialise(bench, registers, what):
    session = bench.start(registers)
    bench.greet(session)
    answer = session.ask("INITREMOTE")
    if answer.outcome == "error":
        raise Fails(ADVICE, f"{answer} to `INITREMOTE` {what}", "When possible, INITREMOTE-FAILURE and not ERROR.", FAILS)
    if answer.outcome not in ("success", "failure"):
        raise odd(answer, "INITREMOTE")
    return answer


@test("initremote-missing", "INITREMOTE without one of its settings succeeds or fails, and says so", ("initremote",))
def initremote_missing(bench):
    if not bench.settings:
        raise Skips("it was given no settings")
    for name in bench.settings:
        registers = bench.registers.copy()
        registers.config = {**USUAL, **{other: value for other, value in bench.settings.items() if other != name}}
        initialise(bench, registers, f"without {name}")


@test("initremote-unknown", "INITREMOTE with a setting that it doesn't know succeeds", ("initremote-twice",))
def initremote_unknown(bench):
    registers = bench.registers.copy()
    registers.config["annex-remote-try"] = "nothing"
    if initialise(bench, registers, "with one setting more").outcome == "failure":
        raise Fails(TESTREMOTE, "INITREMOTE-FAILURE with a setting that it never asked for",
                    "A remote asks for the settings that it uses.", FAILS)


def optional(bench, request, is_before=False):
    """A request that a remote may leave unsupported: its session, and the answer."""
    session = bench.start() if is_before else bench.steady()
    if is_before:
        bench.greet(session)
    answer = session.ask(request)
    if answer.outcome in ("ended", "silent", "error") and bench.has_failed("unknown-request"):
        raise Skips("as unknown-request")
    if answer.outcome not in ("success", "failure", "unsupported"):
        raise odd(answer, request)
    if is_before and session.ask("PREPARE").outcome in ("silent", "ended"):
        raise Fails(PAGE, f"no answer to `PREPARE` after `{request}`", f"{request} may come before PREPARE.", FAILS)
    return answer


@test("listconfigs", "it answers LISTCONFIGS before PREPARE", ("first-line",))
def listconfigs(bench):
    answer = optional(bench, "LISTCONFIGS", is_before=True)
    bench.facts["configs"] = {parts[0]: parts[1] for _, word, parts in answer.parts if word == "CONFIG"}


@test("exportsupported", "it answers EXPORTSUPPORTED before PREPARE", ("first-line",))
def exportsupported(bench):
    bench.facts["exports"] = optional(bench, "EXPORTSUPPORTED", is_before=True).outcome == "success"


@test("getcost", "it answers GETCOST", ("prepare",))
def getcost(bench):
    optional(bench, "GETCOST")


@test("getavailability", "it answers GETAVAILABILITY", ("prepare",))
def getavailability(bench):
    optional(bench, "GETAVAILABILITY")


@test("getinfo", "it answers GETINFO with pairs of INFOFIELD and INFOVALUE", ("prepare",))
def getinfo(bench):
    answer = optional(bench, "GETINFO")
    words = [word for _, word, _ in answer.parts if word.startswith("INFO") and word != "INFOEND"]
    if words != ["INFOFIELD", "INFOVALUE"] * (len(words) // 2):
        raise Fails(PAGE, f"{' '.join(words)} to `GETINFO`", "INFOFIELD must be immediately followed by INFOVALUE.",
                    "git-annex stops with a protocol error.")


@test("whereis", "it answers WHEREIS for a key that it doesn't have", ("prepare",))
def whereis(bench):
    optional(bench, f"WHEREIS {bench.key(1)}")


@test("claimurl", "it answers CLAIMURL", ("prepare",))
def claimurl(bench):
    optional(bench, "CLAIMURL http://annex-remote-try.invalid/file")


@test("input-closed", "it ends when its input is closed", ("prepare",))
def input_closed(bench):
    session = bench.ready()
    session.close_input()
    if not session.wait_end(5):
        raise Fails(TESTREMOTE, "it was still running 5 seconds after the end of its input",
                    "Once git-annex is done with the remote, it closes its stdin, and the program can exit.", ENDS)


@test("host-error", "it ends after the host's ERROR and the end of its input", ("input-closed",))
def host_error(bench):
    session = bench.start()
    bench.greet(session)
    session.send("ERROR annex-remote-try gives up")
    session.close_input()
    if not session.wait_end(5):
        raise Fails(TESTREMOTE, "it was still running 5 seconds after ERROR and the end of its input",
                    "It can exit with its own ERROR.", ENDS)


def signalled(bench, number):
    session = bench.ready()
    session.note("!", f"{number.name} is sent")
    os.kill(session.process.pid, number)
    if not session.wait_end(3):
        raise Fails(PAGE, f"it was still running 3 seconds after {number.name}", "A remote should not block SIGINT or SIGTERM.",
                    ENDS)


@test("sigterm", "SIGTERM ends it", ("prepare",))
def sigterm(bench):
    signalled(bench, signal.SIGTERM)


@test("sigint", "SIGINT ends it", ("prepare",))
def sigint(bench):
    signalled(bench, signal.SIGINT)


@test("after-answers", "it waits after each answer", ("prepare",))
def after_answers(bench):
    session = bench.ready()
    key = bench.key(1)
    for request in ("GETCOST", "GETAVAILABILITY", "GETINFO", f"CHECKPRESENT {key}"):
        if session.ask(request).outcome in ("silent", "ended", "error"):
            return
        session.settle(0.2)
