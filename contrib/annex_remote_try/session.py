"""A remote that runs, and the host's side of the conversation with it."""

import contextlib
import os
import resource
import select
import signal
import subprocess
import time

from . import grammar
from .grammar import Fault


class Answer:
    """A request that was made, and what came of it."""

    def __init__(self, request, tag):
        self.request, self.tag = request, tag
        self.outcome = None
        self.text = ""
        self.parts = []
        self.asides = []
        self.is_strange = False
        # Where in the record its request is, and its reply.
        self.place = self.replied = 0

    def __str__(self):
        texts = {"silent": "no answer", "ended": "it ended without an answer", "odd": "an answer that the page doesn't have",
                 "error": f"ERROR {self.text}"}
        said = self.parts[-1][0] if self.parts else self.outcome
        return texts.get(self.outcome) or f"`{said}`"


class Session:
    """One start of the program. `bench` hears of each line and of each fault."""

    def __init__(self, bench, registers, number, file_limit=None):
        self.bench, self.registers, self.number = bench, registers, number
        self.log = []
        self.open = {}
        self.extensions = frozenset()
        self.is_tagged = self.is_over = self.input_closed = False
        self.heard_version = self.has_died = False
        # Where in the record it got ready; what came before is how it did.
        self.prepared = -1
        self.hold, self.held = None, []
        self.slow, self.buffer = None, b""
        self.stderr = open(bench.path(f"stderr.{number}"), "w+b")

        def prepare():
            if file_limit is not None:
                signal.signal(signal.SIGXFSZ, signal.SIG_IGN)
                resource.setrlimit(resource.RLIMIT_FSIZE, (file_limit, file_limit))

        self.process = subprocess.Popen(
            [bench.program], stdin=subprocess.PIPE, stdout=subprocess.PIPE, stderr=self.stderr, cwd=bench.path("cwd"),
            start_new_session=True, preexec_fn=prepare if file_limit is not None else None, bufsize=0)
        self.out = self.process.stdout.fileno()
        self.note("!", "started")

    def note(self, mark, text):
        place = self.bench.record(self, mark, text)
        self.log.append((mark, text, place))
        return place

    # What the host says.

    def send(self, line):
        """Says a line; False where the remote doesn't read any more."""
        self.note("<", line)
        try:
            self.process.stdin.write(line.encode("utf-8", "surrogateescape") + b"\n")
        except (BrokenPipeError, ValueError):
            return False
        return True

    def write(self, data):
        """Writes a part of a line that is said by hand."""
        with contextlib.suppress(BrokenPipeError):
            self.process.stdin.write(data)

    def begin(self, line, tag="", lead=None):
        """Makes a request, after its EXPORT line if it has one."""
        self.settle(self.bench.grace)
        answer = Answer(grammar.request_of(line), tag)
        self.open[tag] = answer
        if lead is not None:
            self.send(tag + lead)
        self.send(tag + line)
        answer.place = self.log[-1][2]
        self.bench.asked.add(answer.place)
        return answer

    def ask(self, line, lead=None, seconds=None):
        """Makes a request, and gives its answer; with the extension ASYNC it is job 1."""
        answer = self.begin(line, "J 1 " if self.is_tagged and not line.startswith("EXTENSIONS") else "", lead)
        self.pump(lambda: answer.outcome is not None, seconds)
        self.give_up(answer)
        return answer

    def expect(self, line):
        """Hears the answer to a request that was written by hand."""
        answer = self.open[""] = Answer(grammar.request_of(line), "")
        answer.place = self.note("<", line)
        self.bench.asked.add(answer.place)
        self.pump(lambda: answer.outcome is not None)
        self.give_up(answer)
        return answer

    def give_up(self, answer):
        """Ends the wait for an answer that didn't come."""
        if answer.outcome is None:
            answer.outcome = "ended" if self.is_over else "odd" if answer.is_strange else "silent"
            self.note("!", str(answer))
            self.note("=", f"{answer.place} {answer.outcome}")
            self.open.pop(answer.tag, None)
            self.bench.ended(self, answer)

    # What the remote says.

    def pump(self, done, seconds=None):
        """Hears lines until it is done, the remote has ended, or the time is over; whether it is done."""
        seconds = self.bench.wait if seconds is None else seconds
        deadline, is_short = time.monotonic() + seconds, False
        while not done():
            if self.is_over:
                return False
            if not is_short and any(answer.is_strange for answer in self.open.values()):
                is_short = True
                deadline = min(deadline, time.monotonic() + (1 if self.bench.strange < 5 else 0.05))
                self.bench.strange += 1
            left = deadline - time.monotonic()
            if left <= 0:
                return False
            self.hear(min(left, 0.2))
        return True

    def settle(self, seconds):
        """Hears what comes within the time, which is nothing from a remote that is right."""
        deadline = time.monotonic() + seconds
        while not self.is_over and (left := deadline - time.monotonic()) > 0:
            self.hear(left)

    def hear(self, seconds):
        """Reads what is there, and takes each line of it."""
        if not select.select([self.out], [], [], seconds)[0]:
            if self.process.poll() is not None and not select.select([self.out], [], [], 0)[0]:
                self.over()
            return
        if self.slow:
            time.sleep(self.slow[1])
        data = os.read(self.out, self.slow[0] if self.slow else 65536)
        if not data:
            self.over()
            return
        *lines, self.buffer = (self.buffer + data).split(b"\n")
        for line in lines:
            self.take(line.decode("utf-8", "surrogateescape"))

    def over(self):
        """The remote's output has ended."""
        if self.is_over:
            return
        self.is_over = True
        self.has_died = not self.input_closed
        if self.buffer and not self.input_closed:
            text = self.buffer.decode("utf-8", "surrogateescape")
            self.note(">", text)
            self.blame(Fault("line-cut", f"`{text}` without a line's end, and then nothing", "Each line ends with a line feed.",
                             grammar.STOPS))
        try:
            status = self.process.wait(1)
            self.note("!", f"ended with status {status}" if status >= 0 else f"ended by {signal.Signals(-status).name}")
        except subprocess.TimeoutExpired:
            self.note("!", "closed its output")

    def blame(self, fault):
        self.bench.blame(self, fault)

    def take(self, line):
        """Takes a line that the remote said."""
        self.note(">", line)
        if not self.heard_version:
            self.heard_version = True
            self.first_line = line
            return
        tag, text = self.split_tag(line)
        answer = self.open.get(tag)
        said = grammar.read_line(text, answer.request if answer else None)
        if said.what == "error":
            for answer in self.open.values():
                answer.outcome, answer.text = "error", said.parts[0]
            self.open.clear()
            return
        if answer is None:
            self.take_stray(line, tag, text, said)
            return
        for fault in said.faults:
            self.blame(fault)
        if said.what == "strange":
            answer.is_strange = True
        elif said.what == "aside":
            answer.asides.append((said.word, said.parts))
            self.reply(tag, said)
        else:
            answer.parts.append((text, said.word, said.parts))
            if said.what == "reply":
                answer.outcome, answer.text = said.outcome, said.parts[-1] if said.parts else ""
                del self.open[tag]
                answer.replied = self.note("=", f"{answer.place} {said.outcome}")

    def take_stray(self, line, tag, text, said):
        """A line that belongs to no open request."""
        if self.is_tagged and tag == "" and self.open:
            self.blame(Fault("line-tag", f"`{line}`",
                             "With ASYNC each line but VERSION, EXTENSIONS and ERROR begins with `J` and its job's number.",
                             grammar.STOPS))
            for own, answer in list(self.open.items()):
                meant = grammar.read_line(text, answer.request)
                if len(self.open) == 1 or meant.what == "reply" and not meant.faults:
                    self.note("!", f"taken for {own}")
                    self.take(own + text)
                    return
        elif self.is_tagged and tag and self.open:
            self.blame(Fault("line-tag", f"`{line}`", "The number after `J` is that of a job that is being done.", grammar.STOPS))
        elif not self.input_closed:
            is_reply = said.what == "strange" and said.word in grammar.ALL_WORDS
            made = "git-annex takes it for the answer to its next request." if is_reply else "git-annex reads it in its next request."
            self.blame(Fault("line-after", f"`{line}` when no request was open",
                             "A remote speaks while it handles a request: its reply is the last line, and then it waits.", made))
            self.bench.grace = 0.02
        if said.what == "aside":
            self.reply(tag, said)

    def split_tag(self, line):
        """The tag `J N ` of a line, with the extension ASYNC, and the rest."""
        if self.is_tagged and line.startswith("J "):
            number, _, rest = line[2:].partition(" ")
            return f"J {number} ", rest
        return "", line

    def reply(self, tag, said):
        """Answers a question, or keeps the answer back."""
        needed = grammar.NEEDS_EXTENSION.get(said.word)
        if needed and needed not in self.extensions:
            self.blame(Fault("line-extension", f"`{said.word}`, though git-annex didn't offer the extension {needed}",
                             f"{said.word} may be sent only after an EXTENSIONS of git-annex that has {needed}.",
                             "A git-annex without it stops with a protocol error."))
        for line in self.registers.answers(said.word, said.parts):
            if self.hold and self.hold(tag, said.word):
                self.held.append(tag + line)
            else:
                self.send(tag + line)

    # Its end.

    def close_input(self):
        """Closes the remote's input, as git-annex does when it has no more requests."""
        if not self.input_closed:
            self.input_closed = True
            self.note("!", "its input is closed")
            with contextlib.suppress(BrokenPipeError):
                self.process.stdin.close()

    def wait_end(self, seconds):
        """Waits until the process has ended; whether it has."""
        deadline = time.monotonic() + seconds
        while self.process.poll() is None and time.monotonic() < deadline:
            if self.is_over:
                time.sleep(0.005)
            else:
                self.hear(min(0.05, max(0, deadline - time.monotonic())))
        return self.process.poll() is not None

    def close(self):
        """Ends the session as git-annex does; what doesn't end is killed."""
        self.close_input()
        if not self.wait_end(self.bench.ends):
            self.bench.ends = 0.3
        self.kill(is_told=self.process.poll() is None)

    def kill(self, is_told=True):
        """Kills the program and all that it started."""
        with contextlib.suppress(ProcessLookupError):
            os.killpg(self.process.pid, signal.SIGKILL)
        self.process.wait()
        self.input_closed = True
        while not self.is_over and select.select([self.out], [], [], 0)[0]:
            self.hear(0)
        if is_told and self.log[-1][1] != "ended by SIGKILL":
            self.note("!", "killed")
        self.is_over = True
        for stream in (self.process.stdin, self.process.stdout):
            with contextlib.suppress(OSError):
                stream.close()
        self.stderr.close()
