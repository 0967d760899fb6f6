"""The tests of lines: each holds of all that the remote said in all the other tests."""

from .bench import Skips, test

RULES = {
    "line-word": "each line is a message of the protocol",
    "line-space": "parameters are separated by single spaces, which are there even if a parameter is empty",
    "line-parameter": "a message has the parameters that the page gives it, and no others",
    "line-number": "a number is written in digits",
    "line-key": "a reply names the key of its request",
    "line-way": "a reply to TRANSFER says STORE or RETRIEVE as its request",
    "line-reply": "a request gets one of its own replies",
    "line-host-word": "the remote sends none of git-annex's own messages, such as VALUE",
    "line-version": "VERSION comes once, and first",
    "line-after": "nothing is said after an answer",
    "line-extension": "INFO and GETGITREMOTENAME are used only if git-annex offered them",
    "line-tag": "with ASYNC each line names a job that is open",
    "line-cut": "each line ends with a line feed",
    "must-support": "INITREMOTE, PREPARE, TRANSFER, CHECKPRESENT and REMOVE are supported",
}


def rule_test(name, shows):
    @test(name, shows)
    def ruled(bench):
        if not bench.sessions:
            raise Skips("the program wasn't started")


for _name, _shows in RULES.items():
    rule_test(_name, _shows)
