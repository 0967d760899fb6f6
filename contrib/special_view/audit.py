"""What `special audit` says of a journal."""

import os
import shutil
import subprocess

KINDS = ("an entry is missing at the end", "claim", "start", "nostart", "ask", "put", "sent", "mute", "got", "end", "verdict",
         "lost", "answer", "note", "lead", "again")


def audited(data, program):
    """Whether it is legal, where it is wrong, and a sentence; None for what isn't known."""
    path = shutil.which(program) or (program if os.path.isfile(program) else None)
    if path is None:
        return None, None, f"not audited: there is no program {program}"
    done = subprocess.run([path, "audit"], input=data, capture_output=True)
    words = done.stdout.decode("utf-8", "replace").split()
    if words == ["legal"]:
        return True, None, "legal"
    if len(words) == 3 and words[0] == "wrong":
        kind = KINDS[int(words[2])] if int(words[2]) < len(KINDS) else words[2]
        if int(words[2]) == 0:
            return False, int(words[1]), f"wrong at its end: after entry {int(words[1]) - 1:,} something is missing"
        return False, int(words[1]), f"wrong at entry {int(words[1]):,}: this {kind} isn't allowed there"
    said = (done.stderr or done.stdout).decode("utf-8", "replace").strip()
    return None, None, f"the audit takes no such text: {said}"
