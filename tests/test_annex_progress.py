"""What a terminal sees of annex-special: progress within a file, and a remote that does nothing."""

import os
import pty
import re
import select

from annexed import ANNEX_SPECIAL, Annex
from harness import as_text, expect, limits, require, start

# A remote that writes a long file piece by piece, waiting before each, and then says that it is done.
SLOW = """
echo "VERSION 1"
while IFS= read -r line; do
  set -- $line
  case "$1" in
    EXTENSIONS) echo EXTENSIONS ;;
    INITREMOTE) echo INITREMOTE-SUCCESS ;;
    PREPARE) echo PREPARE-SUCCESS ;;
    CHECKPRESENT) echo "CHECKPRESENT-SUCCESS $2" ;;
    TRANSFER)
      if [ "$2" = RETRIEVE ]; then
        for piece in 1 2 3 4; do
          sleep $PAUSE; PAUSE=$NEXT
          head -c 250000 /dev/zero >> "$4"
        done
      fi
      echo "TRANSFER-SUCCESS $2 $3" ;;
    *) echo UNSUPPORTED-REQUEST ;;
  esac
done
"""


def watched(room, pause, next, *words):
    """What is shown on a terminal of a get from the slow remote, and what is printed."""
    annex = Annex(room)
    annex.add({"zeros": b"\0" * 1000000})
    room.script("bin/git-annex-remote-slow", SLOW)
    annex.well("git", "annex", "initremote", "-q", "kept", "type=external", "externaltype=slow", "encryption=none")
    annex.well("git", "annex", "copy", "-q", "--to", "kept")
    annex.well("git", "annex", "drop", "-q", "--force", ".")
    terminal, inlet = pty.openpty()
    env = {**annex.env, "PAUSE": pause, "NEXT": next}
    process = start([ANNEX_SPECIAL, "kept", "get", *words], env=env, cwd=annex.top, stderr=inlet)
    shown = b""
    while process.poll() is None:
        if select.select([terminal], [], [], 0.1)[0]:
            shown += os.read(terminal, 65536)
    out = as_text(process.stdout.read())
    while select.select([terminal], [], [], 0.2)[0]:
        shown += os.read(terminal, 65536)
    os.close(inlet)
    return as_text(shown), out


@limits(300, waits=True)
def case_a_terminal_sees_how_much_of_a_file_has_come(room):
    shown, out = watched(room, "0.6", "0.6")
    expect(out, "get: 1 key: 1 got\n", "what is printed")
    for part in ("250.0 kB", "500.0 kB", "750.0 kB"):
        require(f"get: 0 of 1 done, 0 failed, {part}, " in shown, f"what the terminal shows lacks {part}: {shown!r}")
    require(re.search(r"500\.0 kB, [0-9.]+ kB/s, 0:0[0-9] left", shown), f"the rate and the time left: {shown!r}")


@limits(300, waits=True)
def case_a_terminal_sees_how_long_a_remote_has_done_nothing(room):
    shown, _ = watched(room, "5", "0")
    for seconds in (3, 4):
        require(f"waiting for the remote for {seconds} s" in shown, f"what the terminal shows: {shown!r}")


@limits(300, waits=True)
def case_quiet_shows_nothing_on_a_terminal(room):
    expect(watched(room, "0.5", "0", "--quiet"), ("", ""))
