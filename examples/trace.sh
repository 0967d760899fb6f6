#!/bin/sh
# Stands between a host and a remote, and shows each line on standard error: `> LINE` is what the remote says, and
# `< LINE` what the host says, as `git annex --debug` shows them.
#
#     TRACE_PROGRAM=examples/folder-remote.sh special check examples/trace.sh WORM-s6--hello
#
# $TRACE_PROGRAM is the remote: a path, or a name that is looked for in PATH.
: "${TRACE_PROGRAM:?names the remote to start}"

# Passes each line on, and shows it after the mark $1.
pass() {
  while IFS= read -r line; do
    printf '%s %s\n' "$1" "$line" >&2
    printf '%s\n' "$line"
  done
}

exec 3<&0
{ pass '<' <&3 | "$TRACE_PROGRAM" | pass '>'; } &
# This shell keeps no end of the host's pipes open, so each side sees at once when the other is gone.
exec <&- 3<&- >&-
wait
