"""The folder of a remote, out of its reach for a while and then back as it was."""

import contextlib
import os
import secrets
import stat

from .bench import Skips


def place_of(bench, state):
    """The folder that --place names."""
    if not bench.place_setting:
        raise Skips("--place doesn't say which setting is its folder")
    place = bench.registers.config.get(bench.place_setting, "").rstrip("/")
    if not os.path.isdir(place) or os.path.islink(place):
        raise Skips(f"{place or bench.place_setting} is no folder")
    if state == "unreadable" and os.geteuid() == 0:
        raise Skips("root reads everything")
    return place


def take_away(folder, keys):
    """Removes what the remote made in a folder while its place was away: files of these keys, and empty folders."""
    for top, _, names in os.walk(folder, topdown=False):
        for name in names:
            if any(key.rpartition("--try-")[2] in os.path.join(top, name) for key in keys):
                os.unlink(os.path.join(top, name))
        with contextlib.suppress(OSError):
            os.rmdir(top)


@contextlib.contextmanager
def at_place(bench, place, state, keys):
    """The place is gone, empty or unreadable meanwhile."""
    mode = stat.S_IMODE(os.stat(place).st_mode)
    if state == "unreadable":
        os.chmod(place, 0)
        try:
            yield
        finally:
            os.chmod(place, mode)
        return
    away = f"{place}.away-{secrets.token_hex(4)}"
    try:
        os.rename(place, away)
    except OSError as why:
        raise Skips(f"its folder can't be moved away: {why.strerror}")
    try:
        if state == "empty":
            os.mkdir(place, mode)
        yield
    finally:
        if os.path.isdir(place):
            take_away(place, keys)
        if os.path.lexists(place):
            os.rename(place, f"{place}.made-{secrets.token_hex(4)}")
        os.rename(away, place)
