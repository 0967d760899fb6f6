"""Putting what was fetched into the annex, by git-annex."""

import collections
import os

from .digests import is_verified
from .keys import backend_of
from .text import call, mode_of_new


def take(items, file_of):
    """Puts the contents into the annex, and yields each item with whether git-annex took it.

    `reinject --known` takes many at a time and checks them again; `setkey` takes what it doesn't know, or has no digest.
    Who may read a content in the annex is what git-annex makes of the file's rights, so it gets those of a new file.
    """
    for item in items:
        os.chmod(file_of(item), mode_of_new(0o666))
    by_backend = collections.defaultdict(list)
    for item in items:
        if is_verified(item.key):
            by_backend[backend_of(item.key)].append(item)
    for backend, some in by_backend.items():
        call(["git", "annex", "reinject", "--known", f"--backend={backend}", "--", *(str(file_of(item)) for item in some)])
    for item in items:
        taken = not file_of(item).exists()
        yield item, taken or call(["git", "annex", "setkey", "--", item.key, str(file_of(item))]) is not None
