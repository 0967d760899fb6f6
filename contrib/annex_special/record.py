"""Telling git-annex where contents are, by its own plumbing."""

from .text import Problem, call


class Record:
    """What the final answers of a run say of the remote: a key is there, or isn't.

    Nothing is said of a key whose answer was an error or no plain one.
    """

    def __init__(self, remote, registers, is_wanted):
        self.remote, self.registers, self.is_wanted = remote, registers, is_wanted
        self.known = {}

    def tell(self, item, is_there):
        self.known[item.key] = is_there

    def write(self):
        """Hands to git-annex what its log has otherwise."""
        if not self.is_wanted:
            return
        changed = {
            key: is_there for key, is_there in self.known.items() if is_there != self.registers.is_at(key, self.remote.uuid)
        }
        self.known = {}
        spaced = {key for key in changed if len(key.split()) != 1}
        lines = "".join(f"{key} {self.remote.uuid} {int(changed[key])}\n" for key in changed if key not in spaced)
        words = ["git", "annex", "setpresentkey"]
        if lines and call([*words, "--batch"], lines) is None:
            raise Problem("git annex setpresentkey failed: git-annex's log is as before")
        for key in spaced:
            call([*words, "--", key, self.remote.uuid, str(int(changed[key]))], problem="git annex setpresentkey failed")
