"""What a host keeps for its remotes: settings, creds, states and URLs, and its answers to their questions."""

import hashlib

UUID = "2b4d0e52-8f0c-4a55-9d5e-6f1f1f1f1f1f"
# What git annex initremote sets beside the settings that were given.
USUAL = {"name": "annex-remote-try", "type": "external", "encryption": "none"}
MIXED = "0123456789zqjxkmvwgpfZQJXKMVWGPF"


def hash_mixed(key):
    """The two levels under which git-annex keeps a key in .git/annex/objects, as `aB/Cd/`."""
    number = int.from_bytes(hashlib.md5(key.encode("utf-8", "surrogateescape")).digest()[:4], "little")
    second, first, fourth, third = (MIXED[(number >> (6 * at)) & 31] for at in range(4))
    return f"{first}{second}/{third}{fourth}/"


def hash_lower(key):
    """The two levels of the directory special remote, as `abc/def/`."""
    digits = hashlib.md5(key.encode("utf-8", "surrogateescape")).hexdigest()
    return f"{digits[:3]}/{digits[3:6]}/"


class Registers:
    """The settings that were given, and all that a remote has set since."""

    def __init__(self, settings, gitdir):
        self.config = {**USUAL, **settings}
        self.gitdir = gitdir
        self.creds, self.states, self.urls = {}, {}, {}
        self.wanted = ""

    def copy(self):
        """Registers of their own, with the same values."""
        other = Registers(self.config, self.gitdir)
        other.creds, other.states, other.wanted = dict(self.creds), dict(self.states), self.wanted
        other.urls = {key: list(urls) for key, urls in self.urls.items()}
        return other

    def answers(self, word, parts):
        """The lines that the host replies to a message of the remote; none to those that set something."""
        if word in ASKS:
            return [f"VALUE {ASKS[word](self, parts)}"]
        if word == "GETCREDS":
            user, password = self.creds.get(parts[0], ("", ""))
            return [f"CREDS {user} {password}"]
        if word == "GETURLS":
            urls = [url for url in self.urls.get(parts[0], []) if url.startswith(parts[1])]
            return [f"VALUE {url}" for url in urls] + ["VALUE "]
        self.set(word, parts)
        return []

    def set(self, word, parts):
        if word == "SETCONFIG":
            self.config[parts[0]] = parts[1]
        elif word == "SETCREDS":
            self.creds[parts[0]] = (parts[1], parts[2])
        elif word == "SETSTATE":
            self.states[parts[0]] = parts[1]
        elif word == "SETWANTED":
            self.wanted = parts[0]
        elif word in ("SETURLPRESENT", "SETURIPRESENT"):
            urls = self.urls.setdefault(parts[0], [])
            if parts[1] not in urls:
                urls.append(parts[1])
        elif word in ("SETURLMISSING", "SETURIMISSING"):
            self.urls[parts[0]] = [url for url in self.urls.get(parts[0], []) if url != parts[1]]


ASKS = {
    "GETCONFIG": lambda registers, parts: registers.config.get(parts[0], ""),
    "GETUUID": lambda registers, parts: UUID,
    "GETGITDIR": lambda registers, parts: registers.gitdir,
    "GETGITREMOTENAME": lambda registers, parts: "annex-remote-try",
    "GETWANTED": lambda registers, parts: registers.wanted,
    "GETSTATE": lambda registers, parts: registers.states.get(parts[0], ""),
    "DIRHASH": lambda registers, parts: hash_mixed(parts[0]),
    "DIRHASH-LOWER": lambda registers, parts: hash_lower(parts[0]),
}
