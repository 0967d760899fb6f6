"""Whether a content fits its key: its size, and its digest where hashlib knows it."""

import functools
import hashlib
import re

from .keys import backend_of, fields_of

PIECE = 1 << 20
# What `special` itself compares before it says `got`.
BY_SPECIAL = {name + suffix for name in ("MD5", "SHA1", "SHA224", "SHA256", "SHA384", "SHA512") for suffix in ("", "E")}


def makers():
    """What makes the digest of each backend, without the E."""
    known = {name: getattr(hashlib, name.lower()) for name in ("MD5", "SHA1", "SHA224", "SHA256", "SHA384", "SHA512")}
    for bits in (224, 256, 384, 512):
        known[f"SHA3_{bits}"] = getattr(hashlib, f"sha3_{bits}")
    for bits in (160, 224, 256, 384, 512):
        known[f"BLAKE2B{bits}"] = functools.partial(hashlib.blake2b, digest_size=bits // 8)
    for bits in (160, 224, 256):
        known[f"BLAKE2S{bits}"] = functools.partial(hashlib.blake2s, digest_size=bits // 8)
    return known


MAKERS = makers()


def maker_of(key):
    """What makes the digest that the key has; None where that isn't known here, or the key is of a chunk."""
    backend, fields, _ = fields_of(key)
    if "S" in fields:
        return None
    return MAKERS.get(backend) or (MAKERS.get(backend[:-1]) if backend.endswith("E") else None)


def is_verified(key):
    """Whether a content can be checked against the digest of its key here."""
    return maker_of(key) is not None


def wanted_digest(key):
    """The digest in the key: its name up to the ending, which backends with an E have."""
    return re.split(r"\.", fields_of(key)[2], maxsplit=1)[0]


def wanted_size(key):
    """The bytes that a content of the key has, or the chunk that the key is of; None where the key doesn't say."""
    _, fields, _ = fields_of(key)
    size, chunk = fields.get("s"), fields.get("S")
    if size is None or not chunk:
        return size
    return max(0, min(chunk, size - chunk * (fields.get("C", 1) - 1)))


class Checker:
    """Takes a content piece by piece, and says what is wrong with it."""

    def __init__(self, key):
        self.key, self.size = key, 0
        maker = maker_of(key)
        self.digest = maker() if maker else None

    def take(self, piece):
        self.size += len(piece)
        if self.digest:
            self.digest.update(piece)

    def wrong(self):
        """What doesn't fit, in the words of `special`; None where all fits that can be compared."""
        size = wanted_size(self.key)
        if size is not None and size != self.size:
            return f"size {self.size}"
        if self.digest and self.digest.hexdigest() != wanted_digest(self.key):
            return f"hash {self.digest.hexdigest()}"
        return None


def pieces_of(path):
    with open(path, "rb") as file:
        while piece := file.read(PIECE):
            yield piece


def wrong_of(key, path):
    """What is wrong with the file's content."""
    checker = Checker(key)
    for piece in pieces_of(path):
        checker.take(piece)
    return checker.wrong()


def wrong_after_special(key, path):
    """The same of a content that `special` said it got: only what it can't compare itself is read again."""
    return None if backend_of(key) in BY_SPECIAL else wrong_of(key, path)
