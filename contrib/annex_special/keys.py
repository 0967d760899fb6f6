"""Keys: how git-annex spells them, names files by them, and finds folders for these."""

import hashlib
import re
from typing import NamedTuple

from .text import bytes_of

NUMBER = "(0|[1-9][0-9]*)"
KEY = re.compile(rf"([A-Z0-9_]+)(?:-s{NUMBER})?(?:-m{NUMBER})?--[^\0-\x20\x7f]+")
# Any key, with chunk fields or without, and whatever its name has.
ANY_KEY = re.compile(r"([A-Z0-9_]+)((?:-[smSC][0-9]+)*)--(.+)", re.DOTALL)
# The letters of git-annex's mixed hash folders.
LETTERS = "0123456789zqjxkmvwgpfZQJXKMVWGPF"


class Item(NamedTuple):
    """A key, its size where it is known, and one file that has it ("" where none has)."""

    key: str
    size: int
    file: str


def item_of(key, file=""):
    return Item(key, size_of(key), file)


def fields_of(key):
    """The backend, the numbers by their letters, and the name; None where it is no key."""
    match = ANY_KEY.fullmatch(key)
    if not match:
        return None
    return match[1], {field[0]: int(field[1:]) for field in match[2].split("-")[1:]}, match[3]


def is_key(text):
    return ANY_KEY.fullmatch(text) is not None


def backend_of(key):
    return key.split("-", 1)[0]


def size_of(key):
    """The size that the key says; None where it says none."""
    fields = fields_of(key)
    return fields[1].get("s") if fields else None


def chunk_key(key, size, number):
    """The key of a chunk: `-S` and `-C` come after the other fields."""
    backend, _, name = ANY_KEY.fullmatch(key).groups()
    return f"{key[:len(key) - len(name) - 2]}-S{size}-C{number}--{name}"


def whole_key(key):
    """The key without its chunk fields."""
    backend, fields, name = ANY_KEY.fullmatch(key).groups()
    kept = "".join(f"-{field}" for field in fields.split("-")[1:] if field[0] not in "SC")
    return f"{backend}{kept}--{name}"


def refusal(key):
    """Why no line of a task can name the key; None where one can."""
    match = KEY.fullmatch(key)
    if not match:
        return "its key can't be sent on a line"
    if any(number and int(number) >= 1 << 64 for number in match.group(2, 3)):
        return "a number of its key is too large"
    return None


def file_of_key(key):
    """The name of the file that git-annex keeps the key's content in."""
    for character, mark in (("&", "&a"), ("%", "&s"), (":", "&c"), ("/", "%")):
        key = key.replace(character, mark)
    return key


def key_of_file(name):
    """The key that this is the file name of."""
    for mark, character in (("%", "/"), ("&c", ":"), ("&s", "%"), ("&a", "&")):
        name = name.replace(mark, character)
    return name


def lower_folders(key, levels=2):
    """The folders of git-annex's lower hash: `f87/4d5`."""
    digest = hashlib.md5(bytes_of(whole_key(key))).hexdigest()
    return "/".join((digest[:3], digest[3:6])[:levels])


def mixed_folders(key, levels=2):
    """The folders of git-annex's mixed hash: `2W/V5`."""
    word = int.from_bytes(hashlib.md5(bytes_of(whole_key(key))).digest()[:4], "little")
    letters = [LETTERS[word >> 6 * place & 31] for place in range(4)]
    return "/".join((letters[1] + letters[0], letters[3] + letters[2])[:levels])
