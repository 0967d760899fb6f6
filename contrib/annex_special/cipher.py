"""The cipher of an encrypted remote: which keys stand for keys there, and what encrypts the contents."""

import base64
import binascii
import enum
import hmac
from typing import NamedTuple

from .gpg import Outcome
from .text import Problem, bytes_of

MACS = {f"HMAC{name.upper()}": name for name in ("sha1", "sha224", "sha256", "sha384", "sha512")}
# So many bytes of a cipher name keys where the rest is the passphrase of contents.
NAMING_BYTES = 256
MOST_BYTES = 1 << 14


class Scheme(enum.Enum):
    """git-annex's kinds of encryption."""

    SHARED = "shared"
    HYBRID = "hybrid"
    PUBKEY = "pubkey"
    SHARED_PUBKEY = "sharedpubkey"

    def is_cipher_encrypted(self):
        return self in (Scheme.HYBRID, Scheme.PUBKEY)

    def has_passphrase(self):
        """Whether contents are encrypted with a passphrase, and not to public keys."""
        return self in (Scheme.SHARED, Scheme.HYBRID)


class Encryption(NamedTuple):
    """What the settings of a remote say: the cipher is as it lies in git-annex's log."""

    scheme: Scheme
    mac: str
    cipher: bytes
    recipients: tuple


def read_encryption(name, settings):
    """The encryption of a remote; None where it has none.

    Remotes that git-annex made before 2013 have no `encryption=`: git-annex 10 takes those with `cipherkeys=` for hybrid
    ones, and any other for one without encryption, which what is in it may have.
    """
    said = settings.get("encryption") or ("hybrid" if "cipherkeys" in settings else None)
    if said == "none":
        return None
    if said is None:
        raise Problem(f"{name} has no encryption= in git-annex's log: say --set encryption=none, or --set encryption=shared")
    if said not in [scheme.value for scheme in Scheme]:
        raise Problem(f"{name} has encryption={said}, which is not known here")
    scheme, mac = Scheme(said), settings.get("mac", "HMACSHA1")
    if mac not in MACS:
        raise Problem(f"{name} has mac={mac}, which is not known here")
    try:
        cipher = base64.b64decode(settings.get("cipher", ""), validate=True)
    except binascii.Error:
        cipher = b""
    if not cipher:
        raise Problem(f"{name} has encryption={said}, and no cipher that can be read in git-annex's log")
    recipients = settings.get("cipherkeys", settings.get("pubkeys", ""))
    return Encryption(scheme, mac, cipher, tuple(one for one in recipients.split(",") if one))


class Cipher:
    """What names keys and encrypts contents, in plain.

    `passphrase` is None where contents are encrypted to keys. `proved` are the ids of keys that opened the cipher itself,
    and so are known to be right for contents.
    """

    def __init__(self, mac, naming, passphrase=None, recipients=(), proved=()):
        self.mac, self.naming, self.passphrase = mac, naming, passphrase
        self.recipients, self.proved = recipients, proved

    def hidden_key(self, key):
        """The key under which the remote has the content of this key, or this chunk of one."""
        return f"GPG{self.mac}--{hmac.new(self.naming, bytes_of(key), MACS[self.mac]).hexdigest()}"


def open_cipher(name, encryption, gpg):
    """Decrypts the cipher of a remote, where that is encrypted."""
    scheme, plain, ids = encryption.scheme, encryption.cipher, ()
    if scheme.is_cipher_encrypted():
        plain, ids = decrypt_cipher(name, encryption, gpg)
    if len(plain) > MOST_BYTES or scheme.has_passphrase() and not plain[NAMING_BYTES:].strip():
        raise Problem(f"the cipher of {name} has {len(plain)} bytes, which can't be")
    if not scheme.has_passphrase():
        return Cipher(encryption.mac, plain, None, encryption.recipients, ids)
    return Cipher(encryption.mac, plain[:NAMING_BYTES], plain[NAMING_BYTES:])


def decrypt_cipher(name, encryption, gpg):
    """The plain cipher, and the ids of the keys that it was encrypted to."""
    pieces = []
    opening = gpg.decrypt_bytes(encryption.cipher, pieces.append)
    if opening.outcome == Outcome.OPENED:
        return b"".join(pieces), opening.ids
    if opening.outcome == Outcome.UNASKED:
        raise Problem(f"gpg can't decrypt the cipher of {name}: {opening.said}")
    if opening.outcome == Outcome.BROKEN:
        raise Problem(f"the cipher of {name} in git-annex's log is damaged: {opening.said}")
    keys = ", ".join(encryption.recipients)
    raise Problem(f"gpg can't decrypt the cipher of {name}, which is encrypted to {keys}: {opening.said}")
