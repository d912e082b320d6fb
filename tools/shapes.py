"""What the converters of real data share: bech32, exact fractions, ids as docs/use/formats.md has
them, and what is not known."""

import functools
import hashlib
import json
from fractions import Fraction

LETTERS = "qpzry9x8gf2tvdw0s3jn54khce6mua7l"
GENERATOR = (0x3B6A57B2, 0x26508E6D, 0x1EA119FA, 0x3D4233DD, 0x2A1462B3)
SUPPLY_LIMIT = 45_000_000_000_000_000


class NotKnown(ValueError):
    """Something of the data that a tool does not know."""


def load(file):
    """The JSON of a file, with fractions for numbers that are not whole, so that none is rounded."""
    try:
        return json.loads(file.read_text(encoding="utf-8"), parse_float=Fraction)
    except (OSError, ValueError) as error:
        raise NotKnown(f"{file}: {error}") from None


def field(thing, name, what):
    """A field that has to be there."""
    if not isinstance(thing, dict) or name not in thing:
        raise NotKnown(f"{what} has no {name}: {str(thing)[:200]}")
    return thing[name]


# ---- bech32


def folded(top):
    """What the five bits that leave a checksum come to."""
    mask = 0
    for i, factor in enumerate(GENERATOR):
        mask ^= factor if (top >> i) & 1 else 0
    return mask


FOLDED = [folded(top) for top in range(32)]


def polymod(values):
    check = 1
    for it in values:
        check = (check & 0x1FFFFFF) << 5 ^ it ^ FOLDED[check >> 25]
    return check


@functools.cache
def decoded(text):
    """The prefix of a bech32 text, and its bytes. An answer names the same ids many times."""
    prefix, _, data = text.lower().rpartition("1")
    values = [LETTERS.find(it) for it in data]
    spread = [ord(it) >> 5 for it in prefix] + [0] + [ord(it) & 31 for it in prefix]
    if not prefix or len(values) < 6 or -1 in values or polymod(spread + values) != 1:
        raise NotKnown(f"no bech32: {text!r}")
    number = 0
    for it in values[:-6]:
        number = number << 5 | it
    size, rest = divmod(5 * len(values[:-6]), 8)
    return prefix, (number >> rest).to_bytes(size, "big")


# ---- ids


def credential_of(kind, digits):
    """A credential of a kind of hash, as the tools of the node name it."""
    kinds = {"keyHash": "k", "verificationKey": "k", "scriptHash": "s", "script": "s"}
    if kind not in kinds:
        raise NotKnown(f"no kind of a credential: {kind!r}")
    return kinds[kind] + digits.lower()


def governance_credential(text):
    """The credential of a DRep or of a committee's key, by CIP-129 (29 bytes) or CIP-105 (28, the prefix tells scripts)."""
    prefix, data = decoded(text)
    if len(data) == 29 and data[0] & 15 in (2, 3):
        return "ks"[data[0] & 1] + data[1:].hex()
    if len(data) == 28:
        return ("s" if prefix.endswith("_script") else "k") + data.hex()
    raise NotKnown(f"no credential of governance: {text!r}")


def pool_of(text):
    """The hash of a pool."""
    prefix, data = decoded(text)
    if prefix != "pool" or len(data) != 28:
        raise NotKnown(f"no pool: {text!r}")
    return data.hex()


def account_of(text):
    """The account of a stake address."""
    data = decoded(text)[1]
    if len(data) != 29 or data[0] >> 4 not in (14, 15):
        raise NotKnown(f"no stake address: {text!r}")
    return f"{data[0] & 1}{'ks'[data[0] >> 4 & 1]}{data[1:].hex()}"


def made_hash(text, digits):
    """An id that stands for something, of so many hex digits."""
    return hashlib.blake2b(text.encode(), digest_size=digits // 2).hexdigest()


# ---- numbers


def ratio(value, what="a fraction"):
    """The two numbers of a fraction: of a decimal, of a text n/d, or of an object."""
    if isinstance(value, dict):
        return [field(value, "numerator", what), field(value, "denominator", what)]
    if isinstance(value, str) and value.count("/") == 1:
        num, den = value.split("/")
        return [int(num), int(den)]
    try:
        it = Fraction(value)
    except (TypeError, ValueError, ZeroDivisionError):
        raise NotKnown(f"{what}: {value!r}") from None
    return [it.numerator, it.denominator]
