"""Reading of the lines that have no number, of checkpoints and certificates: kinds of words and
forms of lines, written from docs/use/formats.md alone.

A word is read in the one spelling that texts have: digits without leading zeros, hex digits in
lower case, numbers within their ranges. What cannot be read so is `Unreadable`."""

import re

NUMBER = "(?:0|[1-9][0-9]*)"
HASH28, HASH32 = "[0-9a-f]{56}", "[0-9a-f]{64}"
CREDENTIAL = f"[ks]{HASH28}"


class Unreadable(ValueError):
    """A text in another form, or a number out of its range."""


class Kind:
    """A kind of words: its expression, and what a word of it is read as."""

    def __init__(self, expression, read=str):
        self.expression, self.read = expression, read


def within(least, greatest):
    """A number from the one to the other."""

    def read(text):
        # no number of any range has more digits
        if len(text) > 20 or not least <= int(text) <= greatest:
            raise Unreadable(text)
        return int(text)

    return Kind(NUMBER, read)


def below(limit, least=0):
    return within(least, limit - 1)


def fraction(greatest=None):
    """`num/den`, read as a list: den is at least 1, and num at most den where it is a unit."""

    def read(text):
        num, den = map(u64.read, text.split("/"))
        if den == 0 or (greatest is not None and num > greatest * den):
            raise Unreadable(text)
        return [num, den]

    return Kind(f"{NUMBER}/{NUMBER}", read)


def or_word(kind, word="none", value=None):
    """A word of the kind, or one that says that there is none."""
    return Kind(f"(?:{word}|{kind.expression})", lambda text: value if text == word else kind.read(text))


def pair(text):
    major, minor = text.split(".")
    return [from_ten.read(major), u32.read(minor)]


u64, u32, u16, slot = below(2**64), below(2**32), below(2**16), below(2**62)
from_one, from_ten, positive = below(2**32, 1), below(2**32, 10), below(2**64, 1)
unit, ratio = fraction(1), fraction()
hash28, hash32, credential = Kind(HASH28), Kind(HASH32), Kind(CREDENTIAL)
network = Kind("[01]", int)
account = Kind(f"[01]{CREDENTIAL}")
address = Kind(rf"[01]{CREDENTIAL}(?:\+{CREDENTIAL})?")


def place(text):
    """The reference, whose index is below 2^16."""
    u16.read(text.split("#")[1])
    return text


reference = Kind(f"{HASH32}#{NUMBER}", place)
drep = Kind(f"(?:abstain|no-confidence|{CREDENTIAL})")
voter = Kind(f"(?:(?:committee|drep):{CREDENTIAL}|pool:{HASH28})")
vote = Kind("(?:yes|no|abstain)")
version = Kind(rf"{NUMBER}\.{NUMBER}", pair)
hot = or_word(Kind(f"(?:resigned|{CREDENTIAL})"))
asset_name = or_word(Kind("(?:[0-9a-f]{2}){1,32}"), "-", "")
word, rest = Kind("[^ ]+"), Kind(".+")


class Form:
    """The form of a line: its words, which may be an expression, and `{}` for each word of a kind."""

    def __init__(self, text, *kinds):
        self.text, self.kinds = text, kinds
        parts = text.split("{}")
        groups = [f"({it.expression})" for it in kinds]
        self.expression = re.compile("".join(it for pair in zip(parts, [*groups, ""]) for it in pair))

    def read(self, line):
        """What the words of the line are read as, or None where it has another form."""
        found = self.expression.fullmatch(line)
        return found and [kind.read(text) for kind, text in zip(self.kinds, found.groups())]


def behind(words, form):
    """The same form behind further words."""
    return Form(words + form.text, *form.kinds)


def read_by(forms, line):
    """What the first form that a line has makes of it."""
    for form, put in forms:
        values = form.read(line)
        if values is not None:
            return put, values
    raise Unreadable(line)
