"""What a case is, and the words of the answers. The cases stand in tests/tables.

The wanted texts follow from docs/use/rules.md and docs/use/formats.md, never from what the program
wrote."""

from typing import NamedTuple

from records import genesis, key, ref, small

BLANK = None
ACCEPTED = "accepted"
FAILED_SCRIPTS = "accepted failed-scripts"
NO_JSON = "refused 1 Malformed json"
NO_RECORD = "refused 1 Malformed kind"
TOO_LONG = "refused 2 TooLong"
AGAIN = "refused 3 GenesisAgain"
USED = "refused 30 TxIdUsed"
NOT_WITNESSED = "refused 31 NotWitnessed"
NO_INPUTS = "refused 32 NoInputs"
NO_COLLATERAL = "refused 41 NoCollateral"


def malformed(field, place=None):
    """The field is bad; of a list its entry at a place."""
    return f"refused 1 Malformed {field}" + ("" if place is None else f"[{place}]")


def missing(place=0):
    return f"refused 33 InputMissing at {place}"


def unbalanced(consumed, produced):
    return f"refused 110 NotBalanced consumed {consumed} produced {produced}"


def pots(outputs, treasury, reserves, supply, deposits=0, rewards=0):
    """What a genesis with these pots is answered."""
    return f"genesis outputs {outputs} deposits {deposits} rewards {rewards} fees 0 donations 0 treasury {treasury} reserves {reserves} supply {supply}"


def printed(outputs, treasury, reserves, supply, fees=0, donations=0, deposits=0, rewards=0):
    """What a print of these pots is answered."""
    return f"pots outputs {outputs} deposits {deposits} rewards {rewards} fees {fees} donations {donations} treasury {treasury} reserves {reserves} supply {supply}"


START = pots(2000, 100, 900, 3000)
SMALL_START = pots(200, 100, 700, 1000)


class Case(NamedTuple):
    """A stream, and what it must give."""

    name: str
    stream: bytes
    status: int = 0
    wanted: str = ""
    words: tuple = ("replay",)
    # what a line is there for, by its number
    notes: dict = {}


def text_of(answers):
    """The text of a run whose lines, from 1, are answered so, each by one line or by a list of them; a blank line is not."""
    lines = [[] if it is BLANK else [it] if isinstance(it, str) else it for it in answers]
    return "".join(f"{number} {line}\n" for number, answer in enumerate(lines, 1) for line in answer)


def answered(name, *lines, first=genesis(), start=START, end=b"\n"):
    """A genesis and further lines, each with its answer and, where that helps, a note on it."""
    records, answers, notes = [first], [start], {}
    for number, (record, answer, *note) in enumerate(lines, 2):
        records.append(record)
        answers.append(answer)
        notes.update({number: it for it in note})
    return Case(name, b"\n".join(records) + end, wanted=text_of(answers), notes=notes)


def over_small(name, *lines, **fields):
    """The same after a small genesis with these fields and parameters, which leave its pots as they are."""
    return answered(name, *lines, first=small(**fields), start=SMALL_START)


def over_outputs(name, amount, *lines, **fields):
    """The same after a small genesis whose ten outputs, of transaction 1, hold this amount each."""
    outputs = [[ref(1, i), key(1), amount] for i in range(10)]
    first = small(**{"supply": 800 + 10 * amount, "outputs": outputs, **fields})
    return answered(name, *lines, first=first, start=pots(10 * amount, 100, 700, 800 + 10 * amount))


def all_answered(name, answer, *records, **beginning):
    """Lines that all get one answer."""
    return answered(name, *((it, answer) for it in records), **beginning)


def begins(name, line, start=START):
    """A stream of a genesis alone that breaks no rule."""
    return Case(name, line + b"\n", wanted=text_of([start]))


def no_genesis(name, stream):
    """A stream with no genesis to begin with: status 3, and nothing is written."""
    return Case(name, stream, status=3)
