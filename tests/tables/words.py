"""The words of the command line: the command table, and what is not in it."""

from cases import START, Case, text_of
from records import genesis

# the three options of a small stream
SEED, ACCOUNTS, EPOCHS = ("--seed", "7"), ("--accounts", "4"), ("--epochs", "2")
LARGEST = str(2**64 - 1)
SMALL = """load seed 7 accounts 4 epochs 2
records 14 accepted 7 refused 2 blocks 4
ratified 1 expired 0 waiting 0
pots outputs 9999999967 deposits 33 rewards 26 fees 5 donations 0 treasury 999994 reserves 9998999975 supply 20000000000
"""
LARGE = """load seed 1 accounts 100000 epochs 5
records 231 accepted 215 refused 5 blocks 10
ratified 0 expired 2 waiting 7
pots outputs 9999799740 deposits 200045 rewards 35 fees 210 donations 0 treasury 1000010 reserves 9998999960 supply 20000000000
"""

WRONG = [
    (),
    ("",),
    ("x",),
    ("Replay",),
    ("replay ",),
    ("replay", ""),
    ("replay", "x"),
    ("replay", "1"),
    ("replay", "replay"),
    ("replay", "load", *SEED, *ACCOUNTS, *EPOCHS),
    ("--help",),
    ("--workers", "1"),
    ("--workers", "1", "replay"),
]
# what may not stand behind `explain` and the commands that read checkpoints, certificates and
# rollbacks
WRONG_BEHIND = [
    *(("check", "--workers", it) for it in ("1", "2")),
    ("check", "--workers=1"),
    ("check", ""),
    ("check", "check"),
    *((it, "--workers", "0") for it in ("explain", "resume", "follow")),
    *((it, "--workers", "65") for it in ("explain", "resume", "follow")),
    *((it, "--workers", "1", "--workers", "1") for it in ("explain", "resume", "follow")),
    *((it, "x") for it in ("explain", "resume", "follow")),
    ("resume", "resume"),
    ("Resume",),
    ("explain", "replay"),
    ("Explain",),
    ("explains",),
    ("checks",),
    ("follow ",),
]
# what may not stand behind `replay`, and behind `load` with its options
WORKERS = [
    ("--workers",),
    ("--workers", ""),
    ("--workers=",),
    ("--workers", "0"),
    ("--workers", "65"),
    ("--workers=65",),
    ("--workers", "-1"),
    ("--workers", "+1"),
    ("--workers", "1.0"),
    ("--workers", "0x1"),
    ("--workers", " 1"),
    ("--workers", "000000000000000000001"),
    ("--workers", "1", "--workers", "1"),
    ("--workers=1", "--workers=1"),
    ("--workers", "1", "2"),
    ("--workers", "--workers", "1"),
    ("--worker", "1"),
    ("-workers", "1"),
    ("workers", "1"),
    ("--Workers", "1"),
]
LOADS = [
    (),
    SEED + ACCOUNTS,
    SEED + EPOCHS,
    ACCOUNTS + EPOCHS,
    SEED + SEED + ACCOUNTS + EPOCHS,
    SEED + ACCOUNTS + EPOCHS + ("--epochs=2",),
    SEED + ACCOUNTS + ("--epochs",),
    SEED + ACCOUNTS + ("--epochs", ""),
    SEED + ACCOUNTS + ("--epochs=",),
    SEED + ACCOUNTS + ("--epochs", "0"),
    SEED + ACCOUNTS + ("--epochs", "101"),
    SEED + ("--accounts", "0") + EPOCHS,
    SEED + ("--accounts", "1000001") + EPOCHS,
    ("--seed", str(2**64)) + ACCOUNTS + EPOCHS,
    ("--seed", "1" + "0" * 20) + ACCOUNTS + EPOCHS,
    ("--seed", "0" * 21) + ACCOUNTS + EPOCHS,
    ("--seed=",) + ACCOUNTS + EPOCHS,
    ("--seed", "7x") + ACCOUNTS + EPOCHS,
    ("--seed", "-7") + ACCOUNTS + EPOCHS,
    SEED + ACCOUNTS + EPOCHS + ("x",),
    SEED + ACCOUNTS + EPOCHS + ("--pulses", "1"),
    ("7", "4", "2"),
]
# what may stand behind `replay`
REPLAYS = [(), ("--workers", "1"), ("--workers=64",), ("--workers", "64"), ("--workers", "00000000000000000002")]
# the same stream in other words
SAME = [
    SEED + ACCOUNTS + EPOCHS,
    EPOCHS + SEED + ACCOUNTS,
    ("--accounts=4", "--epochs=2", "--seed=7"),
    ("--seed", "00000000000000000007", "--accounts=004") + EPOCHS,
    SEED + ACCOUNTS + EPOCHS + ("--workers", "1"),
    SEED + ACCOUNTS + EPOCHS + ("--workers=64",),
    ("--workers", "3") + SEED + ACCOUNTS + EPOCHS,
]


def refused(words):
    return Case(f"the words {list(words)}", genesis() + b"\n", status=2, words=words)


def loads(words, wanted):
    """The stream on standard input is not the one that is replayed."""
    return Case(f"the words {list(words)}", b"no record\n", wanted=wanted, words=words)


def cases():
    yield from map(refused, (*WRONG, *WRONG_BEHIND))
    yield from (refused(("replay", *it)) for it in WORKERS)
    yield from (refused(("replay", *it)) for it in (SEED, ACCOUNTS, EPOCHS, ("--seed=7", "--workers", "1")))
    yield from (refused(("load", *SEED, *ACCOUNTS, *EPOCHS, *it)) for it in WORKERS)
    yield from (refused(("load", *it)) for it in LOADS)
    for it in REPLAYS:
        words = ("replay", *it)
        yield Case(f"the words {list(words)}", genesis() + b"\n", wanted=text_of([START]), words=words)
    yield from (loads(("load", *it), SMALL) for it in SAME)
    for workers in ((), ("--workers", "8"), ("--workers", "64")):
        yield loads(("load", "--seed", "1", "--accounts", "100000", "--epochs", "5", *workers), LARGE)
