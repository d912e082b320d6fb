"""The kinds of JSON values: for each, texts of values that are of the kind and of values that are
not.

A kind that is made of others has each good and each bad value of theirs in turn, all else being as
its first good one is."""

import json
from typing import NamedTuple

from records import GREATEST, PARAMS, credential, hash28, key, ref, script, tx_id


class Kind(NamedTuple):
    good: list
    bad: list


VALUES = {
    "null": ["null"],
    "boolean": ["false", "true"],
    "number": ["0", "1"],
    "other number": ["-0", "-1", "0.0", "1.0", "1e0", "18446744073709551616"],
    "text": ['""', '"0"', '"x"'],
    "array": ["[]", "[0]"],
    "object": ["{}"],
}


def of_kind(kind, good, bad):
    """Of the values of one JSON kind these are good and these are not; nor are those of another JSON kind."""
    others = [it for other, values in VALUES.items() if other != kind for it in values]
    good, bad = [*dict.fromkeys(good)], [*dict.fromkeys([*others, *bad])]
    assert not {*good} & {*bad}, {*good} & {*bad}
    return Kind(good, bad)


def or_null(kind):
    """The same, or null."""
    return Kind([*kind.good, "null"], [it for it in kind.bad if it != "null"])


def either(*kinds):
    """An object of one of the kinds; no text is bad for one and good for another."""
    return of_kind("object", *([it for kind in kinds for it in kind[side]] for side in (0, 1)))


# ---- numbers, words


def number(least, greatest):
    """A whole number in a range."""
    outside = [it for it in (least - 1, greatest + 1, GREATEST) if not least <= it <= greatest and it >= 0]
    return of_kind("number", [str(least), str(greatest)], [str(it) for it in outside])


def word(good, bad=()):
    """One of some texts."""
    return of_kind("text", map(json.dumps, good), [json.dumps(it) for it in ["", "x", *bad]])


U64 = number(0, GREATEST)
U32 = number(0, 2**32 - 1)
U16 = number(0, 2**16 - 1)
SLOT = number(0, 2**62 - 1)
NETWORK = number(0, 1)
EPOCH_LENGTH = number(1, 2**32 - 1)
BOOLEAN = of_kind("boolean", VALUES["boolean"], [])
SCRIPTS = word(["none", "ok", "failed"], ["None", "OK", "fail", "passed", "absent", "true"])
WHAT = word(["pots", "state", "assets"], ["Pots", "pot", "all", "asset", "Assets"])

# ---- ids


def hash_of(digits):
    """A hash of so many hex digits."""
    h = "0123456789abcdef" * 4
    good = ["0" * digits, "f" * digits, h[:digits], h[:digits].upper(), "aB" * (digits // 2)]
    short = h[: digits - 1]
    bad = [short, short + "00", h * 2, *(short + it for it in "gG :/@`\u00e9"), " " + short, "0x" + short[1:], "-" + short, short[1:] + "\u00e9"]
    return good, bad


GOOD28, BAD28 = hash_of(56)
GOOD32, BAD32 = hash_of(64)
HASH28 = word(GOOD28, [*BAD28, GOOD32[0], credential(1)])
HASH32 = word(GOOD32, [*BAD32, GOOD28[0], ref(1, 0)])

GOOD_CREDENTIALS = ["k" + it for it in GOOD28] + [credential(1, "s")]
BAD_CREDENTIALS = ["k" + it for it in BAD28] + [it + hash28(1) for it in ("", "K", "S", "p", "kk", " k", "k ", "0k", "1k")] + ["k", "s"]
CREDENTIAL = word(GOOD_CREDENTIALS, BAD_CREDENTIALS)

GOOD_ACCOUNTS = ["1" + it for it in GOOD_CREDENTIALS] + [key(1, network=0)]
BAD_ACCOUNTS = ["1k" + it for it in BAD28] + [it + credential(1) for it in ("", "2", "9", "11", "-1", "+1", " 1", "1 ")] + ["1p" + hash28(1), "1K" + hash28(1), "1", "0"]
ACCOUNT = word(GOOD_ACCOUNTS, [*BAD_ACCOUNTS, f"{key(1)}+{credential(2)}"])

STAKES = [f"+{it}" for it in GOOD_CREDENTIALS]
BAD_STAKES = [f"+{it}" for it in BAD_CREDENTIALS] + ["+", credential(2), "-" + credential(2), "+1" + credential(2), f"+{credential(2)}+{credential(3)}", f" +{credential(2)}"]
ADDRESS = word([*GOOD_ACCOUNTS, *(key(1) + it for it in STAKES), f"{script(1)}+{credential(2)}"], [*BAD_ACCOUNTS, *(key(1) + it for it in BAD_STAKES)])

INDEXES = ["0", "9", "10", "65535"]
BAD_INDEXES = ["", "00", "01", "065535", "65536", "99999", "99999999999999999999", "-1", "+1", " 1", "1 ", "1.0", "0x1", "#1", "a"]
GOOD_REFS = [f"{tx_id(1)}#{it}" for it in INDEXES] + [f"{it}#1" for it in GOOD32]
BAD_REFS = [f"{tx_id(1)}#{it}" for it in BAD_INDEXES] + [f"{it}#1" for it in BAD32] + [tx_id(1), tx_id(1) + "0", tx_id(1) + "1", "#1"]
REF = word(GOOD_REFS, BAD_REFS)
ACTION_ID = REF

DREP = word([*GOOD_CREDENTIALS, "abstain", "no-confidence"], [*BAD_CREDENTIALS, "Abstain", "abstain ", "no_confidence", "noconfidence", "NoConfidence", "drep:" + credential(1)])
GOOD_VOTERS = [role + it for role in ("committee:", "drep:") for it in GOOD_CREDENTIALS] + ["pool:" + it for it in GOOD28]
BAD_VOTERS = (
    [role + it for role in ("committee:", "drep:") for it in BAD_CREDENTIALS]
    + ["pool:" + it for it in [*BAD28, "", credential(1), GOOD32[0]]]
    + [it + credential(1) for it in ("", "Committee:", "DRep:", "committee", "drep", "cc:", "drep: ", " drep:", "pool:drep:")]
    + ["drep:abstain", "drep:no-confidence", "abstain", "Pool:" + hash28(1), "spo:" + hash28(1), hash28(1)]
)
VOTER = word(GOOD_VOTERS, BAD_VOTERS)

# ---- arrays and objects


def spelled(fields):
    """An object of these fields, each with the text of its value."""
    return "{" + ",".join(f'"{name}":{it}' for name, it in fields.items()) + "}"


def without(fields, name):
    return {other: it for other, it in fields.items() if other != name}


def entry(*parts, last=None):
    """An array with a value of each kind, and of a last one, where there may be such a value."""
    own = [it.good[0] for it in parts]

    def of(values):
        return f"[{','.join(values)}]"

    def each(side):
        return [of([*own[:i], it, *own[i + 1 :]]) for i, part in enumerate(parts) for it in part[side]]

    good, bad = [of(own), *each(0)], [of(own[:-1]), of([*own, own[-1]]), of([*own, "null"]), *each(1)]
    if last:
        good += [of([*own, it]) for it in last.good]
        bad += [*(of([*own, it]) for it in last.bad), *(of([*own, last.good[0], it]) for it in (last.good[0], "null"))]
    return of_kind("array", good, bad)


def thing(needed, optional=None, own=None, closed=False):
    """An object with these fields, of which `own` are always the same. It may have others, where it is not closed, and an optional one may be null."""
    optional = {name: or_null(it) for name, it in (optional or {}).items()}
    base = {**(own or {}), **{name: it.good[0] for name, it in needed.items()}}
    more = [spelled({**base, "note": "-1"}), spelled({"": "null", **base})]

    def each(side):
        return [spelled({**base, name: it}) for name, kind in {**needed, **optional}.items() for it in kind[side]]

    good = [spelled(base), *each(0), *([] if closed else more)]
    bad = [*(spelled(without(base, name)) for name in needed), *each(1), *(more if closed else [])]
    return of_kind("object", good, bad)


# of the good values of ids, and of entries that begin with one, these are two spellings of one
ONE_NAME = [(0, 0), (2, 3)]


def listing(kind, named=False):
    """A list of such entries; named ones are there once."""
    good, bad = kind
    twice = [f"[{good[i]},{good[j]}]" for i, j in ONE_NAME] if named else []
    return of_kind("array", ["[]", f"[{good[0]}]", f"[{good[1]},{good[0]}]"], [*(f"[{it}]" for it in bad), f"[{good[0]},{bad[0]}]", *twice])


# ---- assets

NAMES = ["", "00", "0a", "0A", "aB", "0000", "f" * 64, "0123456789abcdefABCDEF" + "0" * 42]
BAD_NAMES = ["0", "0a0", "f" * 63, "f" * 65, "f" * 66, *("0" + it for it in "gG :/@`\u00e9"), " 00", "0x00", "-", "-1", "\u00e9"]
NAME = of_kind("text", map(json.dumps, NAMES), map(json.dumps, BAD_NAMES))
HELD = number(1, GREATEST)
# with a sign, and not 0
WITHOUT_SIGN = number(1, 2**63 - 1)
MOVED = Kind([*WITHOUT_SIGN.good, "-1", "-2", str(-(2**63))], [*(it for it in WITHOUT_SIGN.bad if it != "-1"), str(-(2**63) - 1), "-1.0", "-1e0"])
ASSETS = listing(entry(HASH28, NAME, HELD), named=True)
MINTED = entry(HASH28, NAME, MOVED)

# ---- fractions

NO_UNITS = ["[0]", "[0,1,1]", "[0,1,null]", "[0,0]", "[1,0]", "[null,1]", "[0,null]", '["0",1]', '[0,"1"]', "[0.0,1]", "[0,1.0]", "[-1,1]", "[0,-1]", "[0,18446744073709551616]"]
UNIT = of_kind("array", ["[0,1]", "[1,1]", "[2,4]", f"[{GREATEST},{GREATEST}]"], [*NO_UNITS, "[2,1]", f"[{GREATEST},{GREATEST - 1}]"])
RATIO = of_kind("array", ["[0,1]", "[1,1]", "[15,1]", f"[{GREATEST},1]"], NO_UNITS)
VERSION = entry(U32, U32)
GENESIS_VERSION = entry(number(10, 2**32 - 1), U32)

# ---- parameters

PARAM_KINDS = {
    **dict.fromkeys(["maxBlockBodySize", "maxTxSize", "maxBlockHeaderSize", "maxValueSize"], U32),
    **dict.fromkeys(["maxTxExUnits", "maxBlockExUnits"], entry(U64, U64)),
    "maxCollateralInputs": U16,
    **dict.fromkeys(["minFeeA", "minFeeB", "keyDeposit", "poolDeposit"], U64),
    **dict.fromkeys(["rho", "tau"], UNIT),
    **dict.fromkeys(["minPoolCost", "coinsPerUTxOByte"], U64),
    "prices": entry(RATIO, RATIO),
    "minFeeRefScriptCostPerByte": RATIO,
    "a0": RATIO,
    "eMax": U32,
    "nOpt": U16,
    "costModels": HASH32,
    "collateralPercentage": U16,
    "poolVotingThresholds": entry(*[UNIT] * 5),
    "drepVotingThresholds": entry(*[UNIT] * 10),
    "govActionLifetime": U32,
    **dict.fromkeys(["govActionDeposit", "drepDeposit"], U64),
    "drepActivity": U32,
    "committeeMinSize": U16,
    "committeeMaxTermLength": U32,
}
assert [*PARAM_KINDS] == [*PARAMS]

# of an update and of all parameters; names that are no parameter's make it bad
UPDATE = thing({}, PARAM_KINDS, closed=True)
ALL_PARAMS = thing(PARAM_KINDS, closed=True)

# ---- what a transaction may carry


def named(field, kinds):
    """Objects that one of their fields tells apart; `kinds` are the needed and the optional fields of each."""
    parts = {name: thing(needed, optional, own={field: json.dumps(name)}) for name, (needed, optional) in kinds.items()}
    unnamed = [spelled({field: it}) for it in word(kinds).bad]
    misnamed = [part.good[0].replace(name, other, 1) for name, part in parts.items() for other in (name.swapcase(), name + " ", name[:-1])]
    return either(*parts.values(), Kind([], unnamed + misnamed))


WITHDRAWAL = entry(ACCOUNT, U64)

CERT = named(
    "cert",
    {
        "account-reg": ({"cred": CREDENTIAL}, {"deposit": U64, "pool": HASH28, "drep": DREP}),
        "account-unreg": ({"cred": CREDENTIAL}, {"refund": U64}),
        "pool-reg": ({"pool": HASH28, "cost": U64, "pledge": U64, "margin": UNIT, "account": ACCOUNT}, {"key": HASH32}),
        "pool-retire": ({"pool": HASH28, "epoch": U64}, {}),
        "drep-reg": ({"cred": CREDENTIAL}, {"deposit": U64}),
        "drep-unreg": ({"cred": CREDENTIAL}, {"refund": U64}),
        "drep-update": ({"cred": CREDENTIAL}, {}),
        "hot-auth": ({"cold": CREDENTIAL, "hot": CREDENTIAL}, {}),
        "hot-resign": ({"cold": CREDENTIAL}, {}),
    },
)
# it names a pool, a DRep or both
DELEGATION = either(
    thing({"cred": CREDENTIAL, "pool": HASH28}, {"drep": DREP}, own={"cert": '"delegate"'}),
    thing({"cred": CREDENTIAL, "drep": DREP}, {"pool": HASH28}, own={"cert": '"delegate"'}),
)
CERT = either(CERT, DELEGATION)

PREVIOUS = {"previous": ACTION_ID}
ACTION = named(
    "type",
    {
        "Info": ({}, {}),
        "NoConfidence": ({}, PREVIOUS),
        "UpdateCommittee": ({"remove": listing(CREDENTIAL, named=True), "add": listing(entry(CREDENTIAL, SLOT), named=True), "threshold": UNIT}, PREVIOUS),
        "NewConstitution": ({"document": HASH32}, {"script": HASH28, **PREVIOUS}),
        "HardForkInitiation": ({"version": VERSION}, PREVIOUS),
        "ParameterChange": ({"update": UPDATE}, {"policy": HASH28, **PREVIOUS}),
        "TreasuryWithdrawals": ({"targets": listing(entry(ACCOUNT, U64), named=True)}, {"policy": HASH28}),
    },
)
PROPOSAL = thing({"deposit": U64, "return": ACCOUNT, "action": ACTION})
VOTE = thing({"voter": VOTER, "action": ACTION_ID, "vote": word(["yes", "no", "abstain"], ["Yes", "NO", "yes ", "none", "y"])})
