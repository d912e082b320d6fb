"""The fields of the five kinds of records: which values read, and which field and place are named
where one does not."""

import json
from os.path import commonprefix
from typing import NamedTuple

from cases import AGAIN, BLANK, USED, begins, malformed, missing, no_genesis, over_small, pots, printed
from records import ref, small, tx_id
from tables import kinds
from tables.kinds import ADDRESS, ASSETS, HASH28, HASH32, MINTED, ONE_NAME, REF, SLOT, U32, U64, UNIT, VALUES, Kind, entry, listing, or_null, spelled, thing, without


class Listed(NamedTuple):
    """A list whose first bad entry is named by its place; of named entries each is there once."""

    entry: Kind
    named: bool = False


OUTPUT = entry(ADDRESS, U64, U32, last=ASSETS)

# the fields of each kind of record, in the order in which they are read
RECORDS = {
    "genesis": {
        "network": kinds.NETWORK,
        "slot": SLOT,
        "epochLength": kinds.EPOCH_LENGTH,
        "version": kinds.GENESIS_VERSION,
        "supply": U64,
        "reserves": U64,
        "treasury": U64,
        "params": kinds.ALL_PARAMS,
        "document": HASH32,
        "script": HASH28,
        "committee": thing({"threshold": UNIT, "members": listing(entry(kinds.CREDENTIAL, SLOT, or_null(kinds.CREDENTIAL)))}),
        "outputs": Listed(entry(REF, ADDRESS, U64, last=ASSETS)),
        "accounts": Listed(entry(kinds.CREDENTIAL, U64, U64, or_null(HASH28), or_null(kinds.DREP))),
        "pools": Listed(entry(HASH28, U64, U64, U64, UNIT, kinds.ACCOUNT, last=HASH32)),
        "dreps": Listed(entry(kinds.CREDENTIAL, U64, SLOT)),
    },
    "block": {"slot": SLOT, "pulse": U32},
    "rewards": {"epoch": U64, "fromReserves": U64, "fromFees": U64, "toTreasury": U64, "rewards": Listed(entry(kinds.CREDENTIAL, U64), named=True)},
    "tx": {
        "id": HASH32,
        "inputs": Listed(REF),
        "outputs": Listed(OUTPUT),
        "fee": U64,
        "size": U32,
        "scriptFee": U64,
        "witnessed": kinds.BOOLEAN,
        "scripts": kinds.SCRIPTS,
        "from": SLOT,
        "until": SLOT,
        "collateral": Listed(REF),
        "collateralReturn": OUTPUT,
        "mint": Listed(MINTED, named=True),
        "treasury": U64,
        "donation": U64,
        "withdrawals": Listed(kinds.WITHDRAWAL, named=True),
        "certs": Listed(kinds.CERT),
        "proposals": Listed(kinds.PROPOSAL),
        "votes": Listed(kinds.VOTE),
    },
    "print": {"what": kinds.WHAT},
}
OPTIONAL = {"genesis": {"script", "committee"}, "tx": {*RECORDS["tx"]} - {"id", "inputs", "outputs", "fee", "size"}}

# a value that no field takes
BAD = "{}"
# the last slot that there can be, and its epoch: where the genesis stands there, each block and
# each reward update that reads is refused by the first rule on it
LAST_SLOT = 2**62 - 1
LAST_EPOCH = LAST_SLOT // 10


def is_optional(record, name):
    return name in OPTIONAL.get(record, ())


def base_of(record):
    """A record with its needed fields. The id of the transaction is that of the genesis outputs, so that it is refused where it reads, whatever else it has."""
    needed = {name: "[]" if isinstance(kind, Listed) else kind.good[0] for name, kind in RECORDS[record].items() if not is_optional(record, name)}
    own = {"id": json.dumps(tx_id(1)), "inputs": json.dumps([ref(9, 9)])}
    return {"kind": json.dumps(record), **needed, **{name: it for name, it in own.items() if name in needed}}


def answer_of(record, name, value):
    """What a record is answered that reads, with this value of the field."""
    if record == "genesis":
        return AGAIN
    if record == "tx":
        return missing() if name == "id" else USED
    if record == "print":
        # there is no asset
        return BLANK if value == '"assets"' else printed(200, 100, 700, 1000)
    return f"refused 10 SlotNotLater last {LAST_SLOT}" if record == "block" else f"refused 20 WrongEpoch now {LAST_EPOCH}"


def over(record, name, *lines):
    """The lines after a small genesis, for blocks and reward updates one at the last slot."""
    return over_small(name, *lines, **({"slot": LAST_SLOT} if record in ("block", "rewards") else {}))


def readable(record, kind):
    """Texts of a field that read; a print of the state has many lines, and stands in tests/streams/whole."""
    return [it for it in good_values(kind) if record != "print" or it != '"state"']


def good_values(kind):
    """Texts of a field that read."""
    if not isinstance(kind, Listed):
        return kind.good
    good = kind.entry.good
    return ["[]", *(f"[{it}]" for it in good), f"[{good[1]},{good[0]}]"] + ([] if kind.named else [f"[{good[0]},{good[0]}]"])


def bad_values(kind):
    """Texts of a field that do not, each with the place of the entry that is named."""
    if not isinstance(kind, Listed):
        return [(it, None) for it in kind.bad]
    good, bad = kind.entry
    whole = [(it, None) for json_kind, values in VALUES.items() if json_kind != "array" for it in values]
    entries = [(f"[{it}]", 0) for it in bad] + [(f"[{good[1]},{it}]", 1) for it in bad[:3]]
    first = [(f"[{good[1]},{good[0]},{bad[0]},{bad[1]}]", 2), (f"[{bad[0]},{good[0]}]", 0)]
    twice = [(f"[{good[1]},{good[i]},{good[j]},{bad[0]}]", 2) for i, j in ONE_NAME] if kind.named else []
    return whole + entries + first + twice


def unlike(value, sample):
    """The part of a long value in which it begins to be another than the sample."""
    same = len(commonprefix([value, sample]))
    return value if len(value) < 150 else f"..{value[max(0, same - 50) : same + 100]}.."


def lines_of(record, name, kind):
    """A record for each value of the field, with its answer."""
    base = base_of(record)
    can_miss = is_optional(record, name)
    sample = good_values(kind)[-1 if isinstance(kind, Listed) else 0]

    def line(value, answer):
        return spelled({**base, name: value}).encode(), answer, f"{record} with {name} {unlike(value, sample)}"

    yield spelled(without(base, name)).encode(), answer_of(record, name, "null") if can_miss else malformed(name), f"{record} without {name}"
    yield from (line(it, answer_of(record, name, it)) for it in readable(record, kind) + ["null"] * can_miss)
    yield from (line(it, malformed(name, place)) for it, place in bad_values(kind) if not (can_miss and it == "null"))


def each_field():
    for record, fields in RECORDS.items():
        for name, kind in fields.items():
            yield over(record, f"{record}: {name}", *lines_of(record, name, kind))


def first_bad():
    """The first bad field is named, in whatever order they stand in the line."""
    for record, fields in RECORDS.items():
        names, base = [*fields], base_of(record)
        lines = []
        for i, name in enumerate(names):
            later = dict.fromkeys(reversed(names[i:]), BAD)
            lines.append((spelled({**base, **later}).encode(), malformed(name), f"bad from {name}"))
            lines.append((spelled({**later, **base, name: BAD}).encode(), malformed(name), f"{name} behind fields that are good"))
        lines.append((spelled({name: base[name] for name in reversed(base)}).encode(), answer_of(record, "", "")))
        yield over(record, f"{record}: the first bad field", *lines)


def other_names():
    """Fields of other records are passed over; a name that is nearly that of a field is none."""
    for record, fields in RECORDS.items():
        base = base_of(record)
        others = {name: BAD for other in RECORDS.values() for name in other if name not in fields}
        lines = [(spelled({**base, **others}).encode(), answer_of(record, "", ""))]
        for name in fields:
            for other in (name.upper(), name + " ", " " + name):
                if not is_optional(record, name):
                    lines.append((spelled({**without(base, name), other: base[name]}).encode(), malformed(name), f"{other!r} for {name!r}"))
        yield over(record, f"{record}: other names", *lines)


def first_records():
    """A genesis to begin with needs each field too."""
    genesis = base_of("genesis")
    yield begins("a genesis of the needed fields alone", spelled(genesis).encode(), pots(0, 0, 0, 0))
    for name in RECORDS["genesis"]:
        if not is_optional("genesis", name):
            yield no_genesis(f"a genesis without {name}", spelled(without(genesis, name)).encode())
        yield no_genesis(f"a genesis with a bad {name}", spelled({**genesis, name: BAD}).encode())
    for record in RECORDS:
        if record != "genesis":
            yield no_genesis(f"a {record} record first", spelled(base_of(record)).encode() + b"\n" + small() + b"\n")


def cases():
    yield from each_field()
    yield from first_bad()
    yield from other_names()
    yield from first_records()
