"""A plain program of what `explain` writes: every rule that a record breaks, everything that is
wrong with what was read first, and what of a line is not of its shape (shapes.py). As epochs.py it
is written from docs/use/rules.md, docs/use/formats.md and docs/use/commands.md alone, and looks
everything up anew.

Whether a line can be read, and what the first fault of a malformed one is, but where assets are
malformed, is asked of the caller."""

from copy import deepcopy
from typing import NamedTuple, Optional

from oracle import shapes
from oracle.epochs import after_accepted, begun, broken_by_record, malformed
from oracle.json_front import front
from oracle.spoiled import a_damaged_line, as_line, put_names
from oracle.streams import RULES, Maker, a_genesis, a_reward_update, a_transaction, other_record, short, short_shape
from oracle.transactions import network_of
from records import GREATEST, SUPPLY_LIMIT, credential, hash28, tx_id

PREDEFINED = (None, "abstain", "no-confidence")


# ---- a genesis


def members_of(genesis):
    return (genesis.get("committee") or {}).get("members", [])


def lists_of(genesis):
    """The lists of which each entry begins with a name, in order."""
    yield "committee.members", members_of(genesis)
    for name in ("outputs", "accounts", "pools", "dreps"):
        yield name, genesis[name]


def repeated(genesis):
    """Each entry whose name stands before it in its list."""
    for name, entries in lists_of(genesis):
        seen = set()
        for place, (it, *_) in enumerate(entries):
            if it in seen:
                yield f"Repeated {name}[{place}]"
            seen.add(it)


def unknown_targets(genesis):
    """Each account whose pool or DRep is not listed."""
    pools, dreps = ({it[0] for it in genesis[name]} for name in ("pools", "dreps"))
    for place, (_, _, _, pool, drep) in enumerate(genesis["accounts"]):
        if pool is not None and pool not in pools:
            yield f"UnknownTarget accounts[{place}] pool"
        if drep not in PREDEFINED and drep not in dreps:
            yield f"UnknownTarget accounts[{place}] drep"


def of_another_network(genesis):
    """Each output, then each pool, whose address or reward account is of another network."""
    for name, place_of in (("outputs", 1), ("pools", 5)):
        for place, it in enumerate(genesis[name]):
            if network_of(it[place_of]) != genesis["network"]:
                yield f"WrongNetwork {name}[{place}]"


def sum_of(genesis):
    """All lovelace of a genesis."""
    outputs, deposits = sum(it[2] for it in genesis["outputs"]), sum(it[1] for it in genesis["pools"] + genesis["dreps"])
    return outputs + deposits + sum(it[1] + it[2] for it in genesis["accounts"]) + genesis["treasury"] + genesis["reserves"]


def problems(genesis):
    """All that is wrong with a genesis, in order."""
    if genesis["supply"] > SUPPLY_LIMIT:
        yield f"SupplyTooLarge supply {genesis['supply']} most {SUPPLY_LIMIT}"
    yield from repeated(genesis)
    yield from unknown_targets(genesis)
    yield from of_another_network(genesis)
    if sum_of(genesis) != genesis["supply"]:
        yield f"SumWrong sum {sum_of(genesis)} supply {genesis['supply']}"


def wrong_at_first(record):
    """The lines of what was read first; none for a genesis that breaks no rule."""
    if malformed(record):
        return malformed(record)
    if record["kind"] != "genesis":
        return ["genesis NoGenesis"]
    return [f"genesis {it}" for it in problems(record)]


# ---- a stream


def explained(ledger, record):
    """The ledger after a record past the genesis, and a line for each rule that it breaks."""
    broken = broken_by_record(ledger, record)
    return (ledger if broken else after_accepted(ledger, record)[0]), broken


class Reading(NamedTuple):
    """A line that is not blank, with its number: its record or, where it has none, what it is answered."""

    number: int
    line: bytes
    record: Optional[dict] = None
    answer: Optional[str] = None


def noted(line, told):
    """The lines of what a line breaks, and behind them those of its shape and of the names that nobody reads, or of where it stops being JSON."""
    if told[:1] == ["refused 2 TooLong"]:
        return told
    if told[:1] == ["refused 1 Malformed json"]:
        return [*told, f"malformed json at {front(line)}"]
    return [*told, *shapes.lines_of(line)]


def status_and_text(readings):
    """How a run over these lines ends, and what it writes."""
    ledger, lines, begins = None, [], True
    for it in readings:
        told = [it.answer] if it.record is None else []
        if begins:
            told, begins = told or wrong_at_first(it.record), False
            ledger = None if told else begun(it.record)
        elif ledger is None:
            break
        elif it.record is not None:
            ledger, told = explained(ledger, it.record)
        lines += [f"{it.number} {line}\n" for line in noted(it.line, told)]
    return (0 if ledger else 3), "".join(lines)


# ---- random streams, in which several rules are broken at once

# how many rules of a transaction are broken, of those of its kind
FAULTS = range(2, 9)
# how many records have names that nobody reads, before how many there is a line of a damaged shape,
# and how many streams begin with one
NAMED, SHAPELESS, FIRST = 0.15, 0.1, 0.05


def one_more(r, entries):
    """An entry once more, as it is or with another amount, at some place."""
    if entries:
        again = [it + r.choice([0, 1]) if type(it) is int else it for it in r.choice(entries)]
        entries.insert(r.randrange(len(entries) + 1), again)


def to_unlisted(r, accounts):
    """Some account delegates to a pool, a DRep or both that nobody lists."""
    if accounts:
        it, kind = r.choice(accounts), r.choice(["pool", "drep", "both"])
        it[3:] = [hash28(99) if kind != "drep" else it[3], credential(99) if kind != "pool" else it[4]]


def to_another_network(r, genesis):
    """An output or a pool, or the genesis itself, changes its network."""
    name, place_of = r.choice([("outputs", 1), ("pools", 5)])
    if r.random() < 0.2 or not genesis[name]:
        genesis["network"] = 1 - genesis["network"]
    else:
        it = r.choice(genesis[name])
        it[place_of] = f"{1 - network_of(it[place_of])}{it[place_of][1:]}"


def spoil_assets(r, outputs):
    """An output lists an asset that is none."""
    if outputs:
        r.choice(outputs)[3:] = [[[hash28(5), "", r.choice([0, -1, "1"])]]]


def a_damaged_genesis(r, shape):
    """A genesis that breaks some rules of one, or a record that is no genesis."""
    genesis = deepcopy(a_genesis(r, shape))
    if r.random() < 0.1:
        return r.choice([{"kind": "print", "what": "pots"}, {"kind": "block", "slot": 1, "pulse": 1}, {"kind": "Genesis"}])
    named = [members_of(genesis), *(genesis[name] for name in ("outputs", "accounts", "pools", "dreps"))]
    changes = [
        lambda: genesis.update(supply=SUPPLY_LIMIT + r.choice([1, 1, 7])),
        lambda: genesis.update(supply=SUPPLY_LIMIT),
        *[lambda: one_more(r, r.choice(named))] * 3,
        *[lambda: to_unlisted(r, genesis["accounts"])] * 2,
        *[lambda: to_another_network(r, genesis)] * 2,
        lambda: genesis.update(treasury=genesis["treasury"] + 1),
        lambda: genesis.update(reserves=GREATEST),
    ]
    for change in r.sample(changes, r.randrange(1, 6)):
        change()
    if r.random() < 0.03:
        spoil_assets(r, genesis["outputs"])
    return genesis


def a_damaged_block(r, ledger):
    """Of a slot that has passed, or of an epoch that is far, and mostly of no pulse."""
    slot = r.choice([ledger["slot"], max(0, ledger["slot"] - 1), (ledger["epoch"] + 2) * ledger["length"], ledger["slot"] + 1])
    return {"kind": "block", "slot": slot, "pulse": r.choice([0, 0, 1])}


def a_damaged_update(r, ledger):
    """A reward update of which each amount may be too much."""
    it = a_reward_update(r, ledger)
    changes = [
        lambda: it.update(epoch=ledger["epoch"] + 1),
        lambda: it.update(fromReserves=r.choice([ledger["reserves"] + 1, GREATEST])),
        lambda: it.update(fromFees=r.choice([ledger["fees"] + 1, GREATEST])),
        lambda: it.update(toTreasury=r.choice([0, it["toTreasury"] + 1, GREATEST])),
    ]
    for change in r.sample(changes, r.randrange(1, 4)):
        change()
    return {**it, "toTreasury": min(it["toTreasury"], GREATEST)}


def a_damaged_transaction(r, ledger, number):
    """One that breaks several rules; now and then many certificates, proposals and votes are in it as they come."""
    maker = Maker(r, ledger, tx_id(number))
    tx = maker.good()
    for rule in r.sample(RULES, r.choice(FAULTS)):
        maker.break_one(tx, rule)
    if r.random() < 0.3:
        maker.break_any(tx)
    if r.random() < 0.02:
        maker.spoil(tx)
    return short(tx)


def damaged_record(r, ledger, number):
    kinds = {"tx": lambda: a_damaged_transaction(r, ledger, number), "block": lambda: a_damaged_block(r, ledger), "rewards": lambda: a_damaged_update(r, ledger)}
    return kinds[r.choices([*kinds], [10, 1, 1])[0]]()


def a_damaged_stream(r):
    """A genesis, of which every sixth breaks rules, and records of which every other one is damaged."""
    shape = short_shape(r)
    genesis = a_damaged_genesis(r, shape) if r.random() < 1 / 6 else a_genesis(r, shape)
    if wrong_at_first(genesis):
        return [genesis, *({"kind": "print", "what": "pots"} for _ in range(r.randrange(3)))]
    records, ledger, number = [genesis], begun(genesis), 10
    for _ in range(shape.records):
        damaged = damaged_record(r, ledger, number) if r.random() < 0.5 else None
        record = damaged or other_record(r, genesis, ledger, shape) or a_transaction(r, ledger, number, False)
        ledger, told = explained(ledger, record)
        records.append(record)
        # the id of a refused transaction may come again
        number += record["kind"] == "tx" and (not told or r.random() < 0.5)
    return records


def a_damaged_text(r):
    """Such a stream as text: some of its records have names that nobody reads, and lines of damaged shapes are between them."""
    lines = []
    for it in a_damaged_stream(r):
        if r.random() < (SHAPELESS if lines else FIRST):
            lines.append(a_damaged_line(r))
        lines.append(as_line(put_names(r, it) if r.random() < NAMED else it))
    return b"".join(it + b"\n" for it in lines)
