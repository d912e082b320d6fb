"""Lines that are damaged in their shape: of a record of each kind that has every member, a line for
each damage of each place in it; the same with several damages at random; and records with names
that nobody reads.

The records are made so that most of these lines are refused, by a rule where they can be read: so
they seldom change the ledger of a stream."""

import json
import re
from copy import deepcopy

from records import PARAMS, credential, genesis_record, hash28, key, ref, tx_id

ASSETS = [[hash28(5), "", 3], [hash28(5), "aa", 1]]
# names that nobody reads: of every sort of byte, and in no order
NAMES = ["zz", "withdrawls", "Kind", "fee ", "", "a.b", "a[0]", "%41", "-_9", "ü", "\u20ac", "\U0001f600", "\x00", "~", "B"]
VALUES = [1, None, "x", {"kind": 1}, [[]]]


# ---- records with every member


def full_genesis():
    return genesis_record(
        script=hash28(9),
        outputs=[[ref(1, 0), key(1), 20], [ref(1, 1), f"{key(1)}+{credential(2, 's')}", 20, ASSETS]],
        accounts=[[credential(10), 2, 67, hash28(50), credential(30)], [credential(11), 2, 0, None, "abstain"], [credential(12), 2, 0, None, None]],
        pools=[[hash28(50), 5, 0, 0, [0, 1], key(12)], [hash28(51), 5, 0, 0, [1, 3], key(12), tx_id(7)]],
        dreps=[[credential(30), 5, 20]],
        committee={"threshold": [1, 2], "members": [[credential(70), 100, credential(71)], [credential(72), 100, None]]},
    )


def full_certs():
    cred, pool, drep = {"cred": credential(10)}, {"pool": hash28(50)}, {"drep": "no-confidence"}
    terms = {"cost": 1, "pledge": 2, "margin": [1, 3], "account": key(12), "key": tx_id(7)}
    yield from ({"cert": "account-reg", **cred, "deposit": 2, **pool, **drep}, {"cert": "account-unreg", **cred, "refund": 2}, {"cert": "delegate", **cred, **pool, **drep})
    yield from ({"cert": "pool-reg", **pool, **terms}, {"cert": "pool-retire", **pool, "epoch": 1})
    yield from ({"cert": "drep-reg", **cred, "deposit": 5}, {"cert": "drep-unreg", **cred, "refund": 5}, {"cert": "drep-update", **cred})
    yield from ({"cert": "hot-auth", "cold": credential(70), "hot": credential(71)}, {"cert": "hot-resign", "cold": credential(70)})


def full_actions():
    previous, policy = {"previous": ref(9, 0)}, {"policy": hash28(9)}
    yield {"type": "NoConfidence", **previous}
    yield {"type": "UpdateCommittee", **previous, "remove": [credential(70)], "add": [[credential(73), 9]], "threshold": [1, 2]}
    yield {"type": "NewConstitution", **previous, "document": tx_id(5), "script": hash28(9)}
    yield {"type": "HardForkInitiation", **previous, "version": [11, 0]}
    yield {"type": "ParameterChange", **previous, "update": PARAMS, **policy}
    yield {"type": "TreasuryWithdrawals", "targets": [[key(12), 7]], **policy}
    yield {"type": "Info"}


def full_transaction():
    """Its input is of a transaction that is none, so it is refused."""
    voters = [f"committee:{credential(71)}", f"drep:{credential(30, 's')}", f"pool:{hash28(50)}"]
    return {
        "kind": "tx",
        "id": tx_id(8),
        "inputs": [ref(999, 0)],
        "outputs": [[key(1), 5, 0], [f"{key(1)}+{credential(2)}", 5, 0, ASSETS]],
        "fee": 10,
        "size": 300,
        "scriptFee": 1,
        "witnessed": True,
        "scripts": "none",
        "from": 0,
        "until": 2**40,
        "collateral": [ref(1, 0)],
        "collateralReturn": [key(1), 5, 0, ASSETS],
        "mint": [[hash28(5), "bb", 4], [hash28(6), "", -4]],
        "treasury": 1,
        "donation": 1,
        "withdrawals": [[key(10), 67]],
        "certs": [*full_certs()],
        "proposals": [{"deposit": 10, "return": key(12), "action": it} for it in full_actions()],
        "votes": [{"voter": voter, "action": ref(2, 0), "vote": vote} for voter, vote in zip(voters, ("yes", "no", "abstain"))],
    }


def full_records():
    """A second genesis, a transaction, a block of no pulse, a reward update of an epoch to come, which are refused, and a print.

    Each is a new one, of which no two parts are one value: they are to be changed."""
    block = {"kind": "block", "slot": 1, "pulse": 0}
    rewards = {"kind": "rewards", "epoch": 2**60, "fromReserves": 1, "fromFees": 1, "toTreasury": 1, "rewards": [[credential(10), 1]]}
    found = [full_genesis(), full_transaction(), block, rewards, {"kind": "print", "what": "pots"}]
    return json.loads(json.dumps(found))


# ---- damages of one place


def instead(value):
    """What is put where a value is."""
    if isinstance(value, str):
        return [None, 7, "", value[:-1], f"{value}0", value.upper(), [value]]
    if isinstance(value, bool):
        return [None, 1, "true", []]
    if isinstance(value, int):
        return [None, str(value), False, -1, 0, 1.5, 2**16, 2**32, 2**62, 2**64, -(2**63) - 1]
    if isinstance(value, list):
        return [None, {}, [], value[:-1], [*value, *value[-1:]], [*value, None], value[:1] * 16]
    return [None, [], {}, *([{**value, NAMES[1]: 1, NAMES[0]: None}] if isinstance(value, dict) else ["x", {}])]


def renamed(value, old, new):
    return {new if name == old else name: it for name, it in value.items()}


def places(value):
    """Each place in a value, as what holds it and its name there."""
    for name in [*value] if isinstance(value, dict) else range(len(value)):
        yield value, name
        if isinstance(value[name], (dict, list)):
            yield from places(value[name])


def objects(value):
    """Each object in a value, itself among them."""
    within = value.values() if isinstance(value, dict) else value
    yield from [value] if isinstance(value, dict) else []
    for it in within:
        if isinstance(it, (dict, list)):
            yield from objects(it)


def as_line(value):
    return json.dumps(value, separators=(",", ":")).encode()


def each_damage(record):
    """A line for each damage of each place of a record, one after another."""
    for holder, name in places(record):
        whole = holder[name]
        for it in instead(whole):
            holder[name] = it
            yield as_line(record)
        holder[name] = whole
    for holder in objects(record):
        before = dict(holder)
        for name in before:
            for changed in ({it: before[it] for it in before if it != name}, renamed(before, name, f"{name}s")):
                holder.clear()
                holder.update(changed)
                yield as_line(record)
        holder.clear()
        holder.update(before)


def all_damages():
    """Those of all records with every member, and what is no object."""
    yield from (as_line(it) for it in instead([]) + instead(1) + instead("tx"))
    for record in full_records():
        yield from each_damage(record)


# ---- damages at random


def put_names(r, record, most=3):
    """The same record with names that nobody reads, but in its parameters, where such a name is a fault."""
    record = deepcopy(record)
    holders = [it for it in objects(record) if not PARAMS.keys() & it.keys()]
    for _ in range(r.randrange(1, most + 1)):
        r.choice(holders)[r.choice(NAMES)] = r.choice(VALUES)
    return record


def twice(r, line):
    """Some member once more, with another value before its own, which counts."""
    found = [*re.finditer(rb'(?<=[{,])"([A-Za-z]+)":', line)]
    if not found:
        return line
    at = r.choice(found)
    return line[: at.start()] + b'"%s":%s,' % (at[1], r.choice([b"null", b"1", b'"x"', b"{}"])) + line[at.start() :]


def a_damaged_line(r):
    """A record with every member, with some damages."""
    record = r.choices(full_records(), [3, 8, 1, 1, 1])[0]
    for _ in range(r.randrange(1, 7)):
        # (a record may have lost all that it had)
        holder, name = r.choice([*places(record)] or [([None], 0)])
        kind = r.random()
        if kind < 0.5:
            holder[name] = r.choice(instead(holder[name]))
        elif isinstance(holder, dict):
            changed = renamed(holder, name, r.choice([f"{name}s", name.upper(), *NAMES])) if kind < 0.9 else {it: holder[it] for it in holder if it != name}
            holder.clear()
            holder.update(changed)
    if r.random() < 0.3:
        record = put_names(r, record)
    line = json.dumps(record, separators=(",", ":"), ensure_ascii=r.random() < 0.5).encode()
    return twice(r, line) if r.random() < 0.2 else line
