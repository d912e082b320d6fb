"""The lines of streams: what the tables, tests/run/replay and tests/run/bench make their records
from."""

import json

LINE_LIMIT = 16_777_216
OUTPUT_LIMIT = 65_535
ENTRY_LIMIT = 65_536
SUPPLY_LIMIT = 45_000_000_000_000_000
GREATEST = 2**64 - 1

# in place of a field's value: the record does not have the field
ABSENT = object()


# ---- ids


def tx_id(n):
    """The id of transaction n: its decimal digits, with zeros before them."""
    return str(n).zfill(64)


def hash28(n):
    """The hash of a key, a script or a pool: decimal digits, with zeros before them."""
    return str(n).zfill(56)


def credential(n, kind="k"):
    """A key, or a script."""
    return kind + hash28(n)


def key(n, network=1):
    """The address of key n, which is its account too."""
    return f"{network}{credential(n)}"


def script(n, network=1):
    """The address of script n, which is its account too."""
    return f"{network}{credential(n, 's')}"


def ref(n, index):
    """The output of transaction n at an index."""
    return f"{tx_id(n)}#{index}"


# ---- lines


def text(record):
    """A record as one line, without its line feed."""
    return json.dumps(record, separators=(",", ":")).encode()


def but(line, old, new):
    """The line with one text in place of another, which stands in it once."""
    old, new = (it if isinstance(it, bytes) else it.encode() for it in (old, new))
    assert line.count(old) == 1, (line, old)
    return line.replace(old, new)


def padded(line, length):
    """The line with spaces after it, of this length."""
    return line + b" " * (length - len(line))


def with_fields(record, fields):
    """The record with these fields in place of its own; those that are ABSENT are left out."""
    return {name: it for name, it in {**record, **fields}.items() if it is not ABSENT}


# ---- records

# the 30 parameters, in order: nothing costs anything but deposits
PARAMS = {
    "maxBlockBodySize": 90112,
    "maxTxSize": 16384,
    "maxBlockHeaderSize": 1100,
    "maxValueSize": 5000,
    "maxTxExUnits": [1000, 1000],
    "maxBlockExUnits": [1000, 1000],
    "maxCollateralInputs": 3,
    "minFeeA": 0,
    "minFeeB": 0,
    "keyDeposit": 2,
    "poolDeposit": 5,
    "rho": [0, 1],
    "tau": [0, 1],
    "minPoolCost": 0,
    "coinsPerUTxOByte": 0,
    "prices": [[0, 1], [0, 1]],
    "minFeeRefScriptCostPerByte": [15, 1],
    "a0": [0, 1],
    "eMax": 18,
    "nOpt": 500,
    "costModels": tx_id(0),
    "collateralPercentage": 150,
    "poolVotingThresholds": [[0, 1]] * 5,
    "drepVotingThresholds": [[67, 100]] * 10,
    "govActionLifetime": 2,
    "govActionDeposit": 10,
    "drepDeposit": 5,
    "drepActivity": 20,
    "committeeMinSize": 0,
    "committeeMaxTermLength": 100,
}

GENESIS = {
    "kind": "genesis",
    "network": 1,
    "slot": 0,
    "epochLength": 10,
    "version": [10, 0],
    "supply": 3000,
    "reserves": 900,
    "treasury": 100,
    "params": PARAMS,
    "document": tx_id(1),
    "script": None,
    "committee": {"threshold": [0, 1], "members": [[credential(70), 100, credential(71)]]},
    "outputs": [[ref(1, i), key(1), 20] for i in range(100)],
    "accounts": [],
    "pools": [],
    "dreps": [],
}


def genesis_record(**fields):
    """A genesis that breaks no rule: 100 outputs of 20 lovelace each, of transaction 1. Fields and parameters given stand in place of its own."""
    params = {name: fields.pop(name) for name in PARAMS if name in fields}
    return with_fields({**GENESIS, "params": with_fields(PARAMS, params)}, fields)


def genesis(**fields):
    """The same as a line."""
    return text(genesis_record(**fields))


def small(**fields):
    """A genesis of 10 such outputs."""
    return genesis(**{"supply": 1000, "reserves": 700, "outputs": GENESIS["outputs"][:10], **fields})


def tx_record(n, **fields):
    """Transaction n: it spends output n of transaction 1, of 20 lovelace, and pays all of it as the fee. Fields given stand in place of its own."""
    return with_fields({"kind": "tx", "id": tx_id(n), "inputs": [ref(1, n)], "outputs": [], "fee": 20, "size": 0}, fields)


def transfer(n, **fields):
    """The same as a line."""
    return text(tx_record(n, **fields))


def paying(n, *amounts, **fields):
    """Transaction n with an output of each amount and no fee."""
    return transfer(n, outputs=[[key(n), it, 0] for it in amounts], **{"fee": 0, **fields})
