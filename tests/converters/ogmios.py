"""Made answers of Ogmios for tools/slice: a payment of the least fee, one of a lovelace less, and a
withdrawal of an account that delegates its vote to nobody, with certificates of several kinds
beside it."""

import json

from converters.koios import ADA, encoded

SLOT, EPOCH_LENGTH, ERA_SLOT, ERA_EPOCH = 160_000_000, 432_000, 133_660_800, 507
KEY, OTHER, POOL = "a1" * 28, "b2" * 28, encoded("pool", bytes.fromhex("c3" * 28))
STAKE = encoded("stake", bytes.fromhex("e1" + KEY))
ADDRESSES = [encoded("addr", bytes.fromhex("01" + KEY + OTHER)), encoded("addr", bytes.fromhex("71" + OTHER)), "Ae2tdPwUPEZMadeByron"]
POLICY = "d4" * 28


# ---- CBOR


def cbor(value):
    def head(kind, number):
        for low, width in ((24, 1), (25, 2), (26, 4), (27, 8)):
            if number < 24:
                return bytes([kind << 5 | number])
            if number < 1 << 8 * width:
                return bytes([kind << 5 | low]) + number.to_bytes(width, "big")
        raise ValueError(number)

    if value is None or isinstance(value, bool):
        return {None: b"\xf6", True: b"\xf5", False: b"\xf4"}[value]
    if isinstance(value, int):
        return head(0, value)
    if isinstance(value, bytes):
        return head(2, len(value)) + value
    if isinstance(value, list):
        return head(4, len(value)) + b"".join(map(cbor, value))
    if isinstance(value, dict):
        return head(5, len(value)) + b"".join(cbor(part) for it in value.items() for part in it)
    raise TypeError(value)


def transaction_bytes(outputs, fee):
    """A transaction with these outputs, its inputs as a set of no stated length."""
    inputs = b"\xd9\x01\x02\x9f" + cbor([bytes(32), 0]) + b"\xff"
    own = [cbor({0: it["address"].encode(), 1: it["value"]["ada"]["lovelace"]}) for it in outputs]
    body = b"\xa3" + cbor(0) + inputs + cbor(1) + b"\x9f" + b"".join(own) + b"\xff" + cbor(2) + cbor(fee)
    return b"\x84" + body + cbor({0: [[bytes(32), bytes(64)]]}) + cbor(True) + cbor(None), [len(it) for it in own]


# ---- shapes


def ada(amount):
    return {"ada": {"lovelace": amount}}


def ref(digit, index):
    return {"transaction": {"id": digit * 64}, "index": index}


def parameters():
    counts = {
        "minFeeCoefficient": 44,
        "minUtxoDepositCoefficient": 4310,
        "maxCollateralInputs": 3,
        "collateralPercentage": 150,
        "stakePoolRetirementEpochBound": 18,
        "desiredNumberOfStakePools": 500,
        "governanceActionLifetime": 6,
        "delegateRepresentativeMaxIdleTime": 20,
        "constitutionalCommitteeMinSize": 0,
        "constitutionalCommitteeMaxTermLength": 146,
    }
    amounts = {
        "minFeeConstant": 155_381,
        "stakeCredentialDeposit": 2 * ADA,
        "stakePoolDeposit": 500 * ADA,
        "minStakePoolCost": 170 * ADA,
        "governanceActionDeposit": 100_000 * ADA,
        "delegateRepresentativeDeposit": 500 * ADA,
    }
    sizes = {"maxBlockBodySize": 90_112, "maxTransactionSize": 16_384, "maxBlockHeaderSize": 1100, "maxValueSize": 5000}
    committee, part = {"default": "67/100", "stateOfNoConfidence": "3/5"}, "67/100"
    groups = {it: part for it in ("network", "economic", "technical", "governance")}
    return {
        **counts,
        **{name: ada(it) for name, it in amounts.items()},
        **{name: {"bytes": it} for name, it in sizes.items()},
        "monetaryExpansion": "3/1000",
        "treasuryExpansion": "1/5",
        "stakePoolPledgeInfluence": "3/10",
        "scriptExecutionPrices": {"memory": "577/10000", "cpu": "721/10000000"},
        "maxExecutionUnitsPerTransaction": {"memory": 14_000_000, "cpu": 10_000_000_000},
        "maxExecutionUnitsPerBlock": {"memory": 62_000_000, "cpu": 20_000_000_000},
        "minFeeReferenceScripts": {"range": 25600, "base": 15, "multiplier": 1.2},
        "version": {"major": 10, "minor": 0},
        "stakePoolVotingThresholds": {"noConfidence": part, "constitutionalCommittee": committee, "hardForkInitiation": part, "protocolParametersUpdate": {"security": part}},
        "delegateRepresentativeVotingThresholds": {"noConfidence": part, "constitution": "3/4", "constitutionalCommittee": committee, "hardForkInitiation": part, "protocolParametersUpdate": groups, "treasuryWithdrawals": part},
    }


def state():
    """What the ledger tells, whatever the transaction is."""
    member = {"id": "e5" * 28, "from": "script", "status": "active", "mandate": {"epoch": 600}, "delegate": {"status": "authorized", "id": "f6" * 28, "from": "verificationKey"}}
    drep = {"type": "registered", "from": "verificationKey", "id": OTHER, "mandate": {"epoch": 590}, "deposit": ada(500 * ADA), "stake": ada(7)}
    account = {"from": "verificationKey", "credential": KEY, "stakePool": {"id": POOL}, "rewards": ada(12 * ADA), "deposit": ada(2 * ADA)}
    terms = {"id": POOL, "vrfVerificationKeyHash": "07" * 32, "pledge": ada(ADA), "cost": ada(170 * ADA), "margin": "1/20", "rewardAccount": STAKE}
    live = [
        {"proposal": ref("3", 2), "action": {"type": "information"}, "until": {"epoch": 568}},
        {"proposal": ref("4", 0), "action": {"type": "protocolParametersUpdate", "parameters": {"minFeeCoefficient": 45}}, "until": {"epoch": 568}},
        {"proposal": ref("5", 0), "action": {"type": "treasuryWithdrawals", "withdrawals": {STAKE: ada(5)}}, "until": {"epoch": 568}},
        {"proposal": ref("6", 0), "action": {"type": "information"}, "until": {"epoch": 500}},
    ]
    return {
        "utxo": [{**ref("1", 0), "address": ADDRESSES[0], "value": {**ada(50 * ADA), POLICY: {"436f696e": 7}}}, {**ref("1", 1), "address": ADDRESSES[2], "value": ada(30 * ADA)}, {**ref("9", 9), "address": ADDRESSES[1], "value": ada(1)}],
        "protocolParameters": parameters(),
        "tip": {"slot": SLOT, "id": "08" * 32},
        "eraStart": {"time": {"seconds": 1}, "slot": ERA_SLOT, "epoch": ERA_EPOCH},
        "genesisConfiguration": {"era": "shelley", "network": "mainnet", "epochLength": EPOCH_LENGTH},
        "treasuryAndReserves": {"treasury": ada(1_700_000_000 * ADA), "reserves": ada(7_000_000_000 * ADA)},
        "constitution": {"metadata": {"url": "https://x", "hash": "0c" * 32}, "guardrails": {"hash": "fa" * 28}},
        "constitutionalCommittee": {"members": [member], "quorum": "2/3"},
        "rewardAccountSummaries": [account],
        "stakePools": {POOL: terms},
        "delegateRepresentatives": [drep, {"type": "abstain", "stake": ada(5)}],
        "governanceProposals": live,
    }


def a_transaction(spare=0, out=80 * ADA, **more):
    """One that pays the least fee, and so much less; what is left of `out` goes to its first output."""
    outputs = [{"address": ADDRESSES[1], "value": {**ada(10_000_000), POLICY: {"436f696e": 7}}}, {"address": ADDRESSES[0], "value": ada(5 * ADA)}]
    data, _ = transaction_bytes(outputs, 200_000)
    fee = 44 * (len(data) - 1) + 155_381 - spare
    outputs[0]["value"]["ada"]["lovelace"] = out - 5 * ADA - fee
    data, _ = transaction_bytes(outputs, fee)
    interval = {"invalidBefore": SLOT - 100, "invalidAfter": SLOT + 7200}
    return {"id": "2" * 64, "spends": "inputs", "inputs": [ref("1", 0), ref("1", 1)], "outputs": outputs, "fee": ada(fee), "validityInterval": interval, "cbor": data.hex(), **more}


def certificates():
    stake = {"type": "stakeDelegation", "from": "verificationKey", "credential": KEY, "delegateRepresentative": {"type": "registered", "from": "verificationKey", "id": OTHER}}
    return [
        {"type": "stakeCredentialRegistration", "from": "script", "credential": OTHER, "deposit": ada(2 * ADA)},
        stake,
        {"type": "delegateRepresentativeUpdate", "delegateRepresentative": {"type": "registered", "from": "verificationKey", "id": OTHER}},
        {"type": "stakePoolRetirement", "stakePool": {"id": POOL, "retirementEpoch": 570}},
    ]


def votes(*them):
    """Votes, each of a voter on what a transaction proposed."""
    issuers = {
        "drep": {"role": "delegateRepresentative", "from": "verificationKey", "id": OTHER},
        "committee": {"role": "constitutionalCommittee", "from": "verificationKey", "id": "f6" * 28},
        "pool": {"role": "stakePoolOperator", "id": POOL},
    }
    return [{"issuer": issuers[voter], "vote": "yes", "proposal": ref(tx, index)} for voter, tx, index in them]


# what is asked, each with its transaction
ASKED = {
    "payment": lambda: a_transaction(),
    "fee_too_small": lambda: a_transaction(spare=1),
    "certificates": lambda: a_transaction(out=78 * ADA, certificates=certificates()),
    "votes": lambda: a_transaction(votes=votes(("drep", "3", 2), ("pool", "4", 0), ("committee", "5", 0))),
    "vote_of_a_pool": lambda: a_transaction(votes=votes(("drep", "5", 0), ("pool", "5", 0))),
    "vote_on_nothing": lambda: a_transaction(votes=votes(("drep", "3", 2), ("drep", "7", 0))),
    "withdrawal": lambda: a_transaction(out=92 * ADA, withdrawals={STAKE: ada(12 * ADA)}),
}


def answers(name):
    """What FOLDER has for tools/slice."""
    return {"transaction": ASKED[name](), **state()}


def written(name, folder):
    folder.mkdir(parents=True, exist_ok=True)
    for file, it in answers(name).items():
        (folder / f"{file}.json").write_text(json.dumps(it, indent=1) + "\n", encoding="utf-8")
