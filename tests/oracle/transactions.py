"""A plain program of the rules of a transaction: ledgers of lists and maps, written from
docs/use/rules.md and docs/use/formats.md alone. The rest of the rules stands in assets.py,
counts.py, epochs.py and states.py.

It knows nothing of the definitions and of the crates, and looks everything up anew. A ledger is a
map; of its parts `outputs`, `accounts`, `pools`, `dreps` and `hot` are maps by name, `proposals` is
a list in order of submission. Records are as `json.loads` gives them, with ids in lower case, but
for those of assets; a transaction has been through `filled`. It reads no lines: that a record can
be read, and that a genesis breaks no rule of one, is asked of the caller."""

from copy import deepcopy
from typing import NamedTuple, Optional

from oracle.assets import added, assets_of, burned, differences, minted

NAMES = {
    30: "TxIdUsed",
    31: "NotWitnessed",
    32: "NoInputs",
    33: "InputMissing",
    34: "InputRepeated",
    35: "TxTooLarge",
    36: "OutsideValidity",
    37: "FeeTooSmall",
    38: "OutputTooSmall",
    39: "OutputWrongNetwork",
    40: "TooManyCollateral",
    41: "NoCollateral",
    42: "CollateralMissing",
    43: "CollateralNotKey",
    44: "CollateralTooSmall",
    45: "TreasuryValueWrong",
    46: "CollateralAssetsWrong",
    50: "WithdrawalWrongNetwork",
    51: "WithdrawalNoAccount",
    52: "WithdrawalNotDelegated",
    53: "WithdrawalNotWhole",
    60: "AccountRegistered",
    61: "AccountUnknown",
    62: "DepositWrong",
    63: "RefundWrong",
    64: "BalanceNotZero",
    65: "PoolUnknown",
    66: "DrepUnknown",
    67: "DrepRegistered",
    68: "PoolCostTooLow",
    69: "PoolWrongNetwork",
    70: "RetirementEpochWrong",
    71: "ColdKeyUnknown",
    72: "ColdKeyResigned",
    73: "PoolKeyInUse",
    80: "ProposalDepositWrong",
    81: "ReturnWrongNetwork",
    82: "ReturnAccountUnknown",
    83: "UpdateMalformed",
    84: "PolicyWrong",
    85: "TargetWrongNetwork",
    86: "TargetUnknown",
    87: "ZeroWithdrawal",
    88: "ConflictingUpdate",
    89: "TermTooSmall",
    90: "PreviousWrong",
    91: "CannotFollow",
    100: "ActionUnknown",
    101: "VoterUnknown",
    102: "VoterNotAllowed",
    103: "VotingExpired",
    104: "VoterNotSeated",
    110: "NotBalanced",
    111: "AssetNotBalanced",
}
PURPOSES = {
    "NoConfidence": "committee",
    "UpdateCommittee": "committee",
    "NewConstitution": "constitution",
    "HardForkInitiation": "hardfork",
    "ParameterChange": "parameters",
}
SECURITY = {
    "maxBlockBodySize",
    "maxTxSize",
    "maxBlockHeaderSize",
    "maxValueSize",
    "maxBlockExUnits",
    "minFeeA",
    "minFeeB",
    "coinsPerUTxOByte",
    "minFeeRefScriptCostPerByte",
    "govActionDeposit",
}
NEVER_ZERO = {
    "maxBlockBodySize",
    "maxTxSize",
    "maxBlockHeaderSize",
    "maxValueSize",
    "poolDeposit",
    "coinsPerUTxOByte",
    "collateralPercentage",
    "govActionLifetime",
    "govActionDeposit",
    "drepDeposit",
    "committeeMaxTermLength",
}
RESIGNED = "resigned"
# the fields of a transaction that may be missing
DEFAULTS = {
    "scriptFee": 0,
    "witnessed": True,
    "scripts": "none",
    "from": None,
    "until": None,
    "collateral": [],
    "collateralReturn": None,
    "mint": [],
    "treasury": None,
    "donation": 0,
    "withdrawals": [],
    "certs": [],
    "proposals": [],
    "votes": [],
}


class Output(NamedTuple):
    """What is kept of an output; its assets are a map of quantities."""

    address: str
    amount: int
    assets: dict = {}


NOTHING = Output("", 0)


class Terms(NamedTuple):
    """Those of a pool, with its key, if it has one."""

    cost: int
    pledge: int
    margin: list
    account: str
    key: Optional[str] = None


class Broken(NamedTuple):
    """A rule that is broken, the place, if it has one, and what is kept, as it is printed."""

    rule: int
    place: Optional[int] = None
    kept: str = ""

    def refusal(self):
        """The line that answers a transaction of which this is the first one."""
        place = "" if self.place is None else f" at {self.place}"
        return f"refused {self.rule} {NAMES[self.rule]}{place} {self.kept}".rstrip()


# ---- the ledger


def ledger_of(genesis):
    """The ledger of a genesis that breaks no rule of a genesis."""
    g, committee = genesis, genesis.get("committee")
    members = committee["members"] if committee else []
    return {
        "network": g["network"],
        "slot": g["slot"],
        "epoch": g["slot"] // g["epochLength"],
        "dormant": 0,
        "version": g["version"],
        "params": g["params"],
        "document": g["document"],
        "script": g.get("script"),
        "committee": committee and {"threshold": committee["threshold"], "terms": {cold: term for cold, term, _ in members}},
        "enacted": dict.fromkeys(("committee", "constitution", "hardfork", "parameters")),
        "outputs": {ref: Output(address, amount, assets_of(it)) for it in g["outputs"] for ref, address, amount in [it[:3]]},
        "used": [it[0].split("#")[0] for it in g["outputs"]],
        "accounts": {cred: {"deposit": d, "balance": b, "pool": pool, "drep": drep} for cred, d, b, pool, drep in g["accounts"]},
        "pools": {pool: {"deposit": d, "terms": Terms(*terms), "future": None, "retires": None} for pool, d, *terms in g["pools"]},
        "dreps": {cred: {"deposit": d, "expiry": expiry} for cred, d, expiry in g["dreps"]},
        "hot": {cold: hot for cold, _, hot in members if hot is not None},
        "proposals": [],
        "fees": 0,
        "donations": 0,
        "treasury": g["treasury"],
        "reserves": g["reserves"],
    }


def pots(ledger):
    """The seven pots and their sum, as they are printed."""
    entries = [*ledger["accounts"].values(), *ledger["pools"].values(), *ledger["dreps"].values(), *ledger["proposals"]]
    sums = {
        "outputs": sum(it.amount for it in ledger["outputs"].values()),
        "deposits": sum(it["deposit"] for it in entries),
        "rewards": sum(it["balance"] for it in ledger["accounts"].values()),
        **{name: ledger[name] for name in ("fees", "donations", "treasury", "reserves")},
    }
    return " ".join(f"{name} {amount}" for name, amount in {**sums, "supply": sum(sums.values())}.items())


def filled(tx):
    """A transaction with each of its fields."""
    return {**deepcopy(DEFAULTS), **{name: it for name, it in tx.items() if it is not None}}


def live(ledger, action):
    """The proposal that has this id, or None."""
    return next((it for it in ledger["proposals"] if it["id"] == action), None)


def network_of(text):
    """That of an address or an account."""
    return int(text[0])


def held_at(ledger, ref):
    """An unspent output; one that holds nothing where there is none."""
    return ledger["outputs"].get(ref, NOTHING)


# ---- the draft: withdrawals, the refresh, certificates


def fresh_expiry(draft):
    return draft["epoch"] + draft["params"]["drepActivity"] - draft["dormant"]


def begun_draft(ledger, tx):
    """After the withdrawals and the refresh. It shares the outputs with the ledger."""
    entries = {name: {it: dict(entry) for it, entry in ledger[name].items()} for name in ("accounts", "pools", "dreps")}
    proposals = [{**it, "votes": dict(it["votes"])} for it in ledger["proposals"]]
    draft = {**ledger, **entries, "hot": dict(ledger["hot"]), "proposals": proposals}
    for account, _ in tx["withdrawals"]:
        if account[1:] in draft["accounts"]:
            draft["accounts"][account[1:]]["balance"] = 0
    if tx["proposals"]:
        for it in draft["dreps"].values():
            if it["expiry"] + draft["dormant"] >= draft["epoch"]:
                it["expiry"] += draft["dormant"]
        draft["dormant"] = 0
    for vote in tx["votes"]:
        role, name = vote["voter"].split(":")
        if role == "drep" and name in draft["dreps"]:
            draft["dreps"][name]["expiry"] = fresh_expiry(draft)
    return draft


def terms_of(cert):
    return Terms(cert["cost"], cert["pledge"], cert["margin"], cert["account"], cert.get("key"))


def register_account(draft, cert):
    deposit = draft["params"]["keyDeposit"]
    draft["accounts"][cert["cred"]] = {"deposit": deposit, "balance": 0, "pool": cert.get("pool"), "drep": cert.get("drep")}


def delegate(draft, cert):
    chosen = {name: cert[name] for name in ("pool", "drep") if cert.get(name) is not None}
    draft["accounts"][cert["cred"]].update(chosen)


def register_pool(draft, cert):
    pool = draft["pools"].get(cert["pool"])
    if pool is None:
        draft["pools"][cert["pool"]] = {"deposit": draft["params"]["poolDeposit"], "terms": terms_of(cert), "future": None, "retires": None}
    else:
        pool.update(future=terms_of(cert), retires=None)


def unregister_drep(draft, cert):
    """It leaves, and with it all delegations to it and all its votes."""
    del draft["dreps"][cert["cred"]]
    for it in draft["accounts"].values():
        if it["drep"] == cert["cred"]:
            it["drep"] = None
    for it in draft["proposals"]:
        it["votes"].pop(f"drep:{cert['cred']}", None)


ACTS = {
    "account-reg": register_account,
    "account-unreg": lambda draft, cert: draft["accounts"].pop(cert["cred"]),
    "delegate": delegate,
    "pool-reg": register_pool,
    "pool-retire": lambda draft, cert: draft["pools"][cert["pool"]].update(retires=cert["epoch"]),
    "drep-reg": lambda draft, cert: draft["dreps"].update({cert["cred"]: {"deposit": draft["params"]["drepDeposit"], "expiry": fresh_expiry(draft)}}),
    "drep-unreg": unregister_drep,
    "drep-update": lambda draft, cert: draft["dreps"][cert["cred"]].update(expiry=fresh_expiry(draft)),
    "hot-auth": lambda draft, cert: draft["hot"].update({cert["cold"]: cert["hot"]}),
    "hot-resign": lambda draft, cert: draft["hot"].update({cert["cold"]: RESIGNED}),
}


def act(draft, cert):
    """Changes the draft by a certificate that breaks no rule."""
    ACTS[cert["cert"]](draft, cert)


def deposit_of(draft, cert):
    """What a certificate puts in, by the draft before it."""
    params = draft["params"]
    first = cert["cert"] == "pool-reg" and cert["pool"] not in draft["pools"]
    return {"account-reg": params["keyDeposit"], "drep-reg": params["drepDeposit"], "pool-reg": params["poolDeposit"] if first else 0}.get(cert["cert"], 0)


def refund_of(draft, cert):
    """What a certificate gives back, by the draft before it: nothing where none is registered."""
    entries = {"account-unreg": draft["accounts"], "drep-unreg": draft["dreps"]}.get(cert["cert"], {})
    return entries[cert["cred"]]["deposit"] if cert.get("cred") in entries else 0


# ---- rules on inputs, outputs and collateral; each call gives all that is broken, in order


def broken_at_first(ledger, tx):
    if tx["id"] in ledger["used"]:
        yield Broken(30)
    if not tx["witnessed"]:
        yield Broken(31)
    if not tx["inputs"]:
        yield Broken(32)
    for place, ref in enumerate(tx["inputs"]):
        if ref not in ledger["outputs"]:
            yield Broken(33, place)
        if ref in tx["inputs"][:place]:
            yield Broken(34, place)


def least_fee(ledger, tx):
    return ledger["params"]["minFeeA"] * tx["size"] + ledger["params"]["minFeeB"] + tx["scriptFee"]


def broken_by_size_time_and_fee(ledger, tx):
    if tx["size"] > ledger["params"]["maxTxSize"]:
        yield Broken(35, kept=f"max {ledger['params']['maxTxSize']}")
    early = tx["from"] is not None and ledger["slot"] < tx["from"]
    late = tx["until"] is not None and ledger["slot"] >= tx["until"]
    if early or late:
        yield Broken(36, kept=f"slot {ledger['slot']}")
    if tx["fee"] < least_fee(ledger, tx):
        yield Broken(37, kept=f"min {least_fee(ledger, tx)}")


def least_output(ledger, size):
    return (160 + size) * ledger["params"]["coinsPerUTxOByte"]


def broken_by_outputs(ledger, tx):
    returned = [] if tx["collateralReturn"] is None else [tx["collateralReturn"]]
    for place, (address, amount, size, *_) in enumerate(tx["outputs"] + returned):
        if amount < least_output(ledger, size):
            yield Broken(38, place, f"min {least_output(ledger, size)}")
        if network_of(address) != ledger["network"]:
            yield Broken(39, place)


def left_of_collateral(ledger, tx):
    """What the collateral holds less its return; it may be negative."""
    returned = tx["collateralReturn"][1] if tx["collateralReturn"] else 0
    return sum(held_at(ledger, ref).amount for ref in tx["collateral"]) - returned


def broken_by_collateral(ledger, tx):
    scripts = tx["scripts"] != "none"
    if len(tx["collateral"]) > ledger["params"]["maxCollateralInputs"]:
        yield Broken(40, kept=f"max {ledger['params']['maxCollateralInputs']}")
    if scripts and not tx["collateral"]:
        yield Broken(41)
    for place, ref in enumerate(tx["collateral"]):
        if ref not in ledger["outputs"] or ref in tx["collateral"][:place]:
            yield Broken(42, place)
        if scripts and held_at(ledger, ref).address[1:2] == "s":
            yield Broken(43, place)
    if scripts:
        have = left_of_collateral(ledger, tx)
        if have < 0 or have * 100 < tx["fee"] * ledger["params"]["collateralPercentage"]:
            yield Broken(44, kept=f"have {max(have, 0)}")


def broken_by_collateral_assets(ledger, tx):
    """Where there are scripts, the collateral and its return have the same of each asset."""
    held = added(*(held_at(ledger, ref).assets for ref in tx["collateral"]))
    returned = assets_of(tx["collateralReturn"]) if tx["collateralReturn"] else {}
    if tx["scripts"] != "none" and any(differences(held, returned)):
        yield Broken(46)


# ---- rules on withdrawals and certificates


def broken_by_withdrawals(ledger, tx):
    for place, (account, amount) in enumerate(tx["withdrawals"]):
        entry = ledger["accounts"].get(account[1:])
        balance = entry["balance"] if entry else 0
        if network_of(account) != ledger["network"]:
            yield Broken(50, place)
        if entry is None:
            yield Broken(51, place)
        if account[1] == "k" and entry and entry["drep"] is None:
            yield Broken(52, place)
        if amount != balance:
            yield Broken(53, place, f"balance {balance}")


def unknown_targets(draft, cert):
    """The pool and the DRep that an account would have."""
    if cert.get("pool") is not None and cert["pool"] not in draft["pools"]:
        yield Broken(65)
    if cert.get("drep") not in (None, "abstain", "no-confidence", *draft["dreps"]):
        yield Broken(66)


def wrong_amount(rule, stated, due):
    """A deposit or a refund that is stated and is not the one that is due."""
    if stated is not None and stated != due:
        yield Broken(rule, kept=f"want {due}")


def broken_by_account(draft, cert):
    kind, entry = cert["cert"], draft["accounts"].get(cert["cred"])
    if kind == "account-reg":
        if entry is not None:
            yield Broken(60)
        yield from wrong_amount(62, cert.get("deposit"), draft["params"]["keyDeposit"])
        yield from unknown_targets(draft, cert)
        return
    if entry is None:
        yield Broken(61)
    if kind == "delegate":
        yield from unknown_targets(draft, cert)
        return
    if entry is not None:
        yield from wrong_amount(63, cert.get("refund"), entry["deposit"])
    if entry is not None and entry["balance"] != 0:
        yield Broken(64, kept=f"balance {entry['balance']}")


def is_from_version_eleven(ledger):
    """The draft has the version of the ledger before the transaction."""
    return tuple(ledger["version"]) >= (11, 0)


def keys_of(pool):
    """The keys of its terms, those that hold and those to come."""
    return [it.key for it in (pool["terms"], pool["future"]) if it and it.key]


def is_key_of_another(draft, key, name):
    """Whether a pool of another name has this key."""
    return any(key in keys_of(pool) for other, pool in draft["pools"].items() if other != name)


def broken_by_pool(draft, cert):
    if cert["cert"] == "pool-reg":
        if cert["cost"] < draft["params"]["minPoolCost"]:
            yield Broken(68, kept=f"min {draft['params']['minPoolCost']}")
        if network_of(cert["account"]) != draft["network"]:
            yield Broken(69)
        if is_from_version_eleven(draft) and cert.get("key") and is_key_of_another(draft, cert["key"], cert["pool"]):
            yield Broken(73)
        return
    if cert["pool"] not in draft["pools"]:
        yield Broken(65)
    now = draft["epoch"]
    if not now < cert["epoch"] <= now + draft["params"]["eMax"]:
        yield Broken(70, kept=f"now {now}")


def broken_by_drep(draft, cert):
    kind, entry = cert["cert"], draft["dreps"].get(cert["cred"])
    if kind == "drep-reg":
        yield from wrong_amount(62, cert.get("deposit"), draft["params"]["drepDeposit"])
        if entry is not None:
            yield Broken(67)
        return
    if kind == "drep-unreg" and entry is not None:
        yield from wrong_amount(63, cert.get("refund"), entry["deposit"])
    if entry is None:
        yield Broken(66)


def may_have_a_hot_key(ledger, cold):
    """Whether a cold key is a member, or a live proposal adds it."""
    if ledger["committee"] and cold in ledger["committee"]["terms"]:
        return True
    actions = [it["action"] for it in ledger["proposals"]]
    return any(cold == added for it in actions if it["type"] == "UpdateCommittee" for added, _ in it["add"])


def broken_by_cold_key(ledger, draft, cert):
    if not may_have_a_hot_key(ledger, cert["cold"]):
        yield Broken(71)
    if draft["hot"].get(cert["cold"]) == RESIGNED:
        yield Broken(72)


def broken_by_cert(ledger, draft, cert):
    """What a certificate breaks, by the ledger before the transaction and the draft before the certificate."""
    kind = cert["cert"].split("-")[0]
    if kind in ("account", "delegate"):
        return broken_by_account(draft, cert)
    if kind == "pool":
        return broken_by_pool(draft, cert)
    return broken_by_drep(draft, cert) if kind == "drep" else broken_by_cold_key(ledger, draft, cert)


def act_if_allowed(ledger, draft, cert):
    """Changes the draft by a certificate; one that breaks a rule leaves it as it was."""
    if next(broken_by_cert(ledger, draft, cert), None) is None:
        act(draft, cert)


def draft_after(ledger, tx, count):
    """After the first certificates."""
    draft = begun_draft(ledger, tx)
    for cert in tx["certs"][:count]:
        act_if_allowed(ledger, draft, cert)
    return draft


# ---- rules on proposals and votes


def wrong_targets(ledger, draft, targets):
    if any(network_of(account) != ledger["network"] for account, _ in targets):
        yield Broken(85)
    if any(account[1:] not in draft["accounts"] for account, _ in targets):
        yield Broken(86)
    if sum(amount for _, amount in targets) == 0:
        yield Broken(87)


def wrong_members(ledger, action):
    added = [cold for cold, _ in action["add"]]
    if any(cold in added for cold in action["remove"]):
        yield Broken(88)
    if any(term <= ledger["epoch"] for _, term in action["add"]):
        yield Broken(89)


def wrong_order(ledger, action):
    """What a previous action may be, and what a version may follow it."""
    purpose, previous = PURPOSES[action["type"]], action.get("previous")
    parent, last = live(ledger, previous), ledger["enacted"][purpose]
    follows_live = parent is not None and PURPOSES.get(parent["action"]["type"]) == purpose
    if previous != last and not follows_live:
        yield Broken(90)
    # what follows no fork follows no version
    before = ledger["version"] if previous == last else parent["action"].get("version") if parent else None
    if action["type"] == "HardForkInitiation" and before:
        major, minor = before
        if list(action["version"]) not in ([major + 1, 0], [major, minor + 1]):
            yield Broken(91)


def broken_by_proposal(ledger, draft, proposal):
    """What a proposal breaks, by the ledger before the transaction and the accounts of the draft after all certificates."""
    action, kind, deposit = proposal["action"], proposal["action"]["type"], ledger["params"]["govActionDeposit"]
    if proposal["deposit"] != deposit:
        yield Broken(80, kept=f"want {deposit}")
    if network_of(proposal["return"]) != ledger["network"]:
        yield Broken(81)
    if proposal["return"][1:] not in draft["accounts"]:
        yield Broken(82)
    if kind == "ParameterChange":
        update = {name: it for name, it in action["update"].items() if it is not None}
        if not update or any(update.get(name) == 0 for name in NEVER_ZERO):
            yield Broken(83)
    if kind in ("ParameterChange", "TreasuryWithdrawals") and action.get("policy") != ledger["script"]:
        yield Broken(84)
    if kind == "TreasuryWithdrawals":
        yield from wrong_targets(ledger, draft, action["targets"])
    if kind == "UpdateCommittee":
        yield from wrong_members(ledger, action)
    if kind in PURPOSES:
        yield from wrong_order(ledger, action)


def is_voter(draft, voter):
    role, name = voter.split(":")
    return name in {"committee": draft["hot"].values(), "drep": draft["dreps"], "pool": draft["pools"]}[role]


def is_seated(draft, hot):
    """Whether a member of the committee has this hot key."""
    members = draft["committee"]["terms"] if draft["committee"] else []
    return any(draft["hot"].get(cold) == hot for cold in members)


def may_vote(role, action):
    kind = action["type"]
    if role == "committee":
        return kind not in ("NoConfidence", "UpdateCommittee")
    if role == "pool" and kind == "ParameterChange":
        return any(action["update"].get(name) is not None for name in SECURITY)
    return role == "drep" or kind in ("NoConfidence", "UpdateCommittee", "HardForkInitiation", "Info")


def broken_by_vote(ledger, draft, vote):
    """What a vote breaks, by the proposals before the transaction and the voters after all certificates."""
    proposal = live(ledger, vote["action"])
    if proposal is None:
        yield Broken(100)
    if not is_voter(draft, vote["voter"]):
        yield Broken(101)
    if proposal and not may_vote(vote["voter"].split(":")[0], proposal["action"]):
        yield Broken(102)
    if proposal and proposal["until"] < ledger["epoch"]:
        yield Broken(103)
    role, name = vote["voter"].split(":")
    if is_from_version_eleven(ledger) and role == "committee" and not is_seated(draft, name):
        yield Broken(104)


# ---- a transaction


def sums_of(ledger, tx):
    """What is consumed and what is produced. Of a certificate that breaks a rule it is what it would give back and put in."""
    draft = begun_draft(ledger, tx)
    consumed = sum(held_at(ledger, ref).amount for ref in tx["inputs"]) + sum(amount for _, amount in tx["withdrawals"])
    produced = sum(it[1] for it in tx["outputs"]) + tx["fee"] + tx["donation"] + sum(it["deposit"] for it in tx["proposals"])
    for cert in tx["certs"]:
        consumed, produced = consumed + refund_of(draft, cert), produced + deposit_of(draft, cert)
        act_if_allowed(ledger, draft, cert)
    return consumed, produced


def asset_sums(ledger, tx):
    """What is consumed and what is produced of each asset."""
    consumed = added(*(held_at(ledger, ref).assets for ref in tx["inputs"]), minted(tx))
    return consumed, added(*map(assets_of, tx["outputs"]), burned(tx))


def broken_by(ledger, tx):
    """Every rule that a transaction breaks, in order."""
    for part in (broken_at_first, broken_by_size_time_and_fee, broken_by_outputs, broken_by_collateral):
        yield from part(ledger, tx)
    failed = tx["scripts"] == "failed"
    if not failed and tx["treasury"] is not None and tx["treasury"] != ledger["treasury"]:
        yield Broken(45, kept=f"is {ledger['treasury']}")
    yield from broken_by_collateral_assets(ledger, tx)
    if failed:
        return
    yield from broken_by_withdrawals(ledger, tx)

    draft = begun_draft(ledger, tx)
    for place, cert in enumerate(tx["certs"]):
        yield from (it._replace(place=place) for it in broken_by_cert(ledger, draft, cert))
        act_if_allowed(ledger, draft, cert)
    for place, proposal in enumerate(tx["proposals"]):
        yield from (it._replace(place=place) for it in broken_by_proposal(ledger, draft, proposal))
    for place, vote in enumerate(tx["votes"]):
        yield from (it._replace(place=place) for it in broken_by_vote(ledger, draft, vote))
    consumed, produced = sums_of(ledger, tx)
    if consumed != produced:
        yield Broken(110, kept=f"consumed {consumed} produced {produced}")
    for place, consumed, produced in differences(*asset_sums(ledger, tx)):
        yield Broken(111, place, f"consumed {consumed} produced {produced}")


def made_output(it):
    return Output(it[0], it[1], assets_of(it))


def without(outputs, refs):
    return {ref: it for ref, it in outputs.items() if ref not in refs}


def after_failed_scripts(ledger, tx):
    """Its collateral leaves, and what is returned of it comes at the place after its outputs."""
    outputs, returned = without(ledger["outputs"], tx["collateral"]), tx["collateralReturn"]
    if returned:
        outputs[f"{tx['id']}#{len(tx['outputs'])}"] = made_output(returned)
    return {**ledger, "outputs": outputs, "used": [*ledger["used"], tx["id"]], "fees": ledger["fees"] + left_of_collateral(ledger, tx)}


def after(ledger, tx):
    """The ledger after a transaction that breaks no rule."""
    if tx["scripts"] == "failed":
        return after_failed_scripts(ledger, tx)
    draft = begun_draft(ledger, tx)
    for cert in tx["certs"]:
        act(draft, cert)
    until = ledger["epoch"] + ledger["params"]["govActionLifetime"]
    for place, it in enumerate(tx["proposals"]):
        parts = {"deposit": it["deposit"], "return": it["return"], "action": it["action"]}
        draft["proposals"].append({"id": f"{tx['id']}#{place}", **parts, "until": until, "votes": {}})
    for it in tx["votes"]:
        live(draft, it["action"])["votes"][it["voter"]] = it["vote"]
    draft["outputs"] = without(ledger["outputs"], tx["inputs"])
    draft["outputs"].update({f"{tx['id']}#{place}": made_output(it) for place, it in enumerate(tx["outputs"])})
    draft.update(used=[*ledger["used"], tx["id"]], fees=ledger["fees"] + tx["fee"], donations=ledger["donations"] + tx["donation"])
    return draft


def refusals(ledger, tx):
    """The line of each rule that a transaction breaks, in order: the first is the answer to it."""
    return [it.refusal() for it in broken_by(ledger, filled(tx))]


def accepted(ledger, tx):
    """The ledger after a transaction that breaks no rule, and the answer to it."""
    tx = filled(tx)
    return after(ledger, tx), "accepted failed-scripts" if tx["scripts"] == "failed" else "accepted"
