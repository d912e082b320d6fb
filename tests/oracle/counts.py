"""A plain program of what is counted and ratified: stakes, counts, needs and the pass, written from
docs/use/rules.md alone.

All of it goes by what was frozen when an epoch began, a map `frozen` with the ledger's parts of
then: `epoch`, `params`, `version`, `committee`, `document`, `script`, `enacted`, `treasury`, `hot`,
`dreps`, `proposals`, and beside them `entries` (each credential that was registered or had output
stake, in order, with its `stake`, and its `account` or None), `mark` (pools with their stakes) and
`reward_accounts` (of each pool of mark that was registered still)."""

from fractions import Fraction

from oracle.transactions import PURPOSES, RESIGNED, SECURITY

# in order of priority
TYPES = ["NoConfidence", "UpdateCommittee", "NewConstitution", "HardForkInitiation", "ParameterChange", "TreasuryWithdrawals", "Info"]
DELAYING = TYPES[:4]
# the thresholds of DReps and of pools, by their places
P1, P2A, P2B, P3, P4, P5A, P5B, P5C, P5D, P6 = range(10)
Q1, Q2A, Q2B, Q4, Q5 = range(5)
# which threshold of DReps a group of parameters asks for
GROUPS = {
    P5A: "maxBlockBodySize maxTxSize maxBlockHeaderSize maxValueSize maxTxExUnits maxBlockExUnits maxCollateralInputs",
    P5B: "minFeeA minFeeB keyDeposit poolDeposit rho tau minPoolCost coinsPerUTxOByte prices minFeeRefScriptCostPerByte",
    P5C: "a0 eMax nOpt costModels collateralPercentage",
    P5D: "poolVotingThresholds drepVotingThresholds govActionLifetime govActionDeposit drepDeposit drepActivity committeeMinSize committeeMaxTermLength",
}


def in_order(credential):
    """By hash, then keys before scripts."""
    return credential[1:], credential[0]


def reached(yes, total, threshold):
    """A threshold of 0 is always reached, another one by that part of a total that is not 0."""
    part, whole = threshold
    return part == 0 or (total > 0 and yes * whole >= part * total)


# ---- stakes


def deposits_back(frozen, credential):
    """The deposits of proposals that go back to this account."""
    return sum(it["deposit"] for it in frozen["proposals"] if it["return"][1:] == credential)


def drep_stakes(frozen):
    """What the registered accounts that delegate to somebody hold for it; nobody who is no registered DRep is among them, but the two that always are."""
    stakes = dict.fromkeys([*sorted(frozen["dreps"], key=in_order), "abstain", "no-confidence"], 0)
    for credential, it in frozen["entries"].items():
        if it["account"] and it["account"]["drep"] in stakes:
            stakes[it["account"]["drep"]] += it["stake"] + it["account"]["balance"] + deposits_back(frozen, credential)
    return stakes


def pool_stakes(frozen):
    """Those of mark, and the deposits that go back to accounts which delegate to a pool."""
    stakes = dict(frozen["mark"])
    for it in frozen["proposals"]:
        account = frozen["entries"].get(it["return"][1:], {"account": None})["account"]
        if account and account["pool"] in stakes:
            stakes[account["pool"]] += it["deposit"]
    return stakes


# ---- counts: yes and total


def counted(sides):
    """Of weights, each with yes, no or abstain."""
    return sum(it for it, side in sides if side == "yes"), sum(it for it, side in sides if side != "abstain")


def active_keys(frozen, committee):
    """The hot keys of members whose term is not over and who did not resign, one for each member."""
    keys = [frozen["hot"].get(cold) for cold, term in committee["terms"].items() if term >= frozen["epoch"]] if committee else []
    return [it for it in keys if it not in (None, RESIGNED)]


def committee_count(frozen, proposal):
    return counted([(1, proposal["votes"].get(f"committee:{it}", "no")) for it in active_keys(frozen, frozen["committee"])])


def drep_count(frozen, proposal, stakes):
    active = [cred for cred, it in frozen["dreps"].items() if it["expiry"] >= frozen["epoch"]]
    sides = [(stakes[cred], proposal["votes"].get(f"drep:{cred}", "no")) for cred in active]
    return counted([*sides, (stakes["no-confidence"], "yes" if proposal["action"]["type"] == "NoConfidence" else "no")])


def default_side(frozen, pool, kind):
    """What a pool that did not vote says to an action of this type."""
    entry = frozen["entries"].get(frozen["reward_accounts"].get(pool, "1")[1:], {"account": None})
    whom = entry["account"] and entry["account"]["drep"]
    if kind == "HardForkInitiation" or whom not in ("abstain", "no-confidence"):
        return "no"
    return "abstain" if whom == "abstain" else "yes" if kind == "NoConfidence" else "no"


def pool_count(frozen, proposal, stakes):
    kind, votes = proposal["action"]["type"], proposal["votes"]
    return counted([(stake, votes.get(f"pool:{pool}", default_side(frozen, pool, kind))) for pool, stake in stakes.items()])


# ---- needs: 'none', 'never' or a threshold, of the committee, the DReps and the pools


def set_by(action):
    """The parameters that a change sets."""
    return [name for name, it in action["update"].items() if it is not None]


def greatest(thresholds):
    """The first of the greatest, and 0/1 of none."""
    return max(thresholds, key=lambda it: Fraction(*it), default=[0, 1])


def committee_need(frozen, state):
    committee = state["committee"]
    few = committee is None or len(active_keys(frozen, committee)) < state["params"]["committeeMinSize"]
    return "never" if few else committee["threshold"]


def needs_of(frozen, state, action):
    """By the state after what was ratified before it in the pass."""
    kind, of_dreps, of_pools = action["type"], state["params"]["drepVotingThresholds"], state["params"]["poolVotingThresholds"]
    own, there = committee_need(frozen, state), state["committee"] is not None
    if kind == "NoConfidence":
        return ["none", of_dreps[P1], of_pools[Q1]]
    if kind == "UpdateCommittee":
        return ["none", of_dreps[P2A if there else P2B], of_pools[Q2A if there else Q2B]]
    if kind == "NewConstitution":
        return [own, of_dreps[P3], "none"]
    if kind == "HardForkInitiation":
        return [own, of_dreps[P4], of_pools[Q4]]
    if kind == "ParameterChange":
        names = set_by(action)
        touched = [of_dreps[place] for place, group in GROUPS.items() if any(it in group.split() for it in names)]
        return [own, greatest(touched), of_pools[Q5] if any(it in SECURITY for it in names) else "none"]
    if kind == "TreasuryWithdrawals":
        return [own, of_dreps[P6], "none"]
    return ["never"] * 3


# ---- the pass


def withdrawn(action):
    return sum(amount for _, amount in action.get("targets", []))


def committee_after(committee, action):
    """Without the removed members, and with the added ones over the others."""
    left = {cold: term for cold, term in (committee["terms"] if committee else {}).items() if cold not in action["remove"]}
    return {"threshold": action["threshold"], "terms": {**left, **dict(action["add"])}}


def enacted(state, proposal):
    """The state after one action more. Its treasury is what is left for the withdrawals to come."""
    action, kind, purpose = proposal["action"], proposal["action"]["type"], PURPOSES.get(proposal["action"]["type"])
    changes = {
        "NoConfidence": lambda: {"committee": None},
        "UpdateCommittee": lambda: {"committee": committee_after(state["committee"], action)},
        "NewConstitution": lambda: {"document": action["document"], "script": action.get("script")},
        "HardForkInitiation": lambda: {"version": action["version"]},
        "ParameterChange": lambda: {"params": {**state["params"], **{name: action["update"][name] for name in set_by(action)}}},
        "TreasuryWithdrawals": lambda: {"treasury": state["treasury"] - withdrawn(action)},
    }.get(kind, dict)()
    last = {**state["enacted"], purpose: proposal["id"]} if purpose else state["enacted"]
    return {**state, "enacted": last, **changes}


def is_ratified(frozen, before, state, proposal, counts, needs):
    action, kind = proposal["action"], proposal["action"]["type"]
    if any(it["action"]["type"] in DELAYING for it in before):
        return False
    if kind in PURPOSES and action.get("previous") != state["enacted"][PURPOSES[kind]]:
        return False
    if kind == "UpdateCommittee" and any(term > frozen["epoch"] + state["params"]["committeeMaxTermLength"] for _, term in action["add"]):
        return False
    if withdrawn(action) > state["treasury"]:
        return False
    return all(need == "none" or (need != "never" and reached(*count, need)) for count, need in zip(counts, needs))


def passed(frozen):
    """The state after the pass, what was ratified, in order, and each proposal in order of priority with its counts, needs and verdict."""
    of_dreps, of_pools = drep_stakes(frozen), pool_stakes(frozen)
    state = {name: frozen[name] for name in ("params", "version", "committee", "document", "script", "enacted", "treasury")}
    ratified, told = [], []
    for proposal in sorted(frozen["proposals"], key=lambda it: TYPES.index(it["action"]["type"])):
        counts = [committee_count(frozen, proposal), drep_count(frozen, proposal, of_dreps), pool_count(frozen, proposal, of_pools)]
        needs = needs_of(frozen, state, proposal["action"])
        verdict = "expired" if proposal["until"] < frozen["epoch"] else "waiting"
        if is_ratified(frozen, ratified, state, proposal, counts, needs):
            ratified, state, verdict = [*ratified, proposal], enacted(state, proposal), "ratified"
        told.append((proposal, counts, needs, verdict))
    return state, ratified, told
