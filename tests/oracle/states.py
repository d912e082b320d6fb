"""A plain program of the text of a state, written from docs/use/formats.md alone."""

from oracle.assets import asset_lines
from oracle.counts import GROUPS, in_order
from oracle.transactions import PURPOSES, pots

# the parameters that are a fraction, and those that are a list of fractions
FRACTIONS = ("rho", "tau", "minFeeRefScriptCostPerByte", "a0")
LISTS_OF_FRACTIONS = ("prices", "poolVotingThresholds", "drepVotingThresholds")
ROLES = ("committee", "drep", "pool")


def fraction(it):
    return f"{it[0]}/{it[1]}"


def or_none(it):
    return "none" if it is None else it


def shown_param(name, value):
    if name in FRACTIONS:
        return fraction(value)
    if name in LISTS_OF_FRACTIONS:
        return " ".join(map(fraction, value))
    return " ".join(map(str, value)) if isinstance(value, list) else str(value)


def committee_lines(ledger):
    committee, hot = ledger["committee"], ledger["hot"]
    terms = committee["terms"] if committee else {}
    yield f"committee threshold {fraction(committee['threshold'])}" if committee else "committee none"
    for cold in sorted(terms, key=in_order):
        yield f"member {cold} term {terms[cold]} hot {hot.get(cold, 'none')}"
    for cold in sorted(hot, key=in_order):
        if cold not in terms:
            yield f"hot {cold} {hot[cold]}"


def shown_terms(terms):
    return f"cost {terms.cost} pledge {terms.pledge} margin {fraction(terms.margin)} account {terms.account}"


def shown_key(terms):
    """The words at the end of a line for a pool that has a key."""
    return f" key {terms.key}" if terms.key else ""


def pool_lines(ledger):
    for name, it in sorted(ledger["pools"].items()):
        retires = "never" if it["retires"] is None else it["retires"]
        yield f"pool {name} deposit {it['deposit']} {shown_terms(it['terms'])} retires {retires}{shown_key(it['terms'])}"
        if it["future"]:
            yield f"next {name} {shown_terms(it['future'])}{shown_key(it['future'])}"


def account_lines(ledger, stakes):
    names = {*ledger["accounts"], *(name for name, amount in stakes.items() if amount > 0)}
    for name in sorted(names, key=in_order):
        it, stake = ledger["accounts"].get(name), stakes.get(name, 0)
        if it is None:
            yield f"account {name} stake {stake} unregistered"
        else:
            yield f"account {name} stake {stake} deposit {it['deposit']} rewards {it['balance']} pool {or_none(it['pool'])} drep {or_none(it['drep'])}"


def output_lines(ledger):
    def place(ref):
        tx, index = ref.split("#")
        return tx, int(index)

    for ref in sorted(ledger["outputs"], key=place):
        it = ledger["outputs"][ref]
        yield f"output {ref} {it.address} {it.amount}"
        yield from asset_lines("asset", it.assets)


def voter_in_order(voter):
    role, name = voter.split(":")
    return ROLES.index(role), in_order(name) if role != "pool" else (name,)


def proposal_lines(ledger):
    for it in ledger["proposals"]:
        action = it["action"]
        previous = or_none(action.get("previous") if action["type"] in PURPOSES else None)
        yield f"proposal {it['id']} {action['type']} deposit {it['deposit']} return {it['return']} expires {it['until']} previous {previous}"
        for voter in sorted(it["votes"], key=voter_in_order):
            yield f"vote {it['id']} {voter} {it['votes'][voter]}"


def snapshot_lines(ledger):
    for name in ("mark", "set", "go"):
        for pool, stake in sorted(ledger[name].items()):
            yield f"snapshot {name} {pool} {stake}"
    yield f"snapshot fees {ledger['noted']}"


def pending_lines(ledger):
    update = ledger["pending"]
    if not update:
        yield "pending none"
        return
    yield f"pending reserves {update['fromReserves']} fees {update['fromFees']} treasury {update['toTreasury']}"
    for credential, amount in sorted(update["rewards"], key=lambda it: in_order(it[0])):
        yield f"pending reward {credential} {amount}"


def state_lines(ledger, stakes):
    """The lines of a print of the state; stakes are what the outputs of each stake credential hold."""
    major, minor = ledger["version"]
    last = " ".join(f"{purpose} {or_none(it)}" for purpose, it in ledger["enacted"].items())
    return [
        f"now slot {ledger['slot']} epoch {ledger['epoch']} version {major}.{minor} dormant {ledger['dormant']}",
        f"constitution {ledger['document']} {or_none(ledger['script'])}",
        *committee_lines(ledger),
        f"enacted {last}",
        *(f"param {name} {shown_param(name, ledger['params'][name])}" for group in GROUPS.values() for name in group.split()),
        *(f"drep {name} deposit {it['deposit']} expiry {it['expiry']}" for name, it in sorted(ledger["dreps"].items(), key=lambda it: in_order(it[0]))),
        *pool_lines(ledger),
        *account_lines(ledger, stakes),
        *output_lines(ledger),
        *proposal_lines(ledger),
        *snapshot_lines(ledger),
        *pending_lines(ledger),
        f"pots {pots(ledger)}",
    ]
