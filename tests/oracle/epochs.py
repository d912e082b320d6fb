"""A plain program of blocks, reward updates and boundaries: with transactions.py and counts.py all
of docs/use/rules.md.

As there, it is written from docs/use/rules.md and docs/use/formats.md alone, and looks everything
up anew. The ledger has some parts more: `length` (slots an epoch), `pending` (a reward update or
None), `mark`, `set` and `go` (pools with their stakes), `noted` (the fee pot beside them), `frozen`
(see counts.py) and `counted`."""

from copy import deepcopy

from oracle.assets import malformed_assets, total_lines
from oracle.counts import drep_stakes, in_order, passed
from oracle.transactions import PURPOSES, accepted, ledger_of, pots, refusals
from oracle.states import state_lines

REFUSED = {
    3: "GenesisAgain",
    10: "SlotNotLater",
    11: "EpochSkipped",
    12: "ZeroPulse",
    20: "WrongEpoch",
    21: "RewardsAlreadyGiven",
    22: "RewardsNotBalanced",
    23: "ReservesTooSmall",
    24: "FeesTooSmall",
}


def refusal(rule, kept=""):
    return f"refused {rule} {REFUSED[rule]} {kept}".rstrip()


# ---- what an epoch begins with


def output_stakes(ledger):
    """What the outputs of each stake credential hold together."""
    stakes = {}
    for it in ledger["outputs"].values():
        if "+" in it.address:
            credential = it.address.split("+")[1]
            stakes[credential] = stakes.get(credential, 0) + it.amount
    return stakes


def mark_of(ledger):
    """Each registered pool, with what the registered accounts hold that delegate to it."""
    stakes, mark = output_stakes(ledger), dict.fromkeys(sorted(ledger["pools"]), 0)
    for credential, it in ledger["accounts"].items():
        if it["pool"] in mark:
            mark[it["pool"]] += stakes.get(credential, 0) + it["balance"]
    return mark


def entries_of(ledger):
    """Each credential that is registered or has output stake, in order."""
    stakes = output_stakes(ledger)
    names = {*ledger["accounts"], *(credential for credential, amount in stakes.items() if amount > 0)}
    return {it: {"stake": stakes.get(it, 0), "account": deepcopy(ledger["accounts"].get(it))} for it in sorted(names, key=in_order)}


def frozen_of(ledger):
    """What is frozen of the ledger."""
    parts = ("epoch", "params", "version", "committee", "document", "script", "enacted", "treasury", "hot", "dreps", "proposals", "mark")
    accounts = {pool: ledger["pools"][pool]["terms"].account for pool in ledger["mark"] if pool in ledger["pools"]}
    return {**{name: deepcopy(ledger[name]) for name in parts}, "entries": entries_of(ledger), "reward_accounts": accounts}


def begun(genesis):
    """The ledger of a genesis that breaks no rule of a genesis."""
    ledger = {**ledger_of(genesis), "length": genesis["epochLength"], "pending": None, "set": {}, "go": {}, "noted": 0, "counted": 0}
    ledger["mark"] = mark_of(ledger)
    return {**ledger, "frozen": frozen_of(ledger)}


# ---- the steps of a boundary, on a ledger that is changed in place


def pay(ledger, account, amount):
    """Pays to an account, or to the treasury where it is not registered; who has it."""
    if account[1:] in ledger["accounts"]:
        ledger["accounts"][account[1:]]["balance"] += amount
        return account
    ledger["treasury"] += amount
    return "treasury"


def apply_rewards(ledger):
    update = ledger["pending"]
    if update:
        ledger["reserves"] -= update["fromReserves"]
        ledger["fees"] -= update["fromFees"]
        ledger["treasury"] += update["toTreasury"]
        for credential, amount in update["rewards"]:
            pay(ledger, f"{ledger['network']}{credential}", amount)
    ledger["pending"] = None


def turn_snapshots(ledger):
    ledger.update(go=ledger["set"], set=ledger["mark"], mark=mark_of(ledger), noted=ledger["fees"])


def reap(ledger):
    """Future terms take effect, then pools leave that retire now."""
    for it in ledger["pools"].values():
        it.update(terms=it["future"] or it["terms"], future=None)
    for pool in sorted(name for name, it in ledger["pools"].items() if it["retires"] == ledger["epoch"] + 1):
        left = ledger["pools"].pop(pool)
        for it in ledger["accounts"].values():
            if it["pool"] == pool:
                it["pool"] = None
        yield f"retired {pool} refund {left['deposit']} {pay(ledger, left['terms'].account, left['deposit'])}"


def pay_withdrawals(ledger, ratified):
    for proposal in ratified:
        for account, amount in proposal["action"].get("targets", []):
            ledger["treasury"] -= amount
            yield f"{'kept' if pay(ledger, account, amount) == 'treasury' else 'paid'} {account} {amount}"


def why_it_leaves(ledger, proposal, enacted, expired, kept):
    """The word for why a proposal leaves, or None; kept are those before it that stay."""
    if proposal["id"] in enacted:
        return "enacted"
    if proposal["id"] in expired:
        return "expired"
    purpose, previous = PURPOSES.get(proposal["action"]["type"]), proposal["action"].get("previous")
    follows = purpose is None or previous == ledger["enacted"][purpose] or previous in kept
    return None if follows else "dropped"


def remove_proposals(ledger, enacted, expired):
    """A proposal stands behind the one that it follows, so one walk sees every chain."""
    kept, proposals = [], ledger["proposals"]
    ledger["proposals"] = []
    for it in proposals:
        why = why_it_leaves(ledger, it, enacted, expired, kept)
        if why is None:
            kept.append(it["id"])
            ledger["proposals"].append(it)
        else:
            yield f"removed {it['id']} {why} refund {it['deposit']} {pay(ledger, it['return'], it['deposit'])}"


def shown_need(need):
    return need if isinstance(need, str) else f"{need[0]}/{need[1]}"


def tally_line(proposal, counts, needs, verdict):
    parts = [f"{role} {yes}/{total} need {shown_need(need)}" for role, (yes, total), need in zip(("committee", "drep", "pool"), counts, needs)]
    return " ".join([f"tally {proposal['id']} {proposal['action']['type']}", *parts, verdict])


def crossed(ledger):
    """The ledger in the next epoch, and the lines of the boundary."""
    frozen, ledger = ledger["frozen"], deepcopy({name: it for name, it in ledger.items() if name != "frozen"})
    state, ratified, told = passed(frozen)
    apply_rewards(ledger)
    turn_snapshots(ledger)
    retired = [*reap(ledger)]
    ledger.update({name: deepcopy(state[name]) for name in ("params", "version", "committee", "document", "script", "enacted")})
    paid = [*pay_withdrawals(ledger, ratified)]
    removed = [*remove_proposals(ledger, [it["id"] for it in ratified], [it["id"] for it, _, _, verdict in told if verdict == "expired"])]
    ledger.update(treasury=ledger["treasury"] + ledger["donations"], donations=0)
    members = ledger["committee"]["terms"] if ledger["committee"] else {}
    ledger["hot"] = {cold: hot for cold, hot in ledger["hot"].items() if cold in members}
    ledger["dormant"] += not ledger["proposals"]
    ledger.update(epoch=ledger["epoch"] + 1, counted=0)
    ledger["frozen"] = frozen_of(ledger)
    stakes = [f"stake {drep} {amount}" for drep, amount in drep_stakes(frozen).items() if amount > 0]
    first = f"epoch {ledger['epoch']} frozen {len(ledger['frozen']['entries'])} dormant {ledger['dormant']}"
    return ledger, [first, *stakes, *(tally_line(*it) for it in told), *paid, *removed, *retired, f"pots {pots(ledger)}"]


# ---- records; what each breaks, and what one that breaks nothing changes


def broken_by_block(ledger, record):
    slot, epoch = record["slot"], record["slot"] // ledger["length"]
    if slot <= ledger["slot"]:
        yield refusal(10, f"last {ledger['slot']}")
    if epoch > ledger["epoch"] + 1:
        yield refusal(11, f"now {ledger['epoch']}")
    if record["pulse"] == 0:
        yield refusal(12)


def after_block(ledger, record):
    slot, epoch = record["slot"], record["slot"] // ledger["length"]
    ledger, lines = crossed(ledger) if epoch > ledger["epoch"] else (ledger, [])
    there = len(ledger["frozen"]["entries"])
    ledger = {**ledger, "slot": slot, "counted": min(there, ledger["counted"] + record["pulse"])}
    return ledger, [*lines, f"block slot {slot} epoch {ledger['epoch']} counted {ledger['counted']} of {there}"]


def broken_by_rewards(ledger, record):
    taken = record["fromReserves"] + record["fromFees"]
    given = record["toTreasury"] + sum(amount for _, amount in record["rewards"])
    if record["epoch"] != ledger["epoch"]:
        yield refusal(20, f"now {ledger['epoch']}")
    if ledger["pending"]:
        yield refusal(21)
    if taken != given:
        yield refusal(22, f"in {taken} out {given}")
    if record["fromReserves"] > ledger["reserves"]:
        yield refusal(23, f"have {ledger['reserves']}")
    if record["fromFees"] > ledger["fees"]:
        yield refusal(24, f"have {ledger['fees']}")


def printed(ledger, what):
    """The lines of a print."""
    if what == "assets":
        return total_lines(ledger)
    return [f"pots {pots(ledger)}"] if what == "pots" else state_lines(ledger, output_stakes(ledger))


def malformed(record):
    """The line of a record whose kind there is not, or whose assets are malformed: of the faults of a record these are told here."""
    kind = record["kind"]
    if kind not in ("genesis", "block", "rewards", "tx", "print"):
        return ["refused 1 Malformed kind"]
    field = malformed_assets(record) if kind in ("genesis", "tx") else None
    return [f"refused 1 Malformed {field}"] if field else []


def broken_by_record(ledger, record):
    """A line for each rule that a record past the genesis breaks, in order; none for one that is accepted."""
    kind = record["kind"]
    if malformed(record):
        return malformed(record)
    if kind == "genesis":
        return [refusal(3)]
    if kind == "block":
        return [*broken_by_block(ledger, record)]
    if kind == "rewards":
        return [*broken_by_rewards(ledger, record)]
    return refusals(ledger, record) if kind == "tx" else []


def after_accepted(ledger, record):
    """The ledger after a record that breaks no rule, and the lines that answer it."""
    kind = record["kind"]
    if kind == "block":
        return after_block(ledger, record)
    if kind == "rewards":
        return {**ledger, "pending": record}, ["accepted"]
    if kind == "tx":
        ledger, answer = accepted(ledger, record)
        return ledger, [answer]
    return ledger, printed(ledger, record["what"])


def after_record(ledger, record):
    """The ledger after a record past the genesis, and the lines that answer it: of one that is refused the first of its rules."""
    broken = broken_by_record(ledger, record)
    return (ledger, broken[:1]) if broken else after_accepted(ledger, record)


def text_of_run(records):
    """The text of a stream: a genesis that breaks no rule of one, then further records."""
    ledger = begun(records[0])
    lines = [f"1 genesis {pots(ledger)}\n"]
    for number, it in enumerate(records[1:], 2):
        ledger, answer = after_record(ledger, it)
        lines += [f"{number} {line}\n" for line in answer]
    return "".join(lines)
