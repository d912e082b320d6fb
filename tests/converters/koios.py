"""Made answers of Koios for tools/recount, and an independent sum of what they tell: the counts of
each proposal, from the powers and the votes as they stand there, by docs/use/rules.md (Stakes and
counts)."""

import json
import random

LETTERS = "qpzry9x8gf2tvdw0s3jn54khce6mua7l"
TYPES = ["InfoAction", "TreasuryWithdrawals", "ParameterChange", "HardForkInitiation", "NewConstitution", "UpdateCommittee", "NoConfidence"]
DREP_THRESHOLDS = "motion_no_confidence committee_normal committee_no_confidence update_to_constitution hard_fork_initiation p_p_network_group p_p_economic_group p_p_technical_group p_p_gov_group treasury_withdrawal".split()
EPOCH, ADA = 560, 1_000_000


def encoded(prefix, data):
    """Bytes as a bech32 text."""
    bits = "".join(f"{it:08b}" for it in data)
    values = [int(bits[i : i + 5].ljust(5, "0"), 2) for i in range(0, len(bits), 5)]
    check = 1
    for it in [ord(c) >> 5 for c in prefix] + [0] + [ord(c) & 31 for c in prefix] + values + [0] * 6:
        top, check = check >> 25, (check & 0x1FFFFFF) << 5 ^ it
        for i, factor in enumerate((0x3B6A57B2, 0x26508E6D, 0x1EA119FA, 0x3D4233DD, 0x2A1462B3)):
            check ^= factor if (top >> i) & 1 else 0
    check ^= 1
    return prefix + "1" + "".join(LETTERS[it] for it in values + [(check >> 5 * (5 - i)) & 31 for i in range(6)])


def made(r, prefix, *header):
    return encoded(prefix, bytes(header) + r.getrandbits(224).to_bytes(28, "big"))


def epoch_params():
    numbers = "max_block_size=90112 max_tx_size=16384 max_bh_size=1100 max_val_size=5000 max_collateral_inputs=3 min_fee_a=44 min_fee_b=155381 max_epoch=18 optimal_pool_count=500 collateral_percent=150 gov_action_lifetime=6 drep_activity=20 committee_min_size=3 committee_max_term_length=146"
    amounts = "key_deposit=2000000 pool_deposit=500000000 min_pool_cost=170000000 coins_per_utxo_size=4310 gov_action_deposit=100000000000 drep_deposit=500000000"
    units = {"max_tx_ex_mem": 14000000, "max_tx_ex_steps": 10000000000, "max_block_ex_mem": 62000000, "max_block_ex_steps": 20000000000}
    decimals = {"monetary_expand_rate": 0.003, "treasury_growth_rate": 0.2, "influence": 0.3, "price_mem": 0.0577, "price_step": 7.21e-05, "min_fee_ref_script_cost_per_byte": 15}
    dreps = dict(zip((f"dvt_{it}" for it in DREP_THRESHOLDS), (0.67, 0.67, 0.6, 0.75, 0.6, 0.67, 0.67, 0.67, 0.75, 0.67)))
    pools = {f"pvt_{it}": 0.51 for it in ("motion_no_confidence", "committee_normal", "committee_no_confidence", "hard_fork_initiation")}
    own = {it.split("=")[0]: int(it.split("=")[1]) for it in numbers.split()}
    # amounts come as texts
    own.update(it.split("=") for it in amounts.split())
    return {"epoch_no": EPOCH, "protocol_major": 10, "protocol_minor": 0, **own, **units, **decimals, **dreps, **pools, "pvtpp_security_group": 0.51}


def description(r, kind, accounts):
    """The action in the node's own words."""
    if kind == "InfoAction":
        return {"tag": kind}
    if kind == "NoConfidence":
        return {"tag": kind, "contents": None}
    contents = {
        "TreasuryWithdrawals": [[[{"network": "Mainnet", "credential": {"keyHash": it}}, 5 * ADA] for it in accounts], "fa" * 28],
        "ParameterChange": [None, r.choice([{"stakePoolTargetNum": 600}, {"txFeePerByte": 45}, {"dRepDeposit": 400 * ADA}, {"executionUnitPrices": {"priceMemory": 0.0578, "priceSteps": 7.3e-05}}]), "fa" * 28],
        "HardForkInitiation": [{"txId": "ab" * 32, "govActionIx": 0}, {"major": 11, "minor": 0}],
        "NewConstitution": [None, {"anchor": {"dataHash": "cd" * 32, "url": "https://x"}, "script": "fa" * 28}],
        "UpdateCommittee": [None, [{"keyHash": "ee" * 28}], {"scriptHash-" + "ef" * 28: EPOCH + 50}, r.choice([{"numerator": 2, "denominator": 3}, 0.6])],
    }
    return {"tag": kind, "contents": contents[kind]}


def a_proposal(r, number, kind):
    tx, proposed = f"{r.getrandbits(256):064x}", EPOCH - r.randint(1, 7)
    accounts = [f"{r.getrandbits(224):056x}" for _ in range(2)]
    return {
        "block_time": 1_700_000_000 + proposed * 432_000 + number,
        "proposal_id": "gov_action1..",
        "proposal_tx_hash": tx,
        "proposal_index": r.choice([0, 0, 0, 2]),
        "proposal_type": kind,
        "proposal_description": description(r, kind, accounts),
        "deposit": "100000000000",
        "return_address": made(r, "stake", 0xE1),
        "proposed_epoch": proposed,
        "ratified_epoch": None,
        "enacted_epoch": None,
        "dropped_epoch": None,
        "expired_epoch": None,
        "expiration": proposed + 6,
    }


def votes_of(r, proposal, voters, chance):
    """Some votes of some voters; a voter may change its vote, and vote after the epoch began. On some proposals nearly all say yes."""
    sides = r.choice([["Yes"] * 20 + ["No", "Abstain"], ["Yes", "Yes", "No", "Abstain"]])
    for role, voter in voters:
        for _ in range(r.choice([1, 1, 2]) if r.random() < chance else 0):
            epoch = r.choice([proposal["proposed_epoch"], EPOCH - 1, EPOCH])
            vote = {"voter_role": role, "voter_id": voter, "vote": r.choice(sides), "epoch_no": epoch}
            yield {**vote, "block_time": 1_700_000_000 + epoch * 432_000 + r.randrange(432_000), **{it: proposal[it] for it in ("proposal_tx_hash", "proposal_index", "proposal_type")}}


def roles(proposal):
    """Who may vote on it."""
    kind = proposal["proposal_type"]
    is_secure = kind == "ParameterChange" and "txFeePerByte" in proposal["proposal_description"]["contents"][1]
    pools = kind in ("InfoAction", "HardForkInitiation", "UpdateCommittee", "NoConfidence") or is_secure
    return ["DRep"] + ["SPO"] * pools + ["ConstitutionalCommittee"] * (kind not in ("UpdateCommittee", "NoConfidence"))


def answers(seed, dreps=40, pools=30, proposals=12):
    """Each call's answer."""
    r = random.Random(seed)
    drep_info = [{"drep_id": made(r, "drep", r.choice([0x22, 0x23])), "active": r.random() < 0.8, "deposit": "500000000", "expires_epoch_no": EPOCH + 3} for _ in range(dreps)]
    power = [{"drep_id": it["drep_id"], "epoch_no": EPOCH, "amount": str(r.randrange(10**14))} for it in drep_info if r.random() < 0.9]
    power += [{"drep_id": it, "epoch_no": EPOCH, "amount": str(r.randrange(10**14))} for it in ("drep_always_abstain", "drep_always_no_confidence")]
    pool_info = [{"pool_id_bech32": made(r, "pool"), "reward_addr_delegated_drep": r.choice([None, drep_info[0]["drep_id"], "drep_always_abstain", "drep_always_no_confidence"])} for _ in range(pools)]
    pool_power = [{"pool_id_bech32": it["pool_id_bech32"], "epoch_no": EPOCH, "amount": str(r.randrange(10**14))} for it in pool_info if r.random() < 0.9]
    members = [
        {"status": r.choice(["authorized"] * 6 + ["not_authorized", "resigned"]), "cc_cold_id": made(r, "cc_cold", 0x12), "cc_hot_id": made(r, "cc_hot", 0x03), "expiration_epoch": EPOCH + r.choice([-1, 0, 30, 30, 30])}
        for _ in range(7)
    ]
    chosen = [a_proposal(r, i, TYPES[i % len(TYPES)]) for i in range(proposals)]
    gone = [{**a_proposal(r, 99, "InfoAction"), "dropped_epoch": EPOCH}, {**a_proposal(r, 98, "InfoAction"), "proposed_epoch": EPOCH}]
    everyone = [("DRep", it["drep_id"]) for it in drep_info] + [("SPO", it["pool_id_bech32"]) for it in pool_info]
    everyone += [("ConstitutionalCommittee", it["cc_hot_id"]) for it in members] + [("ConstitutionalCommittee", made(r, "cc_hot", 0x02))]
    votes = [it for proposal in chosen for it in votes_of(r, proposal, [v for v in everyone if v[0] in roles(proposal)], r.choice([0.3, 1, 1]))]
    r.shuffle(votes)
    return {
        "epoch_params": [epoch_params()],
        "totals": [{"epoch_no": EPOCH, "treasury": "1700000000000000"}],
        "drep_info": drep_info,
        "drep_voting_power_history": power,
        "pool_voting_power_history": pool_power,
        "pool_info": pool_info,
        "committee_info": [{"quorum_numerator": 2, "quorum_denominator": 3, "members": members}],
        "proposal_list": [*chosen, *gone],
        "vote_list": votes,
    }


# ---- the sum


def last_by_voter(data, proposal):
    """The vote of each voter that was its last one when the epoch began."""
    same = ("proposal_tx_hash", "proposal_index")
    votes = [it for it in data["vote_list"] if all(it[name] == proposal[name] for name in same) and it["epoch_no"] < EPOCH]
    return {it["voter_id"]: it["vote"] for it in sorted(votes, key=lambda it: it["block_time"])}


def summed(sides):
    """Yes and total of some weights, each with its side."""
    return tuple(sum(weight for weight, side in sides if side in wanted) for wanted in (("Yes",), ("Yes", "No")))


def counts_of(data, proposal):
    """Yes and total of the committee, the DReps and the pools."""
    votes, kind = last_by_voter(data, proposal), proposal["proposal_type"]
    seated = [it for it in data["committee_info"][0]["members"] if it["status"] == "authorized" and it["expiration_epoch"] >= EPOCH]
    power = {it["drep_id"]: int(it["amount"]) for it in data["drep_voting_power_history"]}
    confident = "Yes" if kind == "NoConfidence" else "No"
    dreps = [(power.get(it["drep_id"], 0), votes.get(it["drep_id"], "No")) for it in data["drep_info"] if it["active"]]
    dreps.append((power.get("drep_always_no_confidence", 0), confident))
    defaults = {"drep_always_abstain": "Abstain", "drep_always_no_confidence": confident}
    silent = {it["pool_id_bech32"]: "No" if kind == "HardForkInitiation" else defaults.get(it["reward_addr_delegated_drep"], "No") for it in data["pool_info"]}
    pools = [(int(it["amount"]), votes.get(it["pool_id_bech32"], silent[it["pool_id_bech32"]])) for it in data["pool_voting_power_history"]]
    return summed([(1, votes.get(it["cc_hot_id"], "No")) for it in seated]), summed(dreps), summed(pools)


def is_live(proposal):
    return proposal["proposed_epoch"] < EPOCH and proposal["dropped_epoch"] is None


def written(data, folder):
    """The answers as files."""
    folder.mkdir(parents=True, exist_ok=True)
    for name, it in data.items():
        (folder / f"{name}.json").write_text(json.dumps(it, indent=1) + "\n", encoding="utf-8")

