"""Streams at random, each of a genesis and of records that know the ledger before them:
transactions, blocks, reward updates and prints.

A transaction is made of items at random out of few names, of which those are kept that the plain
program takes; then its inputs and outputs are made to balance, in lovelace and in each asset. After
that none, one or two of the rules are broken: of the rules on one item an item is looked for that
breaks it, and for the others something is changed. Now and then a list of assets is malformed."""

from typing import NamedTuple

from oracle.assets import HELD, MOVED, added, assets_of, burned, minted
from oracle.counts import P1, P2B, P4, Q4
from oracle.epochs import after_record, begun
from oracle.transactions import (
    NAMES,
    PURPOSES,
    Broken,
    act,
    asset_sums,
    begun_draft,
    broken_by_cert,
    broken_by_proposal,
    broken_by_vote,
    draft_after,
    filled,
    is_seated,
    least_fee,
    least_output,
    live,
    pots,
    sums_of,
)
from records import GREATEST, PARAMS, credential, genesis_record, hash28, ref, tx_id

# few names, so that they meet: keys and scripts of one hash, and one name in several roles
ACCOUNTS = [credential(n, kind) for n, kind in ((10, "k"), (10, "s"), (11, "k"), (12, "k"), (13, "s"), (14, "k"), (15, "k"), (30, "k"))]
DREPS = [credential(n, kind) for n, kind in ((30, "k"), (30, "s"), (31, "k"), (10, "k"))]
COLD = [credential(n, kind) for n, kind in ((70, "k"), (70, "s"), (71, "k"), (72, "k"), (30, "k"))]
HOT = [credential(n, kind) for n, kind in ((80, "k"), (80, "s"), (81, "k"), (30, "k"), (70, "k"))]
POOLS = [hash28(n) for n in (50, 51, 52, 10)]
KEYS = [tx_id(n) for n in (7, 8, 9)]
# assets that meet: names under several policies, and names that begin others
POLICIES = [hash28(5), hash28(6), "ab" * 28]
ASSETS = [*((policy, name) for policy in POLICIES for name in ("", "0a", "0a00")), (hash28(5), "ff" * 32)]
QUANTITIES = [1, 1, 2, 7, 1000, 2**63, GREATEST]
MINTS = [1, 1, 2, 7, 1000, MOVED[-1]]
# with the rules of version 11, and without them
VERSIONS = [[10, 0], [10, 9], [11, 0], [11, 1], [12, 0]]
PAYERS = [credential(1), credential(2), credential(10), credential(3, "s")]
SCRIPTS = [None, hash28(98), hash28(99)]
CERTS = ["account-reg", "account-unreg", "delegate", "pool-reg", "pool-retire", "drep-reg", "drep-unreg", "drep-update", "hot-auth", "hot-resign"]
# parameters and pools more often than others, since each of 30 parameters is for pools to vote on
# or not; withdrawals, since few are ratified; updates of the committee, since members to come have
# hot keys
ACTIONS = [*PURPOSES, *["ParameterChange"] * 3, *["TreasuryWithdrawals"] * 3, *["UpdateCommittee"] * 2, "Info"]
ROLES = ["committee", "drep", "pool", "pool"]
SIZES = (0, 29, 57, 65)
# the rules that are broken, of which those of version 11 can be broken less often
RULES = [*NAMES, 73, *[104] * 5]
VOTES = ["yes", "yes", "no", "abstain"]
# how often an item is made until one is as it is asked for
TRIES = 200


# ---- the genesis


def some(r, items, least=0):
    """Some of the items, in an order of their own."""
    return r.sample(items, r.randrange(least, len(items) + 1))


def an_address(r, network):
    return f"{network}{r.choice(PAYERS)}" + r.choice(["", "", f"+{r.choice(ACCOUNTS)}"])


def threshold(r, lenient):
    """A fraction up to 1; where all is to pass easily, mostly 0."""
    return [0, 1] if lenient and r.random() < 0.8 else r.choice([[0, 1], [1, 100], [1, 3], [1, 2], [2, 4], [2, 3], [67, 100], [1, 1]])


def spelled(r, asset):
    """An asset in either case of its digits."""
    return [r.choice([it, it, it.upper()]) for it in asset]


def listed(r, held):
    """A list of assets with their quantities, in an order of its own."""
    return [[*spelled(r, asset), held[asset]] for asset in some(r, [*held], len(held))]


def fourth_entry(r, held):
    """What an output has behind its third entry: where it holds no asset, nothing or an empty list."""
    return [listed(r, held)] if held or r.random() < 0.05 else []


def some_assets(r):
    """Those of an output of the genesis, which mostly has none."""
    return {it: r.choice(QUANTITIES) for it in r.sample(ASSETS, r.choice([0, 0, 1, 2, 4]))}


def params_of(r, long):
    """Those of a long stream let pools retire, proposals live, and withdrawals and changes pass more easily than what delays them."""
    lenient = long or r.random() < 0.7
    return {
        "poolVotingThresholds": [threshold(r, lenient) for _ in range(5)],
        "drepVotingThresholds": [[1, 1] if long and place == P1 else threshold(r, lenient and (place > P2B or not long)) for place in range(10)],
        "committeeMinSize": 0 if lenient else r.randrange(3),
        "committeeMaxTermLength": r.choice([4, 9, 100]),
        "maxTxSize": r.choice([400, 16384]),
        "maxCollateralInputs": r.choice([0, 1, 2, 3, 3]),
        "minFeeA": r.choice([0, 1]),
        "minFeeB": r.choice([0, 7, 70]),
        "keyDeposit": r.choice([0, 2, 20]),
        "poolDeposit": r.choice([0, 5, 50]),
        "minPoolCost": r.choice([0, 34, 340]),
        "coinsPerUTxOByte": r.choice([0, 1, 1]),
        "eMax": r.choice([1, 18] if long else [0, 1, 18]),
        "collateralPercentage": r.choice([0, 100, 150]),
        "govActionLifetime": r.choice([2, 6] if long else [0, 2, 6]),
        "govActionDeposit": r.choice([0, 10, 100]),
        "drepDeposit": r.choice([0, 5, 50]),
        "drepActivity": r.choice([0, 20]),
    }


def a_committee(r, forks):
    members = [[cold, r.randrange(9), r.choice([None, *HOT])] for cold in some(r, COLD[:4])]
    committee = {"threshold": [0, 1] if forks else r.choice([[0, 1], [1, 2]]), "members": members}
    return committee if forks else r.choice([None, *[committee] * 5])


def let_fork(params):
    """Lets hard forks pass, and motions of no confidence hardly."""
    params["drepVotingThresholds"][P1] = [1, 1]
    params["drepVotingThresholds"][P4] = params["poolVotingThresholds"][Q4] = [0, 1]
    params["committeeMinSize"] = 0


def a_genesis(r, shape):
    """A genesis that breaks no rule of one. What is deposited is not always what is asked for now. A long stream has all that it spends."""
    network, params, version = r.choice([0, 1, 1, 1]), params_of(r, shape.long), r.choice(VERSIONS)
    # of the streams that begin before version 11 some come to it
    forks = version < [11, 0] and r.random() < 0.8
    if forks:
        let_fork(params)
    pools, dreps = some(r, POOLS, 1), some(r, DREPS, 1)
    often, much = (4, 10**9) if shape.long else (1, 1)
    outputs = [
        [ref(r.choice([1, 9]), i), an_address(r, network), much * r.randrange(400, 6000), *fourth_entry(r, some_assets(r))]
        for i in range(often * r.randrange(8, 20))
    ]
    fields = {
        "slot": 0 if shape.long else r.choice([0, 5, 39, 50]),
        "epochLength": 10 * shape.records if shape.long else 10,
        "version": version,
        "script": r.choice(SCRIPTS),
        "committee": a_committee(r, forks),
        "outputs": outputs,
        "accounts": [
            [cred, r.choice([params["keyDeposit"], 3]), r.choice([0, 0, 1, 67, 800]), r.choice([None, *pools]), r.choice([None, "abstain", "no-confidence", *dreps])]
            for cred in some(r, ACCOUNTS, 3)
        ],
        "pools": [
            [pool, r.choice([params["poolDeposit"], 4]), r.randrange(99), 0, [1, 9], f"{network}{r.choice(ACCOUNTS)}", *r.choice([[], [r.choice(KEYS)]])]
            for pool in pools
        ],
        "dreps": [[cred, r.choice([params["drepDeposit"], 6]), r.randrange(30)] for cred in dreps],
        "treasury": much * r.choice([100, 5000] if shape.long else [0, 100, 5000]),
        "reserves": much * r.choice([0, 700]),
    }
    held = sum(it[2] for it in outputs) + sum(it[1] + it[2] for it in fields["accounts"]) + sum(it[1] for it in fields["pools"] + fields["dreps"])
    return genesis_record(network=network, supply=held + fields["treasury"] + fields["reserves"], **fields, **params)


# ---- items at random, some of which break a rule


def but_absent(record):
    return {name: it for name, it in record.items() if it is not None}


def near(r, n):
    """An amount, or one that is 1 off."""
    return r.choice([n, n, n, n, n + 1, max(0, n - 1)])


class Maker:
    """Makes a transaction with an id, by the ledger before it. In a long stream few transactions propose, and fees are small."""

    def __init__(self, r, ledger, tx, long=False):
        self.r, self.ledger, self.tx, self.long = r, ledger, tx, long

    def no_action(self):
        """An action that is not live: mostly none at all, or one of this transaction."""
        return f"{self.r.choice([self.ledger['used'][-1], self.tx])}#{self.r.randrange(3)}"

    def account(self, creds=ACCOUNTS):
        """An account, now and then of the other network."""
        network = self.ledger["network"]
        return f"{self.r.choice([network] * 12 + [1 - network])}{self.r.choice([*creds])}"

    def accounts(self, most):
        """Some accounts, each once."""
        return [*dict.fromkeys(self.account() for _ in range(most))]

    def delegation(self):
        return {"pool": self.r.choice([None, *POOLS]), "drep": self.r.choice([None, "abstain", "no-confidence", *DREPS])}

    def stated(self, entries, cred, due):
        """A deposit or a refund: not stated, the one that is due, or one that is 1 off."""
        stored = entries[cred]["deposit"] if cred in entries else due
        return self.r.choice([None, near(self.r, self.r.choice([stored, stored, due]))])

    def cert(self):
        r, params, now = self.r, self.ledger["params"], self.ledger["epoch"]
        kind, cred, drep, pool = r.choice(CERTS), r.choice(ACCOUNTS), r.choice(DREPS), r.choice(POOLS)
        terms = {"cost": max(0, params["minPoolCost"] + r.choice([-1, 0, 0, 5])), "pledge": r.randrange(9), "margin": r.choice([[0, 1], [1, 2]])}
        fields = {
            "account-reg": {"cred": cred, "deposit": r.choice([None, near(r, params["keyDeposit"])]), **self.delegation()},
            "account-unreg": {"cred": cred, "refund": self.stated(self.ledger["accounts"], cred, params["keyDeposit"])},
            "delegate": {"cred": cred, **r.choice([self.delegation(), {"drep": drep}])},
            "pool-reg": {"pool": pool, **terms, "account": self.account(), "key": r.choice([None, *KEYS])},
            "pool-retire": {"pool": pool, "epoch": max(0, now + r.choice([-1, 0, 1, 1, 2, params["eMax"], params["eMax"] + 1]))},
            "drep-reg": {"cred": drep, "deposit": r.choice([None, near(r, params["drepDeposit"])])},
            "drep-unreg": {"cred": drep, "refund": self.stated(self.ledger["dreps"], drep, params["drepDeposit"])},
            "drep-update": {"cred": drep},
            "hot-auth": {"cold": r.choice(COLD), "hot": r.choice(HOT)},
            "hot-resign": {"cold": r.choice(COLD)},
        }[kind]
        if kind == "delegate" and not but_absent(fields).keys() & {"pool", "drep"}:
            fields["drep"] = "abstain"
        return {"cert": kind, **but_absent(fields)}

    def story(self):
        """Certificates of one name that undo and renew each other."""
        r, cred, drep, pool, cold = self.r, self.r.choice(ACCOUNTS), self.r.choice(DREPS), self.r.choice(POOLS), self.r.choice(COLD)
        leave, come, choose = {"cert": "drep-unreg", "cred": drep}, {"cert": "drep-reg", "cred": drep}, {"cert": "delegate", "cred": cred, "drep": drep}
        register = {"cert": "pool-reg", "pool": pool, "cost": 400, "pledge": 1, "margin": [0, 1], "account": f"{self.ledger['network']}{cred}"}
        (key, another_key), another_pool = r.sample(KEYS, 2), r.choice(POOLS)
        retire = {"cert": "pool-retire", "pool": pool, "epoch": self.ledger["epoch"] + 1}
        name_hot, resign = [{"cert": "hot-auth", "cold": cold, "hot": hot} for hot in r.sample(HOT, 2)], {"cert": "hot-resign", "cold": cold}
        return r.choice(
            [
                [choose, leave, come, {"cert": "drep-update", "cred": drep}],
                [come, choose, leave],
                [leave, come, choose],
                [{"cert": "account-unreg", "cred": cred}, {"cert": "account-reg", "cred": cred, "drep": "abstain"}, choose],
                [{"cert": "account-reg", "cred": cred}, {"cert": "account-unreg", "cred": cred}, {"cert": "account-reg", "cred": cred}],
                [register, {**register, "cost": 500}, retire, {"cert": "delegate", "cred": cred, "pool": pool}, register],
                [retire, register, {**retire, "epoch": self.ledger["epoch"] + 2}],
                [{**register, "key": key}, {**register, "key": another_key}, {**register, "pool": another_pool, "key": key}, {**register, "key": key}],
                [*name_hot, resign, *name_hot][: r.randrange(1, 5)],
            ]
        )

    def previous(self, kind):
        """The last enacted one, a live proposal of the purpose, another one, or none that there is."""
        same = [it["id"] for it in self.ledger["proposals"] if PURPOSES.get(it["action"]["type"]) == PURPOSES[kind]]
        others = [self.no_action(), *(it["id"] for it in self.ledger["proposals"])]
        last = self.ledger["enacted"][PURPOSES[kind]]
        return self.r.choice([None, last, last, last, *[self.r.choice(same or [last])] * 3, self.r.choice(others)])

    def version(self, previous):
        """Mostly one that may follow."""
        parent = live(self.ledger, previous) if previous else None
        major, minor = parent["action"]["version"] if parent and "version" in parent["action"] else self.ledger["version"]
        return self.r.choice([[major + 1, 0], [major, minor + 1], [major, minor + 1], [major, minor], [major + 1, minor + 1], [major + 2, 0]])

    def update(self):
        """Some parameters, of which a number may be 0, and one may be null."""
        params = self.ledger["params"]
        chosen = self.r.sample([*PARAMS], self.r.choice([0, 1, 1, 1, 2, 4]))
        values = {name: self.value_of(name, params[name]) for name in chosen}
        return {**values, **self.r.choice([{}, {}, {"nOpt": None}, {"minFeeA": None}])}

    def value_of(self, name, value):
        """A new value of a parameter. The greatest size of a transaction is not made too small for those that come, and no confidence is not made easier."""
        if name.endswith("VotingThresholds"):
            return [value[0], *(threshold(self.r, True) for _ in value[1:])]
        if isinstance(value, (list, str)):
            return value
        return self.r.choice([0, 400, 16384] if name == "maxTxSize" else [0, 1, 2, 9])

    def action(self):
        r, kind = self.r, self.r.choice(ACTIONS)
        if self.ledger["version"] < [11, 0] and r.random() < 0.15:
            kind = "HardForkInitiation"
        previous = self.previous(kind) if kind in PURPOSES else None
        policy = r.choice([self.ledger["script"]] * 4 + SCRIPTS)
        fields = {
            "UpdateCommittee": {
                "remove": some(r, COLD[:2]),
                "add": [[cold, max(0, self.ledger["epoch"] + r.choice([-1, 0, 1, 1, 5, 9]))] for cold in some(r, COLD[1:])],
                "threshold": r.choice([[0, 1], [2, 3]]),
            },
            "NewConstitution": {"document": tx_id(r.randrange(9)), "script": r.choice(SCRIPTS)},
            "HardForkInitiation": {"version": self.version(previous)},
            "ParameterChange": {"update": self.update(), "policy": policy},
            "TreasuryWithdrawals": {"targets": [[it, r.choice([0, 0, 5, 99, self.ledger["treasury"]])] for it in self.accounts(r.randrange(4))], "policy": policy},
        }.get(kind, {})
        return {"type": kind, **but_absent({"previous": previous, **fields})}

    def proposal(self):
        creds = self.r.choice([ACCOUNTS, [*self.ledger["accounts"]] or ACCOUNTS])
        return {"deposit": near(self.r, self.ledger["params"]["govActionDeposit"]), "return": self.account(creds), "action": self.action()}

    def vote(self):
        voters = {"committee": HOT, "drep": DREPS, "pool": POOLS}
        role, ids = self.r.choice(ROLES), [it["id"] for it in self.ledger["proposals"]]
        action = self.r.choice([*ids, *ids, *ids, self.no_action()])
        return {"voter": f"{role}:{self.r.choice(voters[role])}", "action": action, "vote": self.r.choice(VOTES)}

    # ---- a transaction that is to be accepted

    def found(self, make, judge, rule=None):
        """An item that breaks this rule first, or none of them, if one comes up."""
        for _ in range(TRIES // 5 if self.long else TRIES):
            it = make()
            if next(judge(it), Broken(None)).rule == rule:
                return [it]
        return []

    def withdrawals(self):
        """Whole balances of accounts that may be withdrawn from."""
        may = [cred for cred, it in self.ledger["accounts"].items() if cred[0] == "s" or it["drep"]]
        return [[f"{self.ledger['network']}{cred}", self.ledger["accounts"][cred]["balance"]] for cred in self.r.sample(may, min(len(may), self.r.choice([0, 0, 0, 1, 2])))]

    def certs(self, tx):
        draft, certs = begun_draft(self.ledger, filled(tx)), []
        judge = lambda it: broken_by_cert(self.ledger, draft, it)
        asked = self.story() if self.r.random() < 0.3 else [None] * self.r.choice([0, 0, 1, 2, 4, 7])
        for it in asked:
            for cert in self.found(self.cert, judge) if it is None else [it]:
                if next(judge(cert), None) is None:
                    act(draft, cert)
                    certs.append(cert)
        return certs

    def how_many(self):
        """How many proposals it has."""
        return self.r.choice([0, 0, 1, 1, 2, 3]) if not self.long or self.r.random() < 0.06 else 0

    def proposals_and_votes(self, tx):
        draft, counts = draft_after(self.ledger, tx, len(tx["certs"])), (self.how_many(), self.r.choice([0, 0, 1, 3, 6]))
        propose = lambda: self.found(self.proposal, lambda it: broken_by_proposal(self.ledger, draft, it))
        vote = lambda: self.found(self.vote, lambda it: broken_by_vote(self.ledger, draft, it))
        return [it for _ in range(counts[0]) for it in propose()], [it for _ in range(counts[1]) for it in vote()]

    def output(self, amount, held={}):
        return [an_address(self.r, self.ledger["network"]), amount, self.r.choice(SIZES), *fourth_entry(self.r, held)]

    def balance(self, tx):
        """Gives it inputs, and outputs of all that is left. What no output may hold joins the fee."""
        free = [*self.ledger["outputs"]]
        self.r.shuffle(free)
        tx["inputs"] = [free.pop() for _ in range(min(len(free), self.r.choice([1, 1, 2, 3] if len(free) < 99 else [3, 4])))]
        tx["fee"] = least_fee(self.ledger, tx) + self.r.choice([0, 0, 9])
        while free and sums_of(self.ledger, tx)[0] < sums_of(self.ledger, tx)[1]:
            tx["inputs"].append(free.pop())
        consumed, produced = sums_of(self.ledger, tx)
        left = max(0, consumed - produced)
        parts = [self.r.choice([1, 2, 3]) for _ in range(self.r.choice([1, 2, 2, 3, 4]))]
        for part in [*parts, 1] if self.long else parts:
            it = self.output(left // part)
            if it[1] >= least_output(self.ledger, it[2]):
                tx["outputs"].append(it)
                left -= it[1]
        tx["fee"] += left
        self.balance_assets(tx)

    def mint(self, tx):
        """Mints some assets, and burns some of what the inputs hold."""
        held = asset_sums(self.ledger, tx)[0]
        moved = {it: self.r.choice(MINTS) for it in self.r.sample(ASSETS, self.r.choice([0, 0, 0, 1, 2]))} if tx["outputs"] else {}
        for asset, quantity in held.items():
            if not tx["outputs"] or self.r.random() < 0.2:
                moved[asset] = -min(self.r.choice([1, quantity, quantity] if tx["outputs"] else [quantity]), quantity, -MOVED[0])
        tx["mint"] = listed(self.r, moved)

    def balance_assets(self, tx):
        """Mints, burns, and shares all assets that are left among the outputs."""
        self.mint(tx)
        consumed, produced = asset_sums(self.ledger, tx)
        shares = [{} for _ in tx["outputs"]]
        for asset, quantity in consumed.items():
            left = quantity - produced.get(asset, 0)
            for place in some(self.r, range(len(shares)), len(shares)):
                part = min(left, GREATEST, self.r.choice([left, left, max(1, left // 2), 1]))
                if part:
                    shares[place][asset] = part
                    left -= part
            for it in shares:
                more = min(left, GREATEST - it.get(asset, 0))
                if more:
                    it[asset] = it.get(asset, 0) + more
                    left -= more
        tx["outputs"] = [[*it[:3], *fourth_entry(self.r, held)] for it, held in zip(tx["outputs"], shares)]

    def least_collateral(self, tx):
        return -(-tx["fee"] * self.ledger["params"]["collateralPercentage"] // 100)

    def add_collateral(self, tx):
        """Enough of it for the fee, by outputs of keys, and often a return of what is too much."""
        tx["collateral"] = self.key_outputs(self.ledger["params"]["maxCollateralInputs"])
        have, held = self.held_by(tx["collateral"])
        least = self.least_collateral(tx)
        returned = self.output(max(0, have - least - self.r.choice([0, 0, 5])), held)
        may_return = returned[1] >= least_output(self.ledger, returned[2]) and all(it in HELD for it in held.values())
        if tx["collateral"] and have >= least and (may_return or not held):
            tx["scripts"] = self.r.choice(["ok", "failed"])
            if may_return and (held or self.r.random() < 0.7):
                tx["collateralReturn"] = returned

    def held_by(self, refs):
        """The lovelace and the assets of those outputs that there are."""
        outputs = [self.ledger["outputs"][it] for it in refs if it in self.ledger["outputs"]]
        return sum(it.amount for it in outputs), added(*(it.assets for it in outputs))

    def key_outputs(self, most):
        keys = [name for name, it in self.ledger["outputs"].items() if it.address[1] == "k"]
        return self.r.sample(keys, min(len(keys), self.r.randrange(most + 1)))

    def good(self):
        """A transaction that breaks no rule, where there are outputs enough."""
        r, slot = self.r, self.ledger["slot"]
        tx = filled({"kind": "tx", "id": self.tx, "inputs": [], "outputs": [], "fee": 0, "size": min(self.ledger["params"]["maxTxSize"], r.choice([r.randrange(400), r.randrange(400), 400]))})
        tx["scriptFee"], tx["donation"] = r.choice([0, 0, 0, 5]), r.choice([0, 0, 0, 30])
        tx["from"], tx["until"] = r.choice([None, None, slot, max(0, slot - 1)]), r.choice([None, None, slot + 1, slot + 9])
        tx["treasury"] = r.choice([None, None, None, self.ledger["treasury"]])
        tx["withdrawals"] = self.withdrawals()
        tx["certs"] = self.certs(tx)
        tx["proposals"], tx["votes"] = self.proposals_and_votes(tx)
        self.balance(tx)
        if r.random() < 0.35:
            self.add_collateral(tx)
        elif r.random() < 0.1:
            # without scripts collateral of scripts is allowed
            tx["collateral"] = r.sample([*self.ledger["outputs"]], min(len(self.ledger["outputs"]), self.ledger["params"]["maxCollateralInputs"]))
        return tx

    # ---- what breaks a rule

    def put_in(self, items, more):
        """Puts them in at some place."""
        place = self.r.randrange(len(items) + 1)
        items[place:place] = more

    def missing(self):
        """A reference of no output: one that is spent, one of this transaction, or one that never was."""
        ids = [*self.ledger["used"][-20:], self.tx, tx_id(98)]
        return self.r.choice([it for it in (f"{tx}#{place}" for tx in ids for place in range(4)) if it not in self.ledger["outputs"]])

    def has_scripts(self, tx):
        tx["scripts"] = self.r.choice(["ok", "failed"])

    def break_output(self, tx, change):
        """Changes an output or the collateral return."""
        all_of = [*tx["outputs"], *([tx["collateralReturn"]] if tx["collateralReturn"] else [])]
        if all_of:
            change(self.r.choice(all_of))

    def lower_output(self, it):
        """Makes it hold too little for its bytes."""
        it[2] = self.r.choice([it[2], it[2], 2**32 - 1])
        it[1] = max(0, min(it[1], least_output(self.ledger, it[2]) - 1))

    def break_return(self, tx):
        """Returns more than is left of the collateral."""
        self.has_scripts(tx)
        tx["collateral"] = tx["collateral"] or self.key_outputs(self.ledger["params"]["maxCollateralInputs"])
        have, held = self.held_by(tx["collateral"])
        least = self.least_collateral(tx)
        held = {asset: quantity for asset, quantity in held.items() if quantity in HELD}
        tx["collateralReturn"] = self.output(self.r.choice([max(0, have - least + 1), have, have + 1, GREATEST]), held)

    def other_assets(self, held):
        """With one asset more, one less, or 1 more or 1 less of one."""
        asset = self.r.choice([*held, self.r.choice(ASSETS)])
        quantity = held.get(asset, 0) + self.r.choice([1, -1, 7, -held.get(asset, 0)])
        others = {it: of_it for it, of_it in held.items() if it != asset}
        return {**others, asset: quantity} if quantity in HELD else others

    def break_collateral_assets(self, tx):
        """Returns other assets than the collateral holds, or none of them."""
        self.has_scripts(tx)
        tx["collateral"] = tx["collateral"] or self.key_outputs(self.ledger["params"]["maxCollateralInputs"])
        have, held = self.held_by(tx["collateral"])
        returned = tx["collateralReturn"] or self.output(max(0, have - self.least_collateral(tx)))
        tx["collateralReturn"] = [*returned[:3], *fourth_entry(self.r, self.other_assets(assets_of(returned) or held))]

    def break_assets(self, tx):
        """Mints or burns something else, or gives other assets in an output."""
        if tx["outputs"] and self.r.random() < 0.7:
            place = self.r.randrange(len(tx["outputs"]))
            it = tx["outputs"][place]
            tx["outputs"][place] = [*it[:3], *fourth_entry(self.r, self.other_assets(assets_of(it)))]
        else:
            moved = {**minted(tx), **{asset: -quantity for asset, quantity in burned(tx).items()}}
            asset = self.r.choice([*moved, self.r.choice(ASSETS)])
            moved[asset] = self.r.choice([1, -1, -moved.get(asset, 1), MOVED[0], MOVED[-1]])
            tx["mint"] = listed(self.r, {it: quantity for it, quantity in moved.items() if quantity in MOVED})

    def spoil(self, tx):
        """Makes a list of assets malformed: of an output, of the return, or of the mint."""
        asset, more = spelled(self.r, self.r.choice(ASSETS)), spelled(self.r, self.r.choice(ASSETS))
        bad = self.r.choice([
            [[*asset, 1], [*map(str.upper, asset), 2]],
            [[*more, 0]],
            [[*more, 2**64]],
            [[*more, 1.0]],
            [[*more, -(2**63) - 1]],
            [[*more, 5], [more[0], more[1] + "0", 1]],
            [[more[0], "00" * 33, 1]],
            [[more[0][1:], "", 1]],
            [[more[0], 5, 1]],
            [[*more, 1, 1]],
            [more],
            {},
        ])  # fmt: skip
        holders = [*tx["outputs"], *([tx["collateralReturn"]] if tx["collateralReturn"] else []), None]
        holder = self.r.choice(holders)
        if holder is None:
            tx["mint"] = bad
        else:
            holder[3:] = self.r.choice([[bad], [bad], [[], []], [None]])

    def break_balance(self, tx):
        """Gives more: 1 lovelace, as much as fits, or some outputs again."""
        kind = self.r.choice(["fee", "donation", "outputs"])
        if kind == "outputs":
            self.put_in(tx["outputs"], [[it[0], self.r.choice([it[1], GREATEST]), *it[2:]] for it in tx["outputs"]])
        else:
            tx[kind] += self.r.choice([1, GREATEST - tx[kind]])

    def break_withdrawal(self, tx, rule):
        """A withdrawal of another account that breaks this rule."""
        network, accounts = self.ledger["network"], self.ledger["accounts"]
        held = {it[0] for it in tx["withdrawals"]}
        amount = lambda cred: accounts.get(cred, {"balance": 7})["balance"]
        may = {
            50: [[f"{1 - network}{cred}", amount(cred)] for cred in ACCOUNTS],
            51: [[f"{network}{cred}", 7] for cred in ACCOUNTS if cred not in accounts],
            52: [[f"{network}{cred}", amount(cred)] for cred, it in accounts.items() if cred[0] == "k" and it["drep"] is None],
            53: [[f"{network}{cred}", it["balance"] + 1] for cred, it in accounts.items() if cred[0] == "s" or it["drep"]],
        }[rule]
        may = [it for it in may if it[0] not in held]
        self.put_in(tx["withdrawals"], [self.r.choice(may)] if may else [])

    def break_cert(self, tx, rule):
        place = self.r.randrange(len(tx["certs"]) + 1)
        draft = draft_after(self.ledger, tx, place)
        tx["certs"][place:place] = self.found(self.cert, lambda it: broken_by_cert(self.ledger, draft, it), rule)

    def break_proposal(self, tx, rule):
        draft = draft_after(self.ledger, tx, len(tx["certs"]))
        self.put_in(tx["proposals"], self.found(self.proposal, lambda it: broken_by_proposal(self.ledger, draft, it), rule))

    def name_unseated(self, tx):
        """Lets a cold key that is to be a member, and is none, authorize a hot key that no member has."""
        committee, draft = self.ledger["committee"], draft_after(self.ledger, tx, len(tx["certs"]))
        members, free = committee["terms"] if committee else [], [it for it in HOT if not is_seated(draft, it)]
        may = [{"cert": "hot-auth", "cold": cold, "hot": hot} for cold in COLD if cold not in members for hot in free]
        may = [it for it in may if next(broken_by_cert(self.ledger, draft, it), None) is None]
        tx["certs"] += self.r.sample(may, min(len(may), 1))

    def break_vote(self, tx, rule):
        if rule == 104:
            self.name_unseated(tx)
        draft = draft_after(self.ledger, tx, len(tx["certs"]))
        self.put_in(tx["votes"], self.found(self.vote, lambda it: broken_by_vote(self.ledger, draft, it), rule))

    def break_any(self, tx):
        """Adds items as they come."""
        if self.r.random() < 0.5:
            self.put_in(tx["certs"], self.story())
        for name, make in (("certs", self.cert), ("proposals", self.proposal), ("votes", self.vote)):
            self.put_in(tx[name], [make() for _ in range(self.r.randrange(4))])

    def break_one(self, tx, rule):
        """Changes a transaction so that it breaks this rule, where that can be."""
        r, ledger, outputs = self.r, self.ledger, [*self.ledger["outputs"]]
        max_collateral, max_size = ledger["params"]["maxCollateralInputs"], ledger["params"]["maxTxSize"]
        least, scripts = least_fee(ledger, tx), [name for name, it in ledger["outputs"].items() if it.address[1] == "s"]
        changes = {
            30: lambda: tx.update(id=r.choice(ledger["used"])),
            31: lambda: tx.update(witnessed=False),
            32: lambda: tx.update(inputs=[]),
            33: lambda: self.put_in(tx["inputs"], [self.missing()]),
            34: lambda: self.put_in(tx["inputs"], tx["inputs"][:1]),
            35: lambda: tx.update(size=r.choice([max_size + 1, 2**32 - 1])),
            36: lambda: tx.update(r.choice([{"from": ledger["slot"] + 1}, {"until": ledger["slot"]}, {"until": 0}])),
            37: lambda: tx.update(r.choice([{"fee": max(0, least - 1)}, {"scriptFee": GREATEST}])),
            38: lambda: self.break_output(tx, self.lower_output),
            39: lambda: self.break_output(tx, lambda it: it.__setitem__(0, f"{1 - ledger['network']}{it[0][1:]}")),
            40: lambda: tx["collateral"].extend(r.sample(outputs, min(len(outputs), max_collateral + 1))),
            41: lambda: (self.has_scripts(tx), tx.update(collateral=[])),
            42: lambda: self.put_in(tx["collateral"], r.choice([[self.missing()], tx["collateral"][:1]])),
            43: lambda: (self.has_scripts(tx), self.put_in(tx["collateral"], scripts[:1])),
            44: lambda: self.break_return(tx),
            45: lambda: tx.update(treasury=r.choice([ledger["treasury"] + 1, max(0, ledger["treasury"] - 1)])),
            46: lambda: self.break_collateral_assets(tx),
            110: lambda: self.break_balance(tx),
            111: lambda: self.break_assets(tx),
        }
        if rule in changes:
            changes[rule]()
        else:
            (self.break_withdrawal, self.break_cert, self.break_proposal, self.break_vote)[(rule >= 60) + (rule >= 80) + (rule >= 100)](tx, rule)


# ---- streams


def short(tx):
    """Without the fields that are as they are where they are missing."""
    usual = filled({})
    return {name: it for name, it in tx.items() if name not in usual or it != usual[name]}


class Shape(NamedTuple):
    """How many records a stream has; a long one crosses a boundary after each twentieth of them."""

    records: int
    long: bool = False


EPOCHS = 20


def short_shape(r):
    return Shape(r.randrange(30, 60))


def a_block(r, ledger, crosses):
    """A block of this epoch or the next one, now and then one that breaks a rule."""
    slot, length = ledger["slot"], ledger["length"]
    begins, later = (ledger["epoch"] + 1) * length, slot + r.choice([1, 1, 2, 3])
    usual = begins + r.randrange(min(length, 3)) if crosses else min(later, begins - 1)
    wrong = [slot, max(0, slot - 1), begins + length, begins + 5 * length]
    return {"kind": "block", "slot": r.choice(wrong) if r.random() < 0.1 else usual, "pulse": r.choice([0, *[1, 1, 2, 3, 9, 2**32 - 1] * 4])}


def a_reward_update(r, ledger):
    """A reward update, of which every third breaks a rule."""
    some_of = lambda most: r.choice([0, most, r.randrange(most + 1), r.randrange(most // 20 + 1)])
    reserves, fees = some_of(ledger["reserves"] // 4), some_of(ledger["fees"])
    if r.random() < 0.1:
        reserves, fees = r.choice([(ledger["reserves"] + 1, fees), (reserves, ledger["fees"] + 1), (GREATEST, 0)])
    left, rewards = reserves + fees, []
    for cred in some(r, ACCOUNTS):
        rewards.append([cred, min(left, GREATEST, r.choice([0, 1, left // 2]))])
        left -= rewards[-1][1]
    off = r.choice([1, -1]) if r.random() < 0.1 else 0
    epoch = max(0, ledger["epoch"] + r.choice([-1, 1])) if r.random() < 0.1 else ledger["epoch"]
    treasury = min(GREATEST, max(0, left + off))
    return {"kind": "rewards", "epoch": epoch, "fromReserves": reserves, "fromFees": fees, "toTreasury": treasury, "rewards": rewards}


def a_transaction(r, ledger, number, long):
    """Accepted, or with one or two rules broken, or more of them."""
    maker = Maker(r, ledger, tx_id(number), long)
    tx = maker.good()
    for rule in r.sample(RULES, r.choice([0, 0, 1, 1, 2])):
        maker.break_one(tx, rule)
    # after a fork to version 11 its rules are broken more often
    if ledger["enacted"]["hardfork"] and ledger["version"] >= [11, 0] and r.random() < 0.2:
        maker.break_one(tx, r.choice([73, 104]))
    if r.random() < 0.05:
        maker.break_any(tx)
    if tx["scripts"] == "failed" and r.random() < 0.5:
        # the rules that are not asked then
        maker.break_one(tx, 45)
        maker.break_one(tx, 111)
        maker.break_any(tx)
    if r.random() < 0.03:
        maker.spoil(tx)
    return short(tx)


def other_record(r, genesis, ledger, shape):
    """A record that is no transaction, or None: in a long stream mostly none."""
    kinds = {
        "block": lambda: a_block(r, ledger, not shape.long and r.random() < 0.5),
        "rewards": lambda: a_reward_update(r, ledger),
        "pots": lambda: {"kind": "print", "what": "pots"},
        "state": lambda: {"kind": "print", "what": "state"},
        "assets": lambda: {"kind": "print", "what": "assets"},
        "genesis": lambda: genesis,
        "no kind": lambda: {"kind": r.choice(["Block", "rollback", "", "transaction"])},
    }
    weights = [0.05, 0.01, 0.01, 0.001, 0.002, 0.001, 0.002] if shape.long else [0.25, 0.06, 0.04, 0.03, 0.03, 0.01, 0.01]
    kind = r.choices([None, *kinds], [1 - sum(weights), *weights])[0]
    return kinds[kind]() if kind else None


def a_stream(r, shape=None):
    """A genesis, and transactions with other records between them; its records and the lines that answer each, by the plain program."""
    shape = shape or short_shape(r)
    genesis = a_genesis(r, shape)
    records, ledger, number = [genesis], begun(genesis), 10
    answers = [[f"genesis {pots(ledger)}"]]
    for place in range(1, shape.records):
        crosses = shape.long and place % (shape.records // EPOCHS) == 0
        record = a_block(r, ledger, True) if crosses else other_record(r, genesis, ledger, shape)
        record = record or a_transaction(r, ledger, number, shape.long)
        ledger, lines = after_record(ledger, record)
        records.append(record)
        answers.append(lines)
        # the id of a refused transaction may come again
        number += record["kind"] == "tx" and (lines[0].startswith("accepted") or r.random() < 0.5)
    return records, answers
