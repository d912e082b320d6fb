"""Pools: registrations and retirements, and the pools of a genesis. Each refusal alone, at the
second place, and beside every rule that is asked later."""

from cases import ACCEPTED, FAILED_SCRIPTS, answered, begins, missing, no_genesis, pots, printed, unbalanced
from records import GREATEST, credential, genesis, hash28, key, ref, script, small, transfer, tx_id
from tables.accounts import BAD_CERTS as BAD_ACCOUNT_CERTS
from tables.accounts import BAD_WITHDRAWALS, KEY, NEW, POOR, PRINT, delegate, refused, register

POOL, OTHER = hash28(50), hash28(51)

# a key that abstains and delegates to the pool, and a key that delegates to nobody; the pool pays
# to the account of the second
ACCOUNTS = [[KEY, 2, 67, POOL, "abstain"], [POOR, 2, 0, None, None]]
GENESIS_POOL = [POOL, 5, 0, 0, [0, 1], key(12)]
FIELDS = {"accounts": ACCOUNTS, "pools": [GENESIS_POOL], "minPoolCost": 3, "reserves": 624}
UNCHANGED = printed(200, 100, 624, 1000, deposits=9, rewards=67)


def enter(pool=OTHER, cost=3, account=key(12), **fields):
    """A registration of a pool with the least cost."""
    return {"cert": "pool-reg", "pool": pool, "cost": cost, "pledge": 0, "margin": [0, 1], "account": account, **fields}


def retire(pool=POOL, epoch=1):
    return {"cert": "pool-retire", "pool": pool, "epoch": epoch}


# what breaks one rule and no other
GOOD_CERT = retire()
BAD_CERTS = {
    "65 PoolUnknown": retire(OTHER),
    "68 PoolCostTooLow min 3": enter(cost=2),
    "69 PoolWrongNetwork": enter(account=key(12, network=0)),
    "70 RetirementEpochWrong now 0": retire(epoch=0),
}
# and those of accounts: here the pool 50 is registered
BAD_OF_ACCOUNTS = {**BAD_ACCOUNT_CERTS, "65 PoolUnknown": delegate(POOR, pool=OTHER)}


def over_pools(name, *lines, **fields):
    """A genesis with these accounts and this pool, and further lines."""
    return answered(name, *lines, first=small(**{**FIELDS, **fields}), start=pots(200, 100, 624, 1000, deposits=9, rewards=67))


def alone():
    yield over_pools(
        "a certificate of a pool that breaks one rule",
        *((transfer(2, certs=[it]), refused(rule)) for rule, it in BAD_CERTS.items()),
        *((transfer(2, certs=[GOOD_CERT, it]), refused(rule, 1)) for rule, it in BAD_CERTS.items()),
        (transfer(2, certs=[enter(POOL, cost=2)]), refused("68 PoolCostTooLow min 3"), "of a registered pool too"),
        (transfer(2, certs=[enter(POOL, account=script(12, network=0))]), refused("69 PoolWrongNetwork")),
        (transfer(2, certs=[enter(cost=0)]), refused("68 PoolCostTooLow min 3")),
        (transfer(2, certs=[retire(hash28(12))]), refused("65 PoolUnknown"), "the hash of an account is no pool"),
        (transfer(2, certs=[retire(epoch=19)]), refused("70 RetirementEpochWrong now 0")),
        (transfer(2, certs=[retire(epoch=GREATEST)]), refused("70 RetirementEpochWrong now 0")),
        (transfer(2, certs=[delegate(POOR, pool=OTHER)]), refused("65 PoolUnknown")),
        (transfer(2, certs=[register(NEW, pool=OTHER)]), refused("65 PoolUnknown")),
        (PRINT, UNCHANGED, "nothing has changed"),
    )


def together():
    yield over_pools(
        "of two rules on pools the first certificate's is told",
        *((transfer(2, certs=[one, other]), refused(rule)) for rule, one in BAD_CERTS.items() for other in BAD_CERTS.values()),
    )
    yield over_pools(
        "of a rule on pools and one on accounts the first certificate's is told",
        *((transfer(2, certs=[one, other]), refused(rule)) for rule, one in BAD_CERTS.items() for other in BAD_OF_ACCOUNTS.values()),
        *((transfer(2, certs=[one, other]), refused(rule)) for rule, one in BAD_OF_ACCOUNTS.items() for other in BAD_CERTS.values()),
    )
    yield over_pools(
        "certificates of pools come after withdrawals and before the balance",
        *((transfer(2, withdrawals=[one], certs=[other]), refused(rule)) for rule, one in BAD_WITHDRAWALS.items() for other in BAD_CERTS.values()),
        *((transfer(2, fee=19, certs=[it]), refused(rule)) for rule, it in BAD_CERTS.items()),
        *((transfer(2, inputs=[ref(9, 9)], certs=[it]), missing()) for it in BAD_CERTS.values()),
        *((transfer(2, treasury=99, certs=[it]), "refused 45 TreasuryValueWrong is 100") for it in BAD_CERTS.values()),
    )
    yield over_pools(
        "of two rules on one certificate of a pool",
        (transfer(2, certs=[enter(cost=2, account=key(12, network=0))]), refused("68 PoolCostTooLow min 3")),
        (transfer(2, certs=[retire(OTHER, 0)]), refused("65 PoolUnknown")),
        (transfer(2, certs=[retire(OTHER, 19)]), refused("65 PoolUnknown")),
    )


def bounds():
    """What is just allowed."""
    yield over_pools(
        "the least cost, and any pledge, margin and reward account",
        (transfer(2, fee=15, certs=[enter()]), ACCEPTED),
        (transfer(3, fee=15, certs=[enter(hash28(52), cost=GREATEST, pledge=GREATEST, margin=[1, 1], account=script(99))]), ACCEPTED),
        (transfer(4, certs=[enter(cost=GREATEST)]), ACCEPTED),
        (PRINT, printed(140, 100, 624, 1000, fees=50, deposits=19, rewards=67)),
    )
    yield over_pools("no least cost", (transfer(2, fee=15, certs=[enter(cost=0)]), ACCEPTED), minPoolCost=0)
    yield over_pools(
        "the greatest least cost",
        (transfer(2, certs=[enter(POOL, cost=GREATEST - 1)]), refused(f"68 PoolCostTooLow min {GREATEST}")),
        (transfer(2, certs=[enter(POOL, cost=GREATEST)]), ACCEPTED),
        minPoolCost=GREATEST,
    )
    yield over_pools("the first epoch and the last", (transfer(2, certs=[retire()]), ACCEPTED), (transfer(3, certs=[retire(epoch=18)]), ACCEPTED))
    yield over_pools(
        "epochs after a later one",
        *((transfer(2, certs=[retire(epoch=it)]), refused("70 RetirementEpochWrong now 3")) for it in (0, 1, 3, 22)),
        (transfer(2, certs=[retire(epoch=4)]), ACCEPTED),
        (transfer(3, certs=[retire(epoch=21)]), ACCEPTED),
        slot=39,
    )
    yield over_pools(
        "epochs after the last that a genesis may have",
        (transfer(2, certs=[retire(epoch=2**62 - 1)]), refused(f"70 RetirementEpochWrong now {2**62 - 1}")),
        (transfer(2, certs=[retire(epoch=2**62 + 2**32 - 1)]), refused(f"70 RetirementEpochWrong now {2**62 - 1}")),
        (transfer(2, certs=[retire(epoch=2**62 + 2**32 - 2)]), ACCEPTED),
        slot=2**62 - 1,
        epochLength=1,
        eMax=2**32 - 1,
    )
    yield over_pools("no epoch at all", *((transfer(2, certs=[retire(epoch=it)]), refused("70 RetirementEpochWrong now 0")) for it in (0, 1)), eMax=0)


def worked():
    yield over_pools("a cost that is too low", (transfer(2, certs=[enter(cost=2)]), refused("68 PoolCostTooLow min 3")))
    yield over_pools("a reward account of another network", (transfer(2, certs=[enter(account=key(12, network=0))]), refused("69 PoolWrongNetwork")))
    for epoch in (0, 19):
        yield over_pools(f"a retirement with epoch {epoch}", (transfer(2, certs=[retire(epoch=epoch)]), refused("70 RetirementEpochWrong now 0")))
    yield over_pools("a retirement with epoch 18", (transfer(2, certs=[retire(epoch=18)]), ACCEPTED))
    yield over_pools(
        "a second registration pays nothing",
        (transfer(2, fee=15, certs=[enter()]), ACCEPTED),
        (transfer(3, certs=[enter(cost=4)]), ACCEPTED),
        (PRINT, printed(160, 100, 624, 1000, fees=35, deposits=14, rewards=67)),
    )


def deposits():
    yield over_pools(
        "the deposit of a first registration",
        (transfer(2, certs=[enter()]), unbalanced(20, 25)),
        (transfer(2, fee=15, certs=[enter(POOL)]), unbalanced(20, 15), "this one is registered"),
        (transfer(2, certs=[enter(POOL)]), ACCEPTED),
        (PRINT, printed(180, 100, 624, 1000, fees=20, deposits=9, rewards=67)),
        (transfer(3, fee=10, certs=[enter(), enter(hash28(52))]), ACCEPTED, "two pools"),
        (PRINT, printed(160, 100, 624, 1000, fees=30, deposits=19, rewards=67)),
        (transfer(4, fee=15, certs=[enter(hash28(53)), enter(hash28(53)), retire(hash28(53)), enter(hash28(53))]), ACCEPTED, "one pool three times"),
        (PRINT, printed(140, 100, 624, 1000, fees=45, deposits=24, rewards=67)),
        (transfer(5, fee=15, certs=[enter("ab" * 28), enter("AB" * 28), retire("aB" * 28)]), ACCEPTED, "one pool in several spellings"),
        (transfer(6, fee=0, certs=[enter(hash28(it)) for it in range(60, 64)]), ACCEPTED, "four pools"),
        (PRINT, printed(100, 100, 624, 1000, fees=60, deposits=49, rewards=67)),
    )
    yield over_pools(
        "beside the deposits and refunds of accounts",
        (transfer(2, fee=14, certs=[enter(), register(NEW, pool=OTHER)]), unbalanced(20, 21)),
        (transfer(2, fee=13, certs=[enter(), register(NEW, pool=OTHER)]), ACCEPTED),
        (PRINT, printed(180, 100, 624, 1000, fees=13, deposits=16, rewards=67)),
        (transfer(3, fee=84, withdrawals=[[key(10), 67]], certs=[{"cert": "account-unreg", "cred": KEY}, enter(hash28(52))]), ACCEPTED),
        (PRINT, printed(160, 100, 624, 1000, fees=97, deposits=19)),
    )
    yield over_pools(
        "no deposit",
        (transfer(2, certs=[enter(), delegate(POOR, pool=OTHER)]), ACCEPTED),
        (transfer(3, certs=[retire(OTHER)]), ACCEPTED),
        (PRINT, printed(160, 100, 624, 1000, fees=40, deposits=9, rewards=67)),
        poolDeposit=0,
    )


def changes():
    yield over_pools(
        "each certificate sees the pools that those before it left",
        (transfer(2, fee=15, certs=[retire(OTHER), enter()]), refused("65 PoolUnknown")),
        (transfer(2, fee=15, certs=[delegate(POOR, pool=OTHER), enter()]), refused("65 PoolUnknown")),
        (transfer(2, fee=15, certs=[enter(), delegate(POOR, pool=OTHER)]), ACCEPTED),
        (PRINT, printed(180, 100, 624, 1000, fees=15, deposits=14, rewards=67)),
        (transfer(3, fee=15, certs=[enter(hash28(52)), retire(hash28(52))]), ACCEPTED, "retired by the transaction that registers it"),
        (PRINT, printed(160, 100, 624, 1000, fees=30, deposits=19, rewards=67)),
        (transfer(4, certs=[retire(), enter(POOL)]), ACCEPTED, "registered again by the transaction that retires it"),
        (PRINT, printed(140, 100, 624, 1000, fees=50, deposits=19, rewards=67)),
        (transfer(5, certs=[retire(), retire(epoch=9), delegate(POOR, pool=POOL)]), ACCEPTED, "a pool that retires is registered"),
        (transfer(6, certs=[enter(POOL), retire(), retire(OTHER, 18)]), ACCEPTED),
        (PRINT, printed(100, 100, 624, 1000, fees=90, deposits=19, rewards=67)),
    )
    yield over_pools(
        "a refused transaction registers no pool",
        (transfer(2, certs=[enter(), retire(OTHER, 0)]), refused("70 RetirementEpochWrong now 0", 1)),
        (transfer(2, certs=[enter(), delegate(NEW, pool=OTHER)]), refused("61 AccountUnknown", 1)),
        (transfer(2, certs=[enter(), delegate(POOR, pool=OTHER)]), unbalanced(20, 25)),
        (transfer(2, certs=[retire(OTHER)]), refused("65 PoolUnknown")),
        (transfer(2, certs=[delegate(POOR, pool=OTHER)]), refused("65 PoolUnknown")),
        (transfer(2, fee=15, certs=[enter()]), ACCEPTED, "it is still the first registration"),
        (PRINT, printed(180, 100, 624, 1000, fees=15, deposits=14, rewards=67)),
    )
    yield over_pools(
        "failed scripts register no pool, and no rule on pools is asked",
        (transfer(2, fee=0, scripts="failed", collateral=[ref(1, 3)], certs=[*BAD_CERTS.values()]), FAILED_SCRIPTS),
        (transfer(4, fee=0, scripts="failed", collateral=[ref(1, 5)], certs=[enter()]), FAILED_SCRIPTS),
        (PRINT, printed(160, 100, 624, 1000, fees=40, deposits=9, rewards=67)),
        (transfer(6, certs=[retire(OTHER)]), refused("65 PoolUnknown")),
    )


def begun():
    """A genesis with pools."""

    def having(*entries, **fields):
        return genesis(**{"pools": [*entries], "reserves": 900 - sum(it[1] for it in entries), **fields})

    pool = [POOL, 5, 340, 1000, [1, 20], key(12)]
    other = [OTHER, 7, 0, 0, [1, 1], script(12)]
    delegating = [credential(10), 2, 3, POOL, None]
    yield begins("a pool", having(pool), pots(2000, 100, 895, 3000, deposits=5))
    yield begins("two pools", having(other, pool), pots(2000, 100, 888, 3000, deposits=12))
    yield begins("a pool with no deposit", having([POOL, 0, *pool[2:]]))
    yield begins("a pool below the least cost", having(pool, minPoolCost=341), pots(2000, 100, 895, 3000, deposits=5))
    yield begins("a pool with a key", having([*pool, tx_id(7)], other), pots(2000, 100, 888, 3000, deposits=12))
    yield begins("a pool with a key, in capital letters", having([*pool, "AB" * 32]), pots(2000, 100, 895, 3000, deposits=5))
    yield begins("an account that delegates to a pool", having(pool, accounts=[delegating], reserves=890), pots(2000, 100, 890, 3000, deposits=7, rewards=3))
    yield no_genesis("a pool that is not counted", having(pool, reserves=900))
    yield no_genesis("a pool that is counted twice", having(pool, reserves=890))
    yield no_genesis("a pool twice", having(pool, pool))
    yield no_genesis("a pool twice, with other terms", having(pool, other, [POOL, 0, 1, 1, [0, 1], key(13)]))
    yield no_genesis("a pool twice, in two spellings", having(["ab" * 28, *pool[1:]], ["AB" * 28, *pool[1:]]))
    yield no_genesis("a pool of another network", having([*pool[:5], key(12, network=0)]))
    yield no_genesis("a second pool of another network", having(pool, [*other[:5], script(12, network=0)]))
    yield no_genesis("an account that delegates to another pool", having(other, accounts=[delegating], reserves=888))
    yield no_genesis("a pool that is not read", genesis(pools=[pool[:-1]]))
    yield no_genesis("a pool whose key is null", having([*pool, None]))
    yield no_genesis("a pool whose key has 28 bytes", having([*pool, hash28(7)]))
    yield no_genesis("a pool with two keys", having([*pool, tx_id(7), tx_id(8)]))
    yield answered(
        "the pools of a genesis",
        (transfer(2, certs=[enter(POOL), enter()]), ACCEPTED, "both are registered"),
        (transfer(3, certs=[retire(), retire(OTHER, 9)]), ACCEPTED),
        (transfer(4, certs=[retire(hash28(52))]), refused("65 PoolUnknown")),
        (transfer(4, fee=18, certs=[register(POOR, pool=OTHER)]), ACCEPTED),
        (PRINT, printed(1940, 100, 888, 3000, fees=58, deposits=14)),
        first=having(pool, other),
        start=pots(2000, 100, 888, 3000, deposits=12),
    )


def cases():
    yield from alone()
    yield from together()
    yield from bounds()
    yield from worked()
    yield from deposits()
    yield from changes()
    yield from begun()
