"""Keys of pools, which from version 11.0 on one pool alone may take: the rule alone, at the second
place, and beside every rule of its certificate and of what is asked later; and when a key is in
use."""

from cases import ACCEPTED, FAILED_SCRIPTS, begins, missing, pots, printed, unbalanced
from records import genesis, hash28, key, ref, transfer, tx_id
from tables.accounts import BAD_WITHDRAWALS, PRINT, refused
from tables.epochs import block
from tables.pools import BAD_CERTS, BAD_OF_ACCOUNTS, GENESIS_POOL, OTHER, POOL, enter, over_pools, retire
from tables.proposals import BAD_PROPOSALS, action_id, hard_fork, proposal, proposing
from tables.votes import vote

K7, K8, K9 = tx_id(7), tx_id(8), tx_id(9)
THIRD, FOURTH = hash28(52), hash28(53)
ELEVEN = {"version": [11, 0], "pools": [[*GENESIS_POOL, K7]]}
TAKEN = enter(key=K7)
IN_USE = "73 PoolKeyInUse"


def over_keys(name, *lines, **fields):
    """The accounts and the pool of the tables of pools, at version 11.0; the pool has the key 7."""
    return over_pools(name, *lines, **{**ELEVEN, **fields})


def crossed(slot, moved, *told, dormant):
    """A block that begins the epoch of a slot, and its answer: an account abstains, and no other stake is told of."""
    epoch = slot // 10
    first = [f"epoch {epoch} frozen 2 dormant {dormant}", "stake abstain 67"]
    return block(slot), [*first, *told, moved, f"block slot {slot} epoch {epoch} counted 1 of 2"]


def alone():
    yield over_keys(
        "a key that another pool has",
        (transfer(2, certs=[TAKEN]), refused(IN_USE)),
        (transfer(2, certs=[retire(), TAKEN]), refused(IN_USE, 1)),
        (transfer(2, certs=[TAKEN, TAKEN]), refused(IN_USE)),
        (transfer(2, fee=15, certs=[enter(key=K8)]), ACCEPTED, "another key"),
        (transfer(3, certs=[TAKEN]), refused(IN_USE), "of a registered pool too"),
        (transfer(3, certs=[enter(POOL, key=K8)]), refused(IN_USE)),
        (transfer(3, certs=[enter(POOL, key=K7), enter(key=K8)]), ACCEPTED, "its own again, as its further terms"),
        (transfer(4, certs=[enter(POOL, key=K7), enter(key=K8)]), ACCEPTED, "and once more"),
        (transfer(5, fee=10, certs=[enter(THIRD), enter(FOURTH, key=None)]), ACCEPTED, "no key"),
        (PRINT, printed(120, 100, 624, 1000, fees=65, deposits=24, rewards=67)),
    )
    yield over_keys(
        "a key in two spellings",
        (transfer(2, certs=[enter(key="AB" * 32)]), refused(IN_USE)),
        (transfer(2, certs=[enter(key="aB" * 32)]), refused(IN_USE)),
        (transfer(2, certs=[enter(POOL, key="AB" * 32)]), ACCEPTED),
        (transfer(3, fee=15, certs=[enter(key="AC" * 32)]), ACCEPTED),
        pools=[[*GENESIS_POOL, "ab" * 32]],
    )
    yield over_keys(
        "a key that looks like another id",
        (transfer(2, fee=15, certs=[enter(key=tx_id(50))]), ACCEPTED, "the digits of a pool"),
        (transfer(3, fee=15, certs=[enter(THIRD, key=tx_id(1))]), ACCEPTED, "the id of the genesis outputs"),
        (transfer(4, certs=[enter(FOURTH, key=tx_id(50))]), refused(IN_USE)),
        (transfer(4, certs=[{"cert": "pool-retire", "pool": POOL, "epoch": 1, "key": tx_id(50)}]), ACCEPTED, "a retirement has no key"),
    )


def together():
    others = {**BAD_OF_ACCOUNTS, **BAD_CERTS}
    yield over_keys(
        "of a key in use and another rule the first certificate's is told",
        *((transfer(2, certs=[it, TAKEN]), refused(rule)) for rule, it in others.items()),
        *((transfer(2, certs=[TAKEN, it]), refused(IN_USE)) for it in others.values()),
    )
    yield over_keys(
        "of a key in use and another rule on one certificate",
        (transfer(2, certs=[enter(cost=2, account=key(12, network=0), key=K7)]), refused("68 PoolCostTooLow min 3")),
        (transfer(2, certs=[enter(cost=2, key=K7)]), refused("68 PoolCostTooLow min 3")),
        (transfer(2, certs=[enter(account=key(12, network=0), key=K7)]), refused("69 PoolWrongNetwork")),
        (transfer(2, certs=[retire(), enter(cost=2, key=K7)]), refused("68 PoolCostTooLow min 3", 1)),
    )
    yield over_keys(
        "a key in use comes after withdrawals, and before proposals, votes and the balance",
        *((transfer(2, withdrawals=[it], certs=[TAKEN]), refused(rule)) for rule, it in BAD_WITHDRAWALS.items()),
        *((transfer(2, certs=[TAKEN], proposals=[it]), refused(IN_USE)) for it in BAD_PROPOSALS.values()),
        (transfer(2, certs=[TAKEN], votes=[vote(f"pool:{OTHER}", action_id(9))]), refused(IN_USE)),
        (transfer(2, fee=19, certs=[TAKEN]), refused(IN_USE)),
        (transfer(2, inputs=[ref(9, 9)], certs=[TAKEN]), missing()),
        (transfer(2, treasury=99, certs=[TAKEN]), "refused 45 TreasuryValueWrong is 100"),
    )


def draft():
    """Each certificate sees the keys that those before it left."""
    yield over_keys(
        "keys within one transaction",
        (transfer(2, certs=[enter(key=K8), enter(THIRD, key=K8)]), refused(IN_USE, 1)),
        (transfer(2, certs=[enter(key=K8), enter(key=K9), enter(THIRD, key=K8)]), refused(IN_USE, 2), "a new pool has both"),
        (transfer(2, certs=[enter(key=K8), enter(key=K9), enter(THIRD, key=K9)]), refused(IN_USE, 2)),
        (transfer(2, certs=[enter(POOL, key=K8), TAKEN]), refused(IN_USE, 1), "it is given up at the boundary"),
        (transfer(2, certs=[enter(POOL), TAKEN]), refused(IN_USE, 1)),
        (transfer(2, certs=[enter(POOL, key=K8), enter(key=K8)]), refused(IN_USE, 1), "it is in further terms alone"),
        (transfer(2, certs=[retire(), TAKEN]), refused(IN_USE, 1)),
        (transfer(2, certs=[enter(POOL, key=K8), enter(key=K8), enter(POOL, key=K9)]), refused(IN_USE, 1), "what is named anew after it does not count"),
        (transfer(2, fee=15, certs=[enter(POOL, key=K8), enter(POOL, key=K9), enter(key=K8)]), ACCEPTED, "no further terms have it any more"),
        (PRINT, printed(180, 100, 624, 1000, fees=15, deposits=14, rewards=67)),
        (transfer(3, certs=[enter(THIRD, key=K9)]), refused(IN_USE)),
        (transfer(3, certs=[enter(THIRD, key=K9), enter(POOL)]), refused(IN_USE)),
        (transfer(3, fee=15, certs=[enter(POOL), enter(THIRD, key=K9)]), ACCEPTED, "further terms without a key"),
        (transfer(4, certs=[enter(FOURTH, key=K7)]), refused(IN_USE), "the terms have it still"),
        (transfer(4, certs=[enter(POOL, key=K9)]), refused(IN_USE)),
        (transfer(4, certs=[enter(POOL, key=K7)]), ACCEPTED),
    )
    yield over_keys(
        "what is refused or fails takes no key and gives none up",
        (transfer(2, certs=[enter(key=K8), enter(THIRD, key=K7)]), refused(IN_USE, 1)),
        (transfer(2, certs=[enter(key=K8)]), unbalanced(20, 25)),
        (transfer(2, fee=0, scripts="failed", collateral=[ref(1, 3)], certs=[TAKEN, enter(THIRD, key=K8)]), FAILED_SCRIPTS, "nor is the rule asked"),
        (transfer(4, certs=[enter(POOL, key=K8), enter(THIRD, key=K8)]), refused(IN_USE, 1)),
        (transfer(4, fee=15, certs=[enter(THIRD, key=K8)]), ACCEPTED, "it was free"),
        (transfer(5, certs=[TAKEN]), refused(IN_USE)),
        (PRINT, printed(160, 100, 624, 1000, fees=35, deposits=14, rewards=67)),
    )


def boundaries():
    yield over_keys(
        "a key that is given up is free after the boundary",
        (transfer(2, certs=[enter(POOL, key=K8)]), ACCEPTED),
        (transfer(3, certs=[TAKEN]), refused(IN_USE)),
        (transfer(3, certs=[enter(key=K8)]), refused(IN_USE)),
        crossed(10, printed(180, 100, 624, 1000, fees=20, deposits=9, rewards=67), dormant=1),
        (transfer(3, certs=[enter(key=K8)]), refused(IN_USE), "the further terms hold now"),
        (transfer(3, fee=15, certs=[TAKEN]), ACCEPTED),
        (transfer(4, certs=[enter(POOL, key=K7)]), refused(IN_USE), "another pool has it now"),
        (transfer(4, certs=[enter(POOL)]), ACCEPTED, "further terms without a key"),
        (transfer(5, certs=[enter(THIRD, key=K8)]), refused(IN_USE)),
        crossed(20, printed(140, 100, 624, 1000, fees=55, deposits=14, rewards=67), dormant=2),
        (transfer(5, fee=15, certs=[enter(THIRD, key=K8)]), ACCEPTED),
        (transfer(6, certs=[enter(key=K7)]), ACCEPTED, "named anew before a boundary"),
        crossed(30, printed(100, 100, 624, 1000, fees=90, deposits=19, rewards=67), dormant=3),
        (transfer(7, certs=[enter(POOL, key=K7)]), refused(IN_USE)),
    )
    yield over_keys(
        "a pool that retires has its keys until it is reaped",
        (transfer(2, certs=[enter(POOL, key=K8), retire()]), ACCEPTED),
        (transfer(3, certs=[TAKEN]), refused(IN_USE)),
        (transfer(3, certs=[enter(key=K8)]), refused(IN_USE)),
        crossed(10, printed(180, 100, 624, 1000, fees=20, deposits=4, rewards=72), f"retired {POOL} refund 5 {key(12)}", dormant=1),
        (transfer(3, certs=[enter(key=K8), enter(THIRD, key=K8)]), refused(IN_USE, 1)),
        (transfer(3, fee=10, certs=[TAKEN, enter(THIRD, key=K8)]), ACCEPTED, "both are free"),
        (transfer(4, certs=[enter(POOL, key=K7)]), refused(IN_USE), "it comes again"),
        (transfer(4, fee=15, certs=[enter(POOL, key=K9)]), ACCEPTED),
    )
    yield over_keys(
        "a retirement that is taken back gives up no key",
        (transfer(2, certs=[retire(), enter(POOL, key=K7)]), ACCEPTED),
        crossed(10, printed(180, 100, 624, 1000, fees=20, deposits=9, rewards=67), dormant=1),
        (transfer(3, certs=[TAKEN]), refused(IN_USE)),
        (transfer(3, certs=[enter(POOL), retire(epoch=3)]), ACCEPTED),
        crossed(20, printed(160, 100, 624, 1000, fees=40, deposits=9, rewards=67), dormant=2),
        (transfer(4, fee=15, certs=[TAKEN]), ACCEPTED, "its further terms had none"),
        crossed(30, printed(140, 100, 624, 1000, fees=55, deposits=9, rewards=72), f"retired {POOL} refund 5 {key(12)}", dormant=3),
        (transfer(5, certs=[enter(POOL, key=K7)]), refused(IN_USE)),
    )


def shared():
    """Pools may share a key from before version 11, or from a genesis on."""
    sharing = [[POOL, 2, 0, 0, [0, 1], key(12), K7], [OTHER, 3, 0, 0, [0, 1], key(12), K7]]
    yield over_keys(
        "two pools of a genesis that share a key",
        (transfer(2, certs=[enter(THIRD, key=K7)]), refused(IN_USE)),
        (transfer(2, certs=[enter(POOL, key=K7)]), refused(IN_USE), "the other has it"),
        (transfer(2, certs=[enter(OTHER, key=K7)]), refused(IN_USE)),
        (transfer(2, certs=[enter(OTHER, key=K8)]), ACCEPTED),
        (transfer(3, certs=[enter(POOL, key=K7)]), refused(IN_USE), "until the boundary"),
        crossed(10, printed(180, 100, 624, 1000, fees=20, deposits=9, rewards=67), dormant=1),
        (transfer(3, certs=[enter(POOL, key=K7)]), ACCEPTED, "it alone has it now"),
        (transfer(4, certs=[enter(OTHER, key=K7)]), refused(IN_USE)),
        (transfer(4, certs=[enter(THIRD, key=K8)]), refused(IN_USE)),
        pools=sharing,
    )
    yield over_keys(
        "of two pools that share a key one is reaped",
        (transfer(2, certs=[retire()]), ACCEPTED),
        (transfer(3, certs=[enter(OTHER, key=K7)]), refused(IN_USE)),
        crossed(10, printed(180, 100, 624, 1000, fees=20, deposits=7, rewards=69), f"retired {POOL} refund 2 {key(12)}", dormant=1),
        (transfer(3, certs=[enter(OTHER, key=K7)]), ACCEPTED),
        (transfer(4, certs=[enter(POOL, key=K7)]), refused(IN_USE), "it comes again"),
        pools=sharing,
    )
    start = pots(2000, 100, 890, 3000, deposits=10)
    for version in ([10, 0], [11, 0]):
        pools = [[POOL, 5, 0, 0, [0, 1], key(12), K7], [OTHER, 5, 0, 0, [0, 1], key(12), K7]]
        yield begins(f"two pools that share a key, at version {version[0]}", genesis(version=version, pools=pools, reserves=890), start)


def versions():
    taken, free = (transfer(2, certs=[TAKEN]), refused(IN_USE)), (transfer(2, fee=15, certs=[TAKEN]), ACCEPTED)
    for version in ([10, 0], [10, 9], [10, 2**32 - 1]):
        yield over_keys(f"a key that another pool has, at version {version[0]}.{version[1]}", free, version=version)
    for version in ([11, 0], [11, 1], [12, 0], [2**32 - 1, 0]):
        yield over_keys(f"a key that another pool has, at version {version[0]}.{version[1]}", taken, version=version)


def fork_tally(action, verdict):
    """Of a hard fork on which one member and one pool could vote and did not, and for which nothing is needed."""
    return f"tally {action} HardForkInitiation committee 0/1 need 0/1 drep 0/0 need 0/1 pool 0/67 need 0/1 {verdict}"


def forks():
    """Version 11 is enacted in mid-stream."""
    fork = proposal(hard_fork(11, 0))
    enacted = f"removed {action_id(2)} enacted refund 10 {key(12)}"
    lenient = {"version": [10, 9], "drepVotingThresholds": [[0, 1]] * 10}
    yield over_keys(
        "the rule begins at the boundary that enacts version 11",
        (proposing(2, fork), ACCEPTED),
        (transfer(3, fee=15, certs=[TAKEN]), ACCEPTED),
        crossed(10, printed(160, 100, 624, 1000, fees=25, deposits=24, rewards=67), dormant=0),
        (transfer(4, fee=15, certs=[enter(THIRD, key=K7), enter(THIRD, key=K8)]), ACCEPTED, "the version is 10.9 still"),
        crossed(20, printed(140, 100, 624, 1000, fees=40, deposits=19, rewards=77), fork_tally(action_id(2), "ratified"), enacted, dormant=1),
        (transfer(5, certs=[enter(FOURTH, key=K7)]), refused(IN_USE)),
        (transfer(5, certs=[enter(FOURTH, key=K8)]), refused(IN_USE), "the third pool has it now"),
        (transfer(5, certs=[enter(OTHER, key=K7)]), refused(IN_USE), "the two that share a key keep it, and may not name it again"),
        (transfer(5, certs=[enter(POOL, key=K7)]), refused(IN_USE)),
        (transfer(5, certs=[enter(OTHER, key=K9)]), ACCEPTED),
        crossed(30, printed(120, 100, 624, 1000, fees=60, deposits=19, rewards=77), dormant=2),
        (transfer(6, certs=[enter(OTHER, key=K7)]), refused(IN_USE)),
        (transfer(6, certs=[enter(POOL, key=K7)]), ACCEPTED),
        **lenient,
    )
    minor = proposal(hard_fork(10, 10))
    yield over_keys(
        "no rule begins with a minor version of 10",
        (proposing(2, minor), ACCEPTED),
        crossed(10, printed(180, 100, 624, 1000, fees=10, deposits=19, rewards=67), dormant=0),
        crossed(20, printed(180, 100, 624, 1000, fees=10, deposits=9, rewards=77), fork_tally(action_id(2), "ratified"), enacted, dormant=1),
        (transfer(3, fee=15, certs=[TAKEN]), ACCEPTED),
        **lenient,
    )


def cases():
    yield from alone()
    yield from together()
    yield from draft()
    yield from boundaries()
    yield from shared()
    yield from versions()
    yield from forks()
