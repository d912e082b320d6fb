"""The streams of epochs that tests/run/bench times by parts: boundaries, pulses, and prints of the
state."""

import random
from typing import Callable, NamedTuple

from bench_shapes import DEPOSIT, EACH, FEE, FIRST, INFO, OWNER, PRICES, PROPOSED, SHAPES, STAKE, Chain, beginning, hashed, proposal, proposed
from records import credential, key, ref, text

# the DReps, and the pools, to which accounts delegate
CHOSEN = 100
# the slots of an epoch, where it has few blocks, and where it has many
SHORT, LONG = 10, 1_000_000
# for so many transfers a stream of epochs has an epoch more
TRANSFERS_AN_EPOCH = 10_000
# the proposals of an epoch, and its transfers and rewards
PROPOSED_AN_EPOCH, PAID_AN_EPOCH = 10, 100
# the entries that a pulse visits, where many do
PULSE = 1000
ALL = 2**32 - 1


class Parts(NamedTuple):
    """Lines, each behind the name of the part to which it belongs; of the parts that are timed, how many there are of what is
    named; and the answer to the last line."""

    name: str
    many: dict
    lines: Callable
    wanted: str


def who(n):
    return "k" + hashed(n)[:56]


def pool_of(n, pools=CHOSEN):
    """Each account delegates to a pool."""
    return hashed(n % pools)[:56]


def drep_of(n, dreps=CHOSEN):
    """Half of the accounts delegate to a DRep."""
    return who(n // 2 % dreps) if n % 2 else None


def stake_output(n):
    return [f"{key(1)}+{who(n)}", STAKE, 65]


def chosen_by(slots, outputs=(), accounts=(), pools=CHOSEN, dreps=CHOSEN):
    """A genesis with so many DReps and pools, whose epochs have so many slots."""
    dreps = [[who(n), 0, 20] for n in range(dreps)]
    pools = [[pool_of(n, pools), 0, 0, 0, [0, 1], "1" + who(n)] for n in range(pools)]
    committee = {"threshold": [0, 1], "members": [[credential(1), 1000, credential(2)]]}
    first = [[ref(1, 0), key(1), FIRST], *outputs]
    return beginning(first, accounts, pools=pools, dreps=dreps, committee=committee, epochLength=slots, **PRICES)


def block(slot, pulse):
    return text({"kind": "block", "slot": slot, "pulse": pulse})


def coming(chain, first, count, pools=CHOSEN, dreps=CHOSEN):
    """Registrations of so many accounts, from this one on, 500 a transaction, each with its delegations and an output; then the chain behind them."""
    for place in range(first, first + count, EACH):
        names = range(place, place + EACH)
        certs = [{"cert": "account-reg", "cred": who(n), "pool": pool_of(n, pools), "drep": drep_of(n, dreps)} for n in names]
        line, chain = chain.next((2 + STAKE) * EACH, [stake_output(n) for n in names], certs=certs)
        yield "beginning", line
    return chain


def changing(chain, names):
    """These accounts delegate to another DRep, 500 a transaction."""
    for place in range(0, len(names), EACH):
        certs = [{"cert": "delegate", "cred": who(n), "drep": "abstain"} for n in names[place : place + EACH]]
        line, chain = chain.next(0, certs=certs)
        yield "beginning", line


def actions_of(epoch, previous):
    """A change of parameters, which is enacted, a withdrawal, which is paid, and others, which expire."""
    change = {"type": "ParameterChange", "previous": previous, "update": {"maxTxSize": 16384 + epoch}}
    withdrawal = {"type": "TreasuryWithdrawals", "targets": [["1" + who(epoch), 1]]}
    return [change, withdrawal] + [INFO] * (PROPOSED_AN_EPOCH - 2)


def governed(chain, epoch, previous):
    """Proposals, on which each DRep and each pool votes; then the first of them, and the chain behind them."""
    line, chain = chain.next(DEPOSIT * PROPOSED_AN_EPOCH, proposals=[{**proposal(it), "return": "1" + who(0)} for it in actions_of(epoch, previous)])
    yield "records", line
    ids = [ref(chain.last, place) for place in range(PROPOSED_AN_EPOCH)]
    for n in range(CHOSEN):
        # (pools do not vote on the withdrawal)
        for voter, on in (f"drep:{who(n)}", ids), (f"pool:{pool_of(n)}", ids[:1] + ids[2:]):
            line, chain = chain.next(0, votes=[{"voter": voter, "action": it, "vote": "yes"} for it in on])
            yield "records", line
    return ids[0], chain


def moved(chain, chosen):
    """Transfers to any stake parts; then the chain behind them."""
    for n in chosen:
        line, chain = chain.next(STAKE, [stake_output(n)])
        yield "records", line
    return chain


def crossing(count, epochs):
    """In each epoch the block that crosses into it, which counts a fourth, then proposals and votes, transfers, rewards, and three further blocks."""
    chosen = random.Random(1)
    names = range(count)
    outputs = [[ref(1, n + 1), *stake_output(n)[:2]] for n in names if n % 2]
    accounts = [[who(n), 2, 0 if n % 2 else STAKE, pool_of(n), drep_of(n)] for n in names]
    yield "beginning", chosen_by(SHORT, outputs, accounts)
    chain, previous, pulse = Chain(1, FIRST), None, count // 4 + 1
    for epoch in range(1, epochs + 1):
        yield "boundaries", block(epoch * SHORT, pulse)
        previous, chain = yield from governed(chain, epoch, previous)
        chain = yield from moved(chain, chosen.choices(names, k=PAID_AN_EPOCH))
        rewards = [[who(n), 1] for n in chosen.sample(names, PAID_AN_EPOCH)]
        yield "records", text({"kind": "rewards", "epoch": epoch, "fromReserves": 0, "fromFees": 1000 + PAID_AN_EPOCH, "toTreasury": 1000, "rewards": rewards})
        for later in (3, 6, 9):
            yield "records", block(epoch * SHORT + later, pulse)


def epochs(count):
    some, many = max(count // 100, 500), max(count // TRANSFERS_AN_EPOCH, 2)
    each = 1 + 2 * CHOSEN + PAID_AN_EPOCH + 1 + 3
    parts = {"records": each * many, "boundaries": many}
    yield Parts(f"epochs of {some:,}", parts, lambda: crossing(some, many), f"block slot {many * SHORT + 9} epoch {many} counted {some} of {some}")


def printing(count):
    yield "beginning", chosen_by(SHORT)
    yield from coming(Chain(1, FIRST), 0, count)
    yield "print", text({"kind": "print", "what": "state"})


def states(count):
    for some in (max(count // 10, EACH), max(count, EACH)):
        fees = some // EACH * FEE
        pots = f"outputs {FIRST - 2 * some - fees} deposits {2 * some} rewards 0 fees {fees} donations 0 treasury 0 reserves 0 supply {FIRST}"
        yield Parts(f"state of {some:,}", {"print": some}, lambda it=some: printing(it), f"pots {pots}")


def pulsing(count, changed, new):
    """The accounts are frozen; then some change and new ones come, and pulses count what was frozen."""
    yield "beginning", chosen_by(LONG)
    chain = yield from coming(Chain(1, FIRST), 0, count)
    yield "beginning", block(LONG, 1)
    chain = yield from coming(chain, count, new)
    yield from changing(chain, range(0, count, 2)[:changed])
    for n in range(1, count // PULSE + 1):
        yield "visits", block(LONG + n, PULSE)


def pulses(count):
    for some in (max(count // 10, 2 * PULSE), max(count, 2 * PULSE)):
        for name, changed, new in ("", 0, 0), (", of which half changed", some // 2, 0), (" beside as many new ones", 0, some):
            lines = lambda it=(some, changed, new): pulsing(*it)
            yield Parts(f"pulses over {some:,}{name}", {"visits": some - 1}, lines, f"block slot {LONG + some // PULSE} epoch 1 counted {some} of {some}")


def still(count, epochs):
    """Boundaries between which nothing changes and all is counted, and one more where nothing was."""
    yield "beginning", chosen_by(SHORT)
    yield from coming(Chain(1, FIRST), 0, count)
    yield "beginning", block(SHORT, ALL)
    for epoch in range(2, epochs + 2):
        yield "boundaries", block(epoch * SHORT, 1)
        if epoch <= epochs:
            yield "counted", block(epoch * SHORT + 1, ALL)
    yield "visits at a boundary", block((epochs + 2) * SHORT, 1)


def frozen(count):
    many = 10
    for some in (max(count // 100, EACH), max(count // 10, EACH), max(count, EACH)):
        parts = {"boundaries": many, "visits at a boundary": some - 1}
        yield Parts(f"frozen {some:,}", parts, lambda it=some: still(it, many), f"block slot {(many + 2) * SHORT} epoch {many + 2} counted 1 of {some}")


def ending(each, action, count):
    """Proposals without votes, over the boundaries up to the one at which they have expired."""
    for line in proposed(each, action, count).split(b"\n"):
        yield "beginning", line
    for epoch in range(1, 5):
        yield "proposals" if epoch < 4 else "expired", block(epoch * SHORT, 1)


def endings(count):
    some = max(count // (1000 * PROPOSED), 1) * 10 * PROPOSED
    for name, (each, action) in SHAPES.items():
        for there in (some // 10, some):
            parts = {"proposals": 3 * there, "expired": there}
            lines = lambda it=(each, action, there): ending(*it)
            yield Parts(f"boundaries over {there:,} {name}", parts, lines, f"block slot {4 * SHORT} epoch 4 counted 1 of 1")


def parting(count):
    """The DReps leave one by one, and with each the delegations to it."""
    yield "beginning", chosen_by(SHORT)
    chain = yield from coming(Chain(1, FIRST), 0, count)
    for n in range(CHOSEN):
        line, chain = chain.next(0, certs=[{"cert": "drep-unreg", "cred": who(n), "refund": 0}])
        yield "DReps", line


def parting_voters(voters, count):
    """DReps with a vote on each of so many proposals leave one by one."""
    yield "beginning", chosen_by(SHORT, accounts=OWNER, dreps=voters)
    chain, ids = Chain(1, FIRST), []
    for _ in range(count // PROPOSED):
        line, chain = chain.next(DEPOSIT * PROPOSED, proposals=[proposal(INFO)] * PROPOSED)
        ids += [ref(chain.last, place) for place in range(PROPOSED)]
        yield "beginning", line
    for n in range(voters):
        line, chain = chain.next(0, votes=[{"voter": f"drep:{who(n)}", "action": it, "vote": "yes"} for it in ids])
        yield "beginning", line
    for n in range(voters):
        line, chain = chain.next(0, certs=[{"cert": "drep-unreg", "cred": who(n), "refund": 0}])
        yield "DReps", line


def reaping(count):
    """A pool retires at each boundary, and with it the delegations to it end."""
    many = 10
    yield "beginning", chosen_by(SHORT)
    chain = yield from coming(Chain(1, FIRST), 0, count)
    for epoch in range(1, many + 1):
        line, chain = chain.next(0, certs=[{"cert": "pool-retire", "pool": pool_of(epoch), "epoch": epoch}])
        yield "retirements", line
        yield "retirements", block(epoch * SHORT - 1, ALL)
        yield "boundaries", block(epoch * SHORT, 1)


def leaving(count):
    for some in (max(count // 100, EACH), max(count // 10, EACH)):
        yield Parts(f"leaving beside {some:,}", {"DReps": CHOSEN}, lambda it=some: parting(it), "accepted")
    voters, there = max(count // 1000, 1), max(count // (1000 * PROPOSED), 1) * PROPOSED
    yield Parts(f"leaving beside {voters * there:,} votes", {"DReps": voters}, lambda: parting_voters(voters, there), "accepted")
    for some in (max(count // 100, EACH), max(count // 10, EACH)):
        yield Parts(f"pools leaving beside {some:,}", {"boundaries": 10}, lambda it=some: reaping(it), f"block slot {10 * SHORT} epoch 10 counted 1 of {some}")


def parts_of_streams(count):
    for group in (epochs(count), states(count), pulses(count), frozen(count), leaving(count), endings(count)):
        yield from group
