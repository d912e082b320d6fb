"""The streams that tests/run/bench_further times: ledgers of many accounts, used ids, proposals and
votes, and transfers behind them."""

from itertools import repeat

from bench_epochs import block, chosen_by, coming, stake_output, who
from bench_shapes import DEPOSIT, EACH, FIRST, INFO, OWNER, PRICES, STAKE, Chain, beginning, following, hashed, hashes, proposal
from oracle.certificates import frozen_of, parted, snapshot_lines
from records import credential, key, ref, text
from stored import TOP

# the slots of an epoch, and the proposals of a transaction
SLOTS, PROPOSED = 1000, 100
ALL = 2**32 - 1
PRINT = text({"kind": "print", "what": "pots"})


def further_outputs(chain, count, accounts):
    """So many outputs with stake parts of these accounts; then the chain behind them."""
    for place in range(0, count, EACH):
        line, chain = chain.next(STAKE * EACH, [stake_output((place + it) % accounts) for it in range(EACH)])
        yield line
    return chain


def proposing(chain, count, action):
    """So many proposals, a hundred a transaction; then the chain behind them, and their ids."""
    ids = []
    for place in range(0, count, PROPOSED):
        some = range(place, min(count, place + PROPOSED))
        actions = [action(ids[-1] if ids else None) for _ in some]
        line, chain = chain.next(DEPOSIT * len(some), proposals=[proposal(it) for it in actions])
        yield line
        ids += [ref(chain.last, at) for at, _ in enumerate(some)]
    return chain, ids


def voting(chain, dreps, ids):
    """Each of these DReps votes on each proposal, in one transaction; then the chain behind them."""
    for n in dreps:
        line, chain = chain.next(0, votes=[{"voter": f"drep:{who(n)}", "action": it, "vote": "yes"} for it in ids])
        yield line
    return chain


def lines_of(parts):
    """The lines of parts that are named; then what is behind them."""
    while True:
        try:
            yield next(parts)[1]
        except StopIteration as ended:
            return ended.value


class Sizes(dict):
    """How many there are of what: accounts, outputs beside one of each account, pools, DReps, proposals, and DReps that vote."""

    def __missing__(self, name):
        return {"pools": 100, "dreps": 100}.get(name, 0)


def ledger(sizes):
    """A ledger of these sizes, whose proposals are frozen with their votes and of which a half is counted; then the chain behind it."""
    yield chosen_by(SLOTS, accounts=OWNER, pools=sizes["pools"], dreps=sizes["dreps"])
    chain = yield from lines_of(coming(Chain(1, FIRST), 0, sizes["accounts"], sizes["pools"], sizes["dreps"]))
    chain = yield from further_outputs(chain, sizes["outputs"], sizes["accounts"] or 1)
    chain, ids = yield from proposing(chain, sizes["proposals"], lambda _: INFO)
    chain = yield from voting(chain, range(sizes["voters"]), ids)
    yield block(SLOTS, sizes["accounts"] // 2 + 1)
    return chain


def used_ids(count):
    """Transfers, each of the output of the one before, with ids like real hashes."""
    yield beginning([[hashed(1) + "#0", key(1), FIRST]], **PRICES)
    yield from hashes(count)


def chained(count):
    """Proposals of constitutions, each of which follows the one before."""
    yield chosen_by(SLOTS, accounts=OWNER)
    yield from proposing(Chain(1, FIRST), count, following)
    yield block(SLOTS, ALL)


def counted(dreps, proposals):
    """Accounts that delegate to as many DReps, proposals with a hundred votes each, and two boundaries."""
    sizes = Sizes(accounts=2 * dreps, dreps=dreps, proposals=proposals, voters=100)
    yield from ledger(sizes)
    yield block(2 * SLOTS, ALL)


def without_parts(members, proposals):
    """A certificate of so many members with hot keys and so many proposals, whose verdicts lack their parts."""
    lines = parted((TOP / "examples/certify.out").read_bytes())[1]
    frozen, verdict = frozen_of(lines), next(it for it in lines if it.startswith("verdict "))
    names, ids = [credential(n) for n in range(members)], [ref(2, n) for n in range(proposals)]
    frozen.update(committee={"threshold": [1, 2], "terms": dict.fromkeys(names, 100)}, hot={it: it for it in names})
    frozen["proposals"] = [{**frozen["proposals"][0], "id": it} for it in ids]
    return [*snapshot_lines(frozen), *(f"verdict {it} {verdict.split(' ', 2)[2]}" for it in ids), "end"]


def transfers(chain, count):
    """Plain transfers; then the chain behind them."""
    for _ in range(count):
        line, chain = chain.next(0)
        yield line
    return chain


def refused_twice(count):
    """A ledger, and so many times one transfer without a witness that pays more than it has."""
    chain = yield from ledger(Sizes())
    line, _ = chain.next(-1, witnessed=False)
    yield from repeat(line, count)


def followed(sizes, count, rolls):
    """A ledger, so many transfers behind its last block, and a rollback to that block, if there is one."""
    chain = yield from ledger(sizes)
    yield from transfers(chain, count)
    if rolls:
        yield text({"kind": "rollback", "slot": SLOTS})


def voted(votes, rolls):
    """A record of so many votes, each of a hundred DReps on each proposal, and a rollback to the block before it, if there is one."""
    chain = yield from ledger(Sizes(accounts=EACH))
    chain, ids = yield from proposing(chain, votes // 100, lambda _: INFO)
    yield block(SLOTS + 1, 1)
    if votes:
        line, _ = chain.next(0, votes=[{"voter": f"drep:{who(n)}", "action": it, "vote": "yes"} for it in ids for n in range(100)])
        yield line
    if rolls:
        yield text({"kind": "rollback", "slot": SLOTS + 1})
