"""The streams of transactions that tests/run/bench times: long ones, and the worst records that the
formats allow."""

import hashlib
import random
from typing import Callable, NamedTuple

from records import ENTRY_LIMIT, LINE_LIMIT, OUTPUT_LIMIT, credential, genesis, hash28, key, ref, script, text, transfer, tx_id, tx_record

# the outputs over which spends are spread
LIVE = 100_000
# the registrations of one transaction
EACH = 500
# its proposals
PROPOSED = 100
# the output of an account that has one
STAKE = 1_000_000
DEPOSIT = 10
# the DReps that vote one a transaction, and the live actions that they vote on
VOTERS = 1000
ACTIONS = 100
# the live actions, each with a few votes, beside which plain transfers are timed
MANY = 16_384
# the fields of one object that a line has room for
NAMES = 1_200_000
# the keys that it has room for in both lists of an UpdateCommittee, of 60 bytes where one is
# removed and of 64 where one is added
MEMBERS = (LINE_LIMIT - 1000) // (60 + 64)
# the assets that it has room for, where it mints them and gives them
ASSETS = 100_000
# the registrations of pools with keys that it has room for
KEYED = 60_000
FIRST = 40_000_000_000_000_000
PRICES = {"minFeeA": 44, "minFeeB": 155_381, "coinsPerUTxOByte": 4310}
SIZE = 230
FEE = PRICES["minFeeA"] * SIZE + PRICES["minFeeB"]


class Shape(NamedTuple):
    """A genesis, with lines that make a beginning where it has more than one, the lines that are timed, how many transfers, entries or keys these have, and the answer to the last of them."""

    name: str
    many: int
    genesis: bytes
    lines: Callable
    wanted: str


# ---- transfers


def beginning(outputs, accounts=(), **fields):
    """A genesis whose supply is in these outputs and accounts."""
    supply = sum(it[2] for it in outputs) + sum(it[1] + it[2] for it in accounts)
    return genesis(supply=supply, reserves=0, treasury=0, outputs=outputs, accounts=[*accounts], **fields)


def hashed(n):
    """An id like that of a real transaction."""
    return hashlib.sha256(b"%d" % n).hexdigest()


def plain(count):
    """Each transfer spends the output of the one before; ids are decimal digits, with zeros before them."""
    for n in range(2, count + 2):
        yield transfer(n, inputs=[ref(n - 1, 0)], outputs=[[key(n), FIRST - (n - 1) * FEE, 65]], fee=FEE, size=SIZE)


def hashes(count):
    """The same with ids and keys like real hashes."""
    for n in range(2, count + 2):
        outputs = [["1k" + hashed(-n)[:56], FIRST - (n - 1) * FEE, 65]]
        yield text({**tx_record(n), "id": hashed(n), "inputs": [hashed(n - 1) + "#0"], "outputs": outputs, "fee": FEE, "size": SIZE})


def three_assets(n):
    """Three assets under policies like real hashes, with names of 8 bytes."""
    return [[hashed(-n - it)[:56], hashed(n)[:16], FIRST] for it in (1, 2, 3)]


def with_assets(count):
    """The same; each output has three assets, which are those of the output before."""
    for n in range(2, count + 2):
        outputs = [["1k" + hashed(-n)[:56], FIRST - (n - 1) * FEE, 65, three_assets(0)]]
        yield text({**tx_record(n), "id": hashed(n), "inputs": [hashed(n - 1) + "#0"], "outputs": outputs, "fee": FEE, "size": SIZE})


def minting_anew(count):
    """The same; each output has three assets that are minted for it, and those of the output before are burned."""
    for n in range(2, count + 2):
        outputs = [["1k" + hashed(-n)[:56], FIRST - (n - 1) * FEE, 65, three_assets(n)]]
        mint = three_assets(n) + [[policy, name, -held] for policy, name, held in three_assets(n - 1)]
        yield text({**tx_record(n), "id": hashed(n), "inputs": [hashed(n - 1) + "#0"], "outputs": outputs, "fee": FEE, "size": SIZE, "mint": mint})


def live_outputs():
    return [[hashed(-n) + "#0", "1k" + hashed(-n)[:56], FIRST // LIVE] for n in range(1, LIVE + 1)]


def spread(count):
    """Each transfer spends any one of the outputs that there are."""
    chosen = random.Random(1)
    live = [(it[0], it[2]) for it in live_outputs()]
    for n in range(1, count + 1):
        place = chosen.randrange(LIVE)
        at, held = live[place]
        live[place] = hashed(n) + "#0", held - FEE
        yield text({**tx_record(n), "id": hashed(n), "inputs": [at], "outputs": [["1k" + hashed(-n)[:56], held - FEE, 65]], "fee": FEE, "size": SIZE})


def transfers(count):
    one = [[ref(1, 0), key(1), FIRST]]
    yield Shape("transfers", count, beginning(one, **PRICES), lambda: plain(count), "accepted")
    one = [[hashed(1) + "#0", key(1), FIRST]]
    yield Shape("transfers of hashes", count, beginning(one, **PRICES), lambda: hashes(count), "accepted")
    for name, lines, held in ("with three assets", with_assets, three_assets(0)), ("that mint and burn three assets", minting_anew, three_assets(1)):
        one = [[hashed(1) + "#0", key(1), FIRST, held]]
        yield Shape(f"transfers {name}", count // 2, beginning(one, **PRICES), lambda it=lines: it(count // 2), "accepted")
    yield Shape("spread spends", count // 2, beginning(live_outputs(), **PRICES), lambda: spread(count // 2), "accepted")


# ---- accounts


def registering(count, first=0):
    """Transactions that register so many keys, from this one on, 500 each. Each spends the output of the one before."""
    for n in range(first // EACH, (first + count) // EACH):
        certs = [{"cert": "account-reg", "cred": "k" + hashed(it)[:56]} for it in range(n * EACH, (n + 1) * EACH)]
        held = FIRST - (n + 1) * (2 * EACH + FEE)
        yield transfer(n + 2, inputs=[ref(n + 1, 0)], outputs=[[key(1), held, 65]], fee=FEE, size=SIZE, certs=certs)


def registered(count):
    """A genesis and the lines that register so many keys."""
    return b"\n".join([beginning([[ref(1, 0), key(1), FIRST]], **PRICES), *registering(count)])


def registering_with_outputs(count):
    """Transactions that register so many keys, 500 each, and give each of these an output."""
    chain = Chain(1, FIRST)
    for first in range(0, count, EACH):
        keys = ["k" + hashed(n)[:56] for n in range(first, first + EACH)]
        certs = [{"cert": "account-reg", "cred": it} for it in keys]
        line, chain = chain.next((2 + STAKE) * EACH, [[f"{key(1)}+{it}", STAKE, 65] for it in keys], certs=certs)
        yield line


def staked(count, accounts):
    """Each transfer spends the output of the one before, and its address has the stake part of any account."""
    chosen = random.Random(1)
    last = accounts // EACH + 1
    held = FIRST - (last - 1) * (2 * EACH + FEE)
    for n in range(last + 1, last + count + 1):
        held -= FEE
        address = f"{key(n)}+k{hashed(chosen.randrange(accounts))[:56]}"
        yield transfer(n, inputs=[ref(n - 1, 0)], outputs=[[address, held, 65]], fee=FEE, size=SIZE)


def accounts(count):
    # (a tenth of the transfers, and no fewer than are registered by one transaction)
    some = max(count // 10, EACH)
    yield Shape("transfers with stake parts", count, registered(some), lambda: staked(count, some), "accepted")
    for there in (0, max(count // 100, EACH), some, max(count, EACH)):
        yield Shape(f"registrations beside {there:,}", some, registered(there), lambda first=there: registering(some, first), "accepted")
    first = beginning([[ref(1, 0), key(1), FIRST]], **PRICES)
    yield Shape("registrations with outputs", some, first, lambda: registering_with_outputs(some), "accepted")


# ---- proposals and votes

# the account to which deposits go back
OWNER = [[credential(1), 2, 0, None, None]]
INFO = {"type": "Info"}


def proposal(action):
    return {"deposit": DEPOSIT, "return": key(1), "action": action}


def following(previous):
    return {"type": "NewConstitution", "document": tx_id(0), "previous": previous}


# Of what action each proposal is, by its transaction, of which the first is 2, and its place in it.
# No proposal follows one of its own transaction. So chains grow side by side, one for each place,
# and one chain alone takes a transaction for each proposal.
SHAPES = {
    "info proposals": (PROPOSED, lambda n, place: INFO),
    "root proposals": (PROPOSED, lambda n, place: following(None)),
    "sibling proposals": (PROPOSED, lambda n, place: following(ref(2, 0) if n > 2 else None)),
    "proposals in chains": (PROPOSED, lambda n, place: following(ref(n - 1, place) if n > 2 else None)),
    "proposals in one chain": (1, lambda n, place: following(ref(n - 1, place) if n > 2 else None)),
}


def proposing(each, action, count, first=0):
    """Transactions that propose so many actions, from this one on, so many in each. Each spends the output of the one before."""
    for n in range(2 + first // each, 2 + (first + count) // each):
        proposals = [proposal(action(n, place)) for place in range(each)]
        held = FIRST - (n - 1) * (DEPOSIT * each + FEE)
        yield transfer(n, inputs=[ref(n - 1, 0)], outputs=[[key(1), held, 65]], fee=FEE, size=SIZE, proposals=proposals)


def proposed(each, action, count, **fields):
    """A genesis and the lines that propose so many actions."""
    first = beginning([[ref(1, 0), key(1), FIRST]], accounts=OWNER, **fields, **PRICES)
    return b"\n".join([first, *proposing(each, action, count)])


def proposals(count):
    # (a hundredth of the transfers, so that a tenth of it is whole transactions too)
    some = max(count // (1000 * PROPOSED), 1) * 10 * PROPOSED
    for name, (each, action) in SHAPES.items():
        for there in (some // 10, some):
            later = lambda it=(each, action, some, there): proposing(*it)
            yield Shape(f"{name} beside {there:,}", some, proposed(each, action, there), later, "accepted")


def voting(count):
    """Each transaction spends the output of the one before, and has one vote of any DRep on any live action."""
    chosen = random.Random(1)
    held = FIRST - (DEPOSIT * ACTIONS + FEE)
    for n in range(3, count + 3):
        held -= FEE
        vote = {"voter": f"drep:k{hashed(chosen.randrange(VOTERS))[:56]}", "action": ref(2, chosen.randrange(ACTIONS)), "vote": "yes"}
        yield transfer(n, inputs=[ref(n - 1, 0)], outputs=[[key(n), held, 65]], fee=FEE, size=SIZE, votes=[vote])


def votes(count):
    dreps = [["k" + hashed(n)[:56], 0, 20] for n in range(VOTERS)]
    live = proposed(ACTIONS, lambda n, place: INFO, ACTIONS, dreps=dreps)
    yield Shape("votes one a transaction", count // 10, live, lambda: voting(count // 10), "accepted")


# ---- transfers beside much else


class Chain(NamedTuple):
    """The transaction of which the last output is, and what this holds."""

    last: int
    held: int

    def next(self, paid, outputs=(), **fields):
        """The line that spends the output and pays so much beside its fee, some of it to these outputs, and the chain behind it."""
        after = Chain(self.last + 1, self.held - paid - FEE)
        outputs = [[key(1), after.held, 65], *outputs]
        line = transfer(after.last, inputs=[ref(self.last, 0)], outputs=outputs, fee=FEE, size=SIZE, **fields)
        return line, after


def chained(chain, parts):
    """The lines that do these parts in turn, each of what it pays and its fields, and the chain behind them."""
    lines = []
    for paid, fields in parts:
        line, chain = chain.next(paid, **fields)
        lines.append(line)
    return lines, chain


def plain_after(chain, count):
    """So many transfers, each of the output of the one before."""
    for _ in range(count):
        line, chain = chain.next(0)
        yield line


def beside(count):
    """Plain transfers where there are accounts, proposals, votes, or all of these."""
    registered_accounts = [
        (2 * EACH, {"certs": [{"cert": "account-reg", "cred": "k" + hashed(n)[:56]} for n in range(first, first + EACH)]})
        for first in range(0, max(count // 10, EACH), EACH)
    ]
    proposed_actions = [(DEPOSIT * ACTIONS, {"proposals": [proposal(INFO)] * ACTIONS})]
    dreps = ["k" + hashed(n)[:56] for n in range(VOTERS)]
    cast_votes = [
        (0, {"votes": [{"voter": f"drep:{it}", "action": ref(2, action), "vote": "yes"} for it in dreps]})
        for action in range(ACTIONS)
    ]
    first = beginning([[ref(1, 0), key(1), FIRST]], accounts=OWNER, dreps=[[it, 0, 20] for it in dreps], **PRICES)
    some = max(count // 10, 1)
    for name, parts in (
        ("nothing", []),
        ("accounts", registered_accounts),
        ("proposals", proposed_actions),
        ("proposals and votes", proposed_actions + cast_votes),
        ("all of these", proposed_actions + cast_votes + registered_accounts),
    ):
        lines, chain = chained(Chain(1, FIRST), parts)
        yield Shape(f"transfers beside {name}", some, b"\n".join([first, *lines]), lambda it=chain: plain_after(it, some), "accepted")
    parts = [(DEPOSIT * MANY, {"proposals": [proposal(INFO)] * MANY})]
    parts += [(0, {"votes": [{"voter": f"drep:{it}", "action": ref(2, place), "vote": "yes"} for place in range(MANY)]}) for it in dreps[:10]]
    lines, chain = chained(Chain(1, FIRST), parts)
    yield Shape(f"transfers beside {MANY:,} proposals with votes", some, b"\n".join([first, *lines]), lambda: plain_after(chain, some), "accepted")


# ---- the worst records


def of_one(count):
    """The references to the outputs of one transaction."""
    return [ref(1, n) for n in range(count)]


def of_many(count):
    """The references to the first outputs of as many transactions."""
    return [hashed(n) + "#0" for n in range(count)]


def over(refs, amount=1, **fields):
    """A genesis with an output of this amount at each of the references."""
    return beginning([[it, key(1), amount] for it in refs], **fields)


def one_line(**fields):
    """Transaction 2 alone."""
    return lambda: iter([transfer(2, **fields)])


def inputs():
    for name, refs in ("inputs of one transaction", of_one(ENTRY_LIMIT)), ("inputs of many transactions", of_many(ENTRY_LIMIT)):
        yield Shape(name, len(refs), over(refs), one_line(inputs=refs, fee=len(refs)), "accepted")
    refs = of_many(ENTRY_LIMIT - 1)
    again = one_line(inputs=[*refs, refs[-1]], fee=len(refs))
    yield Shape("inputs of which the last is repeated", len(refs) + 1, over(refs), again, f"refused 34 InputRepeated at {len(refs)}")


def collateral():
    # the parameter allows one less than the format
    for name, refs in ("collateral of one transaction", of_one(ENTRY_LIMIT - 1)), ("collateral of many transactions", of_many(ENTRY_LIMIT - 1)):
        spending = one_line(inputs=refs[:1], collateral=refs, scripts="failed", fee=1)
        yield Shape(name, len(refs), over(refs, maxCollateralInputs=ENTRY_LIMIT - 1), spending, "accepted failed-scripts")


def outputs():
    refs = of_one(1)
    making = [[key(n), 1, 0] for n in range(OUTPUT_LIMIT)]
    yield Shape("outputs", len(making), over(refs, OUTPUT_LIMIT), one_line(inputs=refs, outputs=making, fee=0), "accepted")


def an_asset(n, quantity=1):
    """One of many under few policies."""
    return [hash28(n % 100), f"{n:08x}", quantity]


def assets():
    held = [an_asset(n) for n in range(OUTPUT_LIMIT)]
    burned = [an_asset(n, -1) for n in range(OUTPUT_LIMIT)]
    making = [[key(1), 0, 0, [it]] for it in held]
    first = over(of_one(1))
    for many in OUTPUT_LIMIT // 4 + 1, OUTPUT_LIMIT // 2 + 1, OUTPUT_LIMIT:
        minting = one_line(inputs=of_one(1), outputs=making[:many], mint=held[:many], fee=1)
        yield Shape(f"{many:,} outputs with an asset each", many, first, minting, "accepted")
    there = beginning([[it, key(1), 1, [asset]] for it, asset in zip(of_one(OUTPUT_LIMIT), held)])
    spending = one_line(inputs=of_one(OUTPUT_LIMIT), mint=burned, fee=OUTPUT_LIMIT)
    yield Shape("inputs with an asset each", OUTPUT_LIMIT, there, spending, "accepted")
    spending = one_line(inputs=of_one(OUTPUT_LIMIT), mint=burned[1:], fee=OUTPUT_LIMIT)
    yield Shape("inputs of which one asset is lost", OUTPUT_LIMIT, there, spending, "refused 111 AssetNotBalanced at 0 consumed 1 produced 0")
    same = [[key(1), 0, 0, [an_asset(0)]]] * OUTPUT_LIMIT
    yield Shape("outputs with the same asset", OUTPUT_LIMIT, first, one_line(inputs=of_one(1), outputs=same, mint=[an_asset(0, OUTPUT_LIMIT)], fee=1), "accepted")
    refs = of_one(OUTPUT_LIMIT)
    returned = [key(1), OUTPUT_LIMIT - 1, 0, held]
    first = beginning([[it, key(1), 1, [asset]] for it, asset in zip(refs, held)], maxCollateralInputs=OUTPUT_LIMIT)
    failing = one_line(inputs=refs[:1], collateral=refs, collateralReturn=returned, scripts="failed", fee=0)
    yield Shape("collateral with an asset each", OUTPUT_LIMIT, first, failing, "accepted failed-scripts")
    for name, many in in_orders(sorted(an_asset(n) for n in range(ASSETS))):
        minting = one_line(inputs=of_one(1), outputs=[[key(1), 0, 0, many]], mint=many[::-1], fee=1)
        yield Shape(f"assets of one output {name}", ASSETS, over(of_one(1)), minting, "accepted")


def withdrawals():
    owners = [[credential(n, "s"), 2, n, None, None] for n in range(ENTRY_LIMIT)]
    taken = [[script(n), n] for n in range(ENTRY_LIMIT)]
    yield Shape("withdrawals", ENTRY_LIMIT, over(of_one(3), accounts=owners), one_line(withdrawals=taken, fee=1 + sum(range(ENTRY_LIMIT))), "accepted")


def certificates():
    keys = [credential(n) for n in range(ENTRY_LIMIT)]
    owners = [[it, 2, 0, None, None] for it in keys]
    deposits = 2 * ENTRY_LIMIT
    come = [{"cert": "account-reg", "cred": it} for it in keys]
    yield Shape("certificates account-reg", ENTRY_LIMIT, over(of_one(3), deposits + 1), one_line(certs=come, fee=1), "accepted")
    leave = [{"cert": "account-unreg", "cred": it} for it in keys]
    yield Shape("certificates account-unreg", ENTRY_LIMIT, over(of_one(3), accounts=owners), one_line(certs=leave, fee=deposits + 1), "accepted")
    choose = [{"cert": "delegate", "cred": it, "drep": "abstain"} for it in keys]
    yield Shape("certificates delegate", ENTRY_LIMIT, over(of_one(3), accounts=owners), one_line(certs=choose, fee=1), "accepted")
    ids = [hash28(n) for n in range(ENTRY_LIMIT)]
    deposits = 5 * ENTRY_LIMIT
    enter = [{"cert": "pool-reg", "pool": it, "cost": 340000000, "pledge": 0, "margin": [1, 20], "account": key(1)} for it in ids]
    yield Shape("certificates pool-reg", ENTRY_LIMIT, over(of_one(3), deposits + 1), one_line(certs=enter, fee=1), "accepted")
    pools = [[it, 0, 0, 0, [0, 1], key(1)] for it in ids]
    retire = [{"cert": "pool-retire", "pool": it, "epoch": 1} for it in ids]
    yield Shape("certificates pool-retire", ENTRY_LIMIT, over(of_one(3), pools=pools), one_line(certs=retire, fee=1), "accepted")
    keyed = [{**it, "key": hashed(n)} for n, it in enumerate(enter[:KEYED])]
    first = over(of_one(3), 5 * KEYED + 1, version=[11, 0])
    yield Shape("certificates pool-reg with keys", KEYED, first, one_line(certs=keyed, fee=1), "accepted")
    # all pools share a key; each but one takes another, and then that one wants the shared one
    # again
    sharing = over(of_one(3), version=[11, 0], pools=[[*it, tx_id(7)] for it in pools[:KEYED]])
    again = [*keyed[1:], {**keyed[0], "key": tx_id(7)}]
    yield Shape("certificates pool-reg of a shared key", KEYED, sharing, one_line(certs=again, fee=1), f"refused 73 PoolKeyInUse at {KEYED - 1}")


def governance():
    each = range(ENTRY_LIMIT)
    keys = [credential(n) for n in each]
    deposits = 5 * ENTRY_LIMIT
    enter = [{"cert": "drep-reg", "cred": it, "deposit": 5} for it in keys]
    yield Shape("certificates drep-reg", ENTRY_LIMIT, over(of_one(3), deposits + 1), one_line(certs=enter, fee=1), "accepted")
    dreps = [[it, 0, 20] for it in keys]
    leave = [{"cert": "drep-unreg", "cred": it, "refund": 0} for it in keys]
    yield Shape("certificates drep-unreg", ENTRY_LIMIT, over(of_one(3), dreps=dreps), one_line(certs=leave, fee=1), "accepted")
    update = [{"cert": "drep-update", "cred": it} for it in keys]
    yield Shape("certificates drep-update", ENTRY_LIMIT, over(of_one(3), dreps=dreps), one_line(certs=update, fee=1), "accepted")
    committee = {"threshold": [0, 1], "members": [[it, 100, None] for it in keys]}
    authorize = [{"cert": "hot-auth", "cold": credential(n), "hot": credential(n, "s")} for n in each]
    yield Shape("certificates hot-auth", ENTRY_LIMIT, over(of_one(3), committee=committee), one_line(certs=authorize, fee=1), "accepted")
    resign = [{"cert": "hot-resign", "cold": it} for it in keys]
    yield Shape("certificates hot-resign", ENTRY_LIMIT, over(of_one(3), committee=committee), one_line(certs=resign, fee=1), "accepted")
    come = {"type": "UpdateCommittee", "remove": [], "add": [[it, 100] for it in keys], "threshold": [0, 1]}
    added = b"\n".join([over(of_one(4), DEPOSIT + 1, accounts=OWNER), transfer(2, proposals=[proposal(come)], fee=1)])
    authorize_added = lambda: iter([transfer(3, certs=authorize, fee=DEPOSIT + 1)])
    yield Shape("certificates hot-auth of added keys", ENTRY_LIMIT, added, authorize_added, "accepted")
    proposals = [proposal(INFO)] * ENTRY_LIMIT
    yield Shape("proposals", ENTRY_LIMIT, over(of_one(3), DEPOSIT * ENTRY_LIMIT + 1, accounts=OWNER), one_line(proposals=proposals, fee=1), "accepted")
    live = b"\n".join([over(of_one(4), DEPOSIT + 1, accounts=OWNER, dreps=dreps), transfer(2, proposals=proposals[:1], fee=1)])
    votes = [{"voter": f"drep:{it}", "action": ref(2, 0), "vote": "yes"} for it in keys]
    yield Shape("votes", ENTRY_LIMIT, live, lambda: iter([transfer(3, votes=votes, fee=DEPOSIT + 1)]), "accepted")
    hot = {"threshold": [0, 1], "members": [[it, 100, credential(n, "s")] for n, it in enumerate(keys)]}
    live = b"\n".join([over(of_one(4), DEPOSIT + 1, accounts=OWNER, committee=hot), transfer(2, proposals=proposals[:1], fee=1)])
    of_hot = [{"voter": f"committee:{credential(n, 's')}", "action": ref(2, 0), "vote": "yes"} for n in each]
    yield Shape("votes of hot keys", ENTRY_LIMIT, live, lambda: iter([transfer(3, votes=of_hot, fee=DEPOSIT + 1)]), "accepted")
    eleven = b"\n".join([over(of_one(4), DEPOSIT + 1, accounts=OWNER, committee=committee, version=[11, 0]), transfer(2, proposals=proposals[:1], fee=1)])
    # (each vote asks whether a member has its key; as many as these fit into a line with what names
    # their keys)
    naming = lambda: iter([transfer(3, certs=authorize[:MANY], votes=of_hot[:MANY], fee=DEPOSIT + 1)])
    yield Shape("votes of hot keys that are named with them", MANY, eleven, naming, "accepted")
    first = over(of_one(4), DEPOSIT * ENTRY_LIMIT + 1, accounts=OWNER, dreps=dreps)
    live = b"\n".join([first, transfer(2, proposals=proposals, fee=1)])
    leaving = lambda: iter([transfer(3, certs=leave, fee=DEPOSIT * ENTRY_LIMIT + 1)])
    yield Shape("certificates drep-unreg beside proposals", ENTRY_LIMIT, live, leaving, "accepted")


def in_orders(items):
    """The items, whose keys rise, in rising, falling and no order of key."""
    yield "rising", items
    yield "falling", items[::-1]
    yield "in no order", random.Random(1).sample(items, len(items))


def orders():
    """Each list of a record in rising, falling and no order of key."""
    each = range(ENTRY_LIMIT)
    for name, refs in in_orders(sorted(of_many(ENTRY_LIMIT))):
        yield Shape(f"inputs {name}", len(refs), over(refs), one_line(inputs=refs, fee=len(refs)), "accepted")
    for name, numbers in in_orders([*each][:OUTPUT_LIMIT]):
        making = [[f"{key(1)}+{credential(n)}", 1, 0] for n in numbers]
        yield Shape(f"outputs {name}", len(making), over(of_one(1), OUTPUT_LIMIT), one_line(inputs=of_one(1), outputs=making, fee=0), "accepted")
    dreps = [[credential(n), 0, 20] for n in each]
    live = b"\n".join([over(of_one(4), DEPOSIT + 1, accounts=OWNER, dreps=dreps), transfer(2, proposals=[proposal(INFO)], fee=1)])
    for name, numbers in in_orders([*each]):
        votes = [{"voter": f"drep:{credential(n)}", "action": ref(2, 0), "vote": "yes"} for n in numbers]
        yield Shape(f"votes {name}", len(votes), live, lambda it=votes: iter([transfer(3, votes=it, fee=DEPOSIT + 1)]), "accepted")
        come = [{"cert": "account-reg", "cred": credential(n)} for n in numbers]
        yield Shape(f"certificates account-reg {name}", len(come), over(of_one(3), 2 * ENTRY_LIMIT + 1), one_line(certs=come, fee=1), "accepted")
        enter = [{"cert": "drep-reg", "cred": credential(n), "deposit": 5} for n in numbers]
        yield Shape(f"certificates drep-reg {name}", len(enter), over(of_one(3), 5 * ENTRY_LIMIT + 1), one_line(certs=enter, fee=1), "accepted")
        taken = [[script(n), n] for n in numbers]
        owners = [[credential(n, "s"), 2, n, None, None] for n in each]
        yield Shape(f"withdrawals {name}", len(taken), over(of_one(3), accounts=owners), one_line(withdrawals=taken, fee=1 + sum(each)), "accepted")
    keyed = [{"cert": "pool-reg", "pool": hash28(n), "cost": 340000000, "pledge": 0, "margin": [1, 20], "account": key(1), "key": tx_id(n)} for n in range(KEYED)]
    for name, certs in in_orders(keyed):
        eleven = over(of_one(3), 5 * KEYED + 1, version=[11, 0])
        yield Shape(f"certificates pool-reg {name}", KEYED, eleven, one_line(certs=certs, fee=1), "accepted")


def members():
    """One new committee, whose members to come are all looked for among those that leave."""
    in_order = [credential(2 * n) for n in range(MEMBERS)]
    in_no_order = random.Random(1).sample(in_order, MEMBERS)
    come = [[credential(2 * n + 1), 1] for n in range(MEMBERS)]
    for name, leave in ("members", in_order), ("members in no order", in_no_order):
        new = {"type": "UpdateCommittee", "remove": leave, "add": come, "threshold": [0, 1]}
        yield Shape(name, 2 * MEMBERS, over(of_one(3), DEPOSIT + 1, accounts=OWNER), one_line(proposals=[proposal(new)], fee=1), "accepted")


def names():
    # (written by hand, since no field is looked at)
    fields = b",".join(b'"%07d":0' % n for n in range(NAMES))
    line = transfer(2, fee=1)[:-1] + b"," + fields + b"}"
    yield Shape("names in an object", NAMES, over(of_one(3)), lambda: iter([line]), "accepted")


def shapes(count):
    for group in (transfers(count), accounts(count), proposals(count), votes(count), beside(count)):
        yield from group
    for group in (inputs(), collateral(), outputs(), assets(), withdrawals(), certificates(), governance(), orders(), members(), names()):
        yield from group
