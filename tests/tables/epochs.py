"""Blocks and reward updates: each of their rules alone and first of two, before a boundary and
after it, and what is answered where none is broken; and votes after the last epoch of a proposal.

What an epoch's end does beside that stands in tests/streams/whole and tests/streams/worked."""

from cases import ACCEPTED, answered, over_small, pots, printed
from records import credential, key, ref, small, text, tx_record


def block(slot, pulse=1):
    return text({"kind": "block", "slot": slot, "pulse": pulse})


def rewards(epoch=0, reserves=0, fees=0, treasury=0, to=()):
    return text({"kind": "rewards", "epoch": epoch, "fromReserves": reserves, "fromFees": fees, "toTreasury": treasury, "rewards": [*to]})


def crossing(slot, epoch, dormant, moved, *told):
    """The answer to a block that enters an epoch, of a ledger without accounts; moved are the pots after the boundary."""
    return [f"epoch {epoch} frozen 0 dormant {dormant}", *told, moved, f"block slot {slot} epoch {epoch} counted 0 of 0"]


def after_boundaries():
    """The rules go by the epoch and the pots that a boundary left."""
    moved = printed(200, 105, 695, 1000)
    yield over_small(
        "blocks and reward updates after a boundary",
        (rewards(reserves=5, treasury=2, to=[[credential(9), 3]]), ACCEPTED, "nobody is registered, so all is the treasury's"),
        (block(20, 0), "refused 11 EpochSkipped now 0"),
        (block(10, 0), "refused 12 ZeroPulse", "no boundary is crossed"),
        (rewards(), "refused 21 RewardsAlreadyGiven", "nor did the update act"),
        (block(19), crossing(19, 1, 1, moved)),
        (rewards(), "refused 20 WrongEpoch now 1"),
        (rewards(epoch=2), "refused 20 WrongEpoch now 1"),
        (rewards(epoch=1, reserves=696, treasury=696), "refused 23 ReservesTooSmall have 695"),
        (rewards(epoch=1, fees=1, treasury=1), "refused 24 FeesTooSmall have 0"),
        (block(19), "refused 10 SlotNotLater last 19"),
        (block(30), "refused 11 EpochSkipped now 1"),
        (rewards(epoch=1), ACCEPTED, "the first update has acted"),
        (rewards(epoch=1, reserves=1), "refused 21 RewardsAlreadyGiven"),
        (block(20), crossing(20, 2, 2, moved)),
        (block(30), crossing(30, 3, 3, moved)),
        (block(29), "refused 10 SlotNotLater last 30"),
        (rewards(epoch=3, reserves=695, treasury=695), ACCEPTED, "all reserves"),
        (block(40), crossing(40, 4, 4, printed(200, 800, 0, 1000))),
        (rewards(epoch=4, reserves=1, treasury=1), "refused 23 ReservesTooSmall have 0"),
    )


def late_votes():
    """A proposal may be voted on up to its epoch and govActionLifetime more, and leaves an epoch later."""
    voting = lambda n: text(tx_record(n, votes=[{"voter": f"drep:{credential(30)}", "action": ref(2, 0), "vote": "yes"}]))
    tally = lambda verdict: f"tally {ref(2, 0)} Info committee 0/1 need never drep 0/0 need never pool 0/0 need never {verdict}"
    moved = lambda outputs, fees, deposits, rewards: printed(outputs, 100, 683, 1000, fees=fees, deposits=deposits, rewards=rewards)
    frozen = lambda epoch, dormant=0: f"epoch {epoch} frozen 1 dormant {dormant}"
    first = small(accounts=[[credential(12), 2, 10, None, None]], dreps=[[credential(30), 5, 20]], reserves=683, govActionLifetime=1)
    yield answered(
        "votes in the last epoch of a proposal and after it",
        (text(tx_record(2, fee=10, proposals=[{"deposit": 10, "return": key(12), "action": {"type": "Info"}}])), ACCEPTED),
        (block(10), [frozen(1), moved(180, 10, 17, 10), "block slot 10 epoch 1 counted 1 of 1"]),
        (voting(3), ACCEPTED, "its last epoch"),
        (block(20), [frozen(2), tally("waiting"), moved(160, 30, 17, 10), "block slot 20 epoch 2 counted 1 of 1"]),
        (voting(4), "refused 103 VotingExpired at 0"),
        (
            block(30),
            [frozen(3, 1), tally("expired"), f"removed {ref(2, 0)} expired refund 10 {key(12)}", moved(160, 30, 7, 20), "block slot 30 epoch 3 counted 1 of 1"],
        ),
        (voting(4), "refused 100 ActionUnknown at 0", "it has left"),
        first=first,
        start=pots(200, 100, 683, 1000, deposits=7, rewards=10),
    )


def counted(slot):
    return f"block slot {slot} epoch 0 counted 0 of 0"


def cases():
    yield from within_an_epoch()
    yield from after_boundaries()
    yield from late_votes()


def within_an_epoch():
    last = 2**62 - 1
    yield over_small(
        "blocks within an epoch",
        (block(0), "refused 10 SlotNotLater last 0", "the slot of the genesis"),
        (block(0, 0), "refused 10 SlotNotLater last 0", "before rule 12"),
        (block(20), "refused 11 EpochSkipped now 0"),
        (block(20, 0), "refused 11 EpochSkipped now 0", "before rule 12"),
        (block(last), "refused 11 EpochSkipped now 0"),
        (block(1, 0), "refused 12 ZeroPulse"),
        (block(1), counted(1), "there is no account, so nothing to count"),
        (block(1), "refused 10 SlotNotLater last 1"),
        (block(9, 2**32 - 1), counted(9)),
        (block(8), "refused 10 SlotNotLater last 9"),
        (text({"kind": "print", "what": "pots"}), printed(200, 100, 700, 1000), "no pot has moved"),
    )
    yield over_small("the last slot that there can be", (block(last), f"refused 10 SlotNotLater last {last}"), slot=last)
    yield over_small(
        "reward updates",
        (rewards(epoch=1), "refused 20 WrongEpoch now 0"),
        (rewards(epoch=2**64 - 1, reserves=1), "refused 20 WrongEpoch now 0", "before rule 22"),
        (rewards(reserves=1), "refused 22 RewardsNotBalanced in 1 out 0"),
        (rewards(reserves=701), "refused 22 RewardsNotBalanced in 701 out 0", "before rule 23"),
        (rewards(to=[[credential(1), 1], [credential(1, "s"), 2]]), "refused 22 RewardsNotBalanced in 0 out 3"),
        (rewards(reserves=2**64 - 1, fees=2**64 - 1, treasury=1), "refused 22 RewardsNotBalanced in 36893488147419103230 out 1"),
        (rewards(reserves=701, treasury=701), "refused 23 ReservesTooSmall have 700"),
        (rewards(reserves=701, fees=1, treasury=702), "refused 23 ReservesTooSmall have 700", "before rule 24"),
        (rewards(fees=1, treasury=1), "refused 24 FeesTooSmall have 0"),
        (rewards(reserves=5, treasury=2, to=[[credential(9), 3]]), ACCEPTED, "to an account that is not registered, too"),
        (rewards(reserves=5, treasury=5), "refused 21 RewardsAlreadyGiven"),
        (rewards(epoch=1), "refused 20 WrongEpoch now 0", "before rule 21"),
        (rewards(reserves=1), "refused 21 RewardsAlreadyGiven", "before rule 22"),
        (text({"kind": "print", "what": "pots"}), printed(200, 100, 700, 1000), "it acts at the boundary"),
    )
