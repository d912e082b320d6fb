"""Votes: each rule alone, at the second place, and beside every rule that is asked later."""

from cases import ACCEPTED, FAILED_SCRIPTS, answered, missing, pots, printed, unbalanced
from records import credential, hash28, key, ref, small, transfer
from tables.accounts import KEY, POOR, PRINT, refused, register
from tables.proposals import BAD_PROPOSALS, INFO, action_id, change, committee, constitution, hard_fork, no_confidence, proposal, proposing, withdraw

POOL, OTHER, DREP, STRANGER, HOT = hash28(50), hash28(51), credential(30), credential(32), credential(71)
# a key that abstains and a key to which deposits go back, a pool, a DRep, and a member whose hot
# key is 71
FIELDS = {
    "accounts": [[KEY, 2, 67, None, "abstain"], [POOR, 2, 0, None, None]],
    "pools": [[POOL, 5, 0, 0, [0, 1], key(12)]],
    "dreps": [[DREP, 5, 9]],
    "reserves": 619,
}
START = pots(200, 100, 619, 1000, deposits=14, rewards=67)
BY_COMMITTEE, BY_DREP, BY_POOL = f"committee:{HOT}", f"drep:{DREP}", f"pool:{POOL}"


def vote(voter, action, it="yes"):
    return {"voter": voter, "action": action, "vote": it}


# transaction 2 proposes Info, transaction 3 a motion of no confidence and a new constitution
LIVE, MOTION, DOCUMENT = action_id(2), action_id(3), action_id(3, 1)
GOOD = vote(BY_DREP, LIVE)
# what breaks one rule and no other
BAD_VOTES = {
    "100 ActionUnknown": vote(BY_DREP, action_id(9)),
    "101 VoterUnknown": vote(f"drep:{STRANGER}", LIVE),
    "102 VoterNotAllowed": vote(BY_COMMITTEE, MOTION),
}


def over_proposals(name, *lines, **fields):
    """A genesis with these voters, three live proposals, and further lines."""
    live = [(proposing(2, proposal(INFO)), ACCEPTED), (proposing(3, proposal(no_confidence()), proposal(constitution())), ACCEPTED)]
    return answered(name, *live, *lines, first=small(**{**FIELDS, **fields}), start=START)


def alone():
    yield over_proposals(
        "a vote that breaks one rule",
        *((transfer(4, votes=[it]), refused(rule)) for rule, it in BAD_VOTES.items()),
        *((transfer(4, votes=[GOOD, it]), refused(rule, 1)) for rule, it in BAD_VOTES.items()),
        (transfer(4, votes=[vote(BY_DREP, action_id(2, 1))]), refused("100 ActionUnknown"), "the second of one proposal"),
        (transfer(4, votes=[vote(f"pool:{OTHER}", LIVE)]), refused("101 VoterUnknown")),
        (transfer(4, votes=[vote(f"committee:{credential(77)}", LIVE)]), refused("101 VoterUnknown")),
        (transfer(4, votes=[vote(f"committee:{credential(70)}", LIVE)]), refused("101 VoterUnknown"), "a cold key"),
        (transfer(4, votes=[vote(f"committee:{DREP}", LIVE)]), refused("101 VoterUnknown"), "a DRep is no hot key"),
        (transfer(4, votes=[vote(f"drep:{HOT}", LIVE)]), refused("101 VoterUnknown")),
        (transfer(4, votes=[vote(BY_POOL, DOCUMENT)]), refused("102 VoterNotAllowed")),
        (PRINT, printed(160, 100, 619, 1000, fees=10, deposits=44, rewards=67)),
    )


def together():
    yield over_proposals(
        "of two rules the first vote's is told",
        *((transfer(4, votes=[one, other]), refused(rule)) for rule, one in BAD_VOTES.items() for other in BAD_VOTES.values()),
    )
    yield over_proposals(
        "of two rules on one vote",
        (transfer(4, votes=[vote(f"drep:{STRANGER}", action_id(9))]), refused("100 ActionUnknown")),
        (transfer(4, votes=[vote(f"pool:{OTHER}", DOCUMENT)]), refused("101 VoterUnknown")),
        (transfer(4, votes=[vote(f"committee:{credential(77)}", MOTION)]), refused("101 VoterUnknown")),
    )
    yield over_proposals(
        "votes come after certificates and proposals, and before the balance",
        *((transfer(4, certs=[register(KEY)], votes=[it]), refused("60 AccountRegistered")) for it in BAD_VOTES.values()),
        *((transfer(4, proposals=[one], votes=[it]), refused(rule)) for rule, one in BAD_PROPOSALS.items() for it in BAD_VOTES.values()),
        *((transfer(4, fee=19, votes=[it]), refused(rule)) for rule, it in BAD_VOTES.items()),
        *((transfer(4, inputs=[ref(9, 9)], votes=[it]), missing()) for it in BAD_VOTES.values()),
        (transfer(4, fee=19, votes=[GOOD]), unbalanced(20, 19)),
    )


def allowed():
    """Who may vote on what."""
    actions = [no_confidence(), committee(), constitution(), hard_fork(10, 1), change(nOpt=1), change(maxTxSize=1), withdraw([key(12), 1]), INFO]
    by_committee = (False, False, True, True, True, True, True, True)
    by_pools = (True, True, False, True, False, True, False, True)
    lines = [(proposing(n, proposal(it)), ACCEPTED) for n, it in enumerate(actions[:6], 2)]
    lines.append((transfer(8, proposals=[proposal(it) for it in actions[6:]], fee=0), ACCEPTED))
    ids = [*(action_id(n) for n in range(2, 8)), action_id(8), action_id(8, 1)]
    told = {True: unbalanced(20, 19), False: refused("102 VoterNotAllowed")}
    for voter, may in ((BY_COMMITTEE, by_committee), (BY_DREP, (True,) * 8), (BY_POOL, by_pools)):
        votes = [(transfer(9, fee=19, votes=[vote(voter, at)]), told[it]) for at, it in zip(ids, may)]
        yield answered(f"what {voter.split(':')[0]} may vote on", *lines, *votes, first=small(**FIELDS), start=START)


def draft():
    """Voters are those after the transaction's certificates; actions are those before the transaction."""
    new = {"cert": "drep-reg", "cred": STRANGER}
    gone = {"cert": "drep-unreg", "cred": DREP}
    yield over_proposals(
        "voters that come and go in the same transaction",
        (transfer(4, certs=[new], votes=[BAD_VOTES["101 VoterUnknown"]], fee=15), ACCEPTED),
        (transfer(5, certs=[gone], votes=[GOOD], fee=25), refused("101 VoterUnknown")),
        (transfer(5, certs=[{"cert": "hot-auth", "cold": credential(70), "hot": credential(72)}], votes=[vote(BY_COMMITTEE, LIVE)]), refused("101 VoterUnknown")),
        (transfer(5, certs=[{"cert": "hot-auth", "cold": credential(70), "hot": credential(72)}], votes=[vote(f"committee:{credential(72)}", LIVE)]), ACCEPTED),
        (transfer(6, certs=[{"cert": "hot-resign", "cold": credential(70)}], votes=[vote(f"committee:{credential(72)}", LIVE)]), refused("101 VoterUnknown")),
        (transfer(6, certs=[{"cert": "pool-retire", "pool": POOL, "epoch": 1}], votes=[vote(BY_POOL, LIVE)]), ACCEPTED, "it retires later"),
        (PRINT, printed(100, 100, 619, 1000, fees=65, deposits=49, rewards=67)),
    )
    yield over_proposals(
        "no vote on what the same transaction proposes",
        (transfer(4, proposals=[proposal(INFO)], votes=[vote(BY_DREP, action_id(4))], fee=10), refused("100 ActionUnknown")),
        (transfer(4, proposals=[proposal(INFO)], votes=[GOOD], fee=10), ACCEPTED),
        (transfer(5, votes=[vote(BY_DREP, action_id(4), "no"), vote(BY_DREP, action_id(4)), vote(BY_POOL, action_id(4), "abstain")]), ACCEPTED, "one votes twice"),
    )
    yield over_proposals(
        "failed scripts vote for nothing",
        (transfer(4, scripts="failed", fee=0, collateral=[ref(1, 5)], votes=[*BAD_VOTES.values()]), FAILED_SCRIPTS),
    )


def cases():
    yield from alone()
    yield from together()
    yield from allowed()
    yield from draft()
