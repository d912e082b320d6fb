"""Seats: from version 11.0 on a committee voter must be the hot key of a member. The rule alone, at
the second place, and beside every rule of its vote and of what is asked later; and who has a
seat."""

from cases import ACCEPTED, FAILED_SCRIPTS, answered, missing, pots, printed, unbalanced
from records import credential, key, ref, small, transfer
from tables.accounts import PRINT, refused, register
from tables.dreps import authorize, resign
from tables.epochs import block
from tables.proposals import BAD_PROPOSALS, INFO, action_id, committee, constitution, hard_fork, no_confidence, proposal, proposing
from tables.votes import BY_COMMITTEE, BY_DREP, BY_POOL, FIELDS, HOT, STRANGER, vote

# of these cold keys 70 is the member, with the hot key 71, and 60 is added by the proposal of
# transaction 3, and has the hot key 61
COLD, TO_COME, HOT_TO_COME, OTHER_HOT = credential(70), credential(60), credential(61), credential(74)
LIVE, UPDATE = action_id(2), action_id(3)
ADDING = proposal(committee([], [[TO_COME, 50]]))
BY_NO_MEMBER = f"committee:{HOT_TO_COME}"
UNSEATED, GOOD = vote(BY_NO_MEMBER, LIVE), vote(BY_DREP, LIVE)
NOT_SEATED = "104 VoterNotSeated"
UNKNOWN = "101 VoterUnknown"
# of the ten outputs three are spent, and of 60 lovelace 20 are deposits
UNCHANGED = printed(140, 100, 619, 1000, fees=40, deposits=34, rewards=67)


def over_seats(name, *lines, action=INFO, **fields):
    """At version 11.0: a proposal of this action and one that adds a member, who authorizes a hot key, and further lines from number 5 on."""
    begun = [(proposing(2, proposal(action)), ACCEPTED), (proposing(3, ADDING), ACCEPTED), (transfer(4, certs=[authorize(TO_COME, HOT_TO_COME)]), ACCEPTED)]
    first = small(**{**FIELDS, "version": [11, 0], **fields})
    return answered(name, *begun, *lines, first=first, start=pots(200, 100, 619, 1000, deposits=14, rewards=67))


def voting(n, hot, answer=ACCEPTED, action=LIVE, note="", **fields):
    """A transaction in which a hot key votes."""
    return transfer(n, votes=[vote(f"committee:{hot}", action)], **fields), answer if answer == ACCEPTED else refused(answer), note


def alone():
    yield over_seats(
        "a vote by the hot key of a member to come",
        (transfer(5, votes=[UNSEATED]), refused(NOT_SEATED)),
        (transfer(5, votes=[GOOD, UNSEATED]), refused(NOT_SEATED, 1)),
        (transfer(5, votes=[UNSEATED, UNSEATED]), refused(NOT_SEATED)),
        *((transfer(5, votes=[vote(BY_NO_MEMBER, LIVE, it)]), refused(NOT_SEATED)) for it in ("no", "abstain")),
        (PRINT, UNCHANGED, "nothing has changed"),
        (transfer(5, votes=[vote(BY_COMMITTEE, LIVE)]), ACCEPTED, "the member"),
        (transfer(6, votes=[GOOD, vote(BY_POOL, LIVE)]), ACCEPTED, "no DRep and no pool is asked"),
        voting(7, credential(61, "s"), UNKNOWN, note="the script of the same hash"),
        voting(7, TO_COME, UNKNOWN, note="a cold key"),
        voting(7, STRANGER, UNKNOWN),
    )


def together():
    bad = {
        "100 ActionUnknown": vote(BY_DREP, action_id(9)),
        UNKNOWN: vote(f"drep:{STRANGER}", LIVE),
        "102 VoterNotAllowed": vote(BY_COMMITTEE, UPDATE),
        NOT_SEATED: UNSEATED,
    }
    yield over_seats(
        "of a voter without a seat and another rule the first vote's is told",
        *((transfer(5, votes=[it, UNSEATED]), refused(rule)) for rule, it in bad.items()),
        *((transfer(5, votes=[UNSEATED, it]), refused(NOT_SEATED)) for it in bad.values()),
    )
    yield over_seats(
        "of a voter without a seat and another rule on one vote",
        voting(5, HOT_TO_COME, "100 ActionUnknown", action_id(9)),
        voting(5, HOT_TO_COME, "102 VoterNotAllowed", UPDATE),
        voting(5, credential(77), UNKNOWN, note="no cold key has this one"),
        voting(5, credential(77), "100 ActionUnknown", action_id(9)),
    )
    yield over_seats(
        "a voter without a seat comes after certificates and proposals, and before the balance",
        (transfer(5, certs=[register(credential(10))], votes=[UNSEATED]), refused("60 AccountRegistered")),
        *((transfer(5, proposals=[it], votes=[UNSEATED]), refused(rule)) for rule, it in BAD_PROPOSALS.items() if rule[:2] != "91"),
        (transfer(5, fee=19, votes=[UNSEATED]), refused(NOT_SEATED)),
        (transfer(5, inputs=[ref(9, 9)], votes=[UNSEATED]), missing()),
        (transfer(5, fee=0, scripts="failed", collateral=[ref(1, 6)], votes=[UNSEATED]), FAILED_SCRIPTS, "it is not asked where the scripts failed"),
    )


def draft():
    """A seat goes by the hot keys after all certificates of the transaction."""
    yield over_seats(
        "seats that come and go in the same transaction",
        (transfer(5, certs=[authorize(COLD, OTHER_HOT)], votes=[vote(f"committee:{OTHER_HOT}", LIVE)]), ACCEPTED),
        voting(6, HOT, UNKNOWN, note="nobody has it now"),
        voting(6, HOT_TO_COME, certs=[authorize(COLD, HOT_TO_COME)], note="the member has this one too"),
        voting(7, HOT_TO_COME, note="in a later transaction"),
        voting(8, HOT_TO_COME, NOT_SEATED, certs=[authorize(COLD, HOT)], note="it is of the member to come alone again"),
        voting(8, HOT_TO_COME, NOT_SEATED, certs=[authorize(TO_COME, HOT), authorize(TO_COME, HOT_TO_COME), authorize(COLD, HOT)]),
        voting(8, HOT_TO_COME, UNKNOWN, certs=[authorize(COLD, HOT), authorize(TO_COME, HOT)]),
        voting(8, HOT, certs=[authorize(COLD, HOT), authorize(TO_COME, HOT)], note="both have it"),
        voting(9, HOT, NOT_SEATED, certs=[resign()], note="the member resigned, the member to come has it"),
        (PRINT, printed(60, 100, 619, 1000, fees=120, deposits=34, rewards=67)),
    )
    yield over_seats(
        "a refused transaction gives no seat",
        (transfer(5, certs=[authorize(COLD, HOT_TO_COME)], votes=[UNSEATED], fee=19), unbalanced(20, 19)),
        (transfer(5, votes=[UNSEATED]), refused(NOT_SEATED)),
        (transfer(5, certs=[authorize(COLD, HOT_TO_COME)], scripts="failed", fee=0, collateral=[ref(1, 6)]), FAILED_SCRIPTS),
        (transfer(7, votes=[UNSEATED]), refused(NOT_SEATED)),
    )


def members():
    two = {"threshold": [0, 1], "members": [[COLD, 100, HOT], [credential(72), 100, HOT]]}
    yield over_seats(
        "two members with one hot key",
        voting(5, HOT),
        (transfer(6, certs=[resign()]), ACCEPTED),
        voting(7, HOT, note="the other has it"),
        voting(8, HOT, UNKNOWN, certs=[authorize(credential(72), OTHER_HOT)]),
        voting(8, HOT, NOT_SEATED, certs=[authorize(credential(72), OTHER_HOT), authorize(TO_COME, HOT)]),
        voting(8, HOT, certs=[authorize(TO_COME, HOT)], note="one of the two is a member"),
        voting(9, HOT, NOT_SEATED, certs=[resign(credential(72))]),
        committee=two,
    )
    yield over_seats(
        "a member that resigned has no seat",
        (transfer(5, certs=[resign()]), ACCEPTED),
        voting(6, HOT, UNKNOWN),
        voting(6, HOT_TO_COME, NOT_SEATED),
        voting(6, HOT, NOT_SEATED, certs=[authorize(TO_COME, HOT)]),
    )
    yield over_seats(
        "no committee",
        voting(5, HOT_TO_COME, NOT_SEATED),
        voting(5, HOT, UNKNOWN),
        committee=None,
    )
    yield over_seats(
        "a committee without members",
        voting(5, HOT_TO_COME, NOT_SEATED),
        committee={"threshold": [0, 1], "members": []},
    )
    scripts = {"threshold": [0, 1], "members": [[credential(60, "s"), 100, credential(61, "s")]]}
    yield over_seats(
        "a key and a script of one hash",
        voting(5, HOT_TO_COME, NOT_SEATED),
        voting(5, credential(61, "s")),
        voting(6, credential(61, "s"), NOT_SEATED, certs=[authorize(credential(60, "s"), HOT), authorize(TO_COME, credential(61, "s"))]),
        committee=scripts,
    )


def versions():
    for version in ([10, 0], [10, 9], [10, 2**32 - 1]):
        yield over_seats(f"a member to come votes at version {version[0]}.{version[1]}", voting(5, HOT_TO_COME), voting(6, HOT_TO_COME), version=version)
    for version in ([11, 0], [11, 1], [12, 0], [2**32 - 1, 0]):
        yield over_seats(f"a member to come may not vote at version {version[0]}.{version[1]}", voting(5, HOT_TO_COME, NOT_SEATED), version=version)


# ---- over boundaries


def crossed(slot, moved, *told, dormant=0):
    """A block that begins the epoch of a slot, and its answer: an account abstains, and nobody else has stake."""
    epoch = slot // 10
    first = [f"epoch {epoch} frozen 2 dormant {dormant}", "stake abstain 67"]
    return block(slot), [*first, *told, moved, f"block slot {slot} epoch {epoch} counted 1 of 2"]


def tally(action, kind, verdict, by="0/1", needs="0/1", of_pools="0/1"):
    """Of an action on which a DRep without stake may have voted, and no pool has stake; what the committee and the pools need is said."""
    return f"tally {action} {kind} committee {by} need {needs} drep 0/0 need 0/1 pool 0/0 need {of_pools} {verdict}"


def removed(action, why="enacted"):
    return f"removed {action} {why} refund 10 {key(12)}"


LENIENT = {"drepVotingThresholds": [[0, 1]] * 10, "committeeMinSize": 0}


def enacted():
    update = lambda verdict: tally(UPDATE, "UpdateCommittee", verdict, needs="none")
    info = lambda verdict, by: f"tally {LIVE} Info committee {by} need never drep 0/0 need never pool 0/0 need never {verdict}"
    yield over_seats(
        "a member to come takes its seat at the boundary that enacts it",
        crossed(10, UNCHANGED),
        voting(5, HOT_TO_COME, UNKNOWN, note="the boundary dropped what it authorized"),
        voting(5, HOT_TO_COME, NOT_SEATED, certs=[authorize(TO_COME, HOT_TO_COME)]),
        (transfer(5, certs=[authorize(TO_COME, HOT_TO_COME)]), ACCEPTED),
        crossed(20, printed(120, 100, 619, 1000, fees=60, deposits=24, rewards=77), update("ratified"), info("waiting", "0/1"), removed(UPDATE)),
        voting(6, HOT_TO_COME, note="its last epoch"),
        crossed(30, printed(100, 100, 619, 1000, fees=80, deposits=24, rewards=77), info("waiting", "0/2")),
        voting(7, HOT_TO_COME, "103 VotingExpired"),
        crossed(40, printed(100, 100, 619, 1000, fees=80, deposits=14, rewards=87), info("expired", "1/2"), removed(LIVE, "expired"), dormant=1),
        **LENIENT,
    )
    ended = {"threshold": [0, 1], "members": [[COLD, 0, HOT]]}
    yield over_seats(
        "a member has its seat after its term",
        crossed(10, UNCHANGED),
        voting(5, HOT, note="its term was epoch 0"),
        voting(6, HOT, certs=[authorize(TO_COME, HOT)]),
        voting(7, HOT, NOT_SEATED, certs=[authorize(TO_COME, HOT), authorize(COLD, OTHER_HOT)]),
        committee=ended,
    )
    again = [authorize(TO_COME, HOT_TO_COME)]
    late = f"tally {LIVE} Info committee 0/1 need never drep 0/0 need never pool 0/0 need never waiting"
    waiting = f"tally {UPDATE} UpdateCommittee committee 0/1 need none drep 0/0 need 67/100 pool 0/0 need 0/1 waiting"
    yield over_seats(
        "voting that ended is told before a voter without a seat",
        crossed(10, UNCHANGED),
        voting(5, HOT_TO_COME, NOT_SEATED, certs=again, note="the last epoch"),
        crossed(20, UNCHANGED, waiting, late),
        voting(5, HOT_TO_COME, "103 VotingExpired", certs=again),
        voting(5, HOT, "103 VotingExpired", certs=again),
        govActionLifetime=1,
    )
    gone = proposal(no_confidence())
    yield over_seats(
        "a committee that is gone leaves no seat",
        (proposing(5, gone), ACCEPTED),
        crossed(10, printed(120, 100, 619, 1000, fees=50, deposits=44, rewards=67)),
        (
            block(20),
            [
                "epoch 2 frozen 2 dormant 0",
                "stake abstain 67",
                tally(action_id(5), "NoConfidence", "ratified", needs="none"),
                update("waiting"),
                info("waiting", "0/1"),
                removed(UPDATE, "dropped"),
                removed(action_id(5)),
                printed(120, 100, 619, 1000, fees=50, deposits=24, rewards=87),
                "block slot 20 epoch 2 counted 1 of 2",
            ],
        ),
        voting(6, HOT, UNKNOWN, note="what it authorized is gone with it"),
        voting(6, HOT_TO_COME, UNKNOWN, note="so is what the dropped one authorized"),
        **LENIENT,
    )


def stood():
    """Votes that stood when version 11 was enacted."""
    fork, document, again = action_id(2), action_id(6), [authorize(TO_COME, HOT_TO_COME)]
    yield over_seats(
        "a vote that stands stays, counts for nothing, and may not be changed",
        voting(5, HOT_TO_COME, action=fork),
        (proposing(6, proposal(constitution()), votes=[GOOD]), ACCEPTED),
        voting(7, HOT_TO_COME, action=document),
        crossed(10, printed(80, 100, 619, 1000, fees=90, deposits=44, rewards=67)),
        voting(8, HOT_TO_COME, action=document, certs=again, note="the version is 10 still"),
        (
            block(20),
            [
                "epoch 2 frozen 2 dormant 0",
                "stake abstain 67",
                f"tally {UPDATE} UpdateCommittee committee 0/1 need none drep 0/0 need 1/1 pool 0/0 need 0/1 waiting",
                f"tally {document} NewConstitution committee 0/1 need 0/1 drep 0/0 need 1/1 pool 0/0 need none waiting",
                tally(fork, "HardForkInitiation", "ratified"),
                removed(fork),
                printed(60, 100, 619, 1000, fees=110, deposits=34, rewards=77),
                "block slot 20 epoch 2 counted 1 of 2",
            ],
        ),
        voting(9, HOT_TO_COME, NOT_SEATED, action=document, certs=again, note="at version 11 it may not vote again"),
        voting(9, HOT, action=document, certs=again),
        (
            block(30),
            [
                "epoch 3 frozen 2 dormant 0",
                "stake abstain 67",
                f"tally {UPDATE} UpdateCommittee committee 0/1 need none drep 0/0 need 1/1 pool 0/0 need 0/1 waiting",
                f"tally {document} NewConstitution committee 0/1 need 0/1 drep 0/0 need 1/1 pool 0/0 need none waiting",
                printed(40, 100, 619, 1000, fees=130, deposits=34, rewards=77),
                "block slot 30 epoch 3 counted 1 of 2",
            ],
        ),
        action=hard_fork(11, 0),
        version=[10, 0],
        drepVotingThresholds=[[1, 1] if place != 4 else [0, 1] for place in range(10)],
    )


def cases():
    yield from alone()
    yield from together()
    yield from draft()
    yield from members()
    yield from versions()
    yield from enacted()
    yield from stood()
