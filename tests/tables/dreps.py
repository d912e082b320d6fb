"""DReps and hot keys: certificates, delegations, and the DReps of a genesis. Each refusal alone, at
the second place, and beside every rule that is asked later."""

from cases import ACCEPTED, FAILED_SCRIPTS, answered, begins, missing, no_genesis, pots, printed, unbalanced
from records import GREATEST, credential, genesis, key, ref, small, transfer
from tables.accounts import BAD_CERTS as BAD_ACCOUNT_CERTS
from tables.accounts import BAD_WITHDRAWALS, KEY, NEW, POOR, PRINT, delegate, refused, register, unregister
from tables.proposals import INFO, action_id, committee, proposal, proposing
from tables.votes import vote

DREP, SECOND, NEW_DREP = credential(30), credential(31), credential(32)
COLD, RESIGNED, STRANGER, HOT = credential(70), credential(72), credential(60), credential(71)

# a key that delegates to DREP, one that delegates to SECOND, and one that delegates to nobody; of
# DREP another deposit is stored than a new one; of the two members one has a hot key, and the other
# resigns in transaction 2
OTHER = credential(14)
ACCOUNTS = [[KEY, 2, 67, None, DREP], [OTHER, 2, 33, None, SECOND], [POOR, 2, 0, None, None]]
DREPS = [[DREP, 7, 20], [SECOND, 5, 20]]
MEMBERS = [[COLD, 100, HOT], [RESIGNED, 100, None]]
FIELDS = {"accounts": ACCOUNTS, "dreps": DREPS, "committee": {"threshold": [0, 1], "members": MEMBERS}, "reserves": 582}
START = pots(200, 100, 582, 1000, deposits=18, rewards=100)
UNCHANGED = printed(180, 100, 582, 1000, fees=20, deposits=18, rewards=100)


def enter(cred=NEW_DREP, **fields):
    return {"cert": "drep-reg", "cred": cred, **fields}


def leave(cred=DREP, **fields):
    return {"cert": "drep-unreg", "cred": cred, **fields}


def update(cred=DREP):
    return {"cert": "drep-update", "cred": cred}


def authorize(cold=COLD, hot=HOT):
    return {"cert": "hot-auth", "cold": cold, "hot": hot}


def resign(cold=COLD):
    return {"cert": "hot-resign", "cold": cold}


# what breaks one rule and no other
GOOD_CERT = update()
BAD_CERTS = {
    "62 DepositWrong want 5": enter(deposit=4),
    "63 RefundWrong want 7": leave(refund=5),
    "66 DrepUnknown": update(NEW_DREP),
    "67 DrepRegistered": enter(DREP),
    "71 ColdKeyUnknown": authorize(STRANGER),
    "72 ColdKeyResigned": authorize(RESIGNED),
}
# and those of accounts: here the DRep 30 is registered
BAD_OF_ACCOUNTS = {**BAD_ACCOUNT_CERTS, "66 DrepUnknown": delegate(POOR, drep=NEW_DREP)}


def over_dreps(name, *lines, **fields):
    """A genesis with these accounts, DReps and members, of whom one resigns, and further lines."""
    resigned = (transfer(2, certs=[resign(RESIGNED)]), ACCEPTED)
    return answered(name, resigned, *lines, first=small(**{**FIELDS, **fields}), start=START)


def alone():
    yield over_dreps(
        "a certificate of a DRep or a cold key that breaks one rule",
        *((transfer(3, certs=[it]), refused(rule)) for rule, it in BAD_CERTS.items()),
        *((transfer(3, certs=[GOOD_CERT, it]), refused(rule, 1)) for rule, it in BAD_CERTS.items()),
        *((transfer(3, certs=[enter(deposit=it)]), refused("62 DepositWrong want 5")) for it in (0, 6, GREATEST)),
        *((transfer(3, certs=[leave(refund=it)]), refused("63 RefundWrong want 7")) for it in (0, 6, 8, GREATEST)),
        (transfer(3, certs=[leave(SECOND, refund=7)]), refused("63 RefundWrong want 5")),
        (transfer(3, certs=[leave(NEW_DREP)]), refused("66 DrepUnknown")),
        (transfer(3, certs=[update(credential(30, "s"))]), refused("66 DrepUnknown"), "the script of the same hash"),
        (transfer(3, certs=[leave(KEY)]), refused("66 DrepUnknown"), "an account is no DRep"),
        (transfer(3, certs=[delegate(POOR, drep=NEW_DREP)]), refused("66 DrepUnknown")),
        (transfer(3, certs=[delegate(POOR, drep=credential(30, "s"))]), refused("66 DrepUnknown")),
        (transfer(3, certs=[register(NEW, drep=NEW_DREP)]), refused("66 DrepUnknown")),
        (transfer(3, certs=[enter(SECOND, deposit=5)]), refused("67 DrepRegistered")),
        (transfer(3, certs=[resign(STRANGER)]), refused("71 ColdKeyUnknown")),
        (transfer(3, certs=[authorize(credential(70, "s"))]), refused("71 ColdKeyUnknown"), "the script of the same hash"),
        (transfer(3, certs=[authorize(HOT)]), refused("71 ColdKeyUnknown"), "a hot key is no cold key"),
        (transfer(3, certs=[authorize(DREP)]), refused("71 ColdKeyUnknown")),
        (transfer(3, certs=[resign(RESIGNED)]), refused("72 ColdKeyResigned"), "it resigned already"),
        (PRINT, UNCHANGED, "nothing has changed"),
    )


def together():
    yield over_dreps(
        "of two rules on DReps and cold keys the first certificate's is told",
        *((transfer(3, certs=[one, other]), refused(rule)) for rule, one in BAD_CERTS.items() for other in BAD_CERTS.values()),
    )
    yield over_dreps(
        "of a rule on DReps and one on accounts the first certificate's is told",
        *((transfer(3, certs=[one, other]), refused(rule)) for rule, one in BAD_CERTS.items() for other in BAD_OF_ACCOUNTS.values()),
        *((transfer(3, certs=[one, other]), refused(rule)) for rule, one in BAD_OF_ACCOUNTS.items() for other in BAD_CERTS.values()),
    )
    yield over_dreps(
        "certificates of DReps come after withdrawals and before the balance",
        *((transfer(3, withdrawals=[one], certs=[other]), refused(rule)) for rule, one in BAD_WITHDRAWALS.items() for other in BAD_CERTS.values()),
        *((transfer(3, fee=19, certs=[it]), refused(rule)) for rule, it in BAD_CERTS.items()),
        *((transfer(3, inputs=[ref(9, 9)], certs=[it]), missing()) for it in BAD_CERTS.values()),
        *((transfer(3, treasury=99, certs=[it]), "refused 45 TreasuryValueWrong is 100") for it in BAD_CERTS.values()),
    )
    yield over_dreps(
        "of two rules on one certificate of a DRep",
        (transfer(3, certs=[enter(DREP, deposit=4)]), refused("62 DepositWrong want 5")),
        (transfer(3, certs=[leave(NEW_DREP, refund=4)]), refused("66 DrepUnknown"), "nothing is stored for it"),
        (transfer(3, certs=[register(NEW, deposit=3, drep=NEW_DREP)]), refused("62 DepositWrong want 2")),
    )


def deposits():
    yield over_dreps(
        "deposits of DReps",
        (transfer(3, certs=[enter()]), unbalanced(20, 25)),
        (transfer(3, certs=[leave()]), unbalanced(27, 20), "the refund is what was stored"),
        (transfer(3, fee=15, certs=[enter(deposit=5)]), ACCEPTED),
        (PRINT, printed(160, 100, 582, 1000, fees=35, deposits=23, rewards=100)),
        (transfer(4, fee=25, certs=[leave(NEW_DREP, refund=5)]), ACCEPTED),
        (PRINT, printed(140, 100, 582, 1000, fees=60, deposits=18, rewards=100)),
        (transfer(5, certs=[leave(), enter(DREP), leave(refund=7)]), refused("63 RefundWrong want 5", 2), "by now another deposit is stored"),
        (transfer(5, fee=22, certs=[leave(refund=7), enter(DREP)]), ACCEPTED),
        (PRINT, printed(120, 100, 582, 1000, fees=82, deposits=16, rewards=100)),
        (transfer(6, certs=[enter(), leave(NEW_DREP), enter(credential(32, "s")), leave(credential(32, "s"))]), ACCEPTED),
        (transfer(7, fee=10, certs=[enter(), enter(credential(32, "s"))]), ACCEPTED, "a key and a script of one hash"),
        (PRINT, printed(80, 100, 582, 1000, fees=112, deposits=26, rewards=100)),
        (transfer(8, fee=40, certs=[leave(), leave(SECOND), leave(NEW_DREP), leave(credential(32, "s"))]), ACCEPTED, "all leave"),
        (PRINT, printed(60, 100, 582, 1000, fees=152, deposits=6, rewards=100)),
    )
    yield over_dreps(
        "no deposit of a DRep",
        (transfer(3, certs=[enter(deposit=5)]), refused("62 DepositWrong want 0")),
        (transfer(3, certs=[enter(deposit=0), leave(NEW_DREP, refund=0)]), ACCEPTED),
        (transfer(4, fee=27, certs=[enter(), leave(refund=7)]), ACCEPTED, "what was stored comes back"),
        (PRINT, printed(140, 100, 582, 1000, fees=67, deposits=11, rewards=100)),
        drepDeposit=0,
    )


def delegations():
    taking, taking_other, taking_none = ([[key(n), it]] for n, it in ((10, 67), (14, 33), (12, 0)))
    yield over_dreps(
        "a DRep that registers and an account that delegates to it in one transaction",
        (transfer(3, fee=15, certs=[delegate(POOR, drep=NEW_DREP), enter()]), refused("66 DrepUnknown")),
        (transfer(3, withdrawals=taking_none, certs=[enter(), delegate(POOR, drep=NEW_DREP)]), refused("52 WithdrawalNotDelegated"), "withdrawals come before"),
        (transfer(3, fee=15, certs=[enter(), delegate(POOR, drep=NEW_DREP)]), ACCEPTED),
        (transfer(4, withdrawals=taking_none), ACCEPTED),
        (transfer(5, fee=13, certs=[enter(credential(33)), register(NEW, drep=credential(33))]), ACCEPTED),
        (transfer(6, withdrawals=[[key(13), 0]]), ACCEPTED),
        (transfer(7, certs=[register(credential(15), drep=NEW_DREP), leave(NEW_DREP), delegate(NEW, drep=NEW_DREP)]), refused("66 DrepUnknown", 2)),
        (PRINT, printed(100, 100, 582, 1000, fees=88, deposits=30, rewards=100)),
    )
    yield over_dreps(
        "a DRep that leaves is delegated to by nobody",
        (transfer(3, fee=94, withdrawals=taking, certs=[leave()]), ACCEPTED, "the withdrawal comes first"),
        (transfer(4, withdrawals=[[key(10), 0]]), refused("52 WithdrawalNotDelegated")),
        (transfer(4, fee=53, withdrawals=taking_other), ACCEPTED, "this one delegates to another"),
        (transfer(5, fee=15, certs=[enter(DREP)]), ACCEPTED, "it comes again"),
        (transfer(6, withdrawals=[[key(10), 0]]), refused("52 WithdrawalNotDelegated")),
        (transfer(6, certs=[delegate(KEY, drep=DREP)]), ACCEPTED),
        (transfer(7, withdrawals=[[key(10), 0]]), ACCEPTED),
        (PRINT, printed(80, 100, 582, 1000, fees=222, deposits=16)),
    )
    yield over_dreps(
        "who delegates to another, abstains or has no confidence is not concerned",
        (transfer(3, certs=[delegate(KEY, drep=SECOND), delegate(OTHER, drep="abstain"), delegate(POOR, drep="no-confidence")]), ACCEPTED),
        (transfer(4, fee=27, certs=[leave()]), ACCEPTED),
        (transfer(5, fee=87, withdrawals=taking), ACCEPTED),
        (transfer(6, fee=25, certs=[leave(SECOND)]), ACCEPTED),
        (transfer(7, withdrawals=[[key(10), 0]]), refused("52 WithdrawalNotDelegated")),
        (transfer(7, fee=53, withdrawals=taking_other), ACCEPTED),
        (transfer(8, withdrawals=taking_none), ACCEPTED),
        (PRINT, printed(60, 100, 582, 1000, fees=252, deposits=6)),
    )


def orders():
    """A DRep that leaves, comes and leaves, and an account that delegates to it already and does so again, in each order."""
    out, back, choose = leave(), enter(DREP), delegate(KEY, drep=DREP)
    taking = [[key(10), 67]]
    unknown = {1: [(out, choose, back, out), (out, choose, out, back), (out, out, back, choose), (out, out, choose, back)], 2: [(choose, out, out, back)], 3: [(out, back, out, choose)]}
    registered = {0: [(back, out, out, choose), (back, out, choose, out), (back, choose, out, out)], 1: [(choose, back, out, out)]}
    yield over_dreps(
        "a DRep leaves twice and comes once: orders that are refused",
        *((transfer(3, fee=27, certs=list(it)), refused("66 DrepUnknown", place)) for place, orders in unknown.items() for it in orders),
        *((transfer(3, fee=27, certs=list(it)), refused("67 DrepRegistered", place)) for place, orders in registered.items() for it in orders),
        (transfer(3, fee=87, withdrawals=taking), ACCEPTED, "the delegation stands"),
        (PRINT, printed(160, 100, 582, 1000, fees=107, deposits=18, rewards=33)),
    )
    for name, certs, stands in (
        ("leaves, comes, is chosen and leaves", [out, back, choose, out], False),
        ("is chosen, leaves, comes and leaves", [choose, out, back, out], False),
        ("leaves and comes", [out, back], False),
        ("is chosen, leaves and comes", [choose, out, back], False),
        ("leaves, comes and is chosen", [out, back, choose], True),
        ("leaves, comes and is chosen, twice", [out, back, choose] * 2, True),
    ):
        # the stored 7 come back, and 5 are stored where it stays
        kept = 0 if certs[-1] == out else 5
        last = ACCEPTED if stands else refused("52 WithdrawalNotDelegated")
        yield over_dreps(
            f"a DRep {name}",
            (transfer(3, fee=27 - kept, certs=certs), ACCEPTED),
            (PRINT, printed(160, 100, 582, 1000, fees=47 - kept, deposits=11 + kept, rewards=100)),
            (transfer(4, fee=87, withdrawals=taking), last, "whether the delegation stands"),
            (transfer(5, fee=25, certs=[leave()]), ACCEPTED if kept else refused("66 DrepUnknown")),
        )


def hot_keys():
    """A hot key shows in that it may vote: of a vote by a known one only the balance is wrong."""

    def known(n, hot, it=True):
        return transfer(n, fee=19, votes=[vote(f"committee:{hot}", action_id(3))]), unbalanced(20, 19) if it else refused("101 VoterUnknown")

    def over_proposal(name, *lines, **fields):
        return over_dreps(name, (proposing(3, proposal(INFO)), ACCEPTED), *lines, **fields)

    other, third = credential(74), credential(75)
    yield over_proposal(
        "hot keys take each other's place",
        known(4, HOT),
        known(4, other, False),
        (transfer(4, certs=[authorize(hot=other)]), ACCEPTED),
        known(5, HOT, False),
        known(5, other),
        (transfer(5, certs=[authorize(hot=third), authorize(hot=HOT)]), ACCEPTED, "the last counts"),
        known(6, HOT),
        known(6, other, False),
        known(6, third, False),
        (transfer(6, certs=[authorize(hot=credential(71, "s"))]), ACCEPTED),
        known(7, HOT, False),
        known(7, credential(71, "s")),
        (transfer(7, certs=[authorize(), resign(), authorize()]), refused("72 ColdKeyResigned", 2)),
        (transfer(7, certs=[resign(), resign()]), refused("72 ColdKeyResigned", 1)),
        known(7, credential(71, "s")),
        (transfer(7, certs=[authorize(), resign()]), ACCEPTED),
        known(8, HOT, False),
        (transfer(8, certs=[authorize()]), refused("72 ColdKeyResigned")),
        (transfer(8, certs=[resign()]), refused("72 ColdKeyResigned")),
        (PRINT, printed(80, 100, 582, 1000, fees=110, deposits=28, rewards=100)),
    )
    sharing = [[COLD, 100, HOT], [RESIGNED, 100, HOT], [STRANGER, 100, HOT]]
    yield over_proposal(
        "members share a hot key",
        known(4, HOT),
        (transfer(4, certs=[resign()]), ACCEPTED),
        known(5, HOT, True),
        (transfer(5, certs=[authorize(STRANGER, other)]), ACCEPTED),
        known(6, HOT, False),
        known(6, other),
        committee={"threshold": [0, 1], "members": sharing},
    )
    adding = proposal(committee([credential(61)], [[STRANGER, 50]]))
    yield over_proposal(
        "a cold key that a live proposal adds",
        (transfer(4, certs=[authorize(STRANGER, other)]), refused("71 ColdKeyUnknown")),
        (proposing(4, adding, certs=[authorize(STRANGER, other)]), refused("71 ColdKeyUnknown"), "it is not live before the transaction"),
        (proposing(4, adding), ACCEPTED),
        (transfer(5, certs=[authorize(credential(61), other)]), refused("71 ColdKeyUnknown"), "it removes this one"),
        (transfer(5, certs=[authorize(credential(60, "s"), other)]), refused("71 ColdKeyUnknown")),
        known(5, other, False),
        (transfer(5, certs=[authorize(STRANGER, other)]), ACCEPTED),
        known(6, other),
        (transfer(6, certs=[resign(STRANGER)]), ACCEPTED),
        known(7, other, False),
        (transfer(7, certs=[authorize(STRANGER, other)]), refused("72 ColdKeyResigned")),
    )
    yield answered(
        "without a committee nobody is a member",
        (transfer(2, certs=[authorize()]), refused("71 ColdKeyUnknown")),
        (proposing(2, adding), ACCEPTED),
        (transfer(3, certs=[resign()]), refused("71 ColdKeyUnknown")),
        (transfer(3, certs=[authorize(STRANGER, other), resign(STRANGER)]), ACCEPTED),
        first=small(**{**FIELDS, "committee": None}),
        start=START,
    )


def kept():
    """What is refused or fails changes nothing."""
    yield over_dreps(
        "a refused transaction keeps none of its certificates",
        (transfer(3, certs=[enter(), leave(), delegate(POOR, drep=DREP)]), refused("66 DrepUnknown", 2)),
        (transfer(3, certs=[enter(), leave(), resign()], fee=21), unbalanced(27, 26)),
        (transfer(3, certs=[update(NEW_DREP)]), refused("66 DrepUnknown")),
        (transfer(3, fee=87, withdrawals=[[key(10), 67]], certs=[update(), authorize()]), ACCEPTED),
        (PRINT, printed(160, 100, 582, 1000, fees=107, deposits=18, rewards=33)),
    )
    yield over_dreps(
        "failed scripts change no DRep, and no rule on DReps is asked",
        (transfer(3, fee=0, scripts="failed", collateral=[ref(1, 4)], certs=[*BAD_CERTS.values()]), FAILED_SCRIPTS),
        (transfer(5, fee=0, scripts="failed", collateral=[ref(1, 6)], certs=[enter(), leave(), resign()]), FAILED_SCRIPTS),
        (transfer(7, certs=[update(NEW_DREP)]), refused("66 DrepUnknown")),
        (transfer(7, fee=87, withdrawals=[[key(10), 67]], certs=[update(), authorize()]), ACCEPTED),
        (PRINT, printed(120, 100, 582, 1000, fees=147, deposits=18, rewards=33)),
    )
    yield over_dreps(
        "a DRep in two spellings",
        (transfer(3, fee=15, certs=[enter("k" + "ab" * 28)]), ACCEPTED),
        (transfer(4, certs=[enter("k" + "AB" * 28)]), refused("67 DrepRegistered")),
        (transfer(4, certs=[update("k" + "Ab" * 28), delegate(KEY, drep="k" + "aB" * 28)]), ACCEPTED),
        (transfer(5, fee=25, certs=[leave("k" + "AB" * 28)]), ACCEPTED),
        (transfer(6, withdrawals=[[key(10), 67]]), refused("52 WithdrawalNotDelegated")),
    )


def begun():
    """A genesis with DReps."""

    def having(*entries, **fields):
        return genesis(**{"dreps": [*entries], "reserves": 900 - sum(it[1] for it in entries), **fields})

    one, other, script = [DREP, 7, 20], [SECOND, 5, 0], [credential(30, "s"), 0, 2**62 - 1]
    delegating = [KEY, 2, 3, None, DREP]
    yield begins("a DRep", having(one), pots(2000, 100, 893, 3000, deposits=7))
    yield begins("two DReps", having(other, one), pots(2000, 100, 888, 3000, deposits=12))
    yield begins("a key and a script of one hash are two DReps", having(script, one), pots(2000, 100, 893, 3000, deposits=7))
    yield begins("a DRep with no deposit", having([DREP, 0, 20]))
    yield begins("a DRep that is not active any more", having(other, slot=50), pots(2000, 100, 895, 3000, deposits=5))
    yield begins("an account that delegates to a DRep", having(one, accounts=[delegating], reserves=888), pots(2000, 100, 888, 3000, deposits=9, rewards=3))
    yield no_genesis("a DRep that is not counted", having(one, reserves=900))
    yield no_genesis("a DRep that is counted twice", having(one, reserves=886))
    yield no_genesis("a DRep twice", having(one, one))
    yield no_genesis("a DRep twice, with another deposit", having(one, other, [DREP, 0, 3]))
    yield no_genesis("a DRep twice, in two spellings", having(["k" + "ab" * 28, 5, 20], ["k" + "AB" * 28, 5, 20]))
    yield no_genesis("an account that delegates to another DRep", having(other, accounts=[delegating], reserves=890))
    yield no_genesis("an account that delegates to the DRep of the other kind", having(script, accounts=[delegating], reserves=895))
    yield no_genesis("a DRep that is not read", genesis(dreps=[one[:-1]]))
    yield no_genesis("an expiry that is no slot", having([DREP, 7, 2**62]))
    yield answered(
        "the DReps of a genesis",
        (transfer(2, certs=[enter(DREP)]), refused("67 DrepRegistered")),
        (transfer(2, certs=[update(), update(SECOND)]), ACCEPTED),
        (transfer(3, certs=[update(credential(30, "s"))]), refused("66 DrepUnknown")),
        (transfer(3, fee=18, certs=[register(POOR, drep=SECOND)]), ACCEPTED, "whether it is active or not"),
        (transfer(4, fee=32, certs=[leave(), leave(SECOND)]), ACCEPTED),
        (transfer(5, fee=22, certs=[unregister(POOR)]), ACCEPTED),
        (PRINT, printed(1920, 100, 888, 3000, fees=92)),
        first=having(one, other, slot=50),
        start=pots(2000, 100, 888, 3000, deposits=12),
    )


def cases():
    yield from alone()
    yield from together()
    yield from deposits()
    yield from delegations()
    yield from orders()
    yield from hot_keys()
    yield from kept()
    yield from begun()
