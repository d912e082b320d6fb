"""Accounts: withdrawals, registrations and delegations. Each refusal alone, at the second place,
and beside every rule that is asked later."""

from cases import ACCEPTED, FAILED_SCRIPTS, answered, missing, over_small, pots, printed, unbalanced
from records import credential, hash28, key, ref, script, small, transfer

PRINT = b'{"kind":"print","what":"pots"}'
KEY, SCRIPT, POOR, NEW = credential(10), credential(11, "s"), credential(12), credential(13)

# a key that abstains, a script and a key that delegate to nobody; a deposit of 2 each, and 67, 33
# and 0 lovelace of rewards
ACCOUNTS = [[KEY, 2, 67, None, "abstain"], [SCRIPT, 2, 33, None, None], [POOR, 2, 0, None, None]]
FIELDS = {"accounts": ACCOUNTS, "reserves": 594}
START = pots(200, 100, 594, 1000, deposits=6, rewards=100)


def register(cred, **fields):
    return {"cert": "account-reg", "cred": cred, **fields}


def unregister(cred, **fields):
    return {"cert": "account-unreg", "cred": cred, **fields}


def delegate(cred, **fields):
    return {"cert": "delegate", "cred": cred, **fields}


def refused(rule, place=0):
    """The refusal of a rule at a place; what it keeps follows the place."""
    number, name, *kept = rule.split()
    return " ".join(["refused", number, name, "at", str(place), *kept])


# what breaks one rule and no other
GOOD_WITHDRAWAL = [script(11), 33]
BAD_WITHDRAWALS = {
    "50 WithdrawalWrongNetwork": [key(10, network=0), 67],
    "51 WithdrawalNoAccount": [key(13), 0],
    "52 WithdrawalNotDelegated": [key(12), 0],
    "53 WithdrawalNotWhole balance 67": [key(10), 66],
}
GOOD_CERT = delegate(SCRIPT, drep="no-confidence")
BAD_CERTS = {
    "60 AccountRegistered": register(KEY),
    "61 AccountUnknown": unregister(NEW),
    "62 DepositWrong want 2": register(NEW, deposit=3),
    "63 RefundWrong want 2": unregister(POOR, refund=1),
    "64 BalanceNotZero balance 67": unregister(KEY),
    "65 PoolUnknown": delegate(POOR, pool=hash28(50)),
    "66 DrepUnknown": delegate(POOR, drep=credential(30)),
}


def over_accounts(name, *lines, **fields):
    """A genesis with these accounts, and further lines."""
    return answered(name, *lines, first=small(**{**FIELDS, **fields}), start=START)


def alone():
    yield over_accounts(
        "a withdrawal that breaks one rule",
        *((transfer(2, withdrawals=[it]), refused(rule)) for rule, it in BAD_WITHDRAWALS.items()),
        *((transfer(2, withdrawals=[GOOD_WITHDRAWAL, it]), refused(rule, 1)) for rule, it in BAD_WITHDRAWALS.items()),
        (transfer(2, withdrawals=[[key(10), 68]]), refused("53 WithdrawalNotWhole balance 67"), "more than there is"),
        (transfer(2, withdrawals=[[script(11), 0]]), refused("53 WithdrawalNotWhole balance 33")),
        (transfer(2, withdrawals=[[script(10), 0]]), refused("51 WithdrawalNoAccount"), "the script of the same hash"),
        (PRINT, printed(200, 100, 594, 1000, deposits=6, rewards=100), "nothing has changed"),
    )
    yield over_accounts(
        "a certificate that breaks one rule",
        *((transfer(2, certs=[it]), refused(rule)) for rule, it in BAD_CERTS.items()),
        *((transfer(2, certs=[GOOD_CERT, it]), refused(rule, 1)) for rule, it in BAD_CERTS.items()),
        (transfer(2, certs=[unregister(SCRIPT)]), refused("64 BalanceNotZero balance 33")),
        (transfer(2, certs=[delegate(NEW, drep="abstain")]), refused("61 AccountUnknown")),
        (transfer(2, certs=[register(NEW, deposit=0)]), refused("62 DepositWrong want 2")),
        (transfer(2, certs=[register(NEW, pool=hash28(50))]), refused("65 PoolUnknown")),
        (transfer(2, certs=[register(NEW, drep=credential(30))]), refused("66 DrepUnknown")),
        (PRINT, printed(200, 100, 594, 1000, deposits=6, rewards=100), "nothing has changed"),
    )


def together():
    yield over_accounts(
        "of two rules the first withdrawal's is told",
        *((transfer(2, withdrawals=[one, other]), refused(rule)) for rule, one in BAD_WITHDRAWALS.items() for other in BAD_WITHDRAWALS.values() if one[0] != other[0]),
    )
    yield over_accounts(
        "of two rules the first certificate's is told",
        *((transfer(2, certs=[one, other]), refused(rule)) for rule, one in BAD_CERTS.items() for other in BAD_CERTS.values()),
    )
    yield over_accounts(
        "withdrawals come before certificates, and these before the balance",
        *((transfer(2, withdrawals=[one], certs=[other]), refused(rule)) for rule, one in BAD_WITHDRAWALS.items() for other in BAD_CERTS.values()),
        *((transfer(2, fee=19, withdrawals=[one]), refused(rule)) for rule, one in BAD_WITHDRAWALS.items()),
        *((transfer(2, fee=19, certs=[one]), refused(rule)) for rule, one in BAD_CERTS.items()),
        *((transfer(2, inputs=[ref(9, 9)], withdrawals=[one]), missing()) for one in BAD_WITHDRAWALS.values()),
        *((transfer(2, inputs=[ref(9, 9)], certs=[one]), missing()) for one in BAD_CERTS.values()),
        *((transfer(2, treasury=99, withdrawals=[one]), "refused 45 TreasuryValueWrong is 100") for one in BAD_WITHDRAWALS.values()),
        *((transfer(2, treasury=99, certs=[one]), "refused 45 TreasuryValueWrong is 100") for one in BAD_CERTS.values()),
    )
    yield over_accounts(
        "at one place the smaller number is told",
        (transfer(2, withdrawals=[[key(13, network=0), 5]]), refused("50 WithdrawalWrongNetwork")),
        (transfer(2, withdrawals=[[key(13), 5]]), refused("51 WithdrawalNoAccount")),
        (transfer(2, withdrawals=[[key(12), 5]]), refused("52 WithdrawalNotDelegated")),
        (transfer(2, certs=[register(KEY, deposit=3, pool=hash28(50), drep=credential(30))]), refused("60 AccountRegistered")),
        (transfer(2, certs=[register(NEW, deposit=3, pool=hash28(50), drep=credential(30))]), refused("62 DepositWrong want 2")),
        (transfer(2, certs=[register(NEW, pool=hash28(50), drep=credential(30))]), refused("65 PoolUnknown")),
        (transfer(2, certs=[unregister(NEW, refund=1)]), refused("61 AccountUnknown")),
        (transfer(2, certs=[unregister(KEY, refund=1)]), refused("63 RefundWrong want 2")),
        (transfer(2, certs=[delegate(NEW, pool=hash28(50), drep=credential(30))]), refused("61 AccountUnknown")),
        (transfer(2, certs=[delegate(POOR, pool=hash28(50), drep=credential(30))]), refused("65 PoolUnknown")),
    )


def withdrawal():
    yield over_accounts(
        "a withdrawal of a script",
        (transfer(2, withdrawals=[[script(11), 33]], outputs=[[key(1), 33, 0]]), ACCEPTED),
        (PRINT, printed(213, 100, 594, 1000, fees=20, deposits=6, rewards=67)),
        (transfer(3, withdrawals=[[script(11), 33]], outputs=[[key(1), 33, 0]]), refused("53 WithdrawalNotWhole balance 0")),
        (transfer(3, withdrawals=[[script(11), 0]]), ACCEPTED),
    )


def changes():
    yield over_accounts(
        "each certificate sees what those before it left",
        (transfer(2, certs=[register(NEW), register(NEW)]), refused("60 AccountRegistered", 1)),
        (transfer(2, certs=[unregister(POOR), unregister(POOR)]), refused("61 AccountUnknown", 1)),
        (transfer(2, certs=[unregister(POOR), delegate(POOR, drep="abstain")]), refused("61 AccountUnknown", 1)),
        (transfer(2, certs=[delegate(NEW, drep="abstain"), register(NEW)]), refused("61 AccountUnknown")),
        (transfer(2, withdrawals=[[key(12), 0]], certs=[delegate(POOR, drep="abstain")]), refused("52 WithdrawalNotDelegated"), "the delegation is that before the transaction"),
        (transfer(2, withdrawals=[[key(13), 0]], certs=[register(NEW, drep="abstain")]), refused("51 WithdrawalNoAccount")),
        (transfer(2, certs=[unregister(KEY)], withdrawals=[[key(10), 67]], fee=88), unbalanced(89, 88)),
        (transfer(2, certs=[unregister(KEY)], withdrawals=[[key(10), 67]], fee=89), ACCEPTED, "the balance is 0 once it is withdrawn"),
        (PRINT, printed(180, 100, 594, 1000, fees=89, deposits=4, rewards=33)),
        (transfer(3, withdrawals=[[key(10), 0]]), refused("51 WithdrawalNoAccount")),
        (transfer(3, certs=[register(KEY, deposit=2), delegate(KEY, drep="abstain"), register(NEW), unregister(POOR, refund=2)], fee=18), ACCEPTED),
        (PRINT, printed(160, 100, 594, 1000, fees=107, deposits=6, rewards=33)),
        (transfer(4, withdrawals=[[key(10), 0]]), ACCEPTED, "a withdrawal of nothing is a withdrawal"),
        (transfer(5, withdrawals=[[key(13), 0]]), refused("52 WithdrawalNotDelegated"), "it delegates to nobody"),
        (transfer(5, certs=[delegate(NEW, drep="no-confidence")]), ACCEPTED),
        (transfer(6, withdrawals=[[key(13), 0], [script(11), 33]], fee=53), ACCEPTED),
        (PRINT, printed(100, 100, 594, 1000, fees=200, deposits=6, rewards=0)),
        (transfer(7, certs=[unregister(KEY), unregister(SCRIPT), unregister(NEW), register(NEW), unregister(NEW)], fee=26), ACCEPTED),
        (PRINT, printed(80, 100, 594, 1000, fees=226)),
    )
    yield over_accounts(
        "a refused transaction keeps none of its certificates",
        (transfer(2, certs=[register(NEW), unregister(POOR), delegate(KEY, pool=hash28(50))]), refused("65 PoolUnknown", 2)),
        (transfer(2, certs=[register(NEW), unregister(POOR)], fee=19), unbalanced(22, 21)),
        (transfer(2, certs=[delegate(NEW, drep="abstain")]), refused("61 AccountUnknown")),
        (transfer(2, certs=[delegate(POOR, drep="abstain")]), ACCEPTED),
        (PRINT, printed(180, 100, 594, 1000, fees=20, deposits=6, rewards=100)),
    )
    yield over_accounts(
        "failed scripts change no account, and no rule on accounts is asked",
        *((transfer(2, fee=0, scripts="failed", withdrawals=[it]), "refused 41 NoCollateral") for it in BAD_WITHDRAWALS.values()),
        (transfer(2, fee=0, scripts="failed", collateral=[ref(1, 3)], withdrawals=[*BAD_WITHDRAWALS.values()][1:3], certs=[*BAD_CERTS.values()]), FAILED_SCRIPTS),
        (PRINT, printed(180, 100, 594, 1000, fees=20, deposits=6, rewards=100)),
        (transfer(3, inputs=[ref(1, 2)], fee=0, scripts="failed", collateral=[ref(1, 4)], certs=[register(NEW)]), FAILED_SCRIPTS),
        (transfer(4, inputs=[ref(1, 5)], certs=[delegate(NEW, drep="abstain")]), refused("61 AccountUnknown")),
    )


def stored():
    """The deposit that comes back is the one that was stored, whatever a new one would be."""
    accounts = [[KEY, 7, 0, None, None], [SCRIPT, 0, 0, None, "abstain"]]
    yield answered(
        "stored deposits",
        (transfer(2, certs=[unregister(KEY, refund=2)]), refused("63 RefundWrong want 7")),
        (transfer(2, certs=[unregister(KEY)], fee=27), ACCEPTED),
        (transfer(3, certs=[unregister(SCRIPT, refund=0)]), ACCEPTED),
        (transfer(4, certs=[register(KEY, deposit=2), register(SCRIPT)], fee=16), ACCEPTED),
        (PRINT, printed(140, 100, 693, 1000, fees=63, deposits=4)),
        first=small(accounts=accounts, reserves=693),
        start=pots(200, 100, 693, 1000, deposits=7),
    )
    yield over_small(
        "no deposit",
        (transfer(2, certs=[register(NEW, deposit=0), unregister(NEW, refund=0)]), ACCEPTED),
        (transfer(3, certs=[register(NEW, drep="abstain")]), ACCEPTED),
        (transfer(4, withdrawals=[[key(13), 0]]), ACCEPTED),
        (PRINT, printed(140, 100, 700, 1000, fees=60)),
        keyDeposit=0,
    )


def cases():
    yield from alone()
    yield from together()
    yield from withdrawal()
    yield from changes()
    yield from stored()
