"""Small runs over ten outputs of 20 lovelace, each of which shows one rule, or a few together."""

from cases import (
    ACCEPTED,
    AGAIN,
    BLANK,
    FAILED_SCRIPTS,
    NO_COLLATERAL,
    NO_INPUTS,
    NO_JSON,
    NO_RECORD,
    NOT_WITNESSED,
    SMALL_START,
    TOO_LONG,
    answered,
    begins,
    malformed,
    no_genesis,
    over_small,
    pots,
    printed,
    unbalanced,
)
from records import GENESIS, LINE_LIMIT, credential, hash28, key, ref, script, small, transfer
from tables.accounts import refused
from tables.proposals import BAD_PROPOSALS, action_id, committee, hard_fork, no_confidence, proposal, proposing
from tables.votes import vote

PRINT = b'{"kind":"print","what":"pots"}'

# a ledger with a bit of all: two accounts that delegate to a DRep each and one that delegates to
# nobody, a pool, and a member
DREPS = [credential(30), credential(31)]
ALL = {
    "accounts": [[credential(10), 2, 67, None, DREPS[0]], [credential(11), 2, 33, None, DREPS[1]], [credential(12), 2, 0, None, None]],
    "pools": [[hash28(50), 5, 0, 0, [0, 1], key(12)]],
    "dreps": [[it, 5, 20] for it in DREPS],
    "reserves": 579,
}
ALL_START = pots(200, 100, 579, 1000, deposits=21, rewards=100)


def one_rule_each():
    def row(answer, genesis=None, **fields):
        return over_small(f"one rule: {answer}", (transfer(2, **fields), answer), **(genesis or {}))

    nine_is_a_script = [*GENESIS["outputs"][:9], [ref(1, 9), script(1), 20]]
    yield row(NO_INPUTS, inputs=[], fee=0)
    yield row("refused 34 InputRepeated at 1", inputs=[ref(1, 2), ref(1, 2)])
    yield row(NOT_WITNESSED, witnessed=False)
    yield row("refused 35 TxTooLarge max 16384", size=16385)
    yield row("refused 36 OutsideValidity slot 0", **{"from": 1})
    yield row("refused 37 FeeTooSmall min 22", {"minFeeA": 1, "minFeeB": 2}, size=19, scriptFee=1)
    yield row("refused 38 OutputTooSmall at 0 min 160", {"coinsPerUTxOByte": 1}, outputs=[[key(1), 20, 0]], fee=0)
    yield row("refused 39 OutputWrongNetwork at 0", outputs=[[key(1, network=0), 20, 0]], fee=0)
    yield row("refused 40 TooManyCollateral max 3", collateral=[ref(1, 3), ref(1, 4), ref(1, 5), ref(1, 6)])
    yield row(NO_COLLATERAL, scripts="failed")
    yield row("refused 42 CollateralMissing at 0", collateral=[ref(1, 99)])
    yield row("refused 43 CollateralNotKey at 0", {"outputs": nine_is_a_script}, scripts="ok", collateral=[ref(1, 9)])
    yield row("refused 45 TreasuryValueWrong is 100", treasury=99)


def several():
    most = 2**64 - 1
    yield over_small("a donation", (transfer(2, treasury=100, fee=15, donation=5), ACCEPTED), (PRINT, printed(180, 100, 700, 1000, fees=15, donations=5)))
    yield over_small(
        "balances",
        (transfer(2, outputs=[[key(1), 21, 0]], fee=0), unbalanced(20, 21)),
        (transfer(3, outputs=[[key(1), most, 0], [key(1), most, 0]], fee=0), unbalanced(20, 36893488147419103230)),
        (transfer(4, outputs=[[key(1), 19, 0]], fee=1), ACCEPTED),
        (PRINT, printed(199, 100, 700, 1000, fees=1)),
    )
    yield over_small(
        "failed scripts",
        (transfer(2, scripts="failed", fee=4, collateral=[ref(1, 3)], collateralReturn=[key(1), 14, 0]), FAILED_SCRIPTS),
        (PRINT, printed(194, 100, 700, 1000, fees=6)),
        (transfer(4, scripts="failed", fee=4, collateral=[ref(1, 5)], collateralReturn=[key(1), 15, 0]), "refused 44 CollateralTooSmall have 5"),
    )
    certs = [{"cert": "drep-update", "cred": credential(30)}, {"cert": "x"}]
    yield answered(
        "lines that are no record",
        (b'{"kind":"tx"}', malformed("id")),
        (b"", BLANK),
        (b'{"kind":"xx"}', NO_RECORD),
        (b"[1", NO_JSON),
        (transfer(2, certs=certs), malformed("certs", 1)),
        (small(), AGAIN),
        (b" " * (LINE_LIMIT + 1), TOO_LONG),
        first=small(),
        start=SMALL_START,
    )


def over_all(name, *lines, start=ALL_START, **fields):
    return answered(name, *lines, first=small(**{**ALL, **fields}), start=start)


def with_all():
    most = 2**64 - 1
    yield begins("a genesis with a bit of all", small(**ALL), ALL_START)
    yield no_genesis("a genesis with a bit of all and 1 lovelace too few", small(**{**ALL, "reserves": 578}))
    yield over_all(
        "balances, with a bit of all",
        (transfer(2, outputs=[[key(1), 21, 0]], fee=0), unbalanced(20, 21)),
        (transfer(3, outputs=[[key(1), most, 0], [key(1), most, 0]], fee=0), unbalanced(20, 36893488147419103230)),
        (transfer(4, outputs=[[key(1), 19, 0]], fee=1), ACCEPTED),
        (PRINT, printed(199, 100, 579, 1000, fees=1, deposits=21, rewards=100)),
    )
    joining = [{"cert": "account-reg", "cred": credential(13)}, {"cert": "delegate", "cred": credential(13), "pool": hash28(50), "drep": DREPS[0]}]
    yield over_all(
        "an account comes, another withdraws and leaves, and a third has a balance",
        (transfer(2, fee=18, certs=joining), ACCEPTED),
        (transfer(3, withdrawals=[[key(10), 67]], certs=[{"cert": "account-unreg", "cred": credential(10)}], outputs=[[key(1), 69, 0]]), ACCEPTED),
        (transfer(4, certs=[{"cert": "account-unreg", "cred": credential(11)}]), refused("64 BalanceNotZero balance 33")),
        (PRINT, printed(229, 100, 579, 1000, fees=38, deposits=21, rewards=33)),
    )
    yield over_all(
        "a key that delegates to nobody, and a script that does",
        (transfer(2, withdrawals=[[key(10), 67]]), refused("52 WithdrawalNotDelegated")),
        (transfer(3, withdrawals=[[script(11), 33]], outputs=[[key(1), 33, 0]]), ACCEPTED),
        (transfer(4, withdrawals=[[script(11), 1]]), refused("53 WithdrawalNotWhole balance 0")),
        accounts=[[credential(10), 2, 67, None, None], [credential(11, "s"), 2, 33, None, None], [credential(12), 2, 0, None, None]],
    )
    yield over_all(
        "failed scripts, and a vote that is not looked at",
        (transfer(2, scripts="failed", fee=4, collateral=[ref(1, 3)], collateralReturn=[key(1), 14, 0], votes=[vote(f"drep:{DREPS[0]}", action_id(9))]), FAILED_SCRIPTS),
        (PRINT, printed(194, 100, 579, 1000, fees=6, deposits=21, rewards=100)),
        (transfer(4, scripts="failed", fee=4, collateral=[ref(1, 5)], collateralReturn=[key(1), 15, 0]), "refused 44 CollateralTooSmall have 5"),
    )


def governance():
    of_another, of_member = ({"cert": "hot-auth", "cold": credential(it), "hot": credential(it + 1)} for it in (60, 70))
    resign = {"cert": "hot-resign", "cold": credential(70)}
    yield over_all(
        "a cold key that a proposal adds, and one that resigned",
        (transfer(2, certs=[of_another]), refused("71 ColdKeyUnknown")),
        (proposing(3, proposal(committee([], [[credential(60), 50]]))), ACCEPTED),
        (transfer(4, certs=[of_another]), ACCEPTED),
        (transfer(5, certs=[resign]), ACCEPTED),
        (transfer(6, certs=[of_member]), refused("72 ColdKeyResigned")),
    )
    for rule, place, *certs in (
        ("67 DrepRegistered", 0, {"cert": "drep-reg", "cred": DREPS[0]}),
        ("62 DepositWrong want 5", 0, {"cert": "drep-reg", "cred": credential(32), "deposit": 4}),
        ("63 RefundWrong want 5", 0, {"cert": "drep-unreg", "cred": DREPS[0], "refund": 4}),
        ("66 DrepUnknown", 0, {"cert": "drep-update", "cred": credential(32)}),
        ("71 ColdKeyUnknown", 0, of_another),
        ("72 ColdKeyResigned", 1, resign, of_member),
    ):
        yield over_all(f"one rule on certificates: {rule}", (transfer(2, certs=certs), refused(rule, place)))
    yield over_all(
        "a DRep leaves, and who delegated to it does so no more",
        (transfer(2, fee=25, certs=[{"cert": "drep-unreg", "cred": DREPS[1]}]), ACCEPTED),
        (transfer(3, withdrawals=[[key(11), 33]]), refused("52 WithdrawalNotDelegated")),
    )
    motion = proposal(no_confidence())
    for rule, it in BAD_PROPOSALS.items():
        yield over_all(f"one rule on proposals: {rule}", (transfer(2, fee=10, proposals=[it]), refused(rule)))
    yield over_all("a proposal that follows another of its transaction", (transfer(2, fee=0, proposals=[motion, proposal(no_confidence(previous=action_id(2)))]), refused("90 PreviousWrong", 1)))
    yield over_all(
        "versions that follow a proposal",
        (proposing(2, proposal(hard_fork(11, 0))), ACCEPTED),
        (proposing(3, proposal(hard_fork(11, 1, previous=action_id(2)))), ACCEPTED),
        (proposing(4, proposal(hard_fork(11, 0, previous=action_id(2)))), refused("91 CannotFollow")),
    )
    for answer, voter, action in (
        (refused("100 ActionUnknown"), f"drep:{DREPS[0]}", action_id(9)),
        (refused("101 VoterUnknown"), f"drep:{credential(32)}", action_id(2)),
        (refused("101 VoterUnknown"), f"committee:{credential(77)}", action_id(2)),
        (refused("102 VoterNotAllowed"), f"committee:{credential(71)}", action_id(2)),
        (ACCEPTED, f"pool:{hash28(50)}", action_id(2)),
    ):
        yield over_all(f"one rule on votes: {answer}", (proposing(2, motion), ACCEPTED), (transfer(3, votes=[vote(voter, action)]), answer))


def cases():
    yield from one_rule_each()
    yield from several()
    yield from with_all()
    yield from governance()
