"""Withdrawals, certificates, proposals and votes of a transaction: what reads, names that stand
twice, and when their rules are asked."""

from cases import ACCEPTED, FAILED_SCRIPTS, NOT_WITNESSED, USED, answered, malformed, missing, unbalanced
from records import credential, hash28, key, ref, script, text, transfer, tx_id
from tables.accounts import refused
from tables.proposals import over_accounts

CERTS = [{"cert": "drep-update", "cred": credential(5)}]
PROPOSALS = [{"deposit": 10, "return": key(12), "action": {"type": "Info"}}]
VOTES = [{"voter": "drep:" + credential(30), "action": ref(2, 0), "vote": "yes"}]
PARTS = {"certs": CERTS, "proposals": PROPOSALS, "votes": VOTES}
LISTS = ["withdrawals", *PARTS]
UNKNOWN_DREP, UNKNOWN_RETURN, UNKNOWN_ACTION = "66 DrepUnknown", "82 ReturnAccountUnknown", "100 ActionUnknown"

# one of each certificate of a DRep or a cold key, of each action, and of each vote, as a writer of
# records would have it; with what a ledger with no account, no DRep and no proposal answers. Its
# member 70 has a hot key
EACH_CERT = [
    ({"cert": "drep-reg", "cred": credential(30), "deposit": None}, unbalanced(20, 24)),
    ({"cert": "drep-unreg", "cred": credential(30, "s"), "refund": 5}, refused(UNKNOWN_DREP)),
    ({"cert": "drep-update", "cred": credential(30)}, refused(UNKNOWN_DREP)),
    ({"cert": "hot-auth", "cold": credential(70), "hot": credential(71, "s")}, unbalanced(20, 19)),
    ({"cert": "hot-resign", "cold": credential(70)}, unbalanced(20, 19)),
]
EACH_ACTION = [
    {"type": "NoConfidence", "previous": ref(2, 0)},
    {"type": "UpdateCommittee", "remove": [credential(70)], "add": [[credential(72), 50], [credential(72, "s"), 50]], "threshold": [1, 2]},
    {"type": "NewConstitution", "document": tx_id(2), "script": hash28(9)},
    {"type": "HardForkInitiation", "version": [10, 1]},
    {"type": "ParameterChange", "update": {"minFeeA": 44, "drepVotingThresholds": [[1, 2]] * 10}, "policy": hash28(9)},
    {"type": "ParameterChange", "update": {}},
    {"type": "TreasuryWithdrawals", "targets": [[key(12), 50], [script(12), 50], [key(12, network=0), 0]], "policy": None},
    {"type": "Info"},
]
EACH_VOTE = [
    {"voter": "committee:" + credential(71), "action": ref(2, 65535), "vote": "yes"},
    {"voter": "drep:" + credential(30, "s"), "action": ref(2, 0), "vote": "no"},
    {"voter": "pool:" + hash28(50), "action": ref(2, 0), "vote": "abstain"},
]


def reading():
    certs = [it for it, _ in EACH_CERT]
    proposals = [{"deposit": 10, "return": key(12), "action": it} for it in EACH_ACTION]
    withdrawals = [[key(10), 0], [script(10), 1], [key(10, network=0), 2]]
    yield answered(
        "each certificate, action and vote reads",
        *((transfer(2, fee=19, certs=[it]), answer) for it, answer in EACH_CERT),
        *((transfer(2, proposals=[it]), refused(UNKNOWN_RETURN)) for it in proposals),
        *((transfer(2, votes=[it]), refused(UNKNOWN_ACTION)) for it in EACH_VOTE),
        (transfer(2, withdrawals=withdrawals, certs=certs, proposals=proposals, votes=EACH_VOTE), refused("51 WithdrawalNoAccount")),
        (transfer(2, certs=certs, proposals=proposals, votes=EACH_VOTE), refused(UNKNOWN_DREP, 1)),
        (transfer(2, proposals=proposals, votes=EACH_VOTE), refused(UNKNOWN_RETURN)),
        (transfer(2, certs=certs[3:4] * 2, votes=EACH_VOTE * 2), refused(UNKNOWN_ACTION), "these may be there twice"),
        (transfer(1, certs=certs * 2, proposals=proposals * 2, votes=EACH_VOTE * 2), USED, "these too"),
        (transfer(2), ACCEPTED, "nothing has changed"),
    )
    yield answered(
        "what does not read comes before every rule",
        (transfer(1, fee="20", **PARTS), malformed("fee")),
        (transfer(1, **{**PARTS, "withdrawals": [[key(10), 67], [key(11), 67], [key(10), 67]]}), malformed("withdrawals", 2)),
        (transfer(1, **{**PARTS, "certs": [*certs, {"cert": "x"}]}), malformed("certs", len(certs))),
        (transfer(1, **{**PARTS, "proposals": [{**PROPOSALS[0], "action": {"type": "info"}}]}), malformed("proposals", 0)),
        (transfer(1, **{**PARTS, "votes": [*EACH_VOTE, {**VOTES[0], "vote": "Yes"}]}), malformed("votes", 3)),
        (transfer(2), ACCEPTED),
    )


def order():
    yield answered(
        "these parts come after the rules on id, witnesses and inputs, and not at all where the scripts failed",
        *((transfer(1, **{name: it}), USED) for name, it in PARTS.items()),
        *((transfer(2, witnessed=False, inputs=[], fee=0, size=2**32 - 1, scripts="ok", **{name: it}), NOT_WITNESSED) for name, it in PARTS.items()),
        *((transfer(n, fee=0, scripts="failed", collateral=[ref(1, 10 + n)], **{name: it}), FAILED_SCRIPTS) for n, (name, it) in enumerate(PARTS.items(), 2)),
        (transfer(5, fee=0, scripts="failed", collateral=[ref(1, 15)], **PARTS), FAILED_SCRIPTS),
        (transfer(6, **PARTS), refused(UNKNOWN_DREP)),
        (transfer(6, proposals=PROPOSALS, votes=VOTES), refused(UNKNOWN_RETURN)),
        (transfer(6, votes=VOTES), refused(UNKNOWN_ACTION)),
        (transfer(6), ACCEPTED),
    )
    yield answered(
        "parts that are empty are as none",
        *((transfer(n, **{name: []}), ACCEPTED) for n, name in enumerate(LISTS, 2)),
        *((transfer(n, **{name: None}), ACCEPTED) for n, name in enumerate(LISTS, 12)),
        (transfer(22, **{name: [] for name in LISTS}), ACCEPTED),
        (transfer(22, **{name: [] for name in LISTS}), USED),
        (transfer(23, inputs=[ref(9, 9)], **{name: [] for name in LISTS}), missing()),
    )


# The same account, credential or target again, and what only looks like it.
def repetitions():
    def withdrawing(*accounts):
        return transfer(2, withdrawals=[[it, n] for n, it in enumerate(accounts)])

    def rewarding(*credentials):
        return text({"kind": "rewards", "epoch": 0, "fromReserves": 0, "fromFees": 0, "toTreasury": 0, "rewards": [[it, n] for n, it in enumerate(credentials)]})

    def proposing(**action):
        return transfer(2, proposals=[*PROPOSALS, {**PROPOSALS[0], "action": action}])

    def committee(remove, add):
        return proposing(type="UpdateCommittee", remove=remove, add=[[it, n] for n, it in enumerate(add)], threshold=[0, 1])

    def targets(*accounts):
        return proposing(type="TreasuryWithdrawals", targets=[[it, n] for n, it in enumerate(accounts)])

    low, up = "ab" * 28, "AB" * 28
    bad = malformed("proposals", 1)
    yield over_accounts(
        "names that stand twice",
        (withdrawing(key(1), key(2), key(1)), malformed("withdrawals", 2)),
        (withdrawing("1k" + low, "1k" + up), malformed("withdrawals", 1)),
        (withdrawing(key(1), key(1), key(2), key(2)), malformed("withdrawals", 1)),
        (withdrawing(key(1), script(1), key(1, network=0), script(1, network=0)), refused("51 WithdrawalNoAccount")),
        (rewarding(credential(1), credential(2), credential(2)), malformed("rewards", 2)),
        (rewarding("s" + low, "s" + up), malformed("rewards", 1)),
        (rewarding(credential(1), credential(1, "s")), "refused 22 RewardsNotBalanced in 0 out 1"),
        (committee([credential(1), credential(1)], []), bad),
        (committee(["k" + low, credential(1), "k" + up], []), bad),
        (committee([], [credential(1), credential(2), credential(1)]), bad),
        (committee([], ["k" + low, "k" + up]), bad),
        (committee([credential(1), credential(1, "s")], [credential(1), credential(1, "s")]), refused("88 ConflictingUpdate", 1), "removed and added: that is a rule's matter"),
        (committee([credential(1), credential(2)], [credential(1, "s"), credential(2, "s")]), refused("89 TermTooSmall", 1), "the scripts of the same hashes; the first term is 0"),
        (targets(key(1), key(2), key(1)), bad),
        (targets("1s" + low, "1s" + up), bad),
        (targets(key(1), script(1), key(1, network=0)), refused("85 TargetWrongNetwork", 1)),
        (targets(key(12), script(12)), refused("86 TargetUnknown", 1)),
        (transfer(2), ACCEPTED),
    )


def updates():
    """Updates of parameters."""

    def changing(**update):
        return transfer(2, proposals=[{**PROPOSALS[0], "action": {"type": "ParameterChange", "update": update}}])

    bad, nothing, allowed = malformed("proposals", 0), refused("83 UpdateMalformed"), unbalanced(20, 30)
    yield over_accounts(
        "updates of parameters",
        (changing(), nothing),
        (changing(minFeeA=None, prices=None), nothing, "null is absent"),
        (changing(maxTxSize=0, poolDeposit=0), nothing, "what may not be 0 is a rule's matter"),
        (changing(minFeeA=44, minFeeB=155381), allowed),
        (changing(minFeeA=44, minFeeC=155381), bad, "no parameter"),
        (changing(minFeeA=44, minFeeC=None), bad, "nor where it is null"),
        (changing(minfeea=44), bad),
        (changing(**{"": 0}), bad),
        (changing(rho=[3, 2]), bad),
        (changing(a0=[3, 2]), allowed, "a ratio may be above 1"),
        (transfer(2), ACCEPTED),
    )


def cases():
    yield from reading()
    yield from order()
    yield from repetitions()
    yield from updates()
