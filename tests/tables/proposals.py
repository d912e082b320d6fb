"""Proposals: each rule alone, at the second place, and beside every rule that is asked later; what
an action may follow."""

from cases import ACCEPTED, FAILED_SCRIPTS, answered, missing, pots, printed, unbalanced
from records import credential, hash28, key, ref, small, transfer, tx_id
from tables.accounts import BAD_CERTS, BAD_WITHDRAWALS, KEY, NEW, POOR, PRINT, refused, register, unregister

# a key that abstains and has 67 lovelace of rewards, and a key with none, to which deposits go back
ACCOUNTS = [[KEY, 2, 67, None, "abstain"], [POOR, 2, 0, None, None]]
FIELDS = {"accounts": ACCOUNTS, "reserves": 629}
START = pots(200, 100, 629, 1000, deposits=4, rewards=67)
UNCHANGED = printed(200, 100, 629, 1000, deposits=4, rewards=67)
SCRIPT_HASH, OTHER_HASH, COLD = hash28(8), hash28(9), credential(60)


def action_id(tx, index=0):
    return f"{tx_id(tx)}#{index}"


def no_confidence(**fields):
    return {"type": "NoConfidence", **fields}


def committee(remove=(), add=(), **fields):
    return {"type": "UpdateCommittee", "remove": list(remove), "add": list(add), "threshold": [1, 2], **fields}


def constitution(**fields):
    return {"type": "NewConstitution", "document": tx_id(2), **fields}


def hard_fork(*version, **fields):
    return {"type": "HardForkInitiation", "version": list(version), **fields}


def change(policy=None, **update):
    return {"type": "ParameterChange", "update": update, "policy": policy}


def withdraw(*targets, policy=None):
    return {"type": "TreasuryWithdrawals", "targets": list(targets), "policy": policy}


INFO = {"type": "Info"}


def proposal(action, deposit=10, back=key(12)):
    """A proposal of an action with its deposit, which goes back to the account of key 12."""
    return {"deposit": deposit, "return": back, "action": action}


GOOD = proposal(INFO)
# what breaks one rule and no other
BAD_ACTIONS = {
    "83 UpdateMalformed": change(poolDeposit=0),
    "84 PolicyWrong": change(OTHER_HASH, nOpt=1),
    "85 TargetWrongNetwork": withdraw([key(12, network=0), 1]),
    "86 TargetUnknown": withdraw([key(13), 1]),
    "87 ZeroWithdrawal": withdraw([key(12), 0]),
    "88 ConflictingUpdate": committee([COLD], [[COLD, 5]]),
    "89 TermTooSmall": committee([], [[COLD, 0]]),
    "90 PreviousWrong": no_confidence(previous=action_id(9)),
    "91 CannotFollow": hard_fork(10, 2),
}
BAD_PROPOSALS = {
    "80 ProposalDepositWrong want 10": proposal(INFO, deposit=9),
    "81 ReturnWrongNetwork": proposal(INFO, back=key(12, network=0)),
    "82 ReturnAccountUnknown": proposal(INFO, back=key(13)),
    **{rule: proposal(it) for rule, it in BAD_ACTIONS.items()},
}


def over_accounts(name, *lines, start=START, **fields):
    """A genesis with these accounts, and further lines."""
    return answered(name, *lines, first=small(**{**FIELDS, **fields}), start=start)


def proposing(n, *proposals, **fields):
    """Transaction n with these proposals, whose deposits its fee leaves."""
    return transfer(n, proposals=list(proposals), **{"fee": 20 - sum(it["deposit"] for it in proposals), **fields})


def alone():
    many, some = [credential(n) for n in range(60, 69, 2)], [credential(63), 5]
    both = [committee(removed, [some, [it, 5]]) for removed in (many, many[::-1], many[2:] + many[:2]) for it in many]
    neither = [committee(removed, [some, [credential(64, "s"), 5]]) for removed in (many, many[::-1], many[2:] + many[:2])]
    yield over_accounts(
        "a proposal that breaks one rule",
        *((transfer(2, proposals=[it]), refused(rule)) for rule, it in BAD_PROPOSALS.items()),
        *((transfer(2, proposals=[GOOD, it]), refused(rule, 1)) for rule, it in BAD_PROPOSALS.items()),
        (transfer(2, proposals=[proposal(INFO, deposit=11)]), refused("80 ProposalDepositWrong want 10")),
        (transfer(2, proposals=[proposal(change())]), refused("83 UpdateMalformed"), "an empty update"),
        (transfer(2, proposals=[proposal(withdraw([key(12), 1], policy=OTHER_HASH))]), refused("84 PolicyWrong")),
        (transfer(2, proposals=[proposal(withdraw([key(12), 1], [key(12, network=0), 1]))]), refused("85 TargetWrongNetwork"), "the second target"),
        (transfer(2, proposals=[proposal(withdraw([key(12), 1], [key(13), 1]))]), refused("86 TargetUnknown")),
        (transfer(2, proposals=[proposal(withdraw([key(12), 0], [key(10), 0]))]), refused("87 ZeroWithdrawal")),
        (transfer(2, proposals=[proposal(withdraw())]), refused("87 ZeroWithdrawal"), "no target"),
        (transfer(2, proposals=[proposal(committee([credential(61), COLD], [[credential(62), 5], [COLD, 5]]))]), refused("88 ConflictingUpdate")),
        *((transfer(2, proposals=[proposal(it)]), refused("88 ConflictingUpdate"), "the removed stand in order, or not") for it in both),
        *((transfer(2, proposals=[proposal(it)]), unbalanced(20, 30), "nobody is both removed and added") for it in neither),
        (transfer(2, proposals=[proposal(committee([], [[credential(61), 1], [COLD, 0]]))]), refused("89 TermTooSmall")),
        (transfer(2, proposals=[proposal(hard_fork(12, 0))]), refused("91 CannotFollow")),
        (transfer(2, proposals=[proposal(hard_fork(11, 1))]), refused("91 CannotFollow")),
        (transfer(2, proposals=[proposal(hard_fork(10, 0))]), refused("91 CannotFollow")),
        (PRINT, UNCHANGED, "nothing has changed"),
    )


def at_one_place():
    """Two rules broken by one proposal: the smaller number is told."""
    pairs = {
        "83 UpdateMalformed": [change(OTHER_HASH), {**change(poolDeposit=0), "previous": action_id(9)}],
        "84 PolicyWrong": [
            withdraw([key(12, network=0), 1], policy=OTHER_HASH),
            withdraw([key(13), 1], policy=OTHER_HASH),
            withdraw([key(12), 0], policy=OTHER_HASH),
            {**change(OTHER_HASH, nOpt=1), "previous": action_id(9)},
        ],
        "85 TargetWrongNetwork": [withdraw([key(13, network=0), 1]), withdraw([key(13), 1], [key(12, network=0), 1]), withdraw([key(12, network=0), 0])],
        "86 TargetUnknown": [withdraw([key(13), 0])],
        "88 ConflictingUpdate": [committee([COLD], [[COLD, 0]]), committee([COLD], [[COLD, 5]], previous=action_id(9))],
        "89 TermTooSmall": [committee([], [[COLD, 0]], previous=action_id(9))],
    }
    yield over_accounts(
        "of two rules on one proposal",
        *((transfer(2, proposals=[proposal(it)]), refused(rule)) for rule, actions in pairs.items() for it in actions),
        *((transfer(2, proposals=[proposal(it, deposit=9)]), refused("80 ProposalDepositWrong want 10")) for it in BAD_ACTIONS.values()),
        *((transfer(2, proposals=[proposal(it, back=key(12, network=0))]), refused("81 ReturnWrongNetwork")) for it in BAD_ACTIONS.values()),
        *((transfer(2, proposals=[proposal(it, back=key(13))]), refused("82 ReturnAccountUnknown")) for it in BAD_ACTIONS.values()),
        (transfer(2, proposals=[proposal(INFO, 9, key(13, network=0))]), refused("80 ProposalDepositWrong want 10")),
        (transfer(2, proposals=[proposal(INFO, 9, key(13))]), refused("80 ProposalDepositWrong want 10")),
        (transfer(2, proposals=[proposal(INFO, 10, key(13, network=0))]), refused("81 ReturnWrongNetwork")),
    )


def at_two_places():
    yield over_accounts(
        "of two rules the first proposal's is told",
        *((transfer(2, proposals=[one, other]), refused(rule)) for rule, one in BAD_PROPOSALS.items() for other in BAD_PROPOSALS.values()),
    )
    yield over_accounts(
        "proposals come after withdrawals and certificates, and before the balance",
        *((transfer(2, withdrawals=[one], proposals=[it]), refused(rule)) for rule, one in BAD_WITHDRAWALS.items() if one[0] in (key(10), key(13)) for it in BAD_PROPOSALS.values()),
        *((transfer(2, certs=[register(KEY)], proposals=[it]), refused("60 AccountRegistered")) for it in BAD_PROPOSALS.values()),
        *((transfer(2, fee=1, proposals=[it]), refused(rule)) for rule, it in BAD_PROPOSALS.items()),
        *((transfer(2, inputs=[ref(9, 9)], proposals=[it]), missing()) for it in BAD_PROPOSALS.values()),
        *((transfer(2, treasury=99, proposals=[it]), "refused 45 TreasuryValueWrong is 100") for it in BAD_PROPOSALS.values()),
    )


def accepted():
    yield over_accounts(
        "an action of each type",
        (proposing(2, proposal(no_confidence())), ACCEPTED),
        (proposing(3, proposal(committee([credential(70)], [[COLD, 1]]))), ACCEPTED),
        (proposing(4, proposal(constitution(script=SCRIPT_HASH))), ACCEPTED),
        (proposing(5, proposal(hard_fork(10, 1)), proposal(hard_fork(11, 0))), ACCEPTED),
        (proposing(6, proposal(change(nOpt=0, poolDeposit=1))), ACCEPTED),
        (proposing(7, proposal(withdraw([key(12), 1], [key(10), 0]))), ACCEPTED),
        (proposing(8, GOOD), ACCEPTED),
        (PRINT, printed(60, 100, 629, 1000, fees=60, deposits=84, rewards=67)),
    )
    yield over_accounts(
        "proposals are paid for",
        (transfer(2, proposals=[GOOD]), unbalanced(20, 30)),
        (transfer(2, proposals=[GOOD, GOOD], fee=1), unbalanced(20, 21)),
        (transfer(2, proposals=[GOOD, GOOD], fee=0), ACCEPTED),
        (PRINT, printed(180, 100, 629, 1000, deposits=24, rewards=67)),
    )
    yield over_accounts(
        "no deposit",
        (transfer(2, proposals=[GOOD]), refused("80 ProposalDepositWrong want 0")),
        (transfer(2, proposals=[proposal(INFO, deposit=0)] * 3), ACCEPTED),
        (PRINT, printed(180, 100, 629, 1000, fees=20, deposits=4, rewards=67)),
        govActionDeposit=0,
    )
    yield over_accounts(
        "the constitution's script is the policy",
        (transfer(2, proposals=[proposal(change(nOpt=1))]), refused("84 PolicyWrong")),
        (transfer(2, proposals=[proposal(withdraw([key(12), 1]))]), refused("84 PolicyWrong")),
        (proposing(2, proposal(change(SCRIPT_HASH, nOpt=1)), proposal(withdraw([key(12), 1], policy=SCRIPT_HASH))), ACCEPTED),
        (proposing(3, proposal(no_confidence())), ACCEPTED, "it is asked of no other type"),
        script=SCRIPT_HASH,
    )


def lineage():
    yield over_accounts(
        "what an action may follow",
        (proposing(2, proposal(no_confidence()), proposal(constitution())), ACCEPTED),
        (proposing(3, proposal(no_confidence(previous=action_id(2)))), ACCEPTED),
        (proposing(4, proposal(committee([], [[COLD, 5]], previous=action_id(2)))), ACCEPTED, "both have the committee as their purpose"),
        (transfer(5, proposals=[proposal(constitution(previous=action_id(2)))]), refused("90 PreviousWrong"), "a parent of another purpose"),
        (transfer(5, proposals=[proposal(no_confidence(previous=action_id(2, 1)))]), refused("90 PreviousWrong")),
        (transfer(5, proposals=[proposal(no_confidence(previous=action_id(2, 2)))]), refused("90 PreviousWrong")),
        (transfer(5, proposals=[GOOD, proposal(constitution(previous=action_id(5)))]), refused("90 PreviousWrong", 1)),
        (proposing(5, proposal(constitution(previous=action_id(2, 1)))), ACCEPTED),
        (proposing(6, proposal(no_confidence(previous=action_id(3))), proposal(no_confidence())), ACCEPTED),
    )
    yield over_accounts(
        "no proposal follows one of its own transaction",
        (transfer(2, proposals=[proposal(no_confidence()), proposal(no_confidence(previous=action_id(2)))]), refused("90 PreviousWrong", 1)),
        (proposing(2, proposal(no_confidence())), ACCEPTED),
        (proposing(3, proposal(no_confidence(previous=action_id(2)))), ACCEPTED),
    )
    yield over_accounts(
        "versions",
        (proposing(2, proposal(hard_fork(11, 0))), ACCEPTED),
        (proposing(3, proposal(hard_fork(11, 1, previous=action_id(2)))), ACCEPTED),
        (transfer(4, proposals=[proposal(hard_fork(11, 0, previous=action_id(2)))]), refused("91 CannotFollow")),
        (transfer(4, proposals=[proposal(hard_fork(10, 1, previous=action_id(2)))]), refused("91 CannotFollow")),
        (transfer(4, proposals=[proposal(hard_fork(11, 1, previous=action_id(3)))]), refused("91 CannotFollow")),
        (transfer(4, proposals=[proposal(hard_fork(11, 2, previous=action_id(9)))]), refused("90 PreviousWrong")),
        (proposing(4, proposal(hard_fork(11, 2, previous=action_id(3)))), ACCEPTED),
        (proposing(5, proposal(hard_fork(12, 0, previous=action_id(3)))), ACCEPTED),
        (proposing(6, proposal(hard_fork(10, 1))), ACCEPTED, "one that follows the current version"),
    )


def draft():
    """Registrations are those after the transaction's certificates."""
    yield over_accounts(
        "accounts that come and go in the same transaction",
        (transfer(2, certs=[register(NEW)], proposals=[proposal(INFO, back=key(13))], fee=8), ACCEPTED),
        (transfer(3, certs=[unregister(POOR)], proposals=[GOOD], fee=12), refused("82 ReturnAccountUnknown")),
        (transfer(3, certs=[unregister(POOR)], proposals=[proposal(withdraw([key(12), 1]), back=key(13))], fee=12), refused("86 TargetUnknown")),
        (transfer(3, certs=[unregister(NEW), register(NEW)], proposals=[proposal(withdraw([key(13), 1]))], fee=10), ACCEPTED),
        (PRINT, printed(160, 100, 629, 1000, fees=18, deposits=26, rewards=67)),
    )
    yield over_accounts(
        "failed scripts propose nothing",
        (transfer(2, scripts="failed", fee=0, collateral=[ref(1, 3)], proposals=[*BAD_PROPOSALS.values(), GOOD]), FAILED_SCRIPTS),
        (transfer(3, inputs=[ref(1, 4)], scripts="failed", fee=0, collateral=[ref(1, 5)], proposals=[proposal(no_confidence())]), FAILED_SCRIPTS),
        (transfer(6, proposals=[proposal(no_confidence(previous=action_id(3)))]), refused("90 PreviousWrong")),
        (PRINT, printed(160, 100, 629, 1000, fees=40, deposits=4, rewards=67)),
    )
    yield over_accounts(
        "a refused transaction proposes nothing",
        (transfer(2, proposals=[proposal(no_confidence()), BAD_PROPOSALS["91 CannotFollow"]]), refused("91 CannotFollow", 1)),
        (transfer(2, proposals=[proposal(no_confidence())], fee=11), unbalanced(20, 21)),
        (transfer(3, proposals=[proposal(no_confidence(previous=action_id(2)))]), refused("90 PreviousWrong")),
        (PRINT, UNCHANGED),
    )


def cases():
    yield from alone()
    yield from at_one_place()
    yield from at_two_places()
    yield from accepted()
    yield from lineage()
    yield from draft()
