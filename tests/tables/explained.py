"""What `explain` writes: every rule that a record breaks, everything that is wrong with a genesis,
what of a malformed line is not of its shape, and the names that nobody reads. Each line has an
answer for each of these, and none where it is accepted and has only names that are read."""

from cases import BLANK, Case, answered, malformed, text_of
from records import ABSENT, GENESIS, GREATEST, LINE_LIMIT, SUPPLY_LIMIT, but, credential, genesis, hash28, key, ref, script, small, text, transfer, tx_id

TWELVE, THIRTEEN = credential(12), credential(13)
UNKNOWN = credential(99)
# accounts that delegate to a DRep, to another one, and to nobody; a pool; a member with a hot key
ALL = {
    "accounts": [[credential(10), 2, 67, None, credential(30)], [credential(11), 2, 33, None, credential(31)], [TWELVE, 2, 0, None, None]],
    "pools": [[hash28(50), 5, 0, 0, [0, 1], key(12)]],
    "dreps": [[credential(30), 5, 20], [credential(31), 5, 20]],
    "reserves": 579,
}
# lines that are no JSON value, each with the place of the first byte that no JSON text has there
NO_JSON = (
    (b"x", 0),
    (b" {", 2),
    (b"7 7", 2),
    (b"01", 1),
    (b"-x", 1),
    (b"1.e", 2),
    (b"1e+", 3),
    (b"1e400", 5),
    (b"trux", 3),
    (b"[1,]", 3),
    (b'["a" 1]', 5),
    (b'{"a" 1}', 5),
    (b'{"a":1,}', 7),
    (b"{}}", 2),
    (b"[" * 128 + b"]" * 128, 127),
    (b'"a\x01"', 2),
    (b'"\\x', 2),
    (b'"\\udc00"', 4),
    (b'"\\ud800x', 7),
    (b'"\\ud800\\u0041"', 9),
    (b'"\xe0\x80', 2),
    (b'"\xff"', 1),
)


def refused(*rules):
    """A line for each rule, and as they are those of shapes and names."""
    return [it if it.startswith(("malformed ", "unknown ")) else f"refused {it}" for it in rules]


def unbalanced(consumed, produced):
    return f"110 NotBalanced consumed {consumed} produced {produced}"


def explained(name, *lines, **fields):
    """Lines behind a small genesis, each with the rules that it breaks."""
    told = ((line, refused(*broken), *note) for line, broken, *note in lines)
    return answered(name, *told, first=small(**fields), start=BLANK)._replace(words=("explain",))


def at_first():
    yield explained(
        "ids, witnesses, inputs, size, slots, fee and balance",
        (transfer(2), ()),
        (
            transfer(2, inputs=[], witnessed=False, size=16385, until=0, fee=16384),
            ("30 TxIdUsed", "31 NotWitnessed", "32 NoInputs", "35 TxTooLarge max 16384", "36 OutsideValidity slot 0", "37 FeeTooSmall min 16385", unbalanced(0, 16384)),
        ),
        (transfer(3, inputs=[ref(9, 9), ref(1, 3), ref(9, 9), ref(1, 3)], fee=40), ("33 InputMissing at 0", "33 InputMissing at 2", "34 InputRepeated at 2", "34 InputRepeated at 3"), "an input that is twice counts twice"),
        (transfer(3, inputs=[ref(9, 9), ref(1, 3)], fee=40), ("33 InputMissing at 0", unbalanced(20, 40)), "a missing input counts as 0"),
        (transfer(3, inputs=[ref(1, 2)], fee=0), ("33 InputMissing at 0",)),
        (transfer(3), (), "nothing that is refused changes the ledger"),
        minFeeA=1,
    )
    yield explained(
        "outputs and the collateral return",
        (
            transfer(2, outputs=[[key(1), 5, 0], [key(1, network=0), 200, 41], [key(1), 161, 1]], collateralReturn=[key(1, network=0), 1, 0], fee=0),
            ("38 OutputTooSmall at 0 min 160", "38 OutputTooSmall at 1 min 201", "39 OutputWrongNetwork at 1", "38 OutputTooSmall at 3 min 160", "39 OutputWrongNetwork at 3", unbalanced(20, 366)),
        ),
        coinsPerUTxOByte=1,
    )


def collateral():
    by_script = [[ref(1, i), script(1) if i == 1 else key(1), 20, *([[[hash28(5), "", 3]]] if i == 4 else [])] for i in range(10)]
    yield explained(
        "collateral",
        (transfer(2, scripts="ok"), ("41 NoCollateral", "44 CollateralTooSmall have 0")),
        (
            transfer(2, scripts="ok", collateral=[ref(9, 9), ref(1, 1), ref(9, 9), ref(1, 1)]),
            ("40 TooManyCollateral max 3", "42 CollateralMissing at 0", "43 CollateralNotKey at 1", "42 CollateralMissing at 2", "42 CollateralMissing at 3", "43 CollateralNotKey at 3"),
            "what is twice counts twice: 40 of lovelace are enough",
        ),
        (transfer(2, scripts="ok", collateral=[ref(1, 4)], collateralReturn=[key(1), 21, 0]), ("44 CollateralTooSmall have 0", "46 CollateralAssetsWrong")),
        (transfer(2, collateral=[ref(9, 9)], collateralReturn=[key(1), 21, 0]), ("42 CollateralMissing at 0",), "without scripts its sum, its keys and its assets are free"),
        (
            transfer(2, scripts="failed", collateral=[ref(1, 1)], treasury=1, withdrawals=[[key(99), 7]], certs=[{"cert": "drep-update", "cred": UNKNOWN}], fee=30),
            ("43 CollateralNotKey at 0", "44 CollateralTooSmall have 20"),
            "the rest is not tried where scripts failed",
        ),
        outputs=by_script,
    )


def assets():
    policy = hash28(5)
    yield explained(
        "each asset that is not even",
        (
            transfer(2, inputs=[ref(1, 0), ref(9, 0)], outputs=[[key(1), 20, 0, [[policy, "aa", 4], [policy, "bb", 1]]]], mint=[[policy, "", -2], [policy, "cc", 1]], fee=0),
            ("33 InputMissing at 1", "111 AssetNotBalanced at 0 consumed 3 produced 2", "111 AssetNotBalanced at 1 consumed 5 produced 4", "111 AssetNotBalanced at 3 consumed 1 produced 0"),
            "the third one is even",
        ),
        outputs=[[ref(1, i), key(1), 20, [[policy, "", 3], [policy, "aa", 5], [policy, "bb", 1]]] for i in range(10)],
    )


def withdrawals():
    yield explained(
        "withdrawals",
        (transfer(2, withdrawals=[[key(99), 7]]), ("51 WithdrawalNoAccount at 0", "53 WithdrawalNotWhole at 0 balance 0", unbalanced(27, 20))),
        (transfer(2, withdrawals=[[key(99, network=0), 0]]), ("50 WithdrawalWrongNetwork at 0", "51 WithdrawalNoAccount at 0")),
        (
            transfer(2, withdrawals=[[key(10), 66], [key(12), 1], [key(11, network=0), 33]], fee=120),
            ("53 WithdrawalNotWhole at 0 balance 67", "52 WithdrawalNotDelegated at 1", "53 WithdrawalNotWhole at 1 balance 0", "50 WithdrawalWrongNetwork at 2"),
        ),
        (
            transfer(2, withdrawals=[[key(10), 66]], certs=[{"cert": "account-unreg", "cred": credential(10)}], fee=88),
            ("53 WithdrawalNotWhole at 0 balance 67",),
            "the draft has no balance there, though another amount is withdrawn",
        ),
        **ALL,
    )


def certs():
    pool = {"cert": "pool-reg", "pool": hash28(51), "cost": 0, "pledge": 0, "margin": [0, 1], "account": key(12)}
    yield explained(
        "a certificate that breaks a rule changes nothing, and its amounts count",
        (
            transfer(2, certs=[{"cert": "account-unreg", "cred": credential(10)}] * 2),
            ("64 BalanceNotZero at 0 balance 67", "64 BalanceNotZero at 1 balance 67", unbalanced(24, 20)),
        ),
        (
            transfer(2, certs=[{"cert": "account-unreg", "cred": TWELVE, "refund": 3}, {"cert": "account-unreg", "cred": TWELVE}, {"cert": "account-unreg", "cred": TWELVE}], fee=24),
            ("63 RefundWrong at 0 want 2", "61 AccountUnknown at 2"),
            "it leaves by the second one, and the third gives nothing back",
        ),
        (
            transfer(2, certs=[{"cert": "account-reg", "cred": THIRTEEN, "deposit": 1, "drep": UNKNOWN}, {"cert": "delegate", "cred": THIRTEEN, "pool": hash28(99), "drep": "abstain"}, {"cert": "account-reg", "cred": THIRTEEN}], fee=16),
            ("62 DepositWrong at 0 want 2", "66 DrepUnknown at 0", "61 AccountUnknown at 1", "65 PoolUnknown at 1"),
            "two deposits of 2 are paid",
        ),
        (
            transfer(2, certs=[{"cert": "account-reg", "cred": TWELVE, "deposit": 1, "pool": hash28(99), "drep": UNKNOWN}]),
            ("60 AccountRegistered at 0", "62 DepositWrong at 0 want 2", "65 PoolUnknown at 0", "66 DrepUnknown at 0", unbalanced(20, 22)),
        ),
        (
            transfer(2, certs=[{"cert": "drep-reg", "cred": credential(30), "deposit": 6}, {"cert": "drep-unreg", "cred": credential(30), "refund": 4}, {"cert": "drep-unreg", "cred": UNKNOWN, "refund": 4}, {"cert": "drep-update", "cred": UNKNOWN}]),
            ("62 DepositWrong at 0 want 5", "67 DrepRegistered at 0", "63 RefundWrong at 1 want 5", "66 DrepUnknown at 2", "66 DrepUnknown at 3"),
            "one deposit is paid, and one comes back",
        ),
        (
            transfer(2, certs=[{**pool, "cost": 6, "account": key(12, network=0)}, {**pool, "cost": 6}, {**pool, "cost": 7}, pool]),
            ("68 PoolCostTooLow at 0 min 7", "69 PoolWrongNetwork at 0", "68 PoolCostTooLow at 1 min 7", "68 PoolCostTooLow at 3 min 7", unbalanced(20, 35)),
            "a deposit is due until it is registered",
        ),
        (
            transfer(2, certs=[{"cert": "pool-retire", "pool": hash28(52), "epoch": 0}, {"cert": "pool-retire", "pool": hash28(50), "epoch": 19}]),
            ("65 PoolUnknown at 0", "70 RetirementEpochWrong at 0 now 0", "70 RetirementEpochWrong at 1 now 0"),
        ),
        (
            transfer(2, certs=[{"cert": "hot-resign", "cold": UNKNOWN}, {"cert": "hot-resign", "cold": credential(70)}, {"cert": "hot-auth", "cold": credential(70), "hot": credential(72)}, {"cert": "hot-auth", "cold": UNKNOWN, "hot": credential(72)}]),
            ("71 ColdKeyUnknown at 0", "72 ColdKeyResigned at 2", "71 ColdKeyUnknown at 3"),
        ),
        (transfer(2), ()),
        **{**ALL, "minPoolCost": 7},
    )
    keyed = {**pool, "key": tx_id(7)}
    yield explained(
        "keys of pools",
        (
            transfer(2, certs=[{**keyed, "account": key(12, network=0)}, {**keyed, "pool": hash28(52)}, keyed], fee=5),
            ("69 PoolWrongNetwork at 0", "73 PoolKeyInUse at 2"),
            "the first pool has no key, since it is not registered, and two deposits more are due",
        ),
        version=[11, 0],
    )


def proposals():
    hard_fork = {"type": "HardForkInitiation", "version": [12, 5]}
    update = {"type": "ParameterChange", "update": {}, "policy": hash28(9)}
    taking = {"type": "TreasuryWithdrawals", "targets": [[key(12, network=0), 0], [key(99), 0]], "policy": hash28(9)}
    members = {"type": "UpdateCommittee", "previous": ref(9, 0), "remove": [credential(70)], "add": [[credential(70), 0]], "threshold": [0, 1]}
    good = {"deposit": 10, "return": key(12)}
    yield explained(
        "proposals and votes",
        (
            transfer(2, certs=[{"cert": "account-reg", "cred": THIRTEEN, "drep": UNKNOWN}], proposals=[{"deposit": 9, "return": key(13, network=0), "action": {"type": "Info"}}], fee=9),
            ("66 DrepUnknown at 0", "80 ProposalDepositWrong at 0 want 10", "81 ReturnWrongNetwork at 0", "82 ReturnAccountUnknown at 0"),
            "the account is not registered, and its deposit counts",
        ),
        (
            transfer(2, proposals=[{**good, "action": it} for it in (hard_fork, {**hard_fork, "previous": ref(9, 0)}, update, taking, members)]),
            (
                *("91 CannotFollow at 0", "90 PreviousWrong at 1", "83 UpdateMalformed at 2", "84 PolicyWrong at 2"),
                *("84 PolicyWrong at 3", "85 TargetWrongNetwork at 3", "86 TargetUnknown at 3", "87 ZeroWithdrawal at 3"),
                *("88 ConflictingUpdate at 4", "89 TermTooSmall at 4", "90 PreviousWrong at 4", unbalanced(20, 70)),
            ),
            "what follows nothing has no version to follow",
        ),
        (transfer(2, proposals=[{**good, "action": {"type": "NoConfidence"}}], fee=10), ()),
        (
            transfer(3, votes=[{"voter": "committee:" + credential(71), "action": ref(9, 0), "vote": "yes"}, {"voter": "drep:" + UNKNOWN, "action": ref(9, 0), "vote": "no"}, {"voter": "committee:" + UNKNOWN, "action": ref(2, 0), "vote": "no"}]),
            ("100 ActionUnknown at 0", "100 ActionUnknown at 1", "101 VoterUnknown at 1", "101 VoterUnknown at 2", "102 VoterNotAllowed at 2", "104 VoterNotSeated at 2"),
        ),
        (text({"kind": "block", "slot": 10, "pulse": 1}), ()),
        (
            transfer(3, proposals=[{**good, "action": {**hard_fork, "previous": ref(2, 0)}}]),
            ("90 PreviousWrong at 0", unbalanced(20, 30)),
            "no hard fork: so no version either",
        ),
        **{**ALL, "version": [11, 0]},
    )


def records():
    update = {"kind": "rewards", "epoch": 1, "fromReserves": 701, "fromFees": 1, "toTreasury": 0, "rewards": []}
    wrong = ("20 WrongEpoch now 0", "22 RewardsNotBalanced in 702 out 0", "23 ReservesTooSmall have 700", "24 FeesTooSmall have 0")
    yield explained(
        "blocks, reward updates, prints, a second genesis, and lines that cannot be read",
        (b" \t\r", ()),
        (text({"kind": "block", "slot": 0, "pulse": 0}), ("10 SlotNotLater last 0", "12 ZeroPulse")),
        (text({"kind": "block", "slot": 25, "pulse": 0}), ("11 EpochSkipped now 0", "12 ZeroPulse")),
        (text(update), wrong),
        (text({**update, "epoch": 0, "fromReserves": 7, "fromFees": 0, "toTreasury": 7}), ()),
        (text(update), (wrong[0], "21 RewardsAlreadyGiven", *wrong[1:])),
        (text({"kind": "print", "what": "state"}), ()),
        (text({"kind": "print", "what": "assets"}), ()),
        (small(supply=1), ("3 GenesisAgain",), "what is wrong with it is not said"),
        (b"{", ("1 Malformed json", "malformed json at 1")),
        (transfer(2, outputs=[1], fee=GREATEST), ("1 Malformed outputs[0]", "malformed outputs[0] wrong-kind")),
        (text({"kind": "block", "slot": 10, "pulse": 1}), ()),
        (transfer(2, fee=21), (unbalanced(20, 21),)),
    )


# ---- names that nobody reads


def names():
    info = {"type": "Info", "previous": ref(9, 0), "targets": []}
    vote = {"voter": "drep:" + credential(30), "action": ref(9, 0), "vote": "yes", "anchor": None}
    rewards = {"kind": "rewards", "epoch": 0, "fromReserves": 7, "fromFees": 0, "toTreasury": 7, "rewards": [], "reward": [1]}
    members = {"threshold": [0, 1], "members": [], "quorum": [0, 1]}
    yield explained(
        "names that nobody reads",
        (transfer(2, withdrawls=[[key(10), 67]]), ("unknown withdrawls",), "it is accepted, and nothing is withdrawn"),
        (
            transfer(3, **{"outputs ": [], "Fee": 1, "a[0]": 1, "a.b": {"c": 1}, "": 1, "\u00e9": 1, "%41": 1, "-_9": None}),
            ("unknown .", "unknown %2541", "unknown -_9", "unknown Fee", "unknown a%2Eb", "unknown a%5B0%5D", "unknown outputs%20", "unknown %C3%A9"),
            "in the order of their bytes, and nothing of what is in them",
        ),
        (transfer(4, certs=[{"cert": "account-reg", "cred": THIRTEEN, "refund": 2, "Deposit": 9}], fee=18), ("unknown certs[0].Deposit", "unknown certs[0].refund"), "a refund is of other certificates"),
        (
            transfer(5, proposals=[{"deposit": 10, "return": key(12), "url": "", "action": info}], fee=10),
            ("unknown proposals[0].url", "unknown proposals[0].action.previous", "unknown proposals[0].action.targets"),
        ),
        (transfer(6, votes=[vote], Votes=[]), ("100 ActionUnknown at 0", "unknown Votes", "unknown votes[0].anchor"), "behind the rules"),
        (but(transfer(6), '"fee":20', '"fees":1,"fee":7,"fee":20,"fees":null'), ("unknown fees",), "once, though it is there twice"),
        (text({"kind": "block", "slot": 1, "pulse": 1, "hash": "", "Slot": 2}), ("unknown Slot", "unknown hash")),
        (text(rewards), ("unknown reward",)),
        (text({"kind": "print", "what": "pots", "What": "state"}), ("unknown What",)),
        (small(committee=members, nonce=1), ("3 GenesisAgain", "unknown nonce", "unknown committee.quorum")),
        (text({"kind": "Block", "Slot": 2}), ("1 Malformed kind", "malformed kind unknown-form"), "nothing is known of what it has"),
        (transfer(7, proposals=[{"deposit": 10, "return": key(12), "action": {"type": "ParameterChange", "update": {"minfeeA": 1}}}]), ("1 Malformed proposals[0]", "unknown proposals[0].action.update.minfeeA"), "of parameters it is a fault"),
        **ALL,
    )
    told = ["unknown nonce", "unknown committee.quorum"]
    yield answered("names of a genesis that nobody reads", (transfer(2), BLANK), first=small(committee=members, nonce=1), start=told)._replace(words=("explain",))
    yield wrong("names of a genesis with a fault", small(committee=members, nonce=1, supply=1001), "genesis SumWrong sum 1000 supply 1001", *told)
    yield wrong("a parameter first that is none", small(minfeeA=1).replace(b'"minFeeA"', b'"minfeeA":1,"minFeeA"'), malformed("params"), "unknown minfeeA", "unknown params.minfeeA")
    yield wrong("a transaction with other names first", transfer(2, Fee=1), "genesis NoGenesis", "unknown Fee")


# ---- what is not of its shape


def bad(line, reported, *notes):
    """A malformed line, what is reported of it, and each path with what is wrong there."""
    return line, (f"1 Malformed {reported}", *(f"malformed {it}" for it in notes))


def with_cert(kind, *notes, **fields):
    return bad(transfer(2, certs=[{"cert": kind, **fields}]), "certs[0]", *(f"certs[0]{it}" for it in notes))


def with_action(kind, *notes, **fields):
    proposal = {"deposit": 10, "return": key(12), "action": {"type": kind, **fields}}
    return bad(transfer(2, proposals=[proposal]), "proposals[0]", *(f"proposals[0].action{it}" for it in notes))


def with_update(*notes, **params):
    return with_action("ParameterChange", *(f".update.{it}" for it in notes), update=params)


def with_vote(note, **fields):
    vote = {"voter": "drep:" + credential(30), "action": ref(9, 0), "vote": "yes", **fields}
    return bad(transfer(2, votes=[vote]), "votes[0]", f"votes[0].{note}")


def with_committee(note, **fields):
    return bad(small(committee={"threshold": [0, 1], "members": [], **fields}), "committee", f"committee{note}")


def with_output(note, *entries):
    return bad(transfer(2, outputs=[[*entries]]), "outputs[0]", f"outputs[0]{note}")


def shaped(name, *lines):
    return explained(name, *lines, **ALL)


def forms():
    policy, account = hash28(5), [TWELVE, 2, 0, None, None]
    yield shaped(
        "each form of a value, once at least of another form",
        bad(transfer(2, certs=[{"cert": 7}]), "certs[0]", "certs[0].cert wrong-kind"),
        bad(transfer(2, witnessed="true"), "witnessed", "witnessed wrong-kind"),
        *(bad(transfer(2, fee=it), "fee", f"fee {word}") for it, word in (("20", "wrong-kind"), (True, "wrong-kind"), (-1, "out-of-range"), (20.0, "out-of-range"), (2**64, "out-of-range"), (None, "missing"))),
        *(bad(transfer(2, size=it), "size", "size out-of-range") for it in (-1, 2**32)),
        with_update("nOpt out-of-range", nOpt=2**16),
        *(with_output("[3][0][2] out-of-range", key(1), 20, 0, [[policy, "", it]]) for it in (0, -1)),
        *(bad(transfer(2, mint=[[policy, "", it]]), "mint[0]", "mint[0][2] out-of-range") for it in (0, 2**63)),
        bad(small(epochLength=0), "epochLength", "epochLength out-of-range"),
        bad(small(version=[9, 0]), "version", "version[0] out-of-range"),
        bad(small(network=2), "network", "network out-of-range"),
        bad(transfer(2, until=2**62), "until", "until out-of-range"),
        bad(transfer(2, mint=[["5", "", 1]]), "mint[0]", "mint[0][0] unknown-form"),
        bad(transfer(2, id=hash28(2)), "id", "id unknown-form"),
        with_cert("drep-update", ".cred unknown-form", cred=key(12)),
        with_committee(".members[0][2] wrong-kind", members=[[credential(70), 1, 7]]),
        bad(transfer(2, withdrawals=[[credential(10), 1]]), "withdrawals[0]", "withdrawals[0][0] unknown-form"),
        with_output("[0] unknown-form", key(1, network=2), 20, 0),
        bad(transfer(2, mint=[[policy, "a", 1]]), "mint[0]", "mint[0][1] unknown-form"),
        bad(transfer(2, inputs=[ref(1, 2), tx_id(1)]), "inputs[1]", "inputs[1] unknown-form"),
        with_vote("action unknown-form", action=ref(2, 65536)),
        with_cert("pool-retire", ".pool unknown-form", pool=tx_id(50), epoch=1),
        bad(small(accounts=[account[:3] + ["", None]]), "accounts[0]", "accounts[0][3] unknown-form"),
        with_cert("delegate", ".drep unknown-form", cred=TWELVE, drep="none"),
        bad(small(accounts=[account[:3] + [None, 0]]), "accounts[0]", "accounts[0][4] wrong-kind"),
        with_vote("voter unknown-form", voter="pool:" + credential(50)),
        *(with_update(f"rho {word}", rho=it) for it, word in (([2, 1], "out-of-range"), ([0, "1"], "wrong-kind"), ([0], "out-of-range"), ("1/2", "wrong-kind"), ([0, 1.0], "out-of-range"))),
        *(with_update(f"a0 {word}", a0=it) for it, word in (([1, 0], "out-of-range"), ([1, None], "wrong-kind"), ([1, 2, 3], "out-of-range"))),
    )


def shapes():
    rewards = {"kind": "rewards", "epoch": 0, "fromReserves": 0, "fromFees": 0, "toTreasury": 0}
    yield shaped(
        "shapes of records",
        bad(b"[]", "kind", ". wrong-kind"),
        *(bad(text(it), "kind", f"kind {word}") for it, word in (({}, "missing"), ({"kind": None}, "missing"), ({"kind": ["tx"]}, "wrong-kind"), ({"kind": "Tx", "id": 1}, "unknown-form"))),
        bad(text({"kind": "block", "slot": 1}), "pulse", "pulse missing"),
        bad(text({"kind": "rewards"}), "epoch", *(f"{it} missing" for it in (*rewards, "rewards") if it != "kind")),
        bad(text({**rewards, "rewards": {}}), "rewards", "rewards wrong-kind"),
        bad(text({**rewards, "rewards": [[credential(10), 1, 1]]}), "rewards[0]", "rewards[0] out-of-range"),
        bad(text({"kind": "print"}), "what", "what missing"),
        bad(text({"kind": "print", "what": "all"}), "what", "what unknown-form"),
        bad(transfer(2, fee=ABSENT, size=None), "fee", "fee missing", "size missing"),
        bad(transfer(2, collateral={}), "collateral", "collateral wrong-kind"),
        bad(transfer(2, outputs="none"), "outputs", "outputs wrong-kind"),
        with_output(" out-of-range", key(1), 20),
        with_output("[3] wrong-kind", key(1), 20, 0, None),
        with_output("[3][0] out-of-range", key(1), 20, 0, [[hash28(5), ""]]),
        bad(transfer(2, collateralReturn=[key(1), 20, 0, [], []]), "collateralReturn", "collateralReturn out-of-range"),
        *(bad(transfer(2, scripts=it), "scripts", f"scripts {word}") for it, word in ((True, "wrong-kind"), ("yes", "unknown-form"))),
        bad(transfer(2, mint=1), "mint", "mint wrong-kind"),
        bad(transfer(2, mint=[[hash28(5), "", 1, 1]]), "mint[0]", "mint[0] out-of-range"),
        bad(transfer(2, withdrawals={}), "withdrawals", "withdrawals wrong-kind"),
        bad(transfer(2, withdrawals=[[key(10)]]), "withdrawals[0]", "withdrawals[0] out-of-range"),
    )
    yield shaped(
        "shapes in a genesis",
        bad(small(supply=ABSENT), "supply", "supply missing"),
        bad(small(version=[10]), "version", "version out-of-range"),
        bad(small(nOpt=ABSENT, rho=None), "params", "params.rho missing", "params.nOpt missing"),
        bad(small(params=[]), "params", "params wrong-kind"),
        bad(small(committee=[]), "committee", "committee wrong-kind"),
        with_committee(".threshold missing", threshold=None),
        with_committee(".members wrong-kind", members={}),
        with_committee(".members[0] out-of-range", members=[[credential(70), 1]]),
        *(bad(small(**{it: {}}), it, f"{it} wrong-kind") for it in ("outputs", "accounts", "pools", "dreps")),
        bad(small(outputs=[[ref(1, 0), key(1)]]), "outputs[0]", "outputs[0] out-of-range"),
        bad(small(accounts=[[TWELVE, 2, 0, None]]), "accounts[0]", "accounts[0] out-of-range"),
        bad(small(pools=[[hash28(50), 5, 0, 0, [0, 1], key(12), None]]), "pools[0]", "pools[0][6] wrong-kind"),
        bad(small(dreps=[[credential(30), 5]]), "dreps[0]", "dreps[0] out-of-range"),
    )
    yield shaped(
        "shapes of certificates",
        bad(transfer(2, certs={}), "certs", "certs wrong-kind"),
        bad(transfer(2, certs=[None]), "certs[0]", "certs[0] wrong-kind"),
        *(bad(transfer(2, certs=[it]), "certs[0]", f"certs[0].cert {word}") for it, word in (({}, "missing"), ({"cert": "Delegate"}, "unknown-form"))),
        with_cert("account-reg", ".cred missing", ".deposit out-of-range", deposit=-1),
        with_cert("account-unreg", ".refund wrong-kind", cred=TWELVE, refund="2"),
        with_cert("delegate", ".pool unknown-form", cred=TWELVE, pool=credential(50)),
        with_cert("pool-reg", ".cost missing", ".margin out-of-range", ".key wrong-kind", pool=hash28(50), pledge=0, margin=[3, 2], account=key(12), key=7),
        with_cert("pool-retire", ".epoch missing", pool=hash28(50)),
        with_cert("drep-reg", ".deposit out-of-range", cred=TWELVE, deposit=5.5),
        with_cert("drep-unreg", ".cred missing"),
        with_cert("drep-update", ".cred wrong-kind", cred=12),
        with_cert("hot-auth", ".cold missing", ".hot missing"),
        with_cert("hot-resign", ".cold unknown-form", cold="70"),
    )
    yield shaped(
        "shapes of proposals and votes",
        bad(transfer(2, proposals=0), "proposals", "proposals wrong-kind"),
        bad(transfer(2, proposals=[{"return": key(12)}]), "proposals[0]", "proposals[0].deposit missing", "proposals[0].action missing"),
        bad(transfer(2, proposals=[{"deposit": 10, "return": key(12), "action": "Info"}]), "proposals[0]", "proposals[0].action wrong-kind"),
        with_action("info", ".type unknown-form"),
        with_action("NoConfidence", ".previous unknown-form", previous=tx_id(9)),
        with_action("UpdateCommittee", ".remove missing", ".add missing", ".threshold missing"),
        with_action("UpdateCommittee", ".remove wrong-kind", ".add wrong-kind", ".threshold out-of-range", remove={}, add=1, threshold=[1, 0]),
        with_action("UpdateCommittee", ".remove[0] wrong-kind", ".add[1] out-of-range", remove=[None], add=[[credential(73), 9], [credential(74)]], threshold=[0, 1]),
        with_action("NewConstitution", ".document unknown-form", ".script unknown-form", document=hash28(5), script=tx_id(5)),
        with_action("HardForkInitiation", ".version out-of-range", version=[11]),
        with_action("HardForkInitiation", ".version[0] out-of-range", ".version[1] wrong-kind", version=[2**32, "0"]),
        with_action("ParameterChange", ".update missing"),
        with_action("ParameterChange", ".update wrong-kind", ".policy wrong-kind", update=[], policy=9),
        with_update("maxTxExUnits out-of-range", "prices[1] out-of-range", maxTxExUnits=[1], prices=[[0, 1], [1, 0]]),
        with_update("maxBlockExUnits[1] wrong-kind", "prices wrong-kind", maxBlockExUnits=[1, None], prices=0),
        with_update("poolVotingThresholds out-of-range", "drepVotingThresholds[9] out-of-range", poolVotingThresholds=[[0, 1]] * 4, drepVotingThresholds=[[0, 1]] * 9 + [[2, 1]]),
        with_action("TreasuryWithdrawals", ".targets wrong-kind", targets={}),
        with_action("TreasuryWithdrawals", ".targets[0][1] out-of-range", targets=[[key(12), -7]]),
        bad(transfer(2, votes={}), "votes", "votes wrong-kind"),
        bad(transfer(2, votes=[1, None]), "votes[0]", "votes[0] wrong-kind", "votes[1] wrong-kind"),
        with_vote("voter missing", voter=None),
        *(with_vote(f"vote {word}", vote=it) for it, word in ((True, "wrong-kind"), ("Yes", "unknown-form"))),
    )


def all_at_once():
    certs = [{"cert": "delegat", "cred": 1}, {"cert": "delegate", "Pool": hash28(50), "cred": "k", "drep": 7}, {"certs": "x"}]
    actions = [{"type": "ParameterChange", "update": {"rho": [2, 1], "Rho": [0, 1], "nOpt": "1"}}, {"type": "Info", "url": ""}]
    lines = (
        *("1 Malformed id", "unknown extra", "unknown zero", "malformed id missing", "malformed inputs[1] wrong-kind"),
        *("malformed outputs[0][1] out-of-range", "malformed outputs[0][3][0][0] unknown-form", "malformed outputs[0][3][0][2] out-of-range", "malformed size missing"),
        *("malformed certs[0].cert unknown-form", "unknown certs[1].Pool", "malformed certs[1].cred unknown-form", "malformed certs[1].drep wrong-kind", "malformed certs[2].cert missing"),
        *("malformed proposals[0].return missing", "unknown proposals[0].action.update.Rho", "malformed proposals[0].action.update.rho out-of-range", "malformed proposals[0].action.update.nOpt wrong-kind"),
        *("unknown proposals[1].action.url", "malformed votes wrong-kind"),
    )
    first = [{"deposit": 10, "action": actions[0]}, {"deposit": 10, "return": key(12), "action": actions[1]}]
    yield shaped(
        "names and shapes at once",
        (transfer(2, zero=0, id=None, inputs=[ref(1, 2), 7], outputs=[[key(1), -1, 0, [["5", "", 0]]]], size=ABSENT, certs=certs, proposals=first, votes="", extra=1), lines),
        (transfer(2, withdrawals=[[key(10), 67], [key(10), 67]]), ("1 Malformed withdrawals[1]",), "a name that is twice in a list is no fault of a shape"),
        (transfer(2, certs=[{"cert": "delegate", "cred": TWELVE}], Fee=1), ("1 Malformed certs[0]", "unknown Fee"), "that one of two members is missing is none either"),
        (b'{"kind":"tx"', ("1 Malformed json", "malformed json at 12")),
        (transfer(2), ()),
    )
    yield shaped("lines that are no JSON value", *((line, ("1 Malformed json", f"malformed json at {place}")) for line, place in NO_JSON), (transfer(2), ()))
    long_line = b" " * LINE_LIMIT + transfer(2, fee="20", Fee=1)
    yield shaped("nothing is said of the inside of a line that is too long", (long_line, ("2 TooLong",)), (transfer(2), ()))


# ---- what was read first


def wrong(name, stream, *lines, number=1):
    """A first line that is no genesis without a fault, with lines behind it that nobody answers."""
    answers = [BLANK] * (number - 1) + [[*lines]]
    return Case(name, stream + b"\n\n" + transfer(2) + b"\n" + transfer(3) + b"\n", status=3, wanted=text_of(answers), words=("explain",))


def geneses():
    told = lambda *problems: [f"genesis {it}" for it in problems]
    most = SUPPLY_LIMIT
    first = GENESIS["outputs"]
    account = [TWELVE, 0, 0, None, None]
    pool = [hash28(50), 0, 0, 0, [0, 1], key(12)]
    member = [credential(70), 100, None]
    yield Case("a genesis without a fault", genesis() + b"\n", words=("explain",))
    yield wrong("a supply above the limit", genesis(supply=most + 1, reserves=most + 1, treasury=0, outputs=[]), *told(f"SupplyTooLarge supply {most + 1} most {most}"))
    yield wrong("a sum that is too small", genesis(supply=3001), *told("SumWrong sum 3000 supply 3001"))
    yield wrong("a sum beyond 2^64", genesis(reserves=GREATEST, treasury=GREATEST), *told(f"SumWrong sum {2 * GREATEST + 2000} supply 3000"))
    yield wrong("an output twice more", genesis(outputs=[*first, first[0], first[0]], supply=3040), *told("Repeated outputs[100]", "Repeated outputs[101]"))
    yield wrong("an output twice, in two spellings", genesis(outputs=[["ab" * 32 + "#0", key(1), 1], ["AB" * 32 + "#0", key(1), 1]], supply=1002), *told("Repeated outputs[1]"))
    yield wrong("a member twice", genesis(committee={"threshold": [0, 1], "members": [member, [credential(71), 1, None], member]}), *told("Repeated committee.members[2]"))
    yield wrong("unlisted targets", genesis(accounts=[[TWELVE, 0, 0, hash28(50), UNKNOWN], account[:3] + [None, "abstain"], [THIRTEEN, 0, 0, hash28(51), UNKNOWN]], pools=[pool]), *told("Repeated accounts[1]", "UnknownTarget accounts[0] drep", "UnknownTarget accounts[2] pool", "UnknownTarget accounts[2] drep"))
    yield wrong("other networks", genesis(outputs=[[ref(1, 0), key(1, network=0), 20], [ref(1, 1), key(1), 20]], pools=[[*pool[:5], key(12, network=0)]], supply=1040), *told("WrongNetwork outputs[0]", "WrongNetwork pools[0]"))
    everything = genesis(
        supply=most + 7,
        committee={"threshold": [0, 1], "members": [member, member]},
        outputs=[[ref(1, 0), key(1), 20], [ref(1, 0), key(1, network=0), 20]],
        accounts=[account, [TWELVE, 1, 1, hash28(51), UNKNOWN]],
        pools=[pool, [*pool[:5], key(12, network=0)]],
        dreps=[[credential(30), 1, 0], [credential(30), 1, 0]],
    )
    yield wrong(
        "everything at once",
        everything,
        *told(
            f"SupplyTooLarge supply {most + 7} most {most}",
            *(f"Repeated {it}[1]" for it in ("committee.members", "outputs", "accounts", "pools", "dreps")),
            *(f"UnknownTarget accounts[1] {it}" for it in ("pool", "drep")),
            *(f"WrongNetwork {it}[1]" for it in ("outputs", "pools")),
            f"SumWrong sum 1044 supply {most + 7}",
        ),
    )
    yield wrong("everything at once, behind blank lines", b"\n  \n" + everything.replace(b'"outputs":[[', b'"outputs":[[1],['), malformed("outputs", 0), "malformed outputs[0] out-of-range", number=3)
    yield wrong("a transaction first", transfer(2), *told("NoGenesis"))
    yield wrong("a print first", text({"kind": "print", "what": "pots"}), *told("NoGenesis"))
    yield wrong("no JSON value first", b"{", malformed("json"), "malformed json at 1")
    yield wrong("no kind first", b"{}", malformed("kind"), "malformed kind missing")
    yield wrong("a missing field first", genesis(supply=None), malformed("supply"), "malformed supply missing")
    yield wrong("a line that is too long first", b" " * 16_777_217, "refused 2 TooLong")
    for name, stream in (("no bytes", b""), ("blank lines alone", b"\n \t\r\n\n")):
        yield Case(name, stream, status=3, words=("explain",))
    yield Case("a bad genesis without a line feed", genesis(supply=3001), status=3, wanted=text_of([told("SumWrong sum 3000 supply 3001")]), words=("explain",))


def cases():
    for table in (at_first, collateral, assets, withdrawals, certs, proposals, records, names, forms, shapes, all_at_once, geneses):
        yield from table()
