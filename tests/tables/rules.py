"""The rules on id, witnesses, inputs, size, time, fee, the treasury value and the balance, each on
both sides of its bound; their order."""

from cases import (
    ACCEPTED,
    FAILED_SCRIPTS,
    NO_COLLATERAL,
    NO_INPUTS,
    NOT_WITNESSED,
    USED,
    all_answered,
    answered,
    missing,
    over_outputs,
    over_small,
    pots,
    unbalanced,
)
from records import GREATEST, SUPPLY_LIMIT, genesis, hash28, key, paying, ref, script, transfer, tx_id

LAST_SLOT = 2**62 - 1


def repeated(place):
    return f"refused 34 InputRepeated at {place}"


def too_large(most):
    return f"refused 35 TxTooLarge max {most}"


def outside(slot):
    return f"refused 36 OutsideValidity slot {slot}"


def fee_below(least):
    return f"refused 37 FeeTooSmall min {least}"


def treasury_is(amount):
    return f"refused 45 TreasuryValueWrong is {amount}"


def chains():
    yield answered(
        "ids, inputs and the balance",
        (paying(2, 20), ACCEPTED),
        (paying(2, 20), USED),
        (transfer(3, inputs=[ref(1, 2)]), missing()),
        (paying(4, 21), unbalanced(20, 21)),
        (paying(4, 19), unbalanced(20, 19)),
        (transfer(4, fee=0), unbalanced(20, 0)),
        (paying(4, 19, fee=1), ACCEPTED, "the id of a refused transaction is not used, and its input is unspent"),
        (transfer(5, inputs=[ref(2, 0)]), ACCEPTED, "an output of the transaction of line 2"),
        (transfer(6, inputs=[ref(2, 0)]), missing(), "it is there once"),
        (transfer(6, inputs=[ref(2, 1)]), missing()),
        (transfer(1), USED, "the id of the genesis outputs"),
        (transfer(1, inputs=[ref(9, 9)], fee=1), USED),
        (transfer(7, inputs=[ref(9, 9)], fee=1), missing()),
        (transfer(8, inputs=[ref(8, 0)], outputs=[[key(8), 20, 0]], fee=0), missing(), "its own output"),
        (paying(8, 5, 15, 0), ACCEPTED),
        (transfer(9, inputs=[ref(8, 3)], fee=0), missing()),
        (transfer(9, inputs=[ref(8, 2)], fee=0), ACCEPTED, "an output of no lovelace is an output"),
        (transfer(10, inputs=[ref(8, 1)], fee=15), ACCEPTED),
        (transfer(11, inputs=[ref(8, 0)], fee=4), unbalanced(5, 4)),
        (transfer(11, inputs=[ref(8, 0)], fee=5), ACCEPTED),
        (transfer(12, inputs=[ref(1, 100)]), missing()),
        (transfer(12, inputs=[ref(0, 12)]), missing()),
        (transfer(12, inputs=[ref(1, 65535)]), missing()),
        (transfer(12), ACCEPTED),
    )
    chain = [transfer(2, outputs=[[key(2), 19, 0]], fee=1)]
    chain += [transfer(n, inputs=[ref(n - 1, 0)], outputs=[[key(n), 21 - n, 0]], fee=1) for n in range(3, 21)]
    yield all_answered("each spends the output of the one before", ACCEPTED, *chain)


def ids():
    yield answered(
        "TxIdUsed",
        (transfer(1), USED, "that of the genesis outputs"),
        (transfer(0), ACCEPTED),
        (transfer(0, inputs=[ref(1, 2)]), USED, "that of an accepted transaction"),
        (transfer(3, fee=19), unbalanced(20, 19)),
        (transfer(3), ACCEPTED, "that of a refused one is free"),
        (transfer(4, fee=0, scripts="failed", collateral=[ref(1, 5)]), FAILED_SCRIPTS),
        (transfer(4), USED, "that of one whose scripts failed"),
        (transfer(2), ACCEPTED),
    )
    yield answered(
        "the ids of all outputs of the genesis",
        *((transfer(n, inputs=[ref(5, 0)]), USED) for n in (5, 6, 7)),
        (transfer(8, inputs=[ref(5, 0)]), ACCEPTED),
        first=genesis(supply=1060, outputs=[[ref(n, 0), key(1), 20] for n in (7, 5, 6)]),
        start=pots(60, 100, 900, 1060),
    )
    yield answered(
        "NotWitnessed",
        (transfer(2, witnessed=False), NOT_WITNESSED),
        (transfer(2, witnessed=True), ACCEPTED),
        (transfer(3, witnessed=None), ACCEPTED),
        (transfer(4, witnessed=False, scripts="failed", fee=0, collateral=[ref(1, 4)]), NOT_WITNESSED, "also where the scripts failed"),
    )


def inputs():
    one, two, gone = ref(1, 11), ref(1, 12), ref(9, 9)

    def spending(*refs):
        return transfer(2, inputs=[*refs], fee=40)

    yield answered(
        "NoInputs, InputMissing, InputRepeated",
        (spending(), NO_INPUTS),
        (transfer(2, inputs=[], fee=0), NO_INPUTS),
        (spending(gone), missing()),
        (spending(one, gone), missing(1)),
        (spending(one, two, gone, gone), missing(2), "one that is missing is not repeated"),
        (spending(one, one), repeated(1)),
        (spending(one, two, one), repeated(2)),
        (spending(one, two, two, one), repeated(2)),
        (spending(one, one, gone), repeated(1), "place by place"),
        (spending(gone, one, one), missing(0)),
        (spending(one), unbalanced(20, 40)),
        (spending(one, two, ref(1, 13)), unbalanced(60, 40)),
        (spending(one, two), ACCEPTED, "two inputs"),
        (transfer(3, inputs=[two, one]), missing()),
        (transfer(3, inputs=[ref(1, 13), one]), missing(1)),
        (transfer(3, inputs=[ref(1, i) for i in range(20, 100)], fee=1600), ACCEPTED, "eighty inputs"),
        (transfer(4, inputs=[ref(1, 13), ref(1, 99)]), missing(1)),
    )


def sizes():
    yield over_small(
        "TxTooLarge",
        (transfer(2, size=16385), too_large(16384)),
        (transfer(2, size=2**32 - 1), too_large(16384)),
        (transfer(2, size=16384), ACCEPTED),
        (transfer(3, size=0), ACCEPTED),
    )
    yield over_small("TxTooLarge where nothing is allowed", (transfer(2, size=1), too_large(0)), (transfer(2, size=0), ACCEPTED), maxTxSize=0)
    yield over_small("TxTooLarge where all is allowed", (transfer(2, size=2**32 - 1), ACCEPTED), maxTxSize=2**32 - 1)


def times():
    yield over_small(
        "OutsideValidity",
        (transfer(2, **{"from": 8}), outside(7), "it begins a slot later"),
        (transfer(2, **{"from": LAST_SLOT}), outside(7)),
        (transfer(2, until=7), outside(7), "the end does not belong to it"),
        (transfer(2, until=0), outside(7)),
        (transfer(2, **{"from": 8, "until": 7}), outside(7)),
        (transfer(2, **{"from": 8, "until": 9}), outside(7)),
        (transfer(2, **{"from": 0, "until": 7}), outside(7)),
        (transfer(2, **{"from": 7}), ACCEPTED),
        (transfer(3, **{"from": 0}), ACCEPTED),
        (transfer(4, until=8), ACCEPTED),
        (transfer(5, until=LAST_SLOT), ACCEPTED),
        (transfer(6, **{"from": 7, "until": 8}), ACCEPTED),
        (transfer(7, **{"from": None, "until": None}), ACCEPTED),
        (transfer(8, **{"from": 8, "scripts": "failed", "fee": 0, "collateral": [ref(1, 8)]}), outside(7), "also where the scripts failed"),
        slot=7,
    )
    yield over_small(
        "OutsideValidity at the last slot",
        (transfer(2, until=LAST_SLOT), outside(LAST_SLOT)),
        (transfer(2, **{"from": LAST_SLOT}), ACCEPTED),
        slot=LAST_SLOT,
    )
    yield over_small("OutsideValidity at the first slot", (transfer(2, **{"from": 1}), outside(0)), (transfer(2, until=0), outside(0)), (transfer(2, until=1), ACCEPTED))


def fees():
    yield over_small(
        "FeeTooSmall",
        (transfer(2, size=5, scriptFee=4, fee=16), fee_below(17), "2 for each byte, 3, and what the scripts cost"),
        (transfer(2, size=5, scriptFee=4, fee=0), fee_below(17)),
        (paying(2, 3, size=5, scriptFee=4, fee=17), ACCEPTED),
        (transfer(3, fee=2), fee_below(3)),
        (paying(3, 17, fee=3), ACCEPTED),
        (paying(4, 8, size=5, fee=12), fee_below(13)),
        (paying(4, 7, size=5, fee=13, scriptFee=None), ACCEPTED),
        (transfer(5, size=8, scriptFee=1), ACCEPTED, "20 is the least"),
        (transfer(6, size=8, scriptFee=2), fee_below(21)),
        (transfer(6, scriptFee=GREATEST, fee=GREATEST), fee_below(GREATEST + 3), "a sum beyond 2^64"),
        (transfer(7, size=5, scriptFee=4, fee=16, scripts="failed", collateral=[ref(1, 7)]), fee_below(17), "also where the scripts failed"),
        minFeeA=2,
        minFeeB=3,
    )
    yield over_small(
        "FeeTooSmall with the greatest numbers",
        (transfer(2, size=2**32 - 1, scriptFee=GREATEST, fee=GREATEST), fee_below(GREATEST * (2**32 - 1) + 2 * GREATEST)),
        (transfer(2, fee=GREATEST - 1), fee_below(GREATEST)),
        (transfer(2, fee=GREATEST), unbalanced(20, GREATEST)),
        minFeeA=GREATEST,
        minFeeB=GREATEST,
        maxTxSize=2**32 - 1,
    )


def treasuries():
    yield over_small(
        "TreasuryValueWrong",
        (transfer(2, treasury=99), treasury_is(100)),
        (transfer(2, treasury=101), treasury_is(100)),
        (transfer(2, treasury=0), treasury_is(100)),
        (transfer(2, treasury=GREATEST), treasury_is(100)),
        (transfer(2, treasury=100), ACCEPTED),
        (transfer(3, treasury=None), ACCEPTED),
        (transfer(4, fee=5, donation=15, treasury=100), ACCEPTED),
        (transfer(5, treasury=115), treasury_is(100), "a donation is not in the treasury yet"),
        (transfer(5, fee=0, scripts="ok", collateral=[ref(1, 6)], treasury=99), treasury_is(100)),
        (transfer(5, fee=0, scripts="failed", collateral=[ref(1, 6)], treasury=99), FAILED_SCRIPTS, "not where the scripts failed"),
    )
    yield answered(
        "TreasuryValueWrong with no treasury",
        (transfer(2, treasury=1), treasury_is(0)),
        (transfer(2, treasury=0), ACCEPTED),
        first=genesis(treasury=0, reserves=1000),
        start=pots(2000, 0, 1000, 3000),
    )


def balances():
    yield answered(
        "NotBalanced",
        (transfer(2, fee=19), unbalanced(20, 19)),
        (transfer(2, fee=21), unbalanced(20, 21)),
        (transfer(2, donation=1), unbalanced(20, 21), "a donation is produced"),
        (transfer(2, fee=0, donation=19), unbalanced(20, 19)),
        (transfer(2, fee=0, donation=20), ACCEPTED),
        (paying(3, 7, 3, fee=6, donation=4), ACCEPTED),
        (transfer(4, fee=15, donation=None), unbalanced(20, 15)),
        (transfer(4, donation=0), ACCEPTED),
        (transfer(5, inputs=[ref(1, 5), ref(3, 0), ref(3, 1)], fee=29), unbalanced(30, 29), "what all inputs hold"),
        (transfer(5, inputs=[ref(1, 5), ref(3, 0), ref(3, 1)], fee=30), ACCEPTED),
        (transfer(6, scripts="ok", fee=1, collateral=[ref(1, 6)]), unbalanced(20, 1), "collateral is not consumed, nor is its return produced"),
        (transfer(6, scripts="ok", fee=1, collateral=[ref(1, 6)], collateralReturn=[key(1), 3, 0], outputs=[[key(1), 19, 0]]), ACCEPTED),
    )
    yield answered(
        "sums beyond 2^64",
        (paying(2, GREATEST, GREATEST, fee=GREATEST), unbalanced(20, 3 * GREATEST)),
        (paying(2, GREATEST, GREATEST, fee=GREATEST, donation=GREATEST), unbalanced(20, 4 * GREATEST)),
        (paying(2, GREATEST, 21), unbalanced(20, 2**64 + 20)),
        (paying(2, GREATEST, fee=21), unbalanced(20, 2**64 + 20)),
        (transfer(2, fee=21, donation=GREATEST), unbalanced(20, 2**64 + 20)),
        (transfer(2, fee=GREATEST), unbalanced(20, GREATEST)),
        (paying(2, GREATEST), unbalanced(20, GREATEST)),
        (paying(2, 0, 0, 20), ACCEPTED),
    )
    whole = SUPPLY_LIMIT
    yield answered(
        "all lovelace in one output",
        (paying(2, whole - 1, inputs=[ref(1, 0)]), unbalanced(whole, whole - 1)),
        (paying(2, whole - 1, inputs=[ref(1, 0)], fee=1), ACCEPTED),
        (transfer(3, inputs=[ref(2, 0)], fee=whole - 1), ACCEPTED),
        first=genesis(supply=whole, reserves=0, treasury=0, outputs=[[ref(1, 0), key(1), whole]]),
        start=pots(whole, 0, 0, whole),
    )


def order():
    """One transaction breaks every rule; each line mends what the line before was refused for."""
    asset = [hash28(5), "", 7]
    steps = [
        ("refused 30 TxIdUsed", {"id": tx_id(2)}),
        (NOT_WITNESSED, {"witnessed": True}),
        (NO_INPUTS, {"inputs": [ref(1, 2), ref(9, 9), ref(1, 2)]}),
        (missing(1), {"inputs": [ref(1, 2), ref(1, 2)]}),
        (repeated(1), {"inputs": [ref(1, 2)]}),
        (too_large(100), {"size": 100}),
        (outside(7), {"from": 7}),
        (fee_below(1010), {"fee": 1010}),
        ("refused 38 OutputTooSmall at 0 min 170", {"outputs": [[key(1, network=0), 170, 10], [key(1), 180, 20]]}),
        ("refused 39 OutputWrongNetwork at 0", {"outputs": [[key(1), 170, 10], [key(1), 179, 20]]}),
        ("refused 38 OutputTooSmall at 1 min 180", {"outputs": [[key(1), 170, 10], [key(1), 180, 20]]}),
        ("refused 38 OutputTooSmall at 2 min 190", {"collateralReturn": [key(1, network=0), 5000, 30]}),
        ("refused 39 OutputWrongNetwork at 2", {"collateralReturn": [key(1), 5000, 30]}),
        ("refused 40 TooManyCollateral max 2", {"collateral": []}),
        (NO_COLLATERAL, {"collateral": [ref(9, 9), ref(1, 9)]}),
        ("refused 42 CollateralMissing at 0", {"collateral": [ref(1, 9), ref(9, 9)]}),
        ("refused 43 CollateralNotKey at 0", {"collateral": [ref(1, 3), ref(1, 3)]}),
        ("refused 42 CollateralMissing at 1", {"collateral": [ref(1, 3)]}),
        ("refused 44 CollateralTooSmall have 0", {"collateralReturn": [key(1), 485, 30, [asset]]}),
        (treasury_is(100), {"treasury": 100}),
        ("refused 46 CollateralAssetsWrong", {"collateralReturn": [key(1), 485, 30]}),
        (unbalanced(2000, 1361), {"donation": 640}),
        ("refused 111 AssetNotBalanced at 0 consumed 7 produced 0", {"mint": []}),
        (ACCEPTED, {}),
    ]
    fields = {
        "witnessed": False,
        "inputs": [],
        "size": 101,
        "from": 8,
        "fee": 1009,
        "scripts": "ok",
        "outputs": [[key(1, network=0), 169, 10], [key(1), 179, 20]],
        "collateral": [ref(9, 9)] * 3,
        "collateralReturn": [key(1, network=0), 189, 30],
        "mint": [asset],
        "treasury": 99,
        "donation": 1,
    }
    lines = []
    for answer, mended in steps:
        lines.append((transfer(1, **fields), answer))
        fields = {**fields, **mended}
    outputs = [[ref(1, i), script(1) if i == 9 else key(1), 2000] for i in range(10)]
    limits = {"maxTxSize": 100, "minFeeA": 10, "minFeeB": 10, "coinsPerUTxOByte": 1, "maxCollateralInputs": 2}
    yield over_outputs("the order of the rules", 2000, *lines, slot=7, outputs=outputs, **limits)


def cases():
    yield from chains()
    yield from ids()
    yield from inputs()
    yield from sizes()
    yield from times()
    yield from fees()
    yield from treasuries()
    yield from balances()
    yield from order()
