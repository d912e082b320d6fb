"""Native assets: what is balanced, what collateral must give back, which lists are read, and the
totals; each rule on both sides of its bound. The forms of single entries stand in fields.py."""

import json

from cases import ACCEPTED, AGAIN, BLANK, FAILED_SCRIPTS, NO_COLLATERAL, answered, begins, malformed, no_genesis, over_outputs, over_small, pots, unbalanced
from records import GREATEST, OUTPUT_LIMIT, credential, genesis, hash28, key, ref, transfer, tx_id

P5, P6 = hash28(5), hash28(6)
LETTERS = "ab" * 28
# the most that a transaction mints of an asset, and the most that it burns
MOST_MINTED, MOST_BURNED = 2**63 - 1, 2**63
PRINT = b'{"kind":"print","what":"assets"}'
COLLATERAL_WRONG = "refused 46 CollateralAssetsWrong"


def uneven(consumed, produced, place=0):
    return f"refused 111 AssetNotBalanced at {place} consumed {consumed} produced {produced}"


def total(quantity, policy=P5, name="-"):
    return f"asset-total {policy} {name} {quantity}"


def of(quantity, policy=P5, name=""):
    """An asset with a quantity."""
    return [policy, name, quantity]


def holding(*assets, amount=0):
    """An output with these assets."""
    return [key(1), amount, 0, [*assets]]


def minting(n, *assets, outputs=None, **fields):
    """Transaction n mints these, and holds them in one output if no others are given."""
    return transfer(n, mint=[*assets], outputs=[holding(*assets)] if outputs is None else outputs, **fields)


def moving(n, refs, *assets, **fields):
    """Transaction n moves outputs without lovelace into one with these assets; its input of 20 is the fee."""
    return transfer(n, inputs=[*refs, ref(1, n)], outputs=[holding(*assets)], **fields)


# ---- the balance


def balances():
    yield over_small(
        "AssetNotBalanced",
        (PRINT, BLANK, "no asset"),
        (transfer(2, outputs=[holding(of(1))]), uneven(0, 1), "an asset that nobody minted"),
        (transfer(2, mint=[of(1)]), uneven(1, 0), "one that is lost"),
        (minting(2, of(7), outputs=[holding(of(6))]), uneven(7, 6)),
        (minting(2, of(7), outputs=[holding(of(8))]), uneven(7, 8)),
        (minting(2, of(7), outputs=[holding(of(7)), holding(of(7))]), uneven(7, 14), "a mint counts once"),
        (minting(2, of(7), outputs=[holding(of(3)), holding(), [key(1), 0, 0], holding(of(4))]), ACCEPTED),
        (PRINT, total(7)),
        (moving(3, [ref(2, 0)], of(4)), uneven(3, 4)),
        (moving(3, [ref(2, 0)], of(2)), uneven(3, 2)),
        (moving(3, [ref(2, 0), ref(2, 3)], of(8), mint=[of(2)]), uneven(9, 8)),
        (moving(3, [ref(2, 0), ref(2, 3)], of(9), mint=[of(2)]), ACCEPTED, "what both inputs hold, and what is minted"),
        (PRINT, total(9)),
    )
    yield over_small(
        "burns",
        (transfer(2, mint=[of(-1)]), uneven(0, 1), "of what is not there"),
        (minting(2, of(5)), ACCEPTED),
        (transfer(3, mint=[of(-5)]), uneven(0, 5), "of what another output holds"),
        (moving(4, [ref(2, 0)], mint=[of(-6)]), uneven(5, 6)),
        (moving(4, [ref(2, 0)], mint=[of(-4)]), uneven(5, 4)),
        (moving(4, [ref(2, 0)], mint=[of(-5, name="00")]), uneven(5, 0), "of another name"),
        (moving(4, [ref(2, 0)], mint=[of(-5, P6)]), uneven(5, 0), "of another policy"),
        (moving(4, [ref(2, 0)], of(2), mint=[of(-2)]), uneven(5, 4), "a burn is given, beside what the outputs hold"),
        (moving(4, [ref(2, 0)], of(3), mint=[of(-2)]), ACCEPTED),
        (PRINT, total(3)),
        (moving(5, [ref(4, 0)], mint=[of(-3)]), ACCEPTED),
        (PRINT, BLANK, "none is left"),
        (transfer(6, mint=[of(-3)]), uneven(0, 3)),
        (minting(6, of(1)), ACCEPTED, "it may come again"),
        (PRINT, total(1)),
    )
    yield over_small(
        "assets are told apart by policy and name",
        (minting(2, of(1), of(2, P6), outputs=[holding(of(2), of(1, P6))]), uneven(1, 2), "one name under two policies"),
        (minting(2, of(1), of(2, name="00"), outputs=[holding(of(2), of(1, name="00"))]), uneven(1, 2), "two names under one policy"),
        (minting(2, of(1, name="00"), outputs=[holding(of(1, name="0000"))]), uneven(1, 0), "zeros at the end"),
        (minting(2, of(1, name="0001"), outputs=[holding(of(1, name="01"))]), uneven(1, 0), "zeros at the beginning"),
        (minting(2, of(1), of(2, P6), of(4, name="00"), of(8, P6, "00")), ACCEPTED),
        (PRINT, [total(1), total(4, name="00"), total(2, P6), total(8, P6, "00")]),
    )
    yield over_small(
        "two spellings are one asset",
        (minting(2, of(3, LETTERS, "0aff"), outputs=[holding(of(3, LETTERS.upper(), "0AfF"))]), ACCEPTED),
        (moving(3, [ref(2, 0)], of(2, LETTERS, "0AFF"), mint=[of(-1, LETTERS.upper(), "0aff")]), ACCEPTED),
        (PRINT, total(2, LETTERS, "0aff")),
    )
    yield over_small(
        "asset lists may be empty or left out",
        (transfer(2, mint=[], outputs=[[key(1), 0, 0, []], [key(1), 0, 0]]), ACCEPTED),
        (transfer(3, mint=None, inputs=[ref(2, 0), ref(2, 1), ref(1, 3)]), ACCEPTED),
        (PRINT, BLANK),
    )


def places():
    """The place is that of the asset among all that inputs, mint and outputs name, in order."""
    even = [of(1, hash28(n)) for n in (1, 3, 5)]
    yield over_small(
        "places of unbalanced assets",
        (minting(2, *even, outputs=[holding(*reversed(even), of(9, hash28(7)))]), uneven(0, 9, 3), "behind three that balance"),
        (minting(2, *reversed(even), outputs=[holding(*even, of(9, hash28(4)))]), uneven(0, 9, 2), "in the order of assets, not of lists"),
        (minting(2, *even, outputs=[holding(*even, of(9, hash28(4)), of(8, hash28(2)))]), uneven(0, 8, 1), "the first of two"),
        (minting(2, *even, outputs=[holding(*even), holding(of(2, hash28(0)))]), uneven(0, 2, 0)),
        (minting(2, *even, of(-1, hash28(2)), outputs=[holding(*even)]), uneven(0, 1, 1), "a burn has its place"),
        (minting(2, *even, outputs=[holding(*even[:2])]), uneven(1, 0, 2)),
        (minting(2, *even, outputs=[holding(*even)] * 2), uneven(1, 2, 0), "an asset that is named twice has one place"),
        (minting(2, *even), ACCEPTED),
        (moving(3, [ref(2, 0)], *even, of(1, hash28(6))), uneven(0, 1, 3), "those of inputs have theirs"),
        (moving(3, [ref(2, 0)], *even[1:], of(1, hash28(6))), uneven(1, 0, 0)),
        (transfer(3, collateral=[ref(2, 0)], outputs=[holding(of(1, hash28(6)))]), uneven(0, 1, 0), "those of collateral have none"),
    )
    names = ["", "00", "0000", "00ff", "01", "ff"]
    yield over_small(
        "places by name",
        *((minting(2, *(of(1, name=it) for it in names), outputs=[holding(*(of(2 if it == wrong else 1, name=it) for it in names))]), uneven(1, 2, place)) for place, wrong in enumerate(names)),
        (minting(2, *(of(1, name=it) for it in reversed(names))), ACCEPTED),
        (PRINT, [total(1, name=it or "-") for it in names]),
    )


# ---- bounds


def bounds():
    yield over_small(
        "the greatest quantities",
        (minting(2, of(MOST_MINTED)), ACCEPTED),
        (moving(3, [ref(2, 0)], of(GREATEST - 1), mint=[of(MOST_MINTED)]), ACCEPTED),
        (moving(4, [ref(3, 0)], of(GREATEST), mint=[of(1)]), ACCEPTED),
        (PRINT, total(GREATEST)),
        (moving(5, [ref(4, 0)], of(GREATEST), mint=[of(1)]), uneven(2**64, GREATEST), "a sum of 2^64"),
        (transfer(5, inputs=[ref(4, 0), ref(1, 5)], outputs=[holding(of(GREATEST)), holding(of(1))], mint=[of(1)]), ACCEPTED),
        (PRINT, total(2**64)),
        (moving(6, [ref(5, 0)], of(MOST_MINTED), mint=[of(-MOST_BURNED)]), ACCEPTED, "the most that is burned"),
        (moving(7, [ref(6, 0), ref(5, 1)], mint=[of(-MOST_BURNED)]), ACCEPTED),
        (PRINT, BLANK),
    )
    for quantity in (0, MOST_MINTED + 1, GREATEST, -MOST_BURNED - 1, 2**64):
        yield over_small(f"a mint of {quantity}", (transfer(2, mint=[of(1, P6), of(quantity)]), malformed("mint", 1)), (transfer(2), ACCEPTED))
    for quantity in (0, -1, 2**64):
        lists = (transfer(2, outputs=[holding(), holding(of(quantity))]), malformed("outputs", 1)), (transfer(2, collateralReturn=holding(of(quantity))), malformed("collateralReturn"))
        yield over_small(f"an output of {quantity}", *lists, (genesis(outputs=[[ref(1, 0), key(1), 2000, [of(quantity)]]]), malformed("outputs", 0)))
    yield over_small(
        "names of 0, 32 and 33 bytes",
        (minting(2, of(1), of(1, name="ff" * 32)), ACCEPTED),
        (minting(3, of(1, name="00" * 32), of(2, name="00" * 31)), ACCEPTED),
        (minting(4, of(1, name="00" * 33)), malformed("outputs", 0)),
        (transfer(4, mint=[of(1, name="00" * 33)]), malformed("mint", 0)),
        (transfer(4, mint=[of(1, name="000")]), malformed("mint", 0), "half a byte"),
        (PRINT, [total(1), total(2, name="00" * 31), total(1, name="00" * 32), total(1, name="ff" * 32)]),
    )


def sums():
    """Sums beyond 2^64: of one asset in each of the most outputs that there can be."""
    full = OUTPUT_LIMIT * GREATEST
    outputs = [holding(of(GREATEST))] * OUTPUT_LIMIT
    yield over_small(
        "the greatest quantity in the most outputs",
        (transfer(2, outputs=outputs), uneven(0, full)),
        (minting(2, of(MOST_MINTED), outputs=outputs), uneven(MOST_MINTED, full)),
        (minting(2, of(-MOST_BURNED), outputs=outputs), uneven(0, full + MOST_BURNED)),
        (transfer(2), ACCEPTED),
    )
    held = [[ref(1, n), key(1), int(n == 0), [of(GREATEST)]] for n in range(OUTPUT_LIMIT)]
    yield answered(
        "a total beyond 2^64",
        (PRINT, total(full)),
        (transfer(2, inputs=[ref(1, 0), ref(1, 9)], fee=1, outputs=[holding(of(GREATEST))]), uneven(2 * GREATEST, GREATEST)),
        (transfer(2, inputs=[ref(1, 0), ref(1, 9)], fee=1, outputs=[holding(of(GREATEST)), holding(of(GREATEST - MOST_BURNED))], mint=[of(-MOST_BURNED)]), ACCEPTED),
        (PRINT, total(full - MOST_BURNED)),
        first=genesis(supply=1, treasury=0, reserves=0, outputs=held),
        start=pots(1, 0, 0, 1),
    )
    many = [of(1 + n, hash28(n % 100), f"{n:08x}") for n in range(OUTPUT_LIMIT)]
    yield over_small(
        "as many assets as outputs",
        (minting(2, *many, outputs=[holding(it) for it in reversed(many)][1:]), uneven(OUTPUT_LIMIT, 0, place=sorted(many).index(many[-1]))),
        (minting(2, *many, outputs=[holding(it) for it in many]), ACCEPTED),
        (PRINT, [total(quantity, policy, name) for policy, name, quantity in sorted(many)]),
        (transfer(3, inputs=[*(ref(2, n) for n in range(100)), ref(1, 3)], mint=[[policy, name, -quantity] for policy, name, quantity in many[:100]]), ACCEPTED),
        (PRINT, [total(quantity, policy, name) for policy, name, quantity in sorted(many[100:])]),
    )


# ---- collateral


def scripted(n, collateral, *assets, scripts="ok", back=True, **fields):
    """Transaction n with this collateral, and a return of these assets and no lovelace, or with none."""
    return transfer(n, scripts=scripts, collateral=collateral, collateralReturn=holding(*assets) if back else None, **fields)


def collaterals():
    both = (minting(2, of(7), of(1, P6), outputs=[holding(of(7)), holding(of(1, P6))]), ACCEPTED), (minting(3, of(2)), ACCEPTED)
    for scripts, answer in (("ok", ACCEPTED), ("failed", FAILED_SCRIPTS)):
        yield over_outputs(
            f"assets of collateral where the scripts are {scripts}",
            1000,
            (transfer(2, mint=[of(7), of(1, P6)], outputs=[holding(of(7), amount=500), holding(of(1, P6), amount=500)], fee=0), ACCEPTED),
            (transfer(3, mint=[of(2)], outputs=[holding(of(2), amount=1000)], fee=0), ACCEPTED),
            *((scripted(4, refs, *back, scripts=scripts, fee=0, outputs=[[key(1), 1000, 0]]), COLLATERAL_WRONG, note) for refs, back, note in WRONG_RETURNS),
            (scripted(4, [ref(2, 0)], back=False, scripts=scripts, fee=0), COLLATERAL_WRONG, "no return"),
            (scripted(4, [ref(2, 0), ref(3, 0)], of(9), scripts=scripts, fee=0, outputs=[[key(1), 1000, 0]]), answer, "the sum over both"),
            (scripted(5, [ref(1, 9)], back=False, scripts=scripts, fee=0, outputs=[[key(1), 1000, 0]]), answer, "none of either"),
            (PRINT, [total(9), total(1, P6)]),
            collateralPercentage=100,
        )
    yield over_small(
        "assets of collateral where there are no scripts",
        *both,
        (transfer(4, collateral=[ref(2, 0)]), ACCEPTED),
        (transfer(5, collateral=[ref(2, 0)], collateralReturn=holding(of(3))), ACCEPTED),
        (PRINT, [total(9), total(1, P6)], "the return is not made"),
    )
    yield over_outputs(
        "what failed scripts leave of assets",
        1000,
        (transfer(2, mint=[of(7)], outputs=[holding(of(7), amount=1000)], fee=0), ACCEPTED),
        (scripted(3, [ref(2, 0)], of(7), scripts="failed", fee=100, mint=[of(5)], outputs=[holding(of(99))]), FAILED_SCRIPTS, "neither minted, nor balanced"),
        (PRINT, total(7)),
        (transfer(4, inputs=[ref(3, 0)]), "refused 33 InputMissing at 0"),
        (transfer(4, inputs=[ref(3, 1), ref(1, 4)], fee=1000, outputs=[holding(of(6))]), uneven(7, 6), "its return has the assets"),
        (transfer(4, inputs=[ref(3, 1), ref(1, 4)], fee=1000, mint=[of(-7)]), ACCEPTED),
        (PRINT, BLANK),
    )
    held = [[ref(1, n), key(1), 100, [of(GREATEST)]] for n in range(4)]
    yield answered(
        "collateral of more than an output holds",
        *((scripted(2, [ref(1, 1), ref(1, 2)], *back, scripts="failed", fee=0), COLLATERAL_WRONG) for back in ([of(GREATEST)], [of(GREATEST - 1)], [of(1)], [])),
        (scripted(2, [ref(1, 1)], of(GREATEST), scripts="failed", fee=0), FAILED_SCRIPTS),
        (PRINT, total(4 * GREATEST)),
        first=genesis(supply=400, treasury=0, reserves=0, outputs=held),
        start=pots(400, 0, 0, 400),
    )


# what is wrong beside collateral of 7 of one asset, or of 7 and 2 of it, or of 7 of it and 1 of
# another one
WRONG_RETURNS = [
    ([ref(2, 0)], [], "a return without assets"),
    ([ref(2, 0)], [of(6)], "1 less"),
    ([ref(2, 0)], [of(8)], "1 more"),
    ([ref(2, 0)], [of(7, P6)], "another policy"),
    ([ref(2, 0)], [of(7, name="00")], "another name"),
    ([ref(2, 0)], [of(7), of(1, P6)], "one asset more"),
    ([ref(1, 9)], [of(7)], "of none that the collateral holds"),
    ([ref(2, 0), ref(3, 0)], [of(7)], "those of the first alone"),
    ([ref(2, 0), ref(3, 0)], [of(2)], "those of the last alone"),
    ([ref(2, 0), ref(2, 1)], [of(7)], "the first asset alone"),
    ([ref(2, 0), ref(2, 1)], [of(1, P6)], "the last asset alone"),
    ([ref(2, 0), ref(2, 1)], [of(1), of(7, P6)], "exchanged"),
]


# ---- the order of the rules


def order():
    wrong = {"scripts": "ok", "collateral": [ref(1, 3)], "collateralReturn": holding(of(1), amount=1), "fee": 20}
    bad_vote = {"voter": f"pool:{hash28(50)}", "action": ref(9, 0), "vote": "yes"}
    yield over_outputs(
        "the rules on assets among the others",
        100,
        (transfer(2, **{**wrong, "collateralReturn": holding(of(1), amount=99)}), "refused 44 CollateralTooSmall have 1"),
        (transfer(2, **wrong, treasury=99), "refused 45 TreasuryValueWrong is 100"),
        (transfer(2, **{**wrong, "scripts": "failed"}, treasury=99), COLLATERAL_WRONG, "the treasury is not asked where the scripts failed"),
        (transfer(2, **wrong, withdrawals=[[key(10, network=0), 1]]), COLLATERAL_WRONG, "before withdrawals"),
        (transfer(2, **wrong, mint=[of(5)]), COLLATERAL_WRONG, "before the balance"),
        (transfer(2, **{**wrong, "collateral": []}), NO_COLLATERAL),
        (transfer(2, fee=100, mint=[of(5)], withdrawals=[[key(10, network=0), 1]]), "refused 50 WithdrawalWrongNetwork at 0"),
        (transfer(2, fee=100, mint=[of(5)], certs=[{"cert": "account-unreg", "cred": credential(10)}]), "refused 61 AccountUnknown at 0"),
        (transfer(2, fee=100, mint=[of(5)], votes=[bad_vote]), "refused 100 ActionUnknown at 0"),
        (transfer(2, fee=99, mint=[of(5)]), unbalanced(100, 99), "lovelace before assets"),
        (transfer(2, fee=100, mint=[of(5)]), uneven(5, 0)),
        (transfer(2, fee=100, mint=[of(5)], outputs=[holding(of(5), amount=1)]), unbalanced(100, 101), "quantities are no lovelace"),
        (transfer(2, fee=100), ACCEPTED),
    )
    repeated = [of(1, LETTERS, "0a"), of(2, LETTERS.upper(), "0A")]
    yield over_small(
        "the order of malformed assets",
        (transfer(2, outputs=[holding(), holding(*repeated)], mint=repeated), malformed("outputs", 1)),
        (transfer(2, outputs=[holding(*repeated), [key(1), 0]]), malformed("outputs", 0)),
        (transfer(2, fee=None, outputs=[holding(*repeated)]), malformed("outputs", 0), "outputs before the fee"),
        (transfer(2, fee=None, mint=repeated), malformed("fee"), "mint behind it"),
        (transfer(2, collateralReturn=holding(*repeated), mint=repeated), malformed("collateralReturn")),
        (transfer(2, collateral=5, mint=repeated), malformed("collateral")),
        (transfer(2, mint=repeated, treasury="x"), malformed("mint", 1), "mint before the treasury"),
        (transfer(2, mint=[of(0), *repeated]), malformed("mint", 0)),
        (transfer(2, mint=[of(1), of(1, P6), of(2)]), malformed("mint", 2), "repeated far apart"),
        (transfer(2, mint=[of(1), of(-1)]), malformed("mint", 1), "minted and burned"),
        (transfer(2, mint=[of(1), of(1)], witnessed=False), malformed("mint", 1)),
        (transfer(2), ACCEPTED),
    )


# ---- the genesis


def beginnings():
    def with_assets(*assets):
        return genesis(outputs=[[ref(1, 0), key(1), 1980], [ref(1, 1), key(1), 20, [*assets]]])

    yield begins("an output of a genesis with assets", with_assets(of(GREATEST), of(1, P6)))
    yield begins("an output of a genesis with an empty list of assets", with_assets())
    bad = {
        "an asset twice": [of(1), of(1)],
        "an asset twice, far apart": [of(1), of(1, P6), of(2)],
        "an asset in two spellings": [of(1, LETTERS, "0a"), of(1, LETTERS.upper(), "0A")],
        "a quantity of 0": [of(0)],
        "a quantity of 2^64": [of(2**64)],
        "a quantity below 0": [of(-1)],
        "a name of 33 bytes": [of(1, name="00" * 33)],
    }
    for name, assets in bad.items():
        yield no_genesis(f"a genesis with {name}", with_assets(*assets))
        yield over_small(f"a second genesis with {name}", (with_assets(*assets), malformed("outputs", 1)))
    yield no_genesis("a genesis with null for assets", genesis(outputs=[[ref(1, 0), key(1), 2000, None]]))
    yield no_genesis("a genesis with a fifth entry of an output", genesis(outputs=[[ref(1, 0), key(1), 2000, [], []]]))
    yield answered(
        "assets of a genesis",
        (PRINT, [total(10), total(2, P6), total(7, LETTERS, "0aff")]),
        (with_assets(of(1)), AGAIN, "of a second one nothing is kept"),
        (transfer(2, inputs=[ref(1, 0)], fee=0, outputs=[holding(of(3), of(2, P6), amount=1980)]), uneven(7, 0, 2)),
        (transfer(2, inputs=[ref(1, 0)], fee=1980, outputs=[holding(of(3), of(2, P6), of(7, LETTERS, "0AFF"))]), ACCEPTED),
        (PRINT, [total(10), total(2, P6), total(7, LETTERS, "0aff")]),
        first=genesis(outputs=[[ref(1, 0), key(1), 1980, [of(7, LETTERS.upper(), "0AfF"), of(2, P6), of(3)]], [ref(1, 1), key(1), 20, [of(7)]]]),
    )


# ---- totals


def totals():
    yield over_small(
        "totals that come back to 0",
        (minting(2, of(5), of(1, P6)), ACCEPTED),
        (minting(3, of(4)), ACCEPTED),
        (PRINT, [total(9), total(1, P6)]),
        (moving(4, [ref(2, 0)], of(1, P6), mint=[of(-5)]), ACCEPTED, "what the other output holds is left"),
        (PRINT, [total(4), total(1, P6)]),
        (moving(5, [ref(3, 0)], mint=[of(-4)]), ACCEPTED),
        (PRINT, total(1, P6)),
        (moving(6, [ref(4, 0)], mint=[of(-1, P6)]), ACCEPTED),
        (PRINT, BLANK),
        (minting(7, of(5), outputs=[]), uneven(5, 0)),
        (PRINT, BLANK, "a refusal leaves no total"),
        (minting(7, of(5)), ACCEPTED),
        (PRINT, total(5)),
    )
    yield over_small(
        "an input that comes back whole",
        (minting(2, of(5)), ACCEPTED),
        (moving(3, [ref(2, 0)], of(5)), ACCEPTED),
        (moving(4, [ref(3, 0)], of(1), of(2, P6), mint=[of(-4), of(2, P6)]), ACCEPTED),
        (PRINT, [total(1), total(2, P6)]),
        (json.dumps({"kind": "print", "what": "assets", "name": "x"}).encode(), [total(1), total(2, P6)], "fields that it does not have"),
        (PRINT.replace(b"assets", b"asset"), malformed("what")),
        (transfer(5, id=tx_id(2)), "refused 30 TxIdUsed"),
        (PRINT, [total(1), total(2, P6)]),
    )


def cases():
    yield from balances()
    yield from places()
    yield from bounds()
    yield from sums()
    yield from collaterals()
    yield from order()
    yield from beginnings()
    yield from totals()
