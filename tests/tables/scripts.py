"""Scripts and collateral: the rules on it, each on both sides of its bound, and what is left where
the scripts failed."""

from cases import ACCEPTED, FAILED_SCRIPTS, NO_COLLATERAL, USED, answered, missing, over_outputs, over_small, unbalanced
from records import GREATEST, OUTPUT_LIMIT, credential, key, ref, script, transfer


def too_many(most):
    return f"refused 40 TooManyCollateral max {most}"


def no_collateral_at(place):
    return f"refused 42 CollateralMissing at {place}"


def not_key(place):
    return f"refused 43 CollateralNotKey at {place}"


def too_small(have):
    return f"refused 44 CollateralTooSmall have {have}"


def collateral(*indexes):
    """Outputs of the genesis."""
    return [ref(1, i) for i in indexes]


def returned(lovelace, network=1):
    return [key(1, network=network), lovelace, 0]


def failing(n, *indexes, fee=0, **fields):
    """Transaction n, whose scripts failed, with this collateral."""
    return transfer(n, scripts="failed", collateral=collateral(*indexes), fee=fee, **fields)


def lists():
    yield over_small(
        "TooManyCollateral",
        (transfer(2, collateral=collateral(3, 4, 5, 6)), too_many(3), "also where there are no scripts"),
        (transfer(2, collateral=[ref(9, 9)] * 4), too_many(3)),
        (transfer(2, scripts="ok", collateral=collateral(3, 4, 5, 6)), too_many(3)),
        (failing(2, 3, 4, 5, 6), too_many(3)),
        (transfer(2, collateral=collateral(3, 4, 5)), ACCEPTED),
        (transfer(3, scripts="ok", collateral=collateral(4, 5, 6)), ACCEPTED),
        (failing(4, 4, 5, 6), FAILED_SCRIPTS),
    )
    yield over_small(
        "TooManyCollateral where none is allowed",
        (transfer(2, collateral=collateral(2)), too_many(0)),
        (transfer(2, scripts="ok"), NO_COLLATERAL),
        (transfer(2, collateral=[]), ACCEPTED),
        maxCollateralInputs=0,
    )
    yield over_small(
        "NoCollateral",
        (transfer(2, scripts="ok"), NO_COLLATERAL),
        (transfer(2, scripts="failed"), NO_COLLATERAL),
        (transfer(2, scripts="failed", collateral=[], collateralReturn=returned(0)), NO_COLLATERAL),
        (transfer(2, scripts="ok", collateral=None), NO_COLLATERAL),
        (transfer(2, scripts="none"), ACCEPTED),
        (transfer(3, scripts=None), ACCEPTED),
    )


def entries():
    outputs = [[ref(1, i), script(1) if i == 9 else key(1) + "+" + credential(1, "s") if i == 8 else key(1), 20] for i in range(10)]
    yield over_small(
        "CollateralMissing, CollateralNotKey",
        (transfer(2, collateral=[ref(9, 9)]), no_collateral_at(0), "also where there are no scripts"),
        (transfer(2, collateral=[ref(1, 3), ref(1, 10)]), no_collateral_at(1)),
        (transfer(2, collateral=collateral(3, 4, 3)), no_collateral_at(2), "one that stands there already"),
        (transfer(2, collateral=[*collateral(3, 3), ref(9, 9)]), no_collateral_at(1)),
        (transfer(2, collateral=collateral(9, 9)), no_collateral_at(1)),
        (transfer(2, scripts="ok", collateral=collateral(9)), not_key(0)),
        (failing(2, 9), not_key(0)),
        (transfer(2, scripts="ok", collateral=collateral(3, 9, 9)), not_key(1), "place by place"),
        (transfer(2, scripts="ok", collateral=[ref(9, 9), *collateral(9)]), no_collateral_at(0)),
        (transfer(2, scripts="ok", collateral=[*collateral(9), ref(9, 9)]), not_key(0)),
        (transfer(2, fee=0, scripts="ok", collateral=collateral(8)), unbalanced(20, 0), "a script as its stake part does no harm"),
        (transfer(2, collateral=collateral(9)), ACCEPTED, "nor a script where there are no scripts"),
        (transfer(3, collateral=collateral(2)), no_collateral_at(0), "an output that is spent"),
        (transfer(3, collateral=[ref(3, 0)], outputs=[[key(1), 20, 0]], fee=0), no_collateral_at(0), "its own output"),
        (transfer(3, collateral=collateral(3)), ACCEPTED, "its own input"),
        outputs=outputs,
    )


def sums():
    yield over_small(
        "CollateralTooSmall",
        (failing(2, 3, fee=14), too_small(20), "it takes 21"),
        (failing(2, 3, fee=4, collateralReturn=returned(15)), too_small(5), "it takes 6"),
        (failing(2, 3, fee=1, collateralReturn=returned(19)), too_small(1), "150 is above 100"),
        (failing(2, 3, fee=1, collateralReturn=returned(20)), too_small(0)),
        (failing(2, 3, collateralReturn=returned(21)), too_small(0), "less than its return, with no fee"),
        (failing(2, 3, collateralReturn=returned(GREATEST)), too_small(0)),
        (failing(2, 3, fee=GREATEST), too_small(20)),
        (failing(2, 3, 4, fee=27), too_small(40), "all of it counts"),
        (transfer(2, scripts="ok", collateral=collateral(3), fee=14), too_small(20), "also where the scripts did not fail"),
        (transfer(2, scripts="none", collateral=collateral(3), collateralReturn=returned(GREATEST)), ACCEPTED, "not where there are none"),
        (failing(3, 3, fee=4, collateralReturn=returned(14)), FAILED_SCRIPTS),
        (failing(4, 4, collateralReturn=returned(20)), FAILED_SCRIPTS, "nothing is left, and nothing is to be paid"),
        (failing(5, 5, 6, fee=26), FAILED_SCRIPTS, "40 is above 39"),
        (transfer(7, scripts="ok", collateral=collateral(8), fee=13, outputs=[[key(1), 7, 0]]), ACCEPTED, "20 is above 19.5"),
    )
    for percentage, fee, less in ((0, GREATEST, None), (1, 2000, 2001), (100, 20, 21), (101, 19, 20), (65535, 0, 1)):
        refused = [] if less is None else [(failing(2, 3, fee=less), too_small(20))]
        yield over_small(f"CollateralTooSmall at {percentage} in 100", *refused, (failing(2, 3, fee=fee), FAILED_SCRIPTS), collateralPercentage=percentage)


def effects():
    change = [[key(1), 5, 0], [key(1), 6, 0]]
    yield answered(
        "what is left where the scripts failed",
        (transfer(2, scripts="failed", collateral=collateral(3, 4), collateralReturn=returned(13), outputs=change, fee=9), FAILED_SCRIPTS),
        (transfer(2), USED, "its id is used"),
        (transfer(5, inputs=[ref(1, 3)]), missing(), "its collateral is spent"),
        (transfer(5, inputs=[ref(1, 5), ref(1, 4)]), missing(1)),
        (transfer(5, collateral=collateral(3)), no_collateral_at(0)),
        (transfer(5, inputs=[ref(2, 0)]), missing(), "its outputs are not made"),
        (transfer(5, inputs=[ref(2, 1)]), missing()),
        (transfer(5, inputs=[ref(2, 3)]), missing()),
        (transfer(5, inputs=[ref(2, 2)], fee=12), unbalanced(13, 12), "its return is behind the places of its outputs"),
        (transfer(5, inputs=[ref(2, 2)], fee=13), ACCEPTED),
        (transfer(6, inputs=[ref(2, 2)], fee=13), missing()),
        (transfer(6, inputs=[ref(1, 2)]), ACCEPTED, "its input is unspent"),
        (failing(7, 7), FAILED_SCRIPTS, "with no return"),
        (transfer(8, inputs=[ref(7, 0)], fee=0), missing()),
        (transfer(8, inputs=[ref(1, 7)]), missing(), "its input was its collateral"),
        (failing(8, 9, collateralReturn=returned(0)), FAILED_SCRIPTS),
        (transfer(9, inputs=[ref(8, 0)], fee=0), ACCEPTED, "a return of no lovelace is an output"),
        (failing(9, 10), USED),
        (transfer(10), ACCEPTED),
    )
    yield answered(
        "where the scripts failed neither the treasury value nor the balance is looked at",
        (failing(2, 3, fee=1, treasury=99), FAILED_SCRIPTS),
        (failing(4, 5, fee=1, donation=GREATEST, outputs=[[key(1), GREATEST, 0]]), FAILED_SCRIPTS),
        (transfer(6, treasury=100), ACCEPTED, "nothing was given to the treasury"),
        (transfer(2, inputs=[ref(1, 4)]), USED),
        (transfer(7, inputs=[ref(1, 4)]), ACCEPTED),
    )
    yield answered(
        "what is left where they did not fail",
        (transfer(2, scripts="ok", collateral=collateral(3), collateralReturn=returned(1), outputs=[[key(1), 15, 0]], fee=5), ACCEPTED),
        (transfer(4, inputs=[ref(2, 1)], fee=1), missing(), "no return"),
        (transfer(4, inputs=[ref(2, 0)], fee=15), ACCEPTED),
        (transfer(3, collateral=collateral(2)), no_collateral_at(0), "its input is spent"),
        (transfer(3), ACCEPTED, "its collateral is not"),
    )
    yield answered(
        "collateral without scripts",
        (transfer(2, collateral=collateral(3), collateralReturn=returned(5)), ACCEPTED),
        (transfer(4, inputs=[ref(2, 0)], fee=5), missing(), "no return"),
        (transfer(3), ACCEPTED, "it is unspent"),
    )
    yield over_outputs(
        "the return of the collateral of another",
        1000,
        (failing(2, 3, fee=100, collateralReturn=returned(850)), FAILED_SCRIPTS),
        (transfer(4, scripts="failed", collateral=[ref(2, 0)], collateralReturn=returned(700), fee=100), FAILED_SCRIPTS),
        (transfer(5, scripts="failed", collateral=[ref(4, 0)], collateralReturn=returned(551), fee=100), too_small(149)),
        (transfer(5, inputs=[ref(4, 0)], fee=700), ACCEPTED),
    )
    yield answered(
        "a return at the last place",
        (failing(2, 3, collateralReturn=returned(20), outputs=[[key(1), 0, 0]] * OUTPUT_LIMIT), FAILED_SCRIPTS),
        (transfer(3, inputs=[ref(2, OUTPUT_LIMIT - 1)], fee=0), missing()),
        (transfer(3, inputs=[ref(2, OUTPUT_LIMIT)]), ACCEPTED),
    )


def cases():
    yield from lists()
    yield from entries()
    yield from sums()
    yield from effects()
