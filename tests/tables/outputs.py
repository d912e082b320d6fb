"""The rules on outputs and on the collateral return: their least lovelace, their network, their
places."""

from cases import ACCEPTED, FAILED_SCRIPTS, answered, over_outputs, over_small, pots, unbalanced
from records import GREATEST, genesis, key, ref, script, transfer
from tables.kinds import ADDRESS


def too_small(place, least):
    return f"refused 38 OutputTooSmall at {place} min {least}"


def other_network(place):
    return f"refused 39 OutputWrongNetwork at {place}"


def making(n, *outputs, held=1000, **fields):
    """Transaction n makes these outputs, each `(lovelace, bytes)`, on network 1; it pays the rest of what its input holds as the fee."""
    return transfer(n, outputs=[[key(n), *it] for it in outputs], fee=held - sum(it[0] for it in outputs), **fields)


def least():
    yield over_outputs(
        "OutputTooSmall",
        1000,
        (making(2, (479, 0)), too_small(0, 480), "3 for each byte, and for 160 more"),
        (making(2, (479, 0), (479, 0)), too_small(0, 480)),
        (making(2, (480, 0), (479, 0)), too_small(1, 480)),
        (making(2, (482, 1)), too_small(0, 483)),
        (making(2, (0, 2**32 - 1)), too_small(0, (160 + 2**32 - 1) * 3)),
        (making(2, (480, 0), (483, 1)), ACCEPTED),
        (making(3), ACCEPTED, "no output"),
        coinsPerUTxOByte=3,
    )
    yield over_small(
        "OutputTooSmall with the greatest numbers",
        (transfer(2, outputs=[[key(2), GREATEST, 2**32 - 1]]), too_small(0, (160 + 2**32 - 1) * GREATEST)),
        (transfer(2, outputs=[[key(2), GREATEST, 0]]), too_small(0, 160 * GREATEST)),
        (transfer(2), ACCEPTED),
        coinsPerUTxOByte=GREATEST,
    )
    yield over_small("outputs of no lovelace", (transfer(2, outputs=[[key(2), 0, 2**32 - 1]] * 3), ACCEPTED), coinsPerUTxOByte=0)


def networks():
    here, there = [key(1), 20, 0], [key(1, network=0), 20, 0]
    yield answered(
        "OutputWrongNetwork on network 1",
        (transfer(2, outputs=[there], fee=0), other_network(0)),
        (transfer(2, outputs=[here, there, there], fee=0), other_network(1)),
        (transfer(2, outputs=[[script(1, network=0), 20, 0]], fee=0), other_network(0)),
        (transfer(2, outputs=[here, here], fee=0), unbalanced(20, 40)),
        (transfer(2, outputs=[here], fee=0), ACCEPTED),
    )
    yield answered(
        "OutputWrongNetwork on network 0",
        (transfer(2, outputs=[here], fee=0), other_network(0)),
        (transfer(2, outputs=[there, here], fee=0), other_network(1)),
        (transfer(2, outputs=[there], fee=0), ACCEPTED),
        first=genesis(network=0, supply=1200, outputs=[[ref(1, i), key(1, network=0), 20] for i in range(10)]),
        start=pots(200, 100, 900, 1200),
    )
    good = [it.strip('"') for it in ADDRESS.good if it.startswith('"1')]
    yield answered("addresses of network 1", *((transfer(n, outputs=[[it, 20, 0]], fee=0), ACCEPTED) for n, it in enumerate(good, 2)))


def places():
    yield over_outputs(
        "outputs are tried place by place, and the collateral return after the last",
        1000,
        (transfer(2, outputs=[[key(1, network=0), 159, 0], [key(1), 159, 0]]), too_small(0, 160)),
        (transfer(2, outputs=[[key(1, network=0), 160, 0], [key(1), 159, 0]]), other_network(0)),
        (transfer(2, outputs=[[key(1), 160, 0], [key(1, network=0), 159, 0]]), too_small(1, 160)),
        (transfer(2, collateralReturn=[key(1), 160, 1]), too_small(0, 161), "whatever the scripts are"),
        (transfer(2, collateralReturn=[key(1, network=0), 161, 1]), other_network(0)),
        (transfer(2, outputs=[[key(1), 160, 0]], collateralReturn=[key(1, network=0), 160, 1]), too_small(1, 161)),
        (transfer(2, outputs=[[key(1), 160, 0]] * 3, collateralReturn=[key(1, network=0), 161, 1]), other_network(3)),
        (transfer(2, scripts="failed", collateral=[ref(1, 3)], outputs=[[key(1), 159, 0]]), too_small(0, 160), "also where the scripts failed"),
        (transfer(2, scripts="failed", collateral=[ref(1, 3)], outputs=[[key(1, network=0), 160, 0]]), other_network(0)),
        (transfer(2, scripts="failed", collateral=[ref(1, 3)], collateralReturn=[key(1), 160, 0]), FAILED_SCRIPTS),
        (making(4, (160, 0), collateralReturn=[key(1), 160, 0]), ACCEPTED),
        coinsPerUTxOByte=1,
    )


def cases():
    yield from least()
    yield from networks()
    yield from places()
