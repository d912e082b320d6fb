"""Long lists: the greatest number of entries of each list of a transaction, and one more."""

import json

from cases import ACCEPTED, USED, answered, malformed, missing, unbalanced
from records import ENTRY_LIMIT, GREATEST, OUTPUT_LIMIT, credential, key, ref, transfer

OUTPUT = json.dumps([key(1), 0, 0])
REFERENCE = json.dumps(ref(1, 0))
ACCOUNTS = [f'["{key(n)}",0]' for n in range(ENTRY_LIMIT + 1)]
CERT = json.dumps({"cert": "drep-update", "cred": credential(1)})
PROPOSAL = json.dumps({"deposit": 0, "return": key(1), "action": {"type": "Info"}})
VOTE = json.dumps({"voter": "drep:" + credential(1), "action": ref(1, 0), "vote": "yes"})


def with_list(name, entries):
    """A transaction with these entries in a list. Its id is that of the genesis outputs, so that it is refused where it reads."""
    return transfer(1, **{name: ["?"]}).replace(b'["?"]', f"[{','.join(entries)}]".encode())


def longest():
    # a bad entry follows the one in excess: it is named where the limit is not kept
    for name, limit, entries in (
        ("inputs", ENTRY_LIMIT, [REFERENCE] * ENTRY_LIMIT + [REFERENCE]),
        ("outputs", OUTPUT_LIMIT, [OUTPUT] * OUTPUT_LIMIT + [OUTPUT]),
        ("collateral", ENTRY_LIMIT, [REFERENCE] * ENTRY_LIMIT + [REFERENCE]),
        ("withdrawals", ENTRY_LIMIT, ACCOUNTS),
        ("certs", ENTRY_LIMIT, [CERT] * ENTRY_LIMIT + [CERT]),
        ("proposals", ENTRY_LIMIT, [PROPOSAL] * ENTRY_LIMIT + [PROPOSAL]),
        ("votes", ENTRY_LIMIT, [VOTE] * ENTRY_LIMIT + [VOTE]),
    ):
        yield answered(f"one of the {name} in excess", (with_list(name, [*entries, "0"]), malformed(name, limit)))
    yield answered(
        "lists of the greatest length",
        (with_list("inputs", [REFERENCE] * ENTRY_LIMIT), USED),
        (with_list("outputs", [OUTPUT] * OUTPUT_LIMIT), USED),
        (with_list("withdrawals", ACCOUNTS[:-1]), USED),
        (with_list("certs", [CERT] * ENTRY_LIMIT), USED),
        (with_list("proposals", [PROPOSAL] * ENTRY_LIMIT), USED),
        (with_list("votes", [VOTE] * ENTRY_LIMIT), USED),
    )
    yield answered("the first of many withdrawals again", (with_list("withdrawals", [*ACCOUNTS[:-2], ACCOUNTS[0]]), malformed("withdrawals", ENTRY_LIMIT - 1)))


def rewards():
    many = 100_000
    entries = ",".join(f'["{credential(n % many)}",0]' for n in range(many + 1))
    line = f'{{"kind":"rewards","epoch":0,"fromReserves":0,"fromFees":0,"toTreasury":0,"rewards":[{entries}]}}'
    yield answered("the first of many rewards again", (line.encode(), malformed("rewards", many)))


def effects():
    yield answered(
        "the most outputs, and what they make",
        (transfer(2, outputs=[[key(2), 0, 0]] * OUTPUT_LIMIT), ACCEPTED),
        (transfer(3, inputs=[ref(2, 65534)], fee=0), ACCEPTED),
        (transfer(4, inputs=[ref(2, 65535)], fee=0), missing()),
        (transfer(5, outputs=[[key(5), GREATEST, 0]] * OUTPUT_LIMIT, fee=GREATEST), unbalanced(20, 2**80 - 2**16), "65,536 times 2^64 - 1, the fee included"),
        (transfer(5, outputs=[[key(5), GREATEST, 0]] * OUTPUT_LIMIT, fee=GREATEST, donation=GREATEST), unbalanced(20, 2**80 - 2**16 + GREATEST)),
        (transfer(5), ACCEPTED),
    )
    # (a few thousand, so that a test of each against each of them does not take long)
    many = [ref(2, n) for n in range(4000)]
    yield answered(
        "many inputs",
        (transfer(2, outputs=[[key(2), 0, 0]] * 4000), ACCEPTED),
        (transfer(3, inputs=[*many, ref(1, 3), many[0]]), "refused 34 InputRepeated at 4001"),
        (transfer(3, inputs=[*many, ref(1, 3), ref(2, 4000)]), missing(4001)),
        (transfer(3, inputs=[*many, ref(1, 3)], fee=19), unbalanced(20, 19)),
        (transfer(3, inputs=[*many, ref(1, 3)]), ACCEPTED),
        (transfer(4, inputs=[many[3999]], fee=0), missing()),
    )


def cases():
    yield from longest()
    yield from rewards()
    yield from effects()
