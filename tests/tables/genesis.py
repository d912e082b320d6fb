"""The genesis: what may begin a run, and its rules; a second one."""

from cases import ACCEPTED, AGAIN, START, answered, begins, malformed, no_genesis, pots
from records import GREATEST, PARAMS, SUPPLY_LIMIT, credential, genesis, hash28, key, ref, script, small, transfer, tx_id

NOTHING = {"supply": 0, "reserves": 0, "treasury": 0, "outputs": []}


def start(count):
    """What a genesis of so many outputs of 20 is answered."""
    return pots(20 * count, 100, 900, 1000 + 20 * count)


def of(*outputs, **fields):
    """A genesis with these outputs, of 20 lovelace each unless `supply` says otherwise."""
    return genesis(**{"supply": 1000 + 20 * len(outputs), "outputs": list(outputs), **fields})


def fields():
    yield begins("nothing at all", genesis(**NOTHING), pots(0, 0, 0, 0))
    yield begins("the last slot", genesis(slot=2**62 - 1))
    yield begins("epochs of one slot", genesis(slot=2**62 - 1, epochLength=1))
    yield begins("the longest epochs", genesis(epochLength=2**32 - 1))
    yield begins("the greatest version", genesis(version=[2**32 - 1, 2**32 - 1]))
    yield begins("a script of the constitution", genesis(script=hash28(9)))
    yield begins("no treasury", genesis(treasury=0, reserves=1000), pots(2000, 0, 1000, 3000))
    yield begins("fields that nobody names", genesis(fee=-1, note={"kind": "tx"}, minFeeC=0, Params=[]))
    zeros = {name: 0 for name, it in PARAMS.items() if isinstance(it, int)}
    yield begins("parameters of 0", genesis(**zeros))


def committees():
    member = [credential(70), 100, None]
    good = {
        "no committee": None,
        "no members": {"threshold": [2, 3], "members": []},
        "a member with no hot key": {"threshold": [1, 1], "members": [member]},
        "two members with one hot key": {"threshold": [0, 1], "members": [[credential(70), 0, credential(1)], [credential(71), 2**62 - 1, credential(1)]]},
        "a key and a script of one hash": {"threshold": [0, 1], "members": [member, [credential(70, "s"), 1, credential(70)]]},
        "fields that a committee does not have": {"threshold": [0, 1], "members": [member], "cold": 1},
    }
    for name, committee in good.items():
        yield begins(name, genesis(committee=committee))
    twice = {
        "a member twice": [member, member],
        "a member twice, with other terms": [member, [credential(71), 1, None], [credential(70), 1, credential(3)]],
        "a member twice, in two spellings": [["kab" + "ab" * 27, 1, None], ["kAB" + "ab" * 27, 1, None]],
    }
    for name, members in twice.items():
        yield no_genesis(name, genesis(committee={"threshold": [0, 1], "members": members}))


def outputs():
    first = [ref(1, 0), key(1), 20]
    yield begins("no output", of(), start(0))
    yield begins("an output of no lovelace", of([ref(1, 0), key(1), 0], supply=1000), start(0))
    yield begins("the last index", of([ref(1, 65535), key(1), 20]), start(1))
    yield begins("any order", of([ref(2, 0), key(1), 20], [ref(1, 3), key(1), 20], [ref(1, 2), key(1), 20]), start(3))
    yield begins("one index of two transactions", of(first, [ref(2, 0), key(1), 20]), start(2))
    yield begins("a stake part", of([ref(1, 0), key(1) + "+s" + "F" * 56, 20]), start(1))
    yield begins("the output of a script", of([ref(1, 0), script(1), 20]), start(1))
    yield begins("network 0", of([ref(1, 0), key(1, network=0), 20], network=0), start(1))
    # that it is tried before the sum is a clause of the library: here the sum is right
    yield no_genesis("an output of another network", of([ref(1, 0), key(1, network=0), 20]))
    yield no_genesis("a second output of another network", of(first, [ref(1, 1), key(1, network=0), 20]))
    yield no_genesis("an output of network 1 on network 0", of(first, network=0))
    yield answered(
        "hex digits of either case",
        (transfer(2, id="CD" * 32, inputs=["AB" * 32 + "#0"]), ACCEPTED),
        (transfer(2, id="cd" * 32, inputs=["ab" * 32 + "#1"]), "refused 30 TxIdUsed"),
        (transfer(2, id="AB" * 32, inputs=["ab" * 32 + "#1"]), "refused 30 TxIdUsed"),
        (transfer(2, id="ef" * 32, inputs=["aB" * 32 + "#1"]), ACCEPTED),
        (transfer(2, id="12" * 32, inputs=["AB" * 32 + "#1"]), "refused 33 InputMissing at 0"),
        first=of(["ab" * 32 + "#0", key(1), 20], ["AB" * 32 + "#1", key(1), 20]),
        start=start(2),
    )


# The first rule that a genesis breaks is its cause, which the program does not write: here each
# rule is broken alone. That they are tried in order is a clause of the library.
def rules():
    most = SUPPLY_LIMIT
    yield begins("the greatest supply", genesis(**{**NOTHING, "supply": most, "reserves": most}), pots(0, 0, most, most))
    yield no_genesis("a greater supply", genesis(**{**NOTHING, "supply": most + 1, "reserves": most + 1}))
    yield no_genesis("the greatest number as the supply", genesis(**{**NOTHING, "supply": GREATEST, "reserves": GREATEST}))
    yield no_genesis("an output twice", of([ref(1, 0), key(1), 20], [ref(1, 0), key(2), 20]))
    yield no_genesis("an output twice, of other amounts", of([ref(1, 0), key(1), 20], [ref(1, 0), key(2), 7], supply=1027))
    yield no_genesis("an output twice, in two spellings", of(["ab" * 32 + "#0", key(1), 20], ["AB" * 32 + "#0", key(1), 20]))
    yield no_genesis("an output twice, far apart", of(*([ref(1, i % 100), key(1), 20] for i in range(101))))
    yield no_genesis("a supply that is 1 too small", genesis(supply=2999))
    yield no_genesis("a supply that is 1 too large", genesis(supply=3001))
    yield no_genesis("reserves that are 1 too small", genesis(reserves=899))
    yield no_genesis("a treasury that is 1 too large", genesis(treasury=101))
    yield no_genesis("outputs that are the supply but for 2^64", genesis(outputs=[[ref(1, 0), key(1), GREATEST], [ref(1, 1), key(1), 2001]]))
    yield no_genesis("pots that are the supply but for 2^64", genesis(reserves=GREATEST, treasury=3001, outputs=[]))
    yield no_genesis("all four", of([ref(1, 0), key(1, network=0), 1], [ref(1, 0), key(1), 1], supply=most + 1))


ACCOUNT = [credential(10), 2, 67, None, "abstain"]
POOL = [hash28(50), 5, 0, 0, [0, 1], key(12)]
KEYED = [*POOL, tx_id(7)]
LISTS = {"accounts": ACCOUNT, "pools": POOL, "dreps": [credential(30), 5, 20]}


def accounts():
    def having(*entries, **fields):
        return genesis(**{"accounts": [*entries], "reserves": 900 - sum(it[1] + it[2] for it in entries), **fields})

    other = [credential(10, "s"), 0, 3, None, "no-confidence"]
    yield begins("an account", having(ACCOUNT), pots(2000, 100, 831, 3000, deposits=2, rewards=67))
    yield begins("two accounts", having(ACCOUNT, other), pots(2000, 100, 828, 3000, deposits=2, rewards=70))
    yield no_genesis("an account that is not counted", having(ACCOUNT, reserves=900))
    yield no_genesis("an account twice", having(ACCOUNT, ACCOUNT))
    yield no_genesis("an account twice, with other amounts", having(ACCOUNT, [credential(10), 0, 0, None, None]))
    yield no_genesis("an account that delegates to no pool of the genesis", having([credential(10), 2, 67, hash28(50), None]))
    yield no_genesis("an account that delegates to no DRep of the genesis", having([credential(10), 2, 67, None, credential(30)]))
    yield no_genesis("an account that is not read", genesis(accounts=[ACCOUNT[:-1]]))


def second():
    yield answered(
        "a second genesis",
        (genesis(), AGAIN),
        (small(), AGAIN),
        *((genesis(**{name: [it]}), AGAIN, f"with {name}") for name, it in LISTS.items()),
        *((genesis(**{name: [it, it]}), AGAIN, f"with {name} twice") for name, it in LISTS.items()),
        (genesis(supply=1), AGAIN, "that breaks SumWrong"),
        (genesis(supply=GREATEST), AGAIN, "that breaks SupplyTooLarge"),
        (of([ref(1, 0), key(1), 20], [ref(1, 0), key(1), 20]), AGAIN, "that breaks Repeated"),
        (genesis(network=0), AGAIN, "that breaks WrongNetwork"),
        (genesis(slot=None), malformed("slot")),
        (genesis(version=[9, 2]), malformed("version")),
        (genesis(minFeeA=None), malformed("params")),
        (genesis(minFeeC=0, params={**PARAMS, "minFeeC": 0}), malformed("params")),
        (genesis(committee={"threshold": [2, 1], "members": []}), malformed("committee")),
        (of([ref(1, 0), key(1), 20], [ref(1, 1), key(1)]), malformed("outputs", 1)),
        (genesis(pools=[POOL, [*POOL, None]]), malformed("pools", 1)),
        (genesis(pools=[KEYED, [*KEYED, None]]), malformed("pools", 1)),
        (genesis(pools=[KEYED]), AGAIN),
        (transfer(2), ACCEPTED, "the ledger is the same"),
        (transfer(2, id=tx_id(3)), "refused 33 InputMissing at 0"),
        start=START,
    )


def cases():
    yield from fields()
    yield from committees()
    yield from outputs()
    yield from rules()
    yield from accounts()
    yield from second()
