"""A plain program of checkpoints: the text of a ledger, the ledger of a text, when a ledger is
sound to be resumed, and what `resume` writes. Written from docs/use/checkpoints.md,
docs/use/commands.md and docs/use/formats.md alone.

A text is read into a ledger, a map as in epochs.py; the text of this ledger must be the same, byte
for byte, and the ledger sound."""

import json
from copy import deepcopy

from oracle import forms as f
from oracle.epochs import after_record, output_stakes
from oracle.forms import Form, Unreadable, or_word
from oracle.frozen import ENTRY, EXPIRY, LINE_LIMIT, POOL_ACCOUNT, STATE, VOTE, action_line, begun, entry_lines, expiry_lines, of_id
from oracle.frozen import pool_account_lines, put_hot, read_into, vote_lines, with_actions
from oracle.states import state_lines
from oracle.counts import in_order
from oracle.transactions import PURPOSES, Output, Terms, pots

LAST_LINE, SUPPLY_LIMIT = 2**48, 45_000_000_000_000_000


# ---- the text of a ledger


def frozen_lines(frozen):
    yield f"treasury {frozen['treasury']}"
    yield from entry_lines(frozen["entries"])
    yield from expiry_lines(frozen["dreps"])
    for cold in sorted(frozen["hot"], key=in_order):
        yield f"hot {cold} {frozen['hot'][cold]}"
    yield from pool_account_lines(frozen)
    for it in frozen["proposals"]:
        yield f"proposal {it['id']}"
        yield from vote_lines(it)


def checkpoint_lines(ledger, line):
    """The lines of the checkpoint of a ledger after a line."""
    return [
        f"checkpoint 1 line {line} network {ledger['network']} length {ledger['length']} counted {ledger['counted']}",
        *state_lines(ledger, output_stakes(ledger)),
        *(f"used {it}" for it in sorted({*ledger["used"]})),
        *map(action_line, ledger["proposals"]),
        *(f"frozen {it}" for it in frozen_lines(ledger["frozen"])),
        "end",
    ]


# ---- the ledger of a text


def put_head(ledger, line, network, length, counted):
    ledger.update(line=line, network=network, length=length, counted=counted)


def put_now(ledger, slot, epoch, version, dormant):
    ledger.update(slot=slot, epoch=epoch, version=version, dormant=dormant)


def put_drep(ledger, name, deposit, expiry):
    ledger["dreps"][name] = {"deposit": deposit, "expiry": expiry}


def put_pool(ledger, name, deposit, cost, pledge, margin, account, retires, key=None):
    ledger["pools"][name] = {"deposit": deposit, "terms": Terms(cost, pledge, margin, account, key), "future": None, "retires": retires}


def put_next(ledger, name, cost, pledge, margin, account, key=None):
    if name not in ledger["pools"]:
        raise Unreadable(name)
    ledger["pools"][name]["future"] = Terms(cost, pledge, margin, account, key)


def put_account(ledger, name, _stake, deposit, balance, pool, drep):
    ledger["accounts"][name] = {"deposit": deposit, "balance": balance, "pool": pool, "drep": drep}


def put_output(ledger, name, address, amount):
    ledger["outputs"][name] = Output(address, amount, {})


def put_asset(ledger, policy, name, quantity):
    """An asset of the last output."""
    if not ledger["outputs"]:
        raise Unreadable(policy)
    last = [*ledger["outputs"].values()][-1]
    last.assets[policy, name] = quantity


def put_snapshot(ledger, name, pool, stake):
    ledger[name][pool] = stake


def put_noted(ledger, fees):
    ledger["noted"] = fees


def put_pending(ledger, reserves, fees, treasury):
    ledger["pending"] = {"fromReserves": reserves, "fromFees": fees, "toTreasury": treasury, "rewards": []}


def put_reward(ledger, name, amount):
    if ledger["pending"] is None or name in dict(ledger["pending"]["rewards"]):
        raise Unreadable(name)
    ledger["pending"]["rewards"].append([name, amount])


def put_pots(ledger, fees, donations, treasury, reserves):
    ledger.update(fees=fees, donations=donations, treasury=treasury, reserves=reserves)


def put_used(ledger, name):
    ledger["used"].append(name)


def into_frozen(put):
    """The same of what was frozen."""
    return lambda ledger, *values: put(ledger["frozen"], *values)


def put_frozen_treasury(frozen, amount):
    frozen["treasury"] = amount


def put_frozen_proposal(ledger, name):
    ledger["frozen"]["proposals"].append({**deepcopy(of_id(ledger["proposals"], name)), "votes": {}})


def nothing(*_):
    """What the other lines say already."""


TERMS = "cost {} pledge {} margin {} account {}"
TERMS_OF = (f.u64, f.u64, f.unit, f.account)
AMOUNT = f.NUMBER
LINES = (
    (Form("checkpoint 1 line {} network {} length {} counted {}", f.within(0, LAST_LINE), f.network, f.from_one, f.u64), put_head),
    (Form("now slot {} epoch {} version {} dormant {}", f.slot, f.u64, f.version, f.u64), put_now),
    *STATE,
    (Form("drep {} deposit {} expiry {}", f.credential, f.u64, f.u64), put_drep),
    (Form(f"pool {{}} deposit {{}} {TERMS} retires {{}}", f.hash28, f.u64, *TERMS_OF, or_word(f.u64, "never")), put_pool),
    (Form(f"pool {{}} deposit {{}} {TERMS} retires {{}} key {{}}", f.hash28, f.u64, *TERMS_OF, or_word(f.u64, "never"), f.hash32), put_pool),
    (Form(f"next {{}} {TERMS}", f.hash28, *TERMS_OF), put_next),
    (Form(f"next {{}} {TERMS} key {{}}", f.hash28, *TERMS_OF, f.hash32), put_next),
    (ENTRY[0][0], put_account),
    (ENTRY[1][0], nothing),
    (Form("output {} {} {}", f.reference, f.address, f.u64), put_output),
    (Form("asset {} {} {}", f.hash28, f.asset_name, f.positive), put_asset),
    (Form("snapshot {} {} {}", f.Kind("(?:mark|set|go)"), f.hash28, f.u64), put_snapshot),
    (Form("snapshot fees {}", f.u64), put_noted),
    (Form("pending none"), nothing),
    (Form("pending reserves {} fees {} treasury {}", f.u64, f.u64, f.u64), put_pending),
    (Form("pending reward {} {}", f.credential, f.u64), put_reward),
    (
        Form(f"pots outputs {AMOUNT} deposits {AMOUNT} rewards {AMOUNT} fees {{}} donations {{}} treasury {{}} reserves {{}} supply {AMOUNT}", *[f.u64] * 4),
        put_pots,
    ),
    (Form("used {}", f.hash32), put_used),
    (Form("frozen treasury {}", f.u64), into_frozen(put_frozen_treasury)),
    *((f.behind("frozen ", form), into_frozen(put)) for form, put in (*ENTRY, EXPIRY, POOL_ACCOUNT, VOTE)),
    (Form("frozen hot {} {}", f.credential, f.hot), into_frozen(put_hot)),
    (Form("frozen proposal {}", f.reference), put_frozen_proposal),
    (Form("end"), nothing),
)
# what each text must say
PARTS = ("line", "slot", "document", "enacted", "noted", "fees")


def ledger_of(lines):
    """The ledger that some lines show, with its line."""
    empty = {name: {} for name in ("pools", "accounts", "outputs", "mark", "set", "go")}
    frozen = {"entries": {}, "dreps": {}, "hot": {}, "reward_accounts": {}, "proposals": [], "treasury": None}
    ledger = with_actions(read_into({**begun(), **empty, "used": [], "pending": None, "frozen": frozen}, LINES, lines))
    if any(name not in ledger for name in PARTS) or frozen["treasury"] is None:
        raise Unreadable("a part is missing")
    # the actions came behind the proposals, and what is frozen behind them
    shown = ("epoch", "params", "version", "committee", "document", "script", "enacted", "mark")
    frozen.update({name: deepcopy(ledger[name]) for name in shown})
    if ledger["pending"]:
        ledger["pending"]["epoch"] = ledger["epoch"]
    return ledger, ledger.pop("line")


# ---- when a ledger is sound


def supply_of(ledger):
    return int(pots(ledger).split()[-1])


def is_timed(ledger):
    return ledger["epoch"] == ledger["slot"] // ledger["length"]


def is_within_dormant_bound(ledger):
    bound = 2**62 + 2**32 + ledger["epoch"]
    quiet = ledger["dormant"] == 0 or not ledger["proposals"]
    return quiet and ledger["dormant"] <= ledger["epoch"] and all(it["expiry"] + ledger["dormant"] <= bound for it in ledger["dreps"].values())


def delegates_to_registered(ledger):
    pools, dreps = {*ledger["pools"], None}, {*ledger["dreps"], None, "abstain", "no-confidence"}
    return all(it["pool"] in pools and it["drep"] in dreps for it in ledger["accounts"].values())


def uses_ids(ledger):
    ids = [*ledger["outputs"], *(it["id"] for it in ledger["proposals"])]
    return {it.split("#")[0] for it in ids} <= {*ledger["used"]}


def are_chained(ledger):
    """Each proposal with a purpose follows its last enacted action, or an earlier live one of it."""
    earlier = []
    for it in ledger["proposals"]:
        purpose, previous = PURPOSES.get(it["action"]["type"]), it["action"].get("previous")
        if purpose and previous != ledger["enacted"][purpose] and (purpose, previous) not in earlier:
            return False
        earlier.append((purpose, it["id"]))
    return True


def is_covered(ledger):
    update = ledger["pending"]
    if update is None:
        return True
    given = update["toTreasury"] + sum(amount for _, amount in update["rewards"])
    balanced = update["fromReserves"] + update["fromFees"] == given
    return balanced and update["fromReserves"] <= ledger["reserves"] and update["fromFees"] <= ledger["fees"]


def is_within_supply(ledger):
    """What is frozen, mark, set, go and the noted fees are each at most the supply."""
    frozen, supply = ledger["frozen"], supply_of(ledger)
    held = sum(it["stake"] + (it["account"]["balance"] if it["account"] else 0) for it in frozen["entries"].values())
    held += sum(it["deposit"] for it in frozen["proposals"])
    return max(held, ledger["noted"], *(sum(ledger[name].values()) for name in ("mark", "set", "go"))) <= supply


def are_counted_entries(ledger):
    return all(it["account"] or it["stake"] > 0 for it in ledger["frozen"]["entries"].values())


def are_frozen_in_order(ledger):
    """The frozen proposals are live ones in their order, each once."""
    names = [it["id"] for it in ledger["frozen"]["proposals"]]
    return [it["id"] for it in ledger["proposals"] if it["id"] in names] == names


# the tests of a sound ledger, by the names of docs/use/checkpoints.md
TESTS = {
    "time": is_timed,
    "dormancy": is_within_dormant_bound,
    "delegations": delegates_to_registered,
    "supply": lambda ledger: supply_of(ledger) <= SUPPLY_LIMIT,
    "ids": uses_ids,
    "chains": are_chained,
    "pending": is_covered,
    "within": is_within_supply,
    "entries": are_counted_entries,
    "counted": lambda ledger: ledger["counted"] <= len(ledger["frozen"]["entries"]),
    "treasury": lambda ledger: ledger["frozen"]["treasury"] <= ledger["treasury"],
    "proposals": are_frozen_in_order,
}


def fault_of(lines):
    """Why lines, up to an `end`, are no checkpoint of a sound ledger, or None; and the ledger with its line where they are one."""
    try:
        ledger, line = ledger_of(lines)
    except Unreadable:
        return "form", None
    fault = next((name for name, test in TESTS.items() if not test(ledger)), None)
    if fault is None and (checkpoint_lines(ledger, line) != lines or any(len(it) > LINE_LIMIT for it in lines)):
        fault = "form"
    return fault, None if fault else (ledger, line)


# ---- `resume`


def parted(stream):
    """The lines of a stream up to the first that is `end`, or None where there is none, and those behind it."""
    lines = stream.split(b"\n")
    if lines[-1] == b"":
        lines.pop()
    if b"end" not in lines:
        return None, lines
    place = lines.index(b"end") + 1
    return [it.decode("latin-1") for it in lines[:place]], lines[place:]


def answers_to(ledger, line):
    """The ledger after a line past the checkpoint, and what answers it: a record that can be read, or no JSON value."""
    try:
        record = json.loads(line)
    except ValueError:
        return ledger, ["refused 1 Malformed json"]
    return after_record(ledger, record)


def resumed(stream):
    """The status of a resume of a stream, and its text."""
    lines, records = parted(stream)
    fault, found = ("end", None) if lines is None else fault_of(lines)
    if fault:
        return 8, ""
    ledger, number = found
    text = []
    for line in records:
        number += 1
        if line.strip(b" \t\r"):
            ledger, answers = answers_to(ledger, line)
            text += [f"{number} {it}\n" for it in answers]
    return 0, "".join(text)
