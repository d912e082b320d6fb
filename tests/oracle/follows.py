"""A plain program of streams with rollbacks: what `follow` writes, and random streams for it.

As in epochs.py it is written from docs/use/rules.md and docs/use/formats.md alone. It keeps the
accepted records that remain, and makes the ledger after a rollback by all of them, from the genesis
on; the count alone is that of all accepted blocks of the epoch."""

from typing import NamedTuple

from oracle.epochs import after_record, begun
from oracle.streams import a_genesis, a_transaction, other_record, short_shape
from oracle.transactions import pots

SLOT_LIMIT = 2**62


def is_accepted(lines):
    """Whether a record was accepted; a print of assets may have no line."""
    return not lines or not lines[0].startswith("refused")


def is_slot(value):
    return isinstance(value, int) and not isinstance(value, bool) and 0 <= value < SLOT_LIMIT


class Followed(NamedTuple):
    """Where a followed stream is: its genesis, the accepted records that remain, the ledger after
    them, and the sum of the pulses of the accepted blocks of its epoch, also of those cut away."""

    genesis: dict
    kept: list
    ledger: dict
    pulses: int


def counted(ledger, pulses):
    """The ledger with the count of these pulses."""
    return {**ledger, "counted": min(len(ledger["frozen"]["entries"]), pulses)}


def first(genesis):
    """Right after the genesis, and the line that answers it."""
    ledger = begun(genesis)
    return Followed(genesis, [], ledger, 0), [f"genesis {pots(ledger)}"]


def replayed(genesis, records):
    """The ledger after accepted records, by a replay of them."""
    ledger = begun(genesis)
    for it in records:
        ledger, lines = after_record(ledger, it)
        assert is_accepted(lines), (it, lines)
    return ledger


def after_rollback(it, record):
    """After a rollback, and the line that answers it."""
    slot = record.get("slot")
    if not is_slot(slot):
        return it, ["refused 1 Malformed slot"]
    there = [place for place, kept in enumerate(it.kept) if kept["kind"] == "block" and kept["slot"] == slot]
    if not there or slot // it.ledger["length"] != it.ledger["epoch"]:
        return it, [f"refused 13 RollbackUnknown last {it.ledger['slot']}"]
    kept = it.kept[: there[0] + 1]
    ledger = counted(replayed(it.genesis, kept), it.pulses)
    entries = len(ledger["frozen"]["entries"])
    line = f"rolled slot {ledger['slot']} epoch {ledger['epoch']} counted {ledger['counted']} of {entries}"
    return it._replace(kept=kept, ledger=ledger), [line]


def after(it, record):
    """After a record past the genesis, and the lines that answer it."""
    if record["kind"] == "rollback":
        return after_rollback(it, record)
    ledger, lines = after_record(it.ledger, record)
    if not is_accepted(lines):
        return it, lines
    pulses = it.pulses if ledger["epoch"] == it.ledger["epoch"] else 0
    pulses += record["pulse"] if record["kind"] == "block" else 0
    assert ledger["counted"] == counted(ledger, pulses)["counted"]
    return it._replace(kept=[*it.kept, record], ledger=ledger, pulses=pulses), lines


# ---- random streams


def a_rollback(r, it, cut):
    """A rollback to a block of the epoch that remains, or one that breaks a rule."""
    slots = [kept["slot"] for kept in it.kept if kept["kind"] == "block"]
    here = [slot for slot in slots if slot // it.ledger["length"] == it.ledger["epoch"]]
    if here and r.random() < 0.75:
        return {"kind": "rollback", "slot": r.choice(here)}
    # blocks of earlier epochs, and those that were cut away; the slot of the genesis; and others
    gone = [record["slot"] for record in cut if record["kind"] == "block"]
    others = [it.genesis["slot"], it.ledger["slot"], it.ledger["slot"] + 1, SLOT_LIMIT - 1]
    slot = r.choice(r.choice([some for some in (slots, gone, others) if some]))
    wrong = [{}, {"slot": SLOT_LIMIT}, {"slot": -1}, {"slot": str(slot)}, {"slot": None}]
    return {"kind": "rollback", **(r.choice(wrong) if r.random() < 0.1 else {"slot": slot})}


def next_record(r, it, cut, number, shape):
    """A rollback, a record that was cut away, or a further one."""
    if r.random() < 0.15:
        return a_rollback(r, it, cut)
    if cut and r.random() < 0.4:
        return cut.pop(r.choice([0, 0, r.randrange(len(cut))]))
    return other_record(r, it.genesis, it.ledger, shape) or a_transaction(r, it.ledger, number, False)


def a_followed_stream(r):
    """Its records, the lines that answer each, and the accepted records that remain at its end."""
    shape = short_shape(r)
    it, lines = first(a_genesis(r, shape))
    records, answers, cut, number = [it.genesis], [lines], [], 10
    for _ in range(shape.records):
        record = next_record(r, it, cut, number, shape)
        before = it.kept
        it, lines = after(it, record)
        records.append(record)
        answers.append(lines)
        if record["kind"] == "rollback":
            cut = before[len(it.kept) :] or cut
        # the id of a refused transaction may come again
        number += record["kind"] == "tx" and (is_accepted(lines) or r.random() < 0.5)
    return records, answers, it.kept
