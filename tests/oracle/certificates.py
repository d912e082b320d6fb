"""A plain program of certificates: the text of what was frozen, what was frozen by a text, and the
answers of `check`. Written from docs/use/certificates.md, docs/use/rules.md and
docs/use/formats.md alone.

What was frozen is a map as in counts.py. The text of what is read must be the same, byte for byte:
so counts, needs, verdicts and parts are never read."""

from oracle import forms as f
from oracle.counts import active_keys, default_side, drep_stakes, in_order, passed, pool_stakes
from oracle.epochs import tally_line
from oracle.forms import Form, Unreadable
from oracle.frozen import ENTRY, EXPIRY, LINE_LIMIT, POOL_ACCOUNT, STATE, action_line, begun, entry_lines, expiry_lines
from oracle.frozen import pool_account_lines, read_into, with_actions
from oracle.states import committee_lines, or_none, proposal_lines, shown_param
from oracle.actions import NAMES

SUPPLY_LIMIT = 45_000_000_000_000_000


# ---- the text of what was frozen


def whole_proposal_lines(frozen):
    for it in frozen["proposals"]:
        yield from proposal_lines({"proposals": [it]})
        yield action_line(it)


def snapshot_lines(frozen):
    major, minor = frozen["version"]
    last = " ".join(f"{purpose} {or_none(it)}" for purpose, it in frozen["enacted"].items())
    return [
        f"certificate epoch {frozen['epoch']} version {major}.{minor} treasury {frozen['treasury']}",
        f"constitution {frozen['document']} {or_none(frozen['script'])}",
        *committee_lines(frozen),
        f"enacted {last}",
        *(f"param {name} {shown_param(name, frozen['params'][name])}" for name in NAMES),
        *expiry_lines(frozen["dreps"]),
        *pool_account_lines(frozen),
        *(f"mark {pool} {stake}" for pool, stake in sorted(frozen["mark"].items())),
        *entry_lines(frozen["entries"]),
        *whole_proposal_lines(frozen),
    ]


def parts_of(frozen, proposal, of_dreps, of_pools):
    """What each voter adds to the counts of a proposal: role, name, weight and side."""
    kind, votes, committee = proposal["action"]["type"], proposal["votes"], frozen["committee"]
    for cold in sorted(committee["terms"] if committee else [], key=in_order):
        if active_keys(frozen, {"terms": {cold: committee["terms"][cold]}}):
            yield "committee", cold, 1, votes.get(f"committee:{frozen['hot'][cold]}", "no")
    for name, stake in of_dreps.items():
        if name not in frozen["dreps"] or frozen["dreps"][name]["expiry"] >= frozen["epoch"]:
            always = {"abstain": "abstain", "no-confidence": "yes" if kind == "NoConfidence" else "no"}
            yield "drep", name, stake, always.get(name) or votes.get(f"drep:{name}", "no")
    for pool, stake in sorted(of_pools.items()):
        yield "pool", pool, stake, votes.get(f"pool:{pool}", default_side(frozen, pool, kind))


def claim_lines(frozen):
    of_dreps, of_pools = drep_stakes(frozen), pool_stakes(frozen)
    yield from (f"stake {drep} {amount}" for drep, amount in of_dreps.items() if amount > 0)
    for proposal, counts, needs, verdict in passed(frozen)[2]:
        for role, name, weight, side in parts_of(frozen, proposal, of_dreps, of_pools):
            if weight > 0:
                yield f"part {proposal['id']} {role} {name} {weight} {side}"
        yield tally_line(proposal, counts, needs, verdict).replace("tally", "verdict", 1)
    yield "end"


def certificate_lines(frozen):
    """The lines of the certificate of what was frozen."""
    return [*snapshot_lines(frozen), *claim_lines(frozen)]


# ---- what was frozen, by a text


def put_head(frozen, epoch, version, treasury):
    frozen.update(epoch=epoch, version=version, treasury=treasury)


def put_mark(frozen, pool, stake):
    frozen["mark"][pool] = stake


LINES = (
    (Form("certificate epoch {} version {} treasury {}", f.u64, f.version, f.u64), put_head),
    *STATE,
    EXPIRY,
    POOL_ACCOUNT,
    (Form("mark {} {}", f.hash28, f.u64), put_mark),
    *ENTRY,
)
# the lines that follow from the others, which nobody reads
CLAIMS = ("stake", "part", "verdict", "end")


def frozen_of(lines):
    """What was frozen, as some lines show it."""
    empty = {"mark": {}, "entries": {}, "reward_accounts": {}}
    snapshot = [it for it in lines if it.split(" ")[0] not in CLAIMS]
    frozen = with_actions(read_into({**begun(), **empty}, LINES, snapshot))
    if any(name not in frozen for name in ("epoch", "document", "enacted")):
        raise Unreadable("a part is missing")
    return frozen


def held_by(frozen):
    """All that the entries hold, with the deposits of the proposals."""
    held = sum(it["stake"] + (it["account"]["balance"] if it["account"] else 0) for it in frozen["entries"].values())
    return held + sum(it["deposit"] for it in frozen["proposals"])


# the tests of what may have been frozen, by the names of docs/use/certificates.md
TESTS = {
    "epoch": lambda frozen: frozen["epoch"] < 2**62,
    "held": lambda frozen: held_by(frozen) <= SUPPLY_LIMIT,
    "mark": lambda frozen: sum(frozen["mark"].values()) <= SUPPLY_LIMIT,
}


def fault_of(lines):
    """Why lines are no certificate, or None."""
    try:
        frozen = frozen_of(lines)
    except Unreadable:
        return "form"
    fault = next((name for name, test in TESTS.items() if not test(frozen)), None)
    if fault:
        return fault
    short = all(len(it) <= LINE_LIMIT for it in lines)
    return None if short and certificate_lines(frozen) == lines else "text"


# ---- `check`


def parted(stream):
    """The lines of each certificate, up to an `end`, and those of a rest."""
    lines, found = stream.split(b"\n"), [[]]
    if lines[-1] == b"":
        lines.pop()
    for it in lines:
        found[-1].append(it.decode("latin-1"))
        if it == b"end":
            found.append([])
    return found if found[-1] else found[:-1]


def checked(stream):
    """The text of a check of a stream."""
    return "".join(f"{number} {'no' if fault_of(it) else 'yes'}\n" for number, it in enumerate(parted(stream), 1))
