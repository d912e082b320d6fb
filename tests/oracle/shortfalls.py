"""A plain program of what frozen proposals lack, written from docs/use/commands.md and
docs/use/rules.md alone. It tries every set of DReps that may still vote."""

from itertools import combinations

from oracle.counts import TYPES, drep_count, drep_stakes, in_order, needs_of, reached


def silent(frozen, proposal, stakes):
    """The active DReps that have not voted, each with its stake: the greatest first, then by credential."""
    found = [(cred, stakes[cred]) for cred, it in frozen["dreps"].items() if it["expiry"] >= frozen["epoch"] and f"drep:{cred}" not in proposal["votes"]]
    return sorted(found, key=lambda it: (-it[1], in_order(it[0])))


def fewest(dreps, yes, total, need):
    """The least number of them whose Yes reaches the threshold, by all sets of each size; None if no set does."""
    for size in range(len(dreps) + 1):
        if any(reached(yes + sum(stake for _, stake in those), total, need) for those in combinations(dreps, size)):
            return size
    return None


def lacked_by(frozen, proposal, stakes):
    """The lines of one proposal."""
    need, first = needs_of(frozen, frozen, proposal["action"])[1], f"shortfall {proposal['id']}"
    if need == "never":
        return [f"{first} never"]
    (yes, total), dreps = drep_count(frozen, proposal, stakes), silent(frozen, proposal, stakes)
    count, size = f"yes {yes} of {total} need {need[0]}/{need[1]}", fewest(dreps, yes, total, need)
    if size is None:
        return [f"{first} none {count}"]
    short = f" short {yes + sum(stake for _, stake in dreps[: size - 1])}" if size else ""
    return [f"{first} least {size} {count}{short}", *(f"add {cred} {stake}" for cred, stake in dreps[:size])]


def lacked(frozen):
    """The lines of all, in order of priority."""
    stakes = drep_stakes(frozen)
    ordered = sorted(frozen["proposals"], key=lambda it: TYPES.index(it["action"]["type"]))
    return [line for it in ordered for line in lacked_by(frozen, it, stakes)]
