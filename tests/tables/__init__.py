"""The streams that tests/run/replay runs, each with the words, and the text and the status that it
must give."""

from tables import (
    accounts,
    assets,
    dreps,
    epochs,
    explained,
    fields,
    genesis,
    json_forms,
    limits,
    lines,
    outputs,
    parts,
    pool_keys,
    pools,
    proposals,
    rules,
    scripts,
    seats,
    votes,
    words,
    worked,
)

TABLES = (words, lines, json_forms, genesis, fields, limits, epochs, parts, rules, accounts, pools, pool_keys, dreps, proposals, votes, seats, outputs, scripts, assets, explained, worked)


def cases():
    """Every stream of the tables."""
    for table in TABLES:
        yield from table.cases()
