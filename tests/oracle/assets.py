"""A plain program of native assets: lists of them, their sums, their texts, and what is malformed
of them, written from docs/use/rules.md and docs/use/formats.md alone.

An asset is the pair of its policy and its name, both as hex digits in lower case, so that pairs are
in the order of their bytes. What is held, minted or burned is a map of assets to quantities."""

import re

# the least and the greatest quantity of an output, and of a mint
HELD = range(1, 2**64)
MOVED = range(-(2**63), 2**63)
GREATEST_PLACE = 2**32 - 1


def quantities(entries):
    """What a list of assets has of each."""
    return {(policy.lower(), name.lower()): quantity for policy, name, quantity in entries}


def assets_of(output, place=3):
    """The assets of an output, which may have them as its last entry."""
    return quantities(output[place]) if len(output) > place else {}


def added(*held):
    """The sums of several."""
    sums = {}
    for it in held:
        for asset, quantity in it.items():
            sums[asset] = sums.get(asset, 0) + quantity
    return sums


def minted(tx):
    return {asset: quantity for asset, quantity in quantities(tx["mint"]).items() if quantity > 0}


def burned(tx):
    return {asset: -quantity for asset, quantity in quantities(tx["mint"]).items() if quantity < 0}


def differences(one, other):
    """Each asset that either names and of which they have not the same: its place among all of them in order, and both quantities."""
    for place, asset in enumerate(sorted({**one, **other})):
        if one.get(asset, 0) != other.get(asset, 0):
            yield min(place, GREATEST_PLACE), one.get(asset, 0), other.get(asset, 0)


# ---- texts


def asset_lines(word, held):
    """A line for each asset, in order."""
    for policy, name in sorted(held):
        yield f"{word} {policy} {name or '-'} {held[policy, name]}"


def total_lines(ledger):
    """What a print of the assets is answered."""
    return [*asset_lines("asset-total", added(*(it.assets for it in ledger["outputs"].values())))]


# ---- what is malformed


def is_hex(it, lengths):
    return isinstance(it, str) and len(it) in lengths and re.fullmatch("[0-9A-Fa-f]*", it) is not None


def is_asset(it, range_of):
    """A policy, a name, and a quantity in this range that is not 0."""
    if not isinstance(it, list) or len(it) != 3:
        return False
    policy, name, quantity = it
    return is_hex(policy, [56]) and is_hex(name, range(0, 65, 2)) and type(quantity) is int and quantity in range_of and quantity != 0


def first_bad(entries, range_of):
    """The place of the first entry that is no asset, or whose asset stands before it, or None."""
    seen = set()
    for place, it in enumerate(entries):
        if not is_asset(it, range_of) or (it[0].lower(), it[1].lower()) in seen:
            return place
        seen.add((it[0].lower(), it[1].lower()))
    return None


def has_bad_assets(output):
    """Whether an output that is good for the rest has no list of assets as its fourth entry, or has a fifth."""
    if not isinstance(output, list) or len(output) < 4:
        return False
    return len(output) > 4 or not isinstance(output[3], list) or first_bad(output[3], HELD) is not None


def malformed_assets(record):
    """The field of a genesis or a transaction whose assets are malformed, with the place where one is told, or None."""
    outputs, mint = record.get("outputs"), record.get("mint") if record["kind"] == "tx" else None
    for place, it in enumerate(outputs if isinstance(outputs, list) else []):
        if has_bad_assets(it):
            return f"outputs[{place}]"
    if record["kind"] == "tx" and has_bad_assets(record.get("collateralReturn")):
        return "collateralReturn"
    if mint is None:
        return None
    if not isinstance(mint, list):
        return "mint"
    place = first_bad(mint, MOVED)
    return None if place is None else f"mint[{place}]"
