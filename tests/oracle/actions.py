"""A plain program of actions as JSON on one line, as checkpoints and certificates have them:
written from docs/use/formats.md and docs/use/checkpoints.md alone."""

import json
import re

from oracle import forms
from oracle.counts import GROUPS
from oracle.forms import Unreadable

# the fields of each type, in order
FIELDS = {
    "NoConfidence": ("previous",),
    "UpdateCommittee": ("previous", "remove", "add", "threshold"),
    "NewConstitution": ("previous", "document", "script"),
    "HardForkInitiation": ("previous", "version"),
    "ParameterChange": ("previous", "update", "policy"),
    "TreasuryWithdrawals": ("targets", "policy"),
    "Info": (),
}
MAY_LACK = ("previous", "script", "policy")
# all parameters, in order
NAMES = [name for group in GROUPS.values() for name in group.split()]
# the kind of each parameter, as its parts; a kind alone is one part
PARAMS = {
    **dict.fromkeys("maxBlockBodySize maxTxSize maxBlockHeaderSize maxValueSize eMax govActionLifetime drepActivity committeeMaxTermLength".split(), forms.u32),
    **dict.fromkeys("maxCollateralInputs nOpt collateralPercentage committeeMinSize".split(), forms.u16),
    **dict.fromkeys("minFeeA minFeeB keyDeposit poolDeposit minPoolCost coinsPerUTxOByte govActionDeposit drepDeposit".split(), forms.u64),
    **dict.fromkeys("rho tau".split(), forms.unit),
    **dict.fromkeys("minFeeRefScriptCostPerByte a0".split(), forms.ratio),
    **dict.fromkeys("maxTxExUnits maxBlockExUnits".split(), [forms.u64] * 2),
    "prices": [forms.ratio] * 2,
    "costModels": forms.hash32,
    "poolVotingThresholds": [forms.unit] * 5,
    "drepVotingThresholds": [forms.unit] * 10,
}


# ---- the text


def shown(name, value):
    """A field of an action; of an update the parameters that it has, in order."""
    return {it: value[it] for it in NAMES if value.get(it) is not None} if name == "update" else value


def action_text(action):
    """The action as JSON, without the fields that it does not have."""
    fields = {name: shown(name, action[name]) for name in FIELDS[action["type"]] if action.get(name) is not None}
    return json.dumps({"type": action["type"], **fields}, separators=(",", ":"))


# ---- its reading


def is_number(it):
    return isinstance(it, int) and not isinstance(it, bool)


def spelled(it):
    """A JSON value as a word of a text: fractions are lists of two numbers."""
    if isinstance(it, list) and len(it) == 2 and all(map(is_number, it)):
        return f"{it[0]}/{it[1]}"
    if isinstance(it, str) or is_number(it):
        return str(it)
    raise Unreadable(it)


def must_be(kind, it):
    """A JSON value must be of this kind."""
    is_text = kind in (forms.hash28, forms.hash32, forms.credential, forms.account, forms.reference)
    is_fraction = kind in (forms.unit, forms.ratio)
    if isinstance(it, str) != is_text or isinstance(it, list) != is_fraction or not re.fullmatch(kind.expression, spelled(it)):
        raise Unreadable(it)
    kind.read(spelled(it))


def must_be_parts(kinds, it):
    """A JSON value must be an array with an entry of each of these kinds."""
    if not isinstance(it, list) or len(it) != len(kinds):
        raise Unreadable(it)
    for kind, part in zip(kinds, it):
        must_be(kind, part)


def must_be_list(it, entry, name=lambda part: part):
    """A JSON value must be an array of such entries, each name once."""
    if not isinstance(it, list):
        raise Unreadable(it)
    for part in it:
        entry(part)
    if len({name(part) for part in it}) != len(it):
        raise Unreadable(it)


def must_be_update(it):
    if not isinstance(it, dict):
        raise Unreadable(it)
    for name, value in it.items():
        if name not in PARAMS:
            raise Unreadable(name)
        must = must_be_parts if isinstance(PARAMS[name], list) else must_be
        must(PARAMS[name], value)


def first(part):
    return part[0]


MUST = {
    "previous": lambda it: must_be(forms.reference, it),
    "remove": lambda it: must_be_list(it, lambda part: must_be(forms.credential, part)),
    "add": lambda it: must_be_list(it, lambda part: must_be_parts([forms.credential, forms.slot], part), first),
    "threshold": lambda it: must_be(forms.unit, it),
    "document": lambda it: must_be(forms.hash32, it),
    "script": lambda it: must_be(forms.hash28, it),
    "version": lambda it: must_be_parts([forms.u32] * 2, it),
    "update": must_be_update,
    "policy": lambda it: must_be(forms.hash28, it),
    "targets": lambda it: must_be_list(it, lambda part: must_be_parts([forms.account, forms.u64], part), first),
}


def action_of(text):
    """The action that has this text."""
    try:
        action = json.loads(text)
    except (ValueError, RecursionError) as error:
        raise Unreadable(text) from error
    if not isinstance(action, dict) or not isinstance(action.get("type"), str) or action["type"] not in FIELDS:
        raise Unreadable(text)
    for name in FIELDS[action["type"]]:
        if name in action:
            MUST[name](action[name])
        elif name not in MAY_LACK:
            raise Unreadable(text)
    # another spelling, a field twice or a further field gives another text
    if action_text(action) != text:
        raise Unreadable(text)
    return action
