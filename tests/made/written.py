"""Streams of records as rows of ledger_rows: how each record is written as a term of the
definitions, and a claim on its text.

The terms use the words of crates/ledger_rows/proofs/Base.antt. A hash that is one byte after zeros
is written as that byte. A field or an entry that is not known here is an error, so that no row
leaves out what its stream has."""

import json
import re

from records import PARAMS


# ---- plain terms


def num(n):
    return str(n)


def boolean(b):
    return "true" if b else "false"


def option(write):
    return lambda it: "None" if it is None else f"(Some {write(it)})"


def many(write):
    return lambda items: f"({' ∷ '.join(map(write, items))} ∷ [])" if items else "[]"


def each_written(writes, items):
    """The entries of an array, each as it is written."""
    if len(writes) != len(items):
        raise ValueError(f"{items} has not {len(writes)} entries")
    return [write(it) for write, it in zip(writes, items)]


def together(*writes):
    return lambda items: f"({', '.join(each_written(writes, items))})"


def share(fraction):
    return "(share {} {})".format(*fraction)


def fields(*pairs):
    return "; ".join(f"{name} = {it}" for name, it in pairs)


def record(*pairs):
    return f"(record {{ {fields(*pairs)} }})"


def known(what, names, given):
    """The fields of what is written, all of these names."""
    unknown = sorted(given.keys() - names)
    if unknown:
        raise ValueError(f"{what} has the unknown fields {', '.join(unknown)}")
    return given


def but(word, pairs):
    """What a word names, with these fields in place of its own."""
    return f"(record {word} {{ {fields(*pairs)} }})" if pairs else word


# ---- ids


def is_short(digits):
    return not digits[:-2].strip("0")


def last_byte(digits):
    return f"0x{digits[-2:]}"


def all_bytes(digits):
    return "".join(f"0x{digits[i : i + 2]} ∷ " for i in range(0, len(digits), 2)) + "[]"


def hash_of(digits):
    return f"(h{len(digits) // 2} {last_byte(digits)})" if is_short(digits) else f"({all_bytes(digits)})"


def named(word):
    """A pool or a transaction: its hash alone."""
    return lambda digits: f"({word} {last_byte(digits)})" if is_short(digits) else f"(record {{ 0 = {all_bytes(digits)} }})"


pool, tx_id = named("pool"), named("tx_id")


def credential(text):
    kind, digits = {"k": "Key", "s": "Script"}[text[0]], text[1:]
    return f"({kind.lower()} {last_byte(digits)})" if is_short(digits) else record(("hash", all_bytes(digits)), ("kind", kind))


def account(text):
    return f"(account_on {text[0]} {credential(text[1:])})"


def address(text):
    payment, _, stake = text.partition("+")
    return f"(address_with {payment[0]} {credential(payment[1:])} {option(credential)(stake or None)})"


def placed(word):
    """An output or an action: a transaction and a place."""

    def write(text):
        digits, place = text.split("#")
        return f"({word} {last_byte(digits)} {place})" if is_short(digits) else record(("tx", tx_id(digits)), ("index", place))

    return write


ref, action_id = placed("ref"), placed("action")


def drep(text):
    return {"abstain": "drep.Abstain", "no-confidence": "drep.NoConfidence"}.get(text) or f"(drep.Registered {credential(text)})"


def voter(text):
    role, name = text.split(":")
    return f"(voter.{role.capitalize()} {(pool if role == 'pool' else credential)(name)})"


# ---- assets


def asset(policy, name):
    return f"(asset {hash_of(policy.lower())} {f'({all_bytes(name.lower())})' if name else '[]'})"


def moved(n):
    return f"(pos {n})" if n > 0 else f"(negsuc {-n - 1})"


def in_asset_order(entries):
    """As a record has them after its reading, in order, whatever their order in the line."""
    return sorted(entries, key=lambda it: (it[0].lower(), it[1].lower()))


def entry_by(write):
    def entry(e):
        policy, name, quantity = e
        return f"({asset(policy, name)}, {write(quantity)})"

    return entry


def assets(entries):
    return many(entry_by(num))(in_asset_order(entries))


def mint(entries):
    return many(entry_by(moved))(in_asset_order(entries))


# ---- parameters

# how the parameters are written that are not one number
PARAM_KINDS = {
    **dict.fromkeys(("maxTxExUnits", "maxBlockExUnits"), together(num, num)),
    **dict.fromkeys(("rho", "tau", "minFeeRefScriptCostPerByte", "a0"), share),
    "prices": together(share, share),
    "costModels": hash_of,
    **dict.fromkeys(("poolVotingThresholds", "drepVotingThresholds"), many(share)),
}


def field_of(name):
    """maxTxSize as max_tx_size."""
    return re.sub(r"(?=[A-Z])", "_", name.replace("UTxO", "Utxo")).lower()


def param(name, it):
    return PARAM_KINDS.get(name, num)(it)


def params(given):
    known("params", PARAMS, given)
    return but("base_params", [(field_of(name), param(name, given[name])) for name in PARAMS if given[name] != PARAMS[name]])


def update(given):
    known("update", PARAMS, given)
    return but("no_update", [(field_of(name), f"(Some {param(name, given[name])})") for name in PARAMS if given.get(name) is not None])


# ---- records


def genesis(g):
    def committee(c):
        known("committee", ("threshold", "members"), c)
        return record(("threshold", share(c["threshold"])), ("members", many(together(credential, num, option(credential)))(c["members"])))

    def genesis_output(o):
        """Its three entries, and its assets, which may be left out."""
        return together(ref, address, num, assets)(o if len(o) == 4 else [*o, []])

    def genesis_pool(p):
        """Its six entries, and its key, which may be left out."""
        names = ("pool", "deposit", "cost", "pledge", "margin", "account", "key")
        writes = (pool, num, num, num, share, account, option(hash_of))
        entries = p if len(p) == len(names) else [*p, None]
        return record(*zip(names, each_written(writes, entries)))

    parts = {
        "network": num,
        "slot": num,
        "epochLength": num,
        "version": together(num, num),
        "supply": num,
        "reserves": num,
        "treasury": num,
        "params": params,
        "document": hash_of,
        "script": option(hash_of),
        "committee": option(committee),
        "outputs": many(genesis_output),
        "accounts": many(together(credential, num, num, option(pool), option(drep))),
        "pools": many(genesis_pool),
        "dreps": many(together(credential, num, num)),
    }
    known("genesis", {"kind", *parts}, g)
    return f"records.Genesis {record(*((field_of(name), write(g.get(name))) for name, write in parts.items()))}"


# the parts of each type of action
ACTIONS = {
    "NoConfidence": {"previous": option(action_id)},
    "UpdateCommittee": {"previous": option(action_id), "remove": many(credential), "add": many(together(credential, num)), "threshold": share},
    "NewConstitution": {"previous": option(action_id), "document": hash_of, "script": option(hash_of)},
    "HardForkInitiation": {"previous": option(action_id), "version": together(num, num)},
    "ParameterChange": {"previous": option(action_id), "update": update, "policy": option(hash_of)},
    "TreasuryWithdrawals": {"targets": many(together(account, num)), "policy": option(hash_of)},
    "Info": {},
}

# the parts of each certificate
CERTS = {
    "account-reg": {"cred": credential, "deposit": option(num), "pool": option(pool), "drep": option(drep)},
    "account-unreg": {"cred": credential, "refund": option(num)},
    "delegate": {"cred": credential, "pool": option(pool), "drep": option(drep)},
    "pool-reg": {"pool": pool, "cost": num, "pledge": num, "margin": share, "account": account, "key": option(hash_of)},
    "pool-retire": {"pool": pool, "epoch": num},
    "drep-reg": {"cred": credential, "deposit": option(num)},
    "drep-unreg": {"cred": credential, "refund": option(num)},
    "drep-update": {"cred": credential},
    "hot-auth": {"cold": credential, "hot": credential},
    "hot-resign": {"cold": credential},
}
# fields of other variants, which streams have to show that they are passed over
PASSED_OVER = {"actions.Info": ("previous", "policy"), "certs.PoolRetire": ("key",)}


def variant(name, parts, given, word):
    """A variant with its parts in order. Beside them stands the word that tells which it is."""
    known(name, {word, *parts, *PASSED_OVER.get(name, ())}, given)
    return " ".join([name, *(write(given.get(part)) for part, write in parts.items())])


def action(a):
    return f"({variant('actions.' + a['type'], ACTIONS[a['type']], a, 'type')})"


def cert(c):
    name = "".join(word.capitalize() for word in c["cert"].split("-"))
    return f"({variant('certs.' + name, CERTS[c['cert']], c, 'cert')})"


def proposal(p):
    known("proposal", ("deposit", "return", "action"), p)
    return f"(proposing {p['deposit']} {account(p['return'])} {action(p['action'])})"


def vote(v):
    known("vote", ("voter", "action", "vote"), v)
    return f"(voting {voter(v['voter'])} {action_id(v['action'])} vote.{v['vote'].capitalize()})"


def output(o):
    """Its three entries, and its assets, which may be left out."""
    to, amount, size, *held = o
    plain = f"{address(to)} {amount} {size}"
    return f"(paying_with {plain} {assets(*held)})" if held and held[0] else f"(paying {plain})"


# the fields of a transaction that `spend` of Base leaves empty, each with what stands there
TX_FIELDS = {
    "outputs": (many(output), []),
    "size": (num, 0),
    "scriptFee": (num, 0),
    "witnessed": (boolean, True),
    "scripts": ({"none": "scripts.Absent", "ok": "scripts.Passed", "failed": "scripts.Failed"}.get, "none"),
    "from": (option(num), None),
    "until": (option(num), None),
    "collateral": (many(ref), []),
    "collateralReturn": (option(output), None),
    "mint": (mint, []),
    "treasury": (option(num), None),
    "donation": (num, 0),
    "withdrawals": (many(together(account, num)), []),
    "certs": (many(cert), []),
    "proposals": (many(proposal), []),
    "votes": (many(vote), []),
}


def transaction(t):
    known("tx", {"kind", "id", "inputs", "fee", *TX_FIELDS}, t)
    short = is_short(t["id"])
    number = int(t["id"][-2:], 16) if short else 0
    changed = [] if short else [("id", tx_id(t["id"]))]
    if t["inputs"] != [f"{'1'.zfill(64)}#{number}"]:
        changed.append(("inputs", many(ref)(t["inputs"])))
    changed += ((field_of(name), write(t[name])) for name, (write, usual) in TX_FIELDS.items() if t.get(name, usual) not in (None, usual))
    spending = f"(spend 0x{number:02x} {t['fee']})"
    return f"records.Tx {but(spending, changed)}"


def rewards(r):
    known("rewards", ("kind", "epoch", "fromReserves", "fromFees", "toTreasury", "rewards"), r)
    numbers = (("epoch", "epoch"), ("from_reserves", "fromReserves"), ("from_fees", "fromFees"), ("to_treasury", "toTreasury"))
    return f"records.Rewards {record(*((field, r[name]) for field, name in numbers), ('rewards', many(together(credential, num))(r['rewards'])))}"


def block(b):
    known("block", ("kind", "slot", "pulse"), b)
    return f"records.Block {b['slot']} {b['pulse']}"


def print_of(p):
    known("print", ("kind", "what"), p)
    return f"records.Print what.{p['what'].capitalize()}"


RECORDS = {"genesis": genesis, "block": block, "rewards": rewards, "tx": transaction, "print": print_of}


# ---- rows

MALFORMED_OR_TOO_LONG = re.compile(r"(\d+) refused (?:1 Malformed (\w+)(?:\[(\d+)\])?|2 TooLong)")


def reading(line, refusal):
    """What was read of a line: its record, or what its refusal says where it is none."""
    if refusal is None:
        given = json.loads(line)
        return f"Read ({RECORDS[given['kind']](given)})"
    field, place = refusal[2], refusal[3]
    return f"Malformed field.{field[0].upper() + field[1:]} {option(num)(place)}" if field else "TooLong"


def row(name, lines, text, rule):
    """The input of a row, and the claim on it: its whole text, or the genesis rule that is broken first."""
    refusals = {int(it[1]): it for it in map(MALFORMED_OR_TOO_LONG.fullmatch, text) if it}
    read = "".join(f"    ({n}, {reading(line, refusals.get(n))}) ∷\n" for n, line in enumerate(lines, 1) if line.strip())
    said = "".join(f'    codes "{line}" ∷\n' for line in text)
    claim = f"says_all {name}_input (\n{said}    []) ≡ true" if text else f"rule_broken_by {name}_input ≡ Some genesis.{rule}"
    return f"""
abbrev {name}_input : List (ℕ × Reading)
{name}_input =
{read}    []

pub {name} : {claim}
unfolding digits encode_with
{name} = refl
"""


# what rows name, and the modules that have it; a module of variants is known by a word
IMPORTS = {
    "Rattle.std.specs.Prelude": "ℕ ◌≡◌ List [] ◌∷◌ Some None true false pos negsuc codes refl",
    "Rattle.std.specs.Fmt": "digits",
    "Rattle.hex.specs.Hex": "encode_with",
    "Rattle.gov_actions.specs.declared.action.Action.TheVariants": "as actions",
    "Rattle.gov_actions.specs.declared.action.Vote.TheVariants": "as vote",
    "Rattle.gov_ids.specs.declared.CredKind.TheVariants": "Key Script",
    "Rattle.gov_ids.specs.declared.Drep.TheVariants": "as drep",
    "Rattle.gov_ids.specs.declared.Voter.TheVariants": "as voter",
    "Rattle.tx_records.specs.declared.field.FieldName.TheVariants": "as field",
    "Rattle.tx_records.specs.declared.genesis.GenesisRule.TheVariants": "as genesis",
    "Rattle.tx_records.specs.declared.record.Record.TheVariants": "as records",
    "Rattle.tx_records.specs.declared.record.What.TheVariants": "as what",
    "Rattle.tx_records.specs.declared.cert.Cert.TheVariants": "as certs",
    "Rattle.tx_records.specs.declared.tx.Scripts.TheVariants": "as scripts",
    "Rattle.tx_records.specs.declared.record.Reading": "Reading",
    "Rattle.tx_records.specs.declared.record.Reading.TheVariants": "Read Malformed TooLong",
    "Rattle.ledger_rows.proofs.Base": "h28 h31 h32 key script pool account_on address_with tx_id ref action asset share base_params "
    "no_update spend paying paying_with proposing voting says_all rule_broken_by",
}
SIGNS = {"[]", "◌∷◌", "◌≡◌", "digits", "encode_with"}


def imports(rows, known=IMPORTS):
    """The use lines of what rows name, of the modules that are known."""
    code = re.sub(r'"[^"]*"', "", rows)
    before_dots = set(re.findall(r"(?<![\w.])\w+(?=\.)", code))
    # a name that stands alone, and not as the name of a field
    alone = set(re.findall(r"(?<![\w.])[^\W\d]\w*(?![\w.]| = (?!refl))", code)) | SIGNS
    for module, words in known.items():
        if words.startswith("as "):
            if words[3:] in before_dots:
                yield f"use {module} {words}\n"
        else:
            used = [it for it in words.split() if it in alone]
            if used:
                yield f"use {module}.{{{', '.join(used)}}}\n"


def lines_of(path):
    return path.read_text(encoding="utf-8").splitlines()


def module_of(about, streams):
    """A module of the rows of these streams. Beside NAME.in stands NAME.out, its whole text. It is empty where the genesis
    breaks a genesis rule; NAME.rule then has the name of the first rule that is broken."""
    rows = ""
    for stream in streams:
        text, rule = lines_of(stream.with_suffix(".out")), stream.with_suffix(".rule")
        rows += row(stream.stem, lines_of(stream), text, None if text else rule.read_text(encoding="utf-8").strip())
    return f"-- {about}\n{''.join(imports(rows))}{rows}"
