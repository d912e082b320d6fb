"""What the lines of checkpoints and of certificates share, written as text and read: the parts of a
state, proposals with their votes and actions, entries and pools that were frozen. Written from
docs/use/formats.md, docs/use/checkpoints.md and docs/use/certificates.md alone.

What is read is put into a ledger, a map as in transactions.py and counts.py. Lists are put into
maps by name; so a name twice, or another order, shows when the lines are written again."""

from oracle import forms
from oracle.actions import NAMES, PARAMS, action_of, action_text
from oracle.counts import TYPES, in_order
from oracle.forms import Form, Unreadable, or_word
from oracle.states import or_none, voter_in_order

# a line that is longer is in no checkpoint and no certificate
LINE_LIMIT = 16_777_216


# ---- written


def entry_lines(entries):
    """The account lines of frozen entries."""
    for name in sorted(entries, key=in_order):
        stake, it = entries[name]["stake"], entries[name]["account"]
        if it is None:
            yield f"account {name} stake {stake} unregistered"
        else:
            yield f"account {name} stake {stake} deposit {it['deposit']} rewards {it['balance']} pool {or_none(it['pool'])} drep {or_none(it['drep'])}"


def expiry_lines(dreps):
    for name in sorted(dreps, key=in_order):
        yield f"drep {name} expiry {dreps[name]['expiry']}"


def pool_account_lines(frozen):
    for name in sorted(frozen["mark"]):
        yield f"pool {name} account {frozen['reward_accounts'].get(name, 'none')}"


def action_line(proposal):
    return f"action {proposal['id']} {action_text(proposal['action'])}"


def vote_lines(proposal):
    for voter in sorted(proposal["votes"], key=voter_in_order):
        yield f"vote {proposal['id']} {voter} {proposal['votes'][voter]}"


# ---- read: each puts what a line says into the ledger


def of_id(proposals, name):
    """The proposal of this id."""
    for it in proposals:
        if it["id"] == name:
            return it
    raise Unreadable(name)


def put_constitution(ledger, document, script):
    ledger.update(document=document, script=script)


def put_committee(ledger, threshold):
    ledger["committee"] = threshold and {"threshold": threshold, "terms": {}}


def put_member(ledger, cold, term, key):
    if ledger["committee"] is None:
        raise Unreadable(cold)
    ledger["committee"]["terms"][cold] = term
    if key is not None:
        ledger["hot"][cold] = key


def put_hot(ledger, cold, key):
    if key is None:
        raise Unreadable(cold)
    ledger["hot"][cold] = key


def put_enacted(ledger, *ids):
    ledger["enacted"] = dict(zip(("committee", "constitution", "hardfork", "parameters"), ids))


def put_param(ledger, name, value):
    """A parameter, whose parts are words."""
    if name not in PARAMS:
        raise Unreadable(name)
    kinds, parts = PARAMS[name], value.split(" ")
    each = kinds if isinstance(kinds, list) else [kinds]
    if len(each) != len(parts):
        raise Unreadable(value)
    read = [read_word(kind, part) for kind, part in zip(each, parts)]
    ledger["params"][name] = read if isinstance(kinds, list) else read[0]


def read_word(kind, text):
    (value,) = Form("{}", kind).read(text) or (None,)
    if value is None:
        raise Unreadable(text)
    return value


def put_expiry(ledger, name, expiry):
    ledger["dreps"][name] = {"deposit": 0, "expiry": expiry}


def put_pool_account(ledger, name, account):
    if account is not None:
        ledger["reward_accounts"][name] = account


def put_entry(ledger, name, stake, deposit, balance, pool, drep):
    ledger["entries"][name] = {"stake": stake, "account": {"deposit": deposit, "balance": balance, "pool": pool, "drep": drep}}


def put_stake(ledger, name, stake):
    ledger["entries"][name] = {"stake": stake, "account": None}


def put_proposal(ledger, name, kind, deposit, returned, until, previous):
    if kind not in TYPES:
        raise Unreadable(kind)
    ledger["proposals"].append({"id": name, "type": kind, "deposit": deposit, "return": returned, "until": until, "votes": {}})


def put_vote(ledger, name, voter, vote):
    of_id(ledger["proposals"], name)["votes"][voter] = vote


def put_action(ledger, name, text):
    of_id(ledger["proposals"], name)["action"] = action_of(text)


def with_actions(ledger):
    """The ledger, in which each proposal must have an action and another id."""
    names = [it["id"] for it in ledger["proposals"]]
    if not all("action" in it for it in ledger["proposals"]) or len({*names}) != len(names):
        raise Unreadable(names)
    return ledger


# ---- the forms of these lines

f = forms
ENTRY = (
    (Form("account {} stake {} deposit {} rewards {} pool {} drep {}", f.credential, f.u64, f.u64, f.u64, or_word(f.hash28), or_word(f.drep)), put_entry),
    (Form("account {} stake {} unregistered", f.credential, f.u64), put_stake),
)
EXPIRY = (Form("drep {} expiry {}", f.credential, f.u64), put_expiry)
POOL_ACCOUNT = (Form("pool {} account {}", f.hash28, or_word(f.account)), put_pool_account)
VOTE = (Form("vote {} {} {}", f.reference, f.voter, f.vote), put_vote)
# the parts of a state that certificates have, too
STATE = (
    (Form("constitution {} {}", f.hash32, or_word(f.hash28)), put_constitution),
    (Form("committee none"), lambda ledger: put_committee(ledger, None)),
    (Form("committee threshold {}", f.unit), put_committee),
    (Form("member {} term {} hot {}", f.credential, f.slot, f.hot), put_member),
    (Form("hot {} {}", f.credential, f.hot), put_hot),
    (Form("enacted committee {} constitution {} hardfork {} parameters {}", *[or_word(f.reference)] * 4), put_enacted),
    (Form("param {} {}", f.word, f.rest), put_param),
    (Form("proposal {} {} deposit {} return {} expires {} previous {}", f.reference, f.word, f.u64, f.account, f.u64, or_word(f.reference)), put_proposal),
    VOTE,
    (Form("action {} {}", f.reference, f.rest), put_action),
)


def begun():
    """A ledger into which nothing is read yet."""
    return {"params": {}, "hot": {}, "dreps": {}, "proposals": [], "committee": None}


def read_into(ledger, table, lines):
    """The ledger with what all lines say, each in one of these forms."""
    for line in lines:
        put, values = forms.read_by(table, line)
        put(ledger, *values)
    if len(ledger["params"]) != len(NAMES):
        raise Unreadable("params")
    return ledger
