"""Streams of the further commands as rows of further_rows: what each command writes for a stream,
and what a checkpoint or a certificate is of.

The terms of records are those of written.py. A World is written as the checkpoint that shows it,
and a snapshot as the certificate that does: its parts in the order of its lines."""

import json
import re
from itertools import takewhile

from made.written import (
    IMPORTS,
    RECORDS,
    account,
    action,
    action_id,
    address,
    boolean,
    credential,
    drep,
    entry_by,
    hash_of,
    imports,
    lines_of,
    many,
    num,
    option,
    params,
    pool,
    record,
    ref,
    reading,
    share,
    tx_id,
    voter,
)

# what a command writes of the readings of a stream; a checkpoint has the number of its lines, too
TEXTS = {
    "checkpoint": "checkpoint_of_readings {lines} {input}",
    "certify": "certificates_of_readings {input}",
    "shortfall": "shortfall_of_readings {input}",
    "outlook": "outlook_of_readings {input}",
    "follow": "follow_of_readings {input}",
}
FURTHER = {
    "Rattle.checkpoint_model.specs.Checkpoint": "checkpoint_text",
    "Rattle.checkpoint_model.specs.Resumable": "IsResumable are_chained delegates_to_registered has_form holds_supply is_counted_entry "
    "is_covered is_timed is_within_dormant_bound is_within_supply uses_ids",
    "Rattle.checkpoint_model.specs.Resumed": "checkpoint_of_readings text_of_resume",
    "Rattle.certificate_model.specs.Certificate": "certificate_text",
    "Rattle.certificate_model.specs.Checked": "certificates_of_readings",
    "Rattle.certificate_model.specs.Fits": "Fits",
    "Rattle.shortfall_model.specs.ShortLines": "shortfall_of_readings",
    "Rattle.outlook_model.specs.Outlook": "outlook_of_readings",
    "Rattle.follow_model.specs.FollowLines": "follow_of_readings",
    "Rattle.follow_records.specs.declared.record.FollowReading": "FollowReading",
    "Rattle.follow_records.specs.declared.record.FollowReading.TheVariants": "as follow",
    "Rattle.follow_records.specs.declared.record.FollowRecord.TheVariants": "Plain Rollback",
    "Rattle.gov_actions.specs.declared.action.Proposal": "Proposal",
    "Rattle.gov_actions.specs.declared.state.EnactState": "EnactState",
    "Rattle.gov_actions.specs.declared.state.HotState.TheVariants": "Hot Resigned",
    "Rattle.gov_model.specs.Snapshot": "Snapshot entry_count",
    "Rattle.run_model.specs.World": "World",
    "Rattle.further_rows.proofs.Texts": "is_text refuted",
    "Rattle.maps.specs.Words": "none_or",
    "Rattle.std.specs.List": "list_all",
}
KNOWN = {**IMPORTS, **FURTHER, "Rattle.std.specs.Prelude": IMPORTS["Rattle.std.specs.Prelude"] + " nat_le"}


def said(text):
    return "".join(f'    codes "{escaped(line)}" ∷\n' for line in text)


def escaped(line):
    return line.replace("\\", "\\\\").replace('"', '\\"')


# ---- readings


def plain_reading(line):
    """What a line reads as where no text tells: a record, or no JSON, or an unknown kind."""
    try:
        given = json.loads(line)
    except ValueError:
        return "Malformed field.Json None"
    if not isinstance(given, dict) or given.get("kind") not in RECORDS:
        return "Malformed field.Kind None"
    return f"Read ({RECORDS[given['kind']](given)})"


MALFORMED = re.compile(r"(\d+) refused (?:1 Malformed (\w+)(?:\[(\d+)\])?|2 TooLong)")


def follow_reading(line, refusal):
    """The same of a followed stream, of which the text tells what is malformed."""
    if refusal is None and (given := json.loads(line))["kind"] == "rollback":
        return f"follow.Read (Rollback {given['slot']})"
    read = reading(line, refusal)
    return f"follow.Read (Plain ({read.removeprefix('Read (')}))"[:-1] if refusal is None else f"follow.{read}"


def readings(lines, write, first=1):
    return "".join(f"    ({n}, {write(n, line)}) ∷\n" for n, line in enumerate(lines, first) if line.strip(" \t\r"))


def input_of(name, kind, read):
    return f"\nabbrev {name}_input : List (ℕ × {kind})\n{name}_input =\n{read}    []\n"


def claim(name, what):
    return f"\npub {name} : {what}\nunfolding digits encode_with\n{name} = refl\n"


def text_row(name, command, lines, text):
    """The input of a row, and the claim on what the command writes of it."""
    if command == "follow":
        refusals = {int(it[1]): it for it in map(MALFORMED.fullmatch, text) if it}
        read, kind = readings(lines, lambda n, line: follow_reading(line, refusals.get(n))), "FollowReading"
    else:
        read, kind = readings(lines, lambda n, line: plain_reading(line)), "Reading"
    what = TEXTS[command].format(lines=len(lines), input=f"{name}_input")
    return input_of(name, kind, read) + claim(name, f"is_text ({what}) (\n{said(text)}    []) ≡ true")


# ---- the World of a checkpoint


def after(words, name, write, nothing="none"):
    """What stands behind a word, or nothing."""
    value = words[words.index(name) + 1]
    return "None" if value == nothing else f"(Some {write(value)})"


def behind(words, name, write=num):
    return write(words[words.index(name) + 1])


def fraction(text):
    return share(text.split("/"))


def hot(text):
    return "Resigned" if text == "resigned" else f"(Hot {credential(text)})"


def vote_of(text):
    return f"vote.{text.capitalize()}"


def terms(words):
    """The key stands at the end of the line, where there is one."""
    numbers = ((name, behind(words, name)) for name in ("cost", "pledge"))
    key = behind(words, "key", hash_of) if "key" in words else None
    return record(*numbers, ("margin", behind(words, "margin", fraction)), ("account", behind(words, "account", account)), ("key", option(str)(key)))


def registration(words):
    if words[-1] == "unregistered":
        return "None"
    return f"(Some {registered(words)})"


def registered(words):
    return record(("deposit", behind(words, "deposit")), ("rewards", behind(words, "rewards")), ("pool", after(words, "pool", pool)), ("drep", after(words, "drep", drep)))


def entry(words):
    return f"({credential(words[1])}, {record(('stake', behind(words, 'stake')), ('registered', registration(words)))})"


def listed(items):
    return f"({' ∷ '.join(items)} ∷ [])" if items else "[]"


def param_value(name, words):
    fractions = [[int(part) for part in it.split("/")] for it in words if "/" in it]
    if name in ("poolVotingThresholds", "drepVotingThresholds", "prices"):
        return fractions
    if fractions:
        return fractions[0]
    if name == "costModels":
        return words[0]
    return [int(it) for it in words] if name.endswith("ExUnits") else int(words[0])


class Checkpoint:
    """The lines of a checkpoint, by their first words, and the World that they show."""

    def __init__(self, name, lines):
        self.name, self.lines = name, [line.split(" ") for line in lines]

    def all_of(self, word):
        return [words for words in self.lines if words[0] == word]

    def one(self, word):
        (words,) = self.all_of(word)
        return words

    def frozen(self, word):
        return [words[1:] for words in self.all_of("frozen") if words[1] == word]

    def line(self):
        return behind(self.one("checkpoint"), "line")

    def state(self):
        threshold, enacted = self.one("committee"), self.one("enacted")
        members = listed([f"({credential(it[1])}, {it[3]})" for it in self.all_of("member")])
        committee = "None" if threshold[1] == "none" else f"(Some {record(('threshold', fraction(threshold[2])), ('members', members))})"
        last = record(*((name, after(enacted, name, action_id)) for name in ("committee", "constitution", "hardfork", "parameters")))
        version = self.version()
        return record(
            ("params", params({words[1]: param_value(words[1], words[2:]) for words in self.all_of("param")})),
            ("version", f"({version[0]}, {version[1]})"),
            ("committee", committee),
            ("document", hash_of(self.one("constitution")[1])),
            ("script", option(hash_of)(None if self.one("constitution")[2] == "none" else self.one("constitution")[2])),
            ("last", last),
            ("treasury", self.treasury()),
        )

    def version(self):
        return behind(self.one("now"), "version").split(".")

    def treasury(self):
        return behind(self.one("pots"), "treasury")

    def hot(self):
        entries = [(it[1], it[5]) for it in self.all_of("member") if it[5] != "none"] + [(it[1], it[2]) for it in self.all_of("hot")]
        return listed([f"({credential(cold)}, {hot(key)})" for cold, key in sorted(entries, key=lambda it: (it[0][1:], it[0][0]))])

    def pools(self):
        found = []
        for number, words in enumerate(self.lines):
            if words[0] == "pool":
                more = self.lines[number + 1]
                future = f"(Some {terms(more)})" if more[0] == "next" else "None"
                pairs = ("deposit", behind(words, "deposit")), ("terms", terms(words)), ("future", future), ("retires", after(words, "retires", num, "never"))
                found.append(f"({pool(words[1])}, {record(*pairs)})")
        return listed(found)

    def proposals(self):
        """Each live proposal, as a definition of its own."""
        actions = {words[1]: json.loads(" ".join(words[2:])) for words in self.all_of("action")}
        for words in self.all_of("proposal"):
            yield record(
                ("id", action_id(words[1])),
                ("action", action(actions[words[1]])),
                ("deposit", behind(words, "deposit")),
                ("account", behind(words, "return", account)),
                ("expires_after", behind(words, "expires")),
                ("votes", self.votes(words[1], self.all_of("vote"))),
            )

    def votes(self, proposal, lines):
        return listed([f"({voter(it[2])}, {vote_of(it[3])})" for it in lines if it[1] == proposal])

    def place(self, proposal):
        return [words[1] for words in self.all_of("proposal")].index(proposal)

    def stakes(self, name):
        return listed([f"({pool(it[2])}, {it[3]})" for it in self.all_of("snapshot") if it[1] == name])

    def pending(self):
        first, *rewards = self.all_of("pending")
        if first[1] == "none":
            return "None"
        numbers = [(f"from_{name}" if name != "treasury" else "to_treasury", behind(first, name)) for name in ("reserves", "fees", "treasury")]
        epoch = behind(self.one("now"), "epoch")
        return f"(Some {record(('epoch', epoch), *numbers, ('rewards', listed([f'({credential(it[2])}, {it[3]})' for it in rewards])))})"

    def outputs(self):
        """Each with its assets, which stand behind it."""
        for number, words in enumerate(self.lines):
            if words[0] == "output":
                _, at, to, amount = words
                held = [*takewhile(lambda it: it[0] == "asset", self.lines[number + 1 :])]
                entries = [[policy, "" if name == "-" else name, quantity] for _, policy, name, quantity in held]
                yield f"({ref(at)}, {record(('address', address(to)), ('lovelace', amount), ('assets', many(entry_by(num))(entries)))})"

    def ledger(self):
        now, pots, first = self.one("now"), self.one("pots"), self.one("checkpoint")
        accounts = [f"({credential(it[1])}, {registered(it)})" for it in self.all_of("account") if it[-1] != "unregistered"]
        dreps = [f"({credential(it[1])}, {record(('deposit', it[3]), ('expiry', it[5]))})" for it in self.all_of("drep")]
        return record(
            ("network", behind(first, "network")),
            ("epoch_length", behind(first, "length")),
            ("supply", behind(pots, "supply")),
            *((name, behind(now, name)) for name in ("slot", "epoch", "dormant")),
            *((name, behind(pots, name)) for name in ("reserves", "fees", "donations")),
            ("state", f"{self.name}_state"),
            ("outputs", listed([*self.outputs()])),
            ("used", listed([tx_id(it[1]) for it in self.all_of("used")])),
            ("accounts", listed(accounts)),
            ("pools", self.pools()),
            ("dreps", listed(dreps)),
            ("hot", self.hot()),
            ("proposals", listed([f"{self.name}_proposal_{place}" for place, _ in enumerate(self.all_of("proposal"))])),
        )

    def snapshot(self):
        accounts = [f"({pool(it[1])}, {account(it[3])})" for it in self.frozen("pool") if it[3] != "none"]
        proposals = [f"(record {self.name}_proposal_{self.place(it[1])} {{ votes = {self.votes(it[1], self.frozen('vote'))} }})" for it in self.frozen("proposal")]
        return record(
            ("epoch", behind(self.one("now"), "epoch")),
            ("entries", listed([entry(it) for it in self.frozen("account")])),
            ("dreps", listed([f"({credential(it[1])}, {it[3]})" for it in self.frozen("drep")])),
            ("mark", self.stakes("mark")),
            ("pool_accounts", listed(accounts)),
            ("hot", listed([f"({credential(it[1])}, {hot(it[2])})" for it in self.frozen("hot")])),
            ("proposals", listed(proposals)),
            ("start", f"(record {self.name}_state {{ treasury = {self.frozen('treasury')[0][1]} }})"),
        )

    def world(self):
        (fees,) = (it[2] for it in self.all_of("snapshot") if it[1] == "fees")
        return record(
            ("ledger", self.ledger()),
            ("pending", self.pending()),
            ("counted", behind(self.one("checkpoint"), "counted")),
            *((name, self.stakes(name)) for name in ("mark", "set", "go")),
            ("noted_fees", fees),
            ("frozen", self.snapshot()),
        )

    def whole(self):
        return "world", "World", self.world()

    def definitions(self):
        """The whole, and what it is made of."""
        parts = [("state", "EnactState", self.state())]
        parts += ((f"proposal_{place}", "Proposal", term) for place, term in enumerate(self.proposals()))
        parts.append(self.whole())
        return "".join(f"\nabbrev {self.name}_{part} : {kind}\n{self.name}_{part} = {term}\n" for part, kind, term in parts)


FIELDS = "form time dormancy delegations supply ids chains pending within entries counted epoch mark state treasury proposals short"
# what is asked of the World by each test that may be false
TESTS = {
    "form": "has_form {w}",
    "time": "is_timed {w}.ledger",
    "dormancy": "is_within_dormant_bound {w}.ledger",
    "delegations": "delegates_to_registered {w}.ledger",
    "supply": "holds_supply {w}.ledger",
    "ids": "uses_ids {w}.ledger",
    "chains": "are_chained {w}.ledger",
    "pending": "none_or (is_covered {w}.ledger) {w}.pending",
    "within": "is_within_supply {w}",
    "entries": "list_all is_counted_entry {w}.frozen.entries",
    "counted": "nat_le {w}.counted (entry_count {w}.frozen)",
    "treasury": "nat_le {w}.frozen.start.treasury {w}.ledger.state.treasury",
}


def parted(lines):
    """The lines of a checkpoint, up to its `end`, and those of the records."""
    end = lines.index("end") + 1
    return lines[:end], lines[end:]


def shown_by(name, lines):
    """The World of a checkpoint, and the claim that the lines show it."""
    shown = Checkpoint(name, lines)
    what = f"is_text (Some (checkpoint_text {name}_world {shown.line()})) (\n{said(lines)}    []) ≡ true"
    return shown, shown.definitions() + claim(f"{name}_shown", what)


def resume_row(name, lines, text):
    """The World of a checkpoint, that it is sound, and what the records after it are answered."""
    checkpoint, rest = parted(lines)
    shown, row = shown_by(name, checkpoint)
    fields = "; ".join(f"{it} = refl" for it in FIELDS.split())
    row += f"\npub {name}_sound : IsResumable {name}_world\nunfolding digits encode_with\n{name}_sound = record {{ {fields} }}\n"
    refusals = {int(it[1]): it for it in map(MALFORMED.fullmatch, text) if it}
    first = int(shown.line()) + 1
    row += input_of(name, "Reading", readings(rest, lambda n, line: reading(line, refusals.get(n)), first))
    return row + claim(name, f"is_text (Some (text_of_resume {name}_world {name}_input)) (\n{said(text)}    []) ≡ true")


def refused_row(name, lines, test):
    """The World of a checkpoint, and what of it is not sound."""
    row = Checkpoint(name, parted(lines)[0]).definitions()
    return row + claim(name, f"({TESTS[test].format(w=f'{name}_world')}) ≡ false")


# ---- the snapshot of a certificate


class Certificate(Checkpoint):
    """The lines of a certificate, and the snapshot that they show."""

    def version(self):
        return behind(self.one("certificate"), "version").split(".")

    def treasury(self):
        return behind(self.one("certificate"), "treasury")

    def snapshot(self):
        accounts = [f"({pool(it[1])}, {account(it[3])})" for it in self.all_of("pool") if it[3] != "none"]
        return record(
            ("epoch", behind(self.one("certificate"), "epoch")),
            ("entries", listed([entry(it) for it in self.all_of("account")])),
            ("dreps", listed([f"({credential(it[1])}, {it[3]})" for it in self.all_of("drep")])),
            ("mark", listed([f"({pool(it[1])}, {it[2]})" for it in self.all_of("mark")])),
            ("pool_accounts", listed(accounts)),
            ("hot", self.hot()),
            ("proposals", listed([f"{self.name}_proposal_{place}" for place, _ in enumerate(self.all_of("proposal"))])),
            ("start", f"{self.name}_state"),
        )

    def whole(self):
        return "snapshot", "Snapshot", self.snapshot()


# what is asked of a snapshot that fits, but for its text
FITTING = "form epoch held mark short"


def checked_row(name, lines, text, test):
    """The snapshot of a certificate; that it fits and has this certificate, or what of it does not fit, or that its certificate is another one."""
    if text != ["1 no" if test else "1 yes"]:
        raise ValueError(f"{name} is not answered so")
    row = Certificate(name, lines).definitions()
    fits, opened = f"Fits {name}_snapshot", "unfolding digits encode_with\n"
    if test in FITTING.split():
        return row + f"\npub {name} : {fits} → ⊥\n{opened}{name} h = refuted h.{test}\n"
    row += claim(f"{name}_shown", f"is_text (Some (certificate_text {name}_snapshot)) (\n{said(lines)}    []) ≡ {boolean(not test)}")
    if test:
        return row
    proof = "; ".join(f"{it} = refl" for it in FITTING.split())
    return row + f"\npub {name}_fits : {fits}\n{opened}{name}_fits = record {{ {proof} }}\n"


def further_module(about, command, streams):
    """A module of the rows of these streams, each a file with what it is refused for, if it is."""
    rows = ""
    for stream, test in streams:
        name, lines = stream.stem, lines_of(stream)
        if command == "resume":
            rows += refused_row(name, lines, test) if test else resume_row(name, lines, lines_of(stream.with_suffix(".out")))
        elif command == "check":
            rows += checked_row(name, lines, lines_of(stream.with_suffix(".out")), test)
        else:
            rows += text_row(name, command, lines, lines_of(stream.with_suffix(".out")))
    return f"-- {about}\n{''.join(imports(rows, KNOWN))}{rows}"
