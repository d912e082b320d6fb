"""The lines that the program writes, as records with named fields, and back. The forms are those of
docs/use/formats.md, Text.

A record has `line`, the number of the line that is answered, and `event`, the first word of the
text; only the texts of `replay`, `explain`, `resume` and `follow` have a `line`, and that of
`check`, where it is the number of a certificate. `line`, `at` (an index) and `rule` (the number of
a rule) are numbers; all else is text, amounts as their digits."""

import re

COUNTS = ("line", "at", "rule")
POTS = "outputs <outputs> deposits <deposits> rewards <rewards> fees <fees> donations <donations> treasury <treasury> reserves <reserves> supply <supply>"
ROLE = "{0} <{0}Yes>/<{0}Total> need <{0}Need>"
TALLY = " ".join(ROLE.format(it) for it in ("committee", "drep", "pool"))
TERMS = "cost <cost> pledge <pledge> margin <margin> account <account>"

# by event: the forms of its text, without the number of the line; a field is `<name>`, one word of
# it
FORMS = {
    "genesis": [f"genesis {POTS}"],
    "pots": [f"pots {POTS}"],
    "accepted": ["accepted", "accepted <scripts>"],
    "block": ["block slot <slot> epoch <epoch> counted <counted> of <of>"],
    "rolled": ["rolled slot <slot> epoch <epoch> counted <counted> of <of>"],
    "asset-total": ["asset-total <policy> <name> <total>"],
    "epoch": ["epoch <epoch> frozen <frozen> dormant <dormant>"],
    "stake": ["stake <drep> <amount>"],
    "tally": [f"tally <id> <type> {TALLY} <verdict>"],
    "paid": ["paid <account> <amount>"],
    "kept": ["kept <account> <amount>"],
    "removed": ["removed <id> <why> refund <refund> <to>"],
    "retired": ["retired <pool> refund <refund> <to>"],
    "now": ["now slot <slot> epoch <epoch> version <version> dormant <dormant>"],
    "constitution": ["constitution <document> <script>"],
    "committee": ["committee <threshold>", "committee threshold <threshold>"],
    "member": ["member <cold> term <term> hot <hot>"],
    "hot": ["hot <cold> <hot>"],
    "enacted": ["enacted committee <committee> constitution <constitution> hardfork <hardfork> parameters <parameters>"],
    "drep": ["drep <cred> deposit <deposit> expiry <expiry>"],
    "pool": [f"pool <pool> deposit <deposit> {TERMS} retires <retires>", f"pool <pool> deposit <deposit> {TERMS} retires <retires> key <key>"],
    "next": [f"next <pool> {TERMS}", f"next <pool> {TERMS} key <key>"],
    "account": ["account <cred> stake <stake> deposit <deposit> rewards <rewards> pool <pool> drep <drep>", "account <cred> stake <stake> <state>"],
    "output": ["output <ref> <address> <lovelace>"],
    "asset": ["asset <policy> <name> <quantity>"],
    "proposal": ["proposal <id> <type> deposit <deposit> return <return> expires <expires> previous <previous>"],
    "vote": ["vote <id> <voter> <vote>"],
    "snapshot": ["snapshot fees <fees>", "snapshot <of> <pool> <stake>"],
    "pending": ["pending <update>", "pending reward <cred> <amount>", "pending reserves <reserves> fees <fees> treasury <treasury>"],
    # of `explain`: what is inside a line
    "malformed": ["malformed <path> <what>", "malformed <path> at <place>"],
    "unknown": ["unknown <path>"],
    # of a check: the line is the number of a certificate
    "yes": ["yes"],
    "no": ["no"],
}
COUNT = "yes <yes> of <total> need <need>"
# the lines of a state, in checkpoints and in part in certificates
STATE = "now constitution committee member hot enacted drep pool next account output asset proposal vote snapshot pending pots"
# the texts of the other commands: their lines have no number
WITHOUT_NUMBER = {
    **{event: FORMS[event] for event in (*STATE.split(), "epoch", "tally", "stake")},
    # of a load
    "load": ["load seed <seed> accounts <accounts> epochs <epochs>"],
    "records": ["records <records> accepted <accepted> refused <refused> blocks <blocks>"],
    "ratified": ["ratified <ratified> expired <expired> waiting <waiting>"],
    # of a shortfall
    "shortfall": [
        "shortfall <id> <answer>",
        f"shortfall <id> <answer> {COUNT}",
        f"shortfall <id> <answer> <votes> {COUNT}",
        f"shortfall <id> <answer> <votes> {COUNT} short <short>",
    ],
    "add": ["add <cred> <stake>"],
    # of a checkpoint
    "checkpoint": ["checkpoint <form> line <last> network <network> length <length> counted <counted>"],
    "used": ["used <id>"],
    "action": ["action <id> <action>"],
    "frozen": [
        "frozen treasury <treasury>",
        *(f"frozen {it}" for it in FORMS["account"]),
        "frozen drep <cred> expiry <expiry>",
        "frozen hot <cold> <hot>",
        "frozen pool <pool> account <account>",
        "frozen proposal <proposal>",
        "frozen vote <id> <voter> <vote>",
    ],
    "end": ["end"],
    # of a certificate
    "certificate": ["certificate epoch <epoch> version <version> treasury <treasury>"],
    "drep": [*FORMS["drep"], "drep <cred> expiry <expiry>"],
    "pool": [*FORMS["pool"], "pool <pool> account <account>"],
    "mark": ["mark <pool> <stake>"],
    "part": ["part <id> <role> <name> <weight> <side>"],
    "verdict": [f"verdict <id> <type> {TALLY} <verdict>"],
}
REFUSED = re.compile(r"refused (?P<rule>\d+) (?P<name>\w+)(?: at (?P<at>\d+))?(?P<kept>(?: [a-z]+ \d+)*)")
MALFORMED = re.compile(r"refused (?P<rule>1) (?P<name>Malformed) (?P<field>\w+)(?:\[(?P<at>\d+)\])?")
# what is wrong with a genesis, as `explain` writes it
PROBLEM = re.compile(r"genesis (?P<name>[A-Z]\w+)(?: (?P<field>[a-z.]+)\[(?P<at>\d+)\])?(?: (?P<target>pool|drep))?(?P<kept>(?: [a-z]+ \d+)*)")
PARAM = re.compile(r"param (?P<name>\w+) (?P<value>\S+(?: \S+)*)")


class UnknownLine(ValueError):
    """A line of no form that is known here."""


def compiled(forms):
    """Each form with the expression of its texts."""
    return {event: [(form, re.compile(re.sub(r"<(\w+)>", r"(?P<\1>[^ ]+?)", form))) for form in them] for event, them in forms.items()}


NUMBERED, UNNUMBERED = compiled(FORMS), compiled(WITHOUT_NUMBER)


def counted(fields):
    """The same without fields that are not there, places and numbers of rules as numbers."""
    return {name: int(it) if name in COUNTS else it for name, it in fields.items() if it is not None}


def keeping(found):
    """The fields of what was found, if anything was, with the words that it keeps as names of numbers."""
    if not found:
        return None
    fields = found.groupdict()
    words = (fields.pop("kept", None) or "").split()
    return counted({**fields, **dict(zip(words[::2], words[1::2]))})


def refused(text):
    return keeping(MALFORMED.fullmatch(text) or REFUSED.fullmatch(text))


def param(text):
    found = PARAM.fullmatch(text)
    values = found and found["value"].split(" ")
    return found and {"name": found["name"], "value": values if len(values) > 1 else values[0]}


def parsed(text, forms):
    """The fields of a text, or None."""
    event = text.partition(" ")[0]
    if event == "refused":
        return refused(text)
    if event == "param":
        return param(text)
    if event == "genesis" and PROBLEM.fullmatch(text):
        return keeping(PROBLEM.fullmatch(text))
    for _, expression in forms.get(event, []):
        found = expression.fullmatch(text)
        if found:
            return counted(found.groupdict())
    return None


def record_of(line):
    """The record of a line of text."""
    number, _, text = line.partition(" ")
    is_numbered = number.isdigit()
    text, forms = (text, NUMBERED) if is_numbered else (line, UNNUMBERED)
    fields = parsed(text, forms)
    if fields is None:
        raise UnknownLine(line)
    return {**({"line": int(number)} if is_numbered else {}), "event": text.partition(" ")[0], **fields}


def filled(form, record):
    """The text of this form, where the record has just its fields."""
    names = re.findall(r"<(\w+)>", form)
    if {*names} != {*record} - {"line", "event"}:
        return None
    return re.sub(r"<(\w+)>", lambda it: str(record[it[1]]), form)


def named(record):
    """The text of a rule that is broken, of a record or of a genesis: its name, its place, and what it keeps."""
    own = {name: it for name, it in record.items() if name not in ("line", "event", "rule", "name", "at", "field", "target")}
    place = f"[{record['at']}]" if "field" in record and "at" in record else f" at {record['at']}" if "at" in record else ""
    first = [record[it] for it in ("event", "rule", "name", "field") if it in record]
    target = f" {record['target']}" if "target" in record else ""
    return " ".join(map(str, first)) + place + target + "".join(f" {name} {it}" for name, it in own.items())


def text_of(record):
    """The line of text that a record is of."""
    event = record["event"]
    if event == "refused" or (event == "genesis" and "name" in record):
        text = named(record)
    elif event == "param":
        value = record["value"]
        text = f"param {record['name']} {value if isinstance(value, str) else ' '.join(value)}"
    else:
        forms = (NUMBERED if "line" in record else UNNUMBERED)[event]
        texts = [it for it in (filled(form, record) for form, _ in forms) if it]
        # `committee none` has the same field as a threshold
        text = texts[-1] if event == "committee" and record["threshold"] != "none" else texts[0]
    return f"{record['line']} {text}" if "line" in record else text
