"""What in a line is not of its shape, with its path, and the names that nobody reads: the lines
`malformed` and `unknown` of `explain`, as docs/use/commands.md has them.

The shapes are those of docs/use/records.strict.schema.json, which tests/agree/record_schema holds
to the answers of `replay`. Of order that page says: names that nobody reads, then the members in
the order of docs/use/formats.md."""

import json
import re
import string
from pathlib import Path

from records import PARAMS
from tools.schema import PART_OF_ONE, NoNumber, read

SCHEMA = json.loads((Path(__file__).resolve().parents[2] / "docs/use/records.strict.schema.json").read_text(encoding="utf-8"))
NAMED = SCHEMA["$defs"]
MISSING, WRONG_KIND, OUT_OF_RANGE, UNKNOWN_FORM, UNKNOWN = "missing", "wrong-kind", "out-of-range", "unknown-form", "unknown"
# fractions: of these the first fault counts, and their parts have no paths
FRACTIONS = (NAMED["unit"], NAMED["ratio"])
AS_IT_IS = (string.ascii_letters + string.digits + "-_").encode()


# ---- paths


def spelled(name):
    """A name in a path."""
    return "".join(chr(it) if it in AS_IT_IS else f"%{it:02X}" for it in name.encode())


def joined(path, name):
    return f"{path}.{spelled(name)}" if path else spelled(name)


# ---- what a schema asks


def meant(schema):
    """The schema that is meant, and whether null will do."""
    if {"type": "null"} in schema.get("anyOf", []):
        return meant(schema["anyOf"][0])[0], True
    if "$ref" in schema:
        return meant(NAMED[schema["$ref"].rpartition("/")[2]])
    return schema, False


def kinds_of(schema):
    """The member with the word of the kind, and the schema of each word; None where all are of one kind."""
    if "allOf" not in schema:
        return None
    (by,) = schema["required"]
    return by, {it["if"]["properties"][by]["const"]: it["then"] for it in schema["allOf"]}


def members_of(schema):
    """The members of an object, in the order of docs/use/formats.md, with whether each must be there."""
    names = PARAMS if {*schema["properties"]} == {*PARAMS} else schema["properties"]
    return [(name, schema["properties"][name], name in schema["required"]) for name in names]


def is_number(value):
    return isinstance(value, (int, NoNumber)) and not isinstance(value, bool)


def word_of_leaf(value, schema):
    """What is wrong with a value that has no parts, if anything."""
    if "const" in schema:
        return None
    if schema.get("type") == "boolean":
        return None if isinstance(value, bool) else WRONG_KIND
    if schema.get("type") == "integer":
        if not is_number(value):
            return WRONG_KIND
        is_in = isinstance(value, int) and schema["minimum"] <= value <= schema["maximum"] and {"const": value} != schema.get("not")
        return None if is_in else OUT_OF_RANGE
    if not isinstance(value, str):
        return WRONG_KIND
    return UNKNOWN_FORM if is_other_text(value, schema) else None


def is_other_text(value, schema):
    if "enum" in schema:
        return value not in schema["enum"]
    return re.fullmatch(schema["pattern"], value) is None


# ---- the walk


def said(value, schema, path="", place=""):
    """What there is to say, in order: each with its path, its word and its place in the schema."""
    schema, may_be_null = meant(schema)
    if value is None and may_be_null:
        return
    if schema in FRACTIONS:
        word = word_of_fraction(value, schema)
        if word:
            yield path, word, place
    elif schema.get("type") == "array":
        yield from said_of_array(value, schema, path, place)
    elif schema.get("type") == "object":
        yield from said_of_object(value, schema, path, place)
    elif word_of_leaf(value, schema):
        yield path, word_of_leaf(value, schema), place


def word_of_fraction(value, schema):
    first = next(said_of_array(value, schema, "", ""), None)
    if first:
        return first[1]
    return OUT_OF_RANGE if schema.get("$comment") == PART_OF_ONE and value[0] > value[1] else None


def said_of_array(value, schema, path, place):
    parts = schema.get("prefixItems")
    if not isinstance(value, list):
        yield path, WRONG_KIND, place
    elif parts is None:
        for i, it in enumerate(value):
            yield from said(it, schema["items"], f"{path}[{i}]", f"{place}[]")
    elif not schema["minItems"] <= len(value) <= len(parts):
        yield path, OUT_OF_RANGE, place
    else:
        for i, (it, part) in enumerate(zip(value, parts)):
            yield from said(it, part, f"{path}[{i}]", f"{place}[{i}]")


def said_of_object(value, schema, path, place):
    if not isinstance(value, dict):
        yield path, WRONG_KIND, place
        return
    kinds = kinds_of(schema)
    if kinds is None:
        yield from said_of_members(value, schema, path, place)
        return
    by, shapes = kinds
    word = value.get(by)
    if isinstance(word, str) and word in shapes:
        yield from said(value, shapes[word], path, f"{place}<{word}>")
    else:
        what = MISSING if word is None else UNKNOWN_FORM if isinstance(word, str) else WRONG_KIND
        yield joined(path, by), what, f"{place}.{by}"


def said_of_members(value, schema, path, place):
    for name in sorted({*value} - {*schema["properties"]}, key=str.encode):
        yield joined(path, name), UNKNOWN, place
    for name, kind, is_needed in members_of(schema):
        if value.get(name) is not None:
            yield from said(value[name], kind, joined(path, name), f"{place}.{name}")
        elif is_needed:
            yield joined(path, name), MISSING, f"{place}.{name}"


def all_said(line):
    """What there is to say of a line that is one JSON value."""
    return [*said(read(line), SCHEMA)]


def lines_of(line):
    """The same as lines of text, without the number of the line."""
    return [f"unknown {path or '.'}" if word == UNKNOWN else f"malformed {path or '.'} {word}" for path, word, _ in all_said(line)]


# ---- everything that can be said


def words_of_leaf(schema):
    if "const" in schema:
        return []
    if schema.get("type") == "boolean":
        return [WRONG_KIND]
    return [WRONG_KIND, OUT_OF_RANGE if schema.get("type") == "integer" else UNKNOWN_FORM]


def everything(schema=SCHEMA, place=""):
    """Each place of the schema with each word that can be said there."""
    schema, _ = meant(schema)
    if schema in FRACTIONS or "prefixItems" in schema:
        yield from ((place, word) for word in (WRONG_KIND, OUT_OF_RANGE))
    elif schema.get("type") in ("array", "object"):
        yield place, WRONG_KIND
    else:
        yield from ((place, word) for word in words_of_leaf(schema))
    if schema not in FRACTIONS:
        yield from everything_within(schema, place)


def everything_within(schema, place):
    if "prefixItems" in schema:
        for i, part in enumerate(schema["prefixItems"]):
            yield from everything(part, f"{place}[{i}]")
    elif schema.get("type") == "array":
        yield from everything(schema["items"], f"{place}[]")
    elif schema.get("type") == "object" and "allOf" in schema:
        by, shapes = kinds_of(schema)
        yield from ((f"{place}.{by}", word) for word in (MISSING, WRONG_KIND, UNKNOWN_FORM))
        for word, shape in shapes.items():
            # what the object of a kind is itself is said before its kind is known
            yield from (it for it in everything(shape, f"{place}<{word}>") if it != (f"{place}<{word}>", WRONG_KIND))
    elif schema.get("type") == "object":
        yield place, UNKNOWN
        for name, kind, is_needed in members_of(schema):
            if is_needed and "const" not in meant(kind)[0]:
                yield f"{place}.{name}", MISSING
            yield from everything(kind, f"{place}.{name}")
