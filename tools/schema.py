"""A small validator of JSON Schema (draft 2020-12): the keywords that docs/use/*.schema.json use,
and no others. It also tells what a schema cannot: names that must differ, and a part that is more
than the whole."""

import json
import re

NAMES_DIFFER = "the first {} parts of the entries differ"
PART_OF_ONE = "the first number is at most the second"
TYPES = {"object": dict, "array": list, "string": str, "boolean": bool, "null": type(None)}
TOLD = ("$schema", "$defs", "$ref", "$comment", "title", "description")
ASKED = ("type", "const", "enum", "minimum", "maximum", "pattern", "minItems", "maxItems", "prefixItems", "items")
KNOWN = {*TOLD, *ASKED, "properties", "required", "additionalProperties", "allOf", "anyOf", "not", "if", "then"}


class NoNumber:
    """A number that is written in another form than a whole number's digits."""


class NoJson(ValueError):
    """The text is no JSON value."""


# ---- reading


def whole(digits):
    other(digits)
    return NoNumber() if digits == "-0" else int(digits)


def other(digits):
    if abs(float(digits)) == float("inf"):
        raise NoJson(digits[:80])
    return NoNumber()


def refuse(word):
    raise NoJson(word)


def read(line, plain=False):
    """The value of a line of bytes. Other numbers than whole ones are told apart from these, but where it is to be read as by a plain reader."""
    forms = {} if plain else {"parse_int": whole, "parse_float": other, "parse_constant": refuse}
    try:
        text = line.decode("utf-8")
        value = json.loads(text, **forms)
        if "\\u" in text:
            json.dumps(value, default=str, ensure_ascii=False).encode("utf-8")
        return value
    except (ValueError, RecursionError) as error:
        raise NoJson(str(error)) from None


# ---- validating


def is_integer(value):
    return isinstance(value, (int, float)) and not isinstance(value, bool) and value == int(value)


def has_type(value, name):
    return is_integer(value) if name == "integer" else isinstance(value, TYPES[name])


def said(schema):
    """What a value of the schema is, in words."""
    return schema.get("description") or {"object": "an object", "array": "an array", "null": "null"}.get(schema.get("type"), "such a value")


class Schema:
    """A schema. With `beyond` it tells also what stands in `$comment`."""

    def __init__(self, text, beyond=False):
        self.root = json.loads(text)
        self.beyond = beyond
        self.ask_keywords(self.root)

    def ask_keywords(self, schema):
        """Refuses a schema with a keyword that is not known here."""
        if isinstance(schema, bool):
            return
        unknown = {*schema} - KNOWN
        if unknown:
            raise ValueError(f"keywords that are not known: {sorted(unknown)}")
        within = [schema[it] for it in ("items", "additionalProperties", "not", "if", "then") if it in schema]
        for name in ("allOf", "anyOf", "prefixItems"):
            within += schema.get(name, [])
        for name in ("properties", "$defs"):
            within += schema.get(name, {}).values()
        for it in within:
            self.ask_keywords(it)

    def faults(self, value, schema=None, path=""):
        """What is wrong, each with its path and whether it is but a name that nobody reads."""
        schema = self.root if schema is None else schema
        if isinstance(schema, bool):
            if not schema:
                yield path, "one too many", False
            return
        if "$ref" in schema:
            yield from self.faults(value, self.root["$defs"][schema["$ref"].rpartition("/")[2]], path)
        if "type" in schema and not has_type(value, schema["type"]):
            yield path, f"not {said(schema)}", False
            return
        if not self.fits(value, schema):
            yield path, f"not {said(schema)}", False
        if isinstance(value, list):
            yield from self.array_faults(value, schema, path)
        if isinstance(value, dict):
            yield from self.object_faults(value, schema, path)
        yield from self.chosen_faults(value, schema, path)

    def is_valid(self, value, schema=None):
        return next(self.faults(value, schema), None) is None

    def fits(self, value, schema):
        """What is asked of a value that has no parts."""
        is_number = isinstance(value, (int, float)) and not isinstance(value, bool)
        return not (
            ("const" in schema and not same(value, schema["const"]))
            or ("enum" in schema and not any(same(value, it) for it in schema["enum"]))
            or ("pattern" in schema and isinstance(value, str) and not re.search(schema["pattern"].replace("$", r"\Z"), value))
            or ("minimum" in schema and is_number and value < schema["minimum"])
            or ("maximum" in schema and is_number and value > schema["maximum"])
        )

    def array_faults(self, value, schema, path):
        front = schema.get("prefixItems", [])
        if len(value) < schema.get("minItems", 0):
            yield path, f"too short: {len(value)} entries, not {schema['minItems']}", False
        if len(value) > schema.get("maxItems", len(value)):
            yield path, f"too long: {len(value)} entries, not {schema['maxItems']}", False
        for i, it in enumerate(value):
            part = front[i] if i < len(front) else schema.get("items", True)
            yield from self.faults(it, part, f"{path}[{i}]")
        if self.beyond and "$comment" in schema:
            yield from beyond_faults(value, schema["$comment"], path)

    def object_faults(self, value, schema, path):
        known = schema.get("properties", {})
        for name in schema.get("required", []):
            if name not in value:
                yield joined(path, name), "missing", False
        for name, it in value.items():
            if name in known:
                yield from self.faults(it, known[name], joined(path, name))
            elif schema.get("additionalProperties") is False:
                yield joined(path, name), "a name that nobody reads", True

    def chosen_faults(self, value, schema, path):
        for it in schema.get("allOf", []):
            yield from self.faults(value, it, path)
        if "anyOf" in schema and not any(self.is_valid(value, it) for it in schema["anyOf"]):
            yield from self.faults(value, schema["anyOf"][0], path)
        if "not" in schema and self.is_valid(value, schema["not"]):
            yield path, f"not {said(schema)}", False
        if "if" in schema and self.is_valid(value, schema["if"]):
            yield from self.faults(value, schema.get("then", True), path)


def same(one, two):
    return type(one) is type(two) and one == two


def joined(path, name):
    return f"{path}.{name}" if path else name


def beyond_faults(value, comment, path):
    """What a schema cannot tell of an array."""
    if comment == PART_OF_ONE:
        if len(value) == 2 and all(isinstance(it, int) for it in value) and value[0] > value[1]:
            yield path, "the first number is above the second", False
        return
    parts, seen = int(re.search(r"\d+", comment)[0]), set()
    for i, it in enumerate(value):
        name = tuple(str(part).lower() for part in it[:parts]) if isinstance(it, list) else (str(it).lower(),)
        if name in seen:
            yield f"{path}[{i}]", "its name stands earlier in the list", False
        seen.add(name)
