"""JSON: what is a value, what is passed over, and which of two equal names counts."""

from cases import ACCEPTED, NO_JSON, NO_RECORD, USED, all_answered, answered, begins, malformed, no_genesis, unbalanced
from records import but, genesis, ref, transfer, tx_id


def with_note(line, value):
    """The record with one more field, which nobody names, of this text."""
    return line[:-1] + b',"note":' + (value if isinstance(value, bytes) else value.encode()) + b"}"


READABLE = [
    "-5",
    "-0",
    "1.5",
    "1E+2",
    "1e300",
    "1e-400",
    "18446744073709551616",
    "-9223372036854775809",
    "1" + "0" * 300,
    "true",
    "null",
    '""',
    '"\u00e9"',
    '"\x7f"',
    r'"\u0000\"\\\/\b\f\n\r\t"',
    r'"\ud83d\ude00"',
    "[]",
    "{}",
    '{"a":1,"a":2}',
    ' [ 1 ,\t{ "a" : null } ]\r',
    # with the record itself, arrays and objects 127 deep
    "[" * 126 + "]" * 126,
    '{"a":' * 126 + "0" + "}" * 126,
]
UNREADABLE = [
    "",
    "1e400",
    "-1e400",
    "1" + "0" * 400,
    "01",
    "-",
    "+1",
    ".5",
    "1.",
    "1.e2",
    "1e",
    "0x1",
    "NaN",
    "-Infinity",
    "nul",
    "True",
    "'x'",
    "undefined",
    '"',
    '"a',
    r'"\ud800"',
    r'"\udc00"',
    r'"\ud800\u0041"',
    r'"\x"',
    r'"\u12"',
    '"\x01"',
    '"\t"',
    b'"\xff"',
    b'"\xc0\x80"',
    b'"\xed\xa0\x80"',
    b'"\xf4\x90\x80\x80"',
    b"\xc2\xa0 1",
    "[1,]",
    "[,1]",
    "[1 2]",
    "[1}",
    "]",
    '{"a"}',
    '{"a":}',
    '{"a":1,}',
    "{a:1}",
    "{1:2}",
    "0 // a comment",
    "\x0c0",
    "[" * 127 + "]" * 127,
    '{"a":' * 127 + "0" + "}" * 127,
    "[" * 100_000,
]

# lines that are no JSON value at all
NO_VALUES = [
    b"x",
    b"[1",
    b"{",
    b"nul",
    transfer(2)[:-1],
    transfer(2)[1:],
    transfer(2) + b"}",
    transfer(2) + b",",
    transfer(2) + transfer(3),
    genesis() + genesis(),
    b"\xff",
    b"[" * 1_000_000,
    b'{"a":' * 200_000,
]

# values that are no object, or whose kind is none
NO_RECORDS = [
    b"1",
    b"-0",
    b"null",
    b"true",
    b'"tx"',
    b"[]",
    b"[" + transfer(2) + b"]",
    b"[" * 127 + b"]" * 127,
    b"{}",
    b'{"kind":null}',
    b'{"kind":1}',
    b'{"kind":["tx"]}',
    b'{"kind":{}}',
    b'{"kind":""}',
    b'{"kind":"xx"}',
    b'{"kind":"Tx"}',
    b'{"kind":"tx "}',
    b'{"kind":" tx"}',
    b'{"kind":"Genesis"}',
    b'{"kind":"transaction"}',
    b'{"Kind":"tx"}',
    but(transfer(2), '"kind"', '"Kind"'),
    but(transfer(2), '"kind":"tx",', ""),
    but(transfer(2), '"kind":"tx"', '"kind":"tx","kind":null'),
]


def values():
    yield all_answered("what is read and passed over", ACCEPTED, *(with_note(transfer(n), it) for n, it in enumerate(READABLE, 2)))
    yield answered("what no JSON value is", *((with_note(transfer(2), it), NO_JSON) for it in UNREADABLE), (transfer(2), ACCEPTED))
    yield answered("lines that are no JSON value", *((it, NO_JSON) for it in NO_VALUES), (transfer(2), ACCEPTED))
    yield answered("lines that are no record", *((it, NO_RECORD) for it in NO_RECORDS), (transfer(2), ACCEPTED))
    yield all_answered(
        "fields that a transaction does not have",
        ACCEPTED,
        transfer(2, note="x", slot=-1, pulse=[], epoch={}, supply=1.5, Fee=7, fees=1, **{"": 0, "fee ": 1, "certs.": []}),
    )
    for value in READABLE:
        yield begins(f"a note of {value[:20]!r} in the genesis", with_note(genesis(), value))
    for value in UNREADABLE:
        yield no_genesis(f"a note of {value[:20]!r} in the genesis", with_note(genesis(), value))


def names():
    line, own = transfer(2), tx_id(2)
    yield answered(
        "of two equal names the last counts",
        (but(line, '"fee":20', '"fee":20,"fee":19'), unbalanced(20, 19)),
        (but(line, '"fee":20', '"fee":20,"fee":null'), malformed("fee")),
        (but(line, '"fee":20', '"fee":20,"fee":"20"'), malformed("fee")),
        (but(line, '"kind":"tx"', '"kind":"tx","kind":"print"'), malformed("what")),
        (but(line, '"kind":"tx"', '"kind":"tx","kind":"xx"'), NO_RECORD),
        (but(line, '"size":0', '"size":0,"votes":null,"votes":[0]'), malformed("votes", 0)),
        (but(line, '"size":0', '"size":0,"witnessed":true,"witnessed":false'), "refused 31 NotWitnessed"),
        (but(line, f'"id":"{own}"', f'"id":"{own}","id":"{tx_id(1)}"'), USED),
        (but(line, f'"id":"{own}"', f'"id":"{tx_id(1)}","id":"{own}"'), ACCEPTED),
        (but(transfer(3), '"fee":20', '"fee":19,"fee":20'), ACCEPTED),
        (but(transfer(4), '"kind":"tx"', '"kind":"print","kind":"tx"'), ACCEPTED),
        (but(transfer(5), '"size":0', '"size":0,"votes":[0],"votes":null'), ACCEPTED),
        (but(transfer(6), '"fee":20', r'"fee":19,"f\u0065e":20'), ACCEPTED),
        (but(transfer(7), '"size":0', '"size":0,"certs":[{"cert":"x","cert":"hot-resign","cold":0,"cold":"k' + "0" * 56 + '"}]'), "refused 71 ColdKeyUnknown at 0"),
        (but(genesis(), '"minFeeA":0', '"minFeeA":0,"minFeeA":null'), malformed("params")),
        (but(genesis(), '"minFeeA":0', '"minFeeA":null,"minFeeA":0'), "refused 3 GenesisAgain"),
    )
    yield all_answered(
        "escapes in names and texts",
        ACCEPTED,
        but(transfer(2), '"kind":"tx"', r'"\u006bind":"\u0074x"'),
        but(transfer(3), ref(1, 3), ref(1, 3).replace("#", r"\u0023")),
    )
    yield begins("an earlier kind", but(genesis(), '{"kind":"genesis"', '{"kind":"tx","kind":"genesis"'))
    yield no_genesis("a later kind", but(genesis(), '"slot":0', '"slot":0,"kind":"tx"'))
    yield begins("earlier accounts", but(genesis(), '"accounts":[]', '"accounts":[0],"accounts":[]'))
    yield no_genesis("later accounts", but(genesis(), '"accounts":[]', '"accounts":[],"accounts":[0]'))
    yield no_genesis("a later null", but(genesis(), '"slot":0', '"slot":0,"slot":null'))


def cases():
    yield from values()
    yield from names()
