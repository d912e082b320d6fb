"""Lines: their ends, their numbers, blank ones and long ones; the first that is not blank."""

from cases import ACCEPTED, BLANK, NO_JSON, START, TOO_LONG, Case, answered, begins, no_genesis, text_of
from records import LINE_LIMIT, but, genesis, padded, transfer

NO_TEXT = but(genesis(note="?"), b"?", b"\xff")


def first_lines():
    start, end = genesis(), b"\n"
    yield no_genesis("blank lines alone", b"\n \n\t\r\n\n")
    yield no_genesis("blank lines and a blank piece", b"\n  \t")
    yield Case("a genesis with no line feed", start, wanted=text_of([START]))
    yield Case("blank lines before the genesis", b"\n \t\r\n" + start + end, wanted=f"3 {START}\n")
    yield begins("blanks around the genesis", b" \t" + start + b"\t \r")
    yield no_genesis("an empty object first", b"{}\n" + start + end)
    yield no_genesis("no JSON first", b"[1\n" + start + end)
    yield no_genesis("a list with a genesis in it", b"[" + start + b"]\n")
    yield no_genesis("a byte after the genesis", start + b"x\n")
    yield no_genesis("two genesis in one line", start + start + end)
    yield no_genesis("a form feed first", b"\x0c\n" + start + end)
    yield no_genesis("a byte 0 first", b"\x00\n" + start + end)
    yield no_genesis("a byte order mark first", b"\xef\xbb\xbf" + start + end)
    yield no_genesis("a byte that begins no character", b"\xff\n" + start + end)
    yield no_genesis("a genesis that is no text", NO_TEXT + end)
    yield no_genesis("brackets without end first", b"[" * 1_000_000 + end + start + end)
    yield no_genesis("spaces that are too long", b" " * (LINE_LIMIT + 1) + end + start + end)
    yield no_genesis("a genesis that is too long", padded(start, LINE_LIMIT + 1) + end)
    yield begins("a genesis of the greatest length", padded(start, LINE_LIMIT))
    yield Case("a blank line of the greatest length", b" " * LINE_LIMIT + end + start + end, wanted=f"2 {START}\n")


def ends():
    two, three = transfer(2), transfer(3)
    done = text_of([START, ACCEPTED, ACCEPTED])
    yield Case("a carriage return before each line feed", b"\r\n".join([genesis(), two, three, b""]), wanted=done)
    yield Case("no last line feed", b"\n".join([genesis(), two, three]), wanted=done)
    yield Case("a carriage return at the end", b"\n".join([genesis(), two, three]) + b"\r", wanted=done)
    for piece in (b"\n", b" ", b"\r", b"\t \n\n\n", b"\n\n \t\r"):
        yield Case(f"{piece!r} at the end", b"\n".join([genesis(), two, three, piece]), wanted=done)
    yield answered("a last line that is no JSON", (two, ACCEPTED), (b"{", NO_JSON), end=b"")
    yield Case("ten thousand blank lines", genesis() + b"\n" * 10_000 + two, wanted=f"1 {START}\n10001 {ACCEPTED}\n")


def blank_lines():
    yield answered(
        "blank lines are numbered",
        (b"", BLANK),
        (b" ", BLANK),
        (b"\t", BLANK),
        (b"\r", BLANK),
        (b" \t\r ", BLANK),
        (transfer(2), ACCEPTED),
        (b"", BLANK),
        (b"\t " + transfer(3) + b" \r", ACCEPTED),
        (b"\x0b", NO_JSON),
        (b"\x0c", NO_JSON),
        (b"\x00", NO_JSON),
        (b"\x1f", NO_JSON),
        (b"\xa0", NO_JSON),
        (b"\xc2\xa0", NO_JSON),
        (b"\xe2\x80\xa8", NO_JSON),
        (b"\xef\xbb\xbf", NO_JSON),
        (b"\xef\xbb\xbf" + transfer(4), NO_JSON),
        (b"\x0c" + transfer(4), NO_JSON),
        (transfer(4), ACCEPTED),
    )


def long_lines():
    yield answered(
        "lines about as long as a line may be",
        (b" " * LINE_LIMIT, BLANK),
        (b" " * (LINE_LIMIT + 1), TOO_LONG),
        (padded(transfer(2), LINE_LIMIT + 1), TOO_LONG),
        (padded(transfer(2), LINE_LIMIT), ACCEPTED),
        (padded(transfer(3), LINE_LIMIT) + b"\r", TOO_LONG, "a carriage return counts to the length"),
        (padded(b"{", LINE_LIMIT + 1), TOO_LONG),
        (transfer(3), ACCEPTED),
    )
    yield answered("a last line that is too long", (transfer(2), ACCEPTED), (b" " * (LINE_LIMIT + 1), TOO_LONG), end=b"")
    yield answered("a last line that is as long as a line may be", (transfer(2), ACCEPTED), (padded(transfer(3), LINE_LIMIT), ACCEPTED), end=b"")
    yield answered("a text that is too long for a line", (b'"' + b"a" * 3 * LINE_LIMIT + b'"', TOO_LONG), (transfer(2), ACCEPTED))


def parts():
    """Lines where a read of 64 KiB ends: short ones in it, and such as are longer."""
    lines = [(padded(transfer(n), 1_500), ACCEPTED) if n % 2 else (b"{" + b" " * n, NO_JSON) for n in range(2, 100)]
    yield answered("every second line is malformed", *lines)
    lengths = (65_534, 65_535, 65_536, 65_537, 131_072, 200_000)
    yield answered("lines about as long as a read, and longer", *((padded(transfer(n), length), ACCEPTED) for n, length in enumerate(lengths, 2)))


def cases():
    yield from first_lines()
    yield from ends()
    yield from blank_lines()
    yield from long_lines()
    yield from parts()
