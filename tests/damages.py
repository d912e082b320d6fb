"""Damaged texts: each line of a text left out, doubled or swapped with the next, each word with
another last character, with a zero, a capital or a space more, and the text cut after a byte. And
streams of lines that are damaged by chance."""

OTHER_DIGIT = str.maketrans("0123456789abcdefk", "123456789abcdef0s")


def other_end(word):
    """Another last character: the next digit, or another letter."""
    last = word[-1].translate(OTHER_DIGIT)
    return word[:-1] + (last if last != word[-1] else "x")


def with_a_capital(word):
    """Its first letter as a capital, or None where it has none."""
    place = next((at for at, it in enumerate(word) if it.islower()), None)
    return None if place is None else word[:place] + word[place].upper() + word[place + 1 :]


# what happens to a word
WORDS = {
    "another last character": other_end,
    "a zero before": lambda word: f"0{word}",
    "a zero behind": lambda word: f"{word}0",
    "a capital": with_a_capital,
    "a space more": lambda word: f" {word}",
    "left out": lambda word: "",
}


def of_lines(lines):
    """Each change of a whole line, with what it is called."""
    for at, line in enumerate(lines):
        yield f"line {at + 1} left out", [*lines[:at], *lines[at + 1 :]]
        yield f"line {at + 1} doubled", [*lines[: at + 1], *lines[at:]]
        yield f"line {at + 1} blank", [*lines[:at], "", *lines[at + 1 :]]
        yield f"a space behind line {at + 1}", [*lines[:at], f"{line} ", *lines[at + 1 :]]
    for at, (one, other) in enumerate(zip(lines, lines[1:])):
        yield f"line {at + 1} behind the next", [*lines[:at], other, one, *lines[at + 2 :]]


def of_words(lines):
    """Each change of a word, with what it is called."""
    for at, line in enumerate(lines):
        words = line.split(" ")
        for place, word in enumerate(words):
            for name, change in WORDS.items():
                changed = change(word)
                if changed is not None:
                    other = " ".join([*words[:place], changed, *words[place + 1 :]])
                    yield f"line {at + 1}, word {place + 1}: {name}", [*lines[:at], other, *lines[at + 1 :]]


def text_of(lines):
    return "".join(f"{it}\n" for it in lines).encode()


def damaged(lines):
    """Each changed text, with what the change is called."""
    for name, changed in (*of_lines(lines), *of_words(lines)):
        if changed != lines:
            yield name, text_of(changed)


def cut(lines):
    """The text after each byte, the whole one aside."""
    text = text_of(lines)
    return ((f"cut after {it} bytes", text[:it]) for it in range(len(text)))


# ---- by chance


def with_other_bytes(line, chosen):
    """One to three bytes are others."""
    line = bytearray(line)
    for _ in range(chosen.randint(1, 3) if line else 0):
        line[chosen.randrange(len(line))] = chosen.randrange(256)
    return bytes(line)


def with_a_part(line, chosen, change):
    """A part of the line is changed."""
    start, end = sorted(chosen.randrange(len(line) + 1) for _ in range(2))
    return line[:start] + change(line[start:end]) + line[end:]


# what happens to a line
LINES = (
    with_other_bytes,
    with_other_bytes,
    lambda line, chosen: line[: chosen.randrange(len(line) + 1)],
    lambda line, chosen: line[chosen.randrange(len(line) + 1) :],
    lambda line, chosen: line + line,
    lambda line, chosen: with_a_part(line, chosen, lambda part: part + part),
    lambda line, chosen: with_a_part(line, chosen, lambda part: b""),
    lambda line, chosen: with_a_part(line, chosen, lambda part: bytes(reversed(part))),
    lambda line, chosen: line.replace(*(b"%d" % chosen.randrange(10) for _ in range(2))),
)


def damaged_line(line, chosen):
    """Another line than this one, which is not empty."""
    while True:
        other = chosen.choice(LINES)(line, chosen)
        if other != line:
            return other


def damaged_by_chance(lines, chosen, times):
    """These lines, each so many times damaged, then perhaps whole, and some behind the next one."""
    parts = []
    for line in lines:
        parts += (damaged_line(line, chosen) for _ in range(times))
        parts += [line] * chosen.randrange(2)
    for at in range(len(parts) - 1):
        if chosen.randrange(8) == 0:
            parts[at], parts[at + 1] = parts[at + 1], parts[at]
    return parts
