"""How many bytes of a line are the front of a JSON text (RFC 8259): the place of the first byte
that no JSON text has there, or the length. A plain reader that goes down into what is open."""

from codecs import getincrementaldecoder

MOST_OPEN = 127
WORDS = {"t": "true", "f": "false", "n": "null"}
ESCAPES = '"\\/bfnrt'
DIGITS, HEX = "0123456789", "0123456789abcdefABCDEF"
HIGH, LOW = range(0xD800, 0xDC00), range(0xDC00, 0xE000)


class Stop(Exception):
    """No JSON text goes on so, or the line has no more bytes."""


class Reader:
    def __init__(self, line):
        self.line = line
        self.at = 0

    def next(self):
        if self.at == len(self.line):
            raise Stop
        return chr(self.line[self.at])

    def peek(self):
        return chr(self.line[self.at]) if self.at < len(self.line) else ""

    def take(self, allowed):
        """The next byte, which must be one of these."""
        if self.next() not in allowed:
            raise Stop
        self.at += 1
        return chr(self.line[self.at - 1])

    def spaces(self):
        while self.peek() and self.peek() in " \t\n\r":
            self.at += 1

    def whole(self):
        self.value(0)
        self.spaces()
        if self.at < len(self.line):
            raise Stop

    def value(self, opened):
        self.spaces()
        first = self.next()
        if first == '"':
            self.text()
        elif first in "[{":
            if opened == MOST_OPEN:
                raise Stop
            self.entries(opened + 1, first == "{")
        elif first in WORDS:
            for letter in WORDS[first]:
                self.take(letter)
        else:
            self.number()

    def entries(self, opened, are_members):
        end = "}" if are_members else "]"
        self.at += 1
        self.spaces()
        if self.next() == end:
            self.at += 1
            return
        while True:
            if are_members:
                self.spaces()
                self.text()
                self.spaces()
                self.take(":")
            self.value(opened)
            self.spaces()
            if self.take("," + end) == end:
                return

    def number(self):
        if self.next() == "-":
            self.at += 1
        if self.take(DIGITS) != "0":
            self.digits()
        if self.peek() == ".":
            self.at += 1
            self.take(DIGITS)
            self.digits()
        if self.peek() and self.peek() in "eE":
            self.at += 1
            self.take("+-" + DIGITS)
            if not chr(self.line[self.at - 1]).isdigit():
                self.take(DIGITS)
            self.digits()

    def digits(self):
        while self.peek() and self.peek() in DIGITS:
            self.at += 1

    def text(self):
        self.take('"')
        decoder = getincrementaldecoder("utf-8")()
        is_inside = False
        while True:
            byte = self.next()
            if is_inside or byte >= "\x80":
                # (half of a surrogate pair, of which the decoder waits for the third byte)
                if is_inside and self.line[self.at - 1] == 0xED and byte >= "\xa0":
                    raise Stop
                try:
                    is_inside = not decoder.decode(byte.encode("latin-1"))
                except UnicodeDecodeError:
                    raise Stop from None
                self.at += 1
            elif byte == '"':
                self.at += 1
                return
            elif byte < " ":
                raise Stop
            elif byte == "\\":
                self.at += 1
                self.escape()
            else:
                self.at += 1

    def escape(self):
        if self.take(ESCAPES + "u") == "u":
            code = self.code(lambda least, most: any(it not in LOW for it in (least, most)))
            if code in HIGH:
                self.take("\\")
                self.take("u")
                self.code(lambda least, most: least <= LOW[-1] and most >= LOW[0])

    def code(self, may_be):
        """The number of four hex digits, each of which leaves one that may be: of two bounds of what it can become."""
        digits = ""
        for left in (3, 2, 1, 0):
            more = digits + self.next()
            if more[-1] not in HEX or not may_be(int(more + "0" * left, 16), int(more + "f" * left, 16)):
                raise Stop
            digits = more
            self.at += 1
        return int(digits, 16)


def front(line):
    reader = Reader(line)
    try:
        reader.whole()
    except Stop:
        pass
    return reader.at
