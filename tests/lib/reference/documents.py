"""JSON texts, read (RFC 8259): nothing that Python's `json` takes beyond them, and no object loses a member.

The value of an object is an `Object`, with its members in their order, that of an array a list, that of a string its octets in
UTF-8, that of a number a `Number`, with its text, and those of the three words are True, False and None.
"""

import re
from typing import NamedTuple

# How deep arrays and objects may be in one another.
DEEPEST = 128

BLANKS = re.compile(r"[ \t\n\r]*")
NUMBER = re.compile(r"-?(?:0|[1-9][0-9]*)(?:[.][0-9]+)?(?:[eE][+-]?[0-9]+)?")
# Characters that stand for themselves.
PLAIN = re.compile(r'[^"\\\x00-\x1f]*')
UNIT = re.compile(r"\\u([0-9a-fA-F]{4})")
WORDS = {"true": True, "false": False, "null": None}
ESCAPED = {'"': '"', "\\": "\\", "/": "/", "b": "\b", "f": "\f", "n": "\n", "r": "\r", "t": "\t"}


class Object(NamedTuple):
    members: list


class Number(NamedTuple):
    text: str


class NotJson(Exception):
    """A text that is not one JSON value."""


def document(octets):
    """The value that octets are the text of."""
    try:
        reader = Reader(octets.decode("utf-8"))
    except UnicodeDecodeError:
        raise NotJson from None
    value = reader.value(0)
    reader.skip(BLANKS)
    if reader.place < len(reader.text):
        raise NotJson
    return value


class Reader:
    """Reads a text from left to right."""

    def __init__(self, text):
        self.text = text
        self.place = 0

    def skip(self, pattern):
        """What a pattern matches here, passed over."""
        found = pattern.match(self.text, self.place)
        if found is None:
            raise NotJson
        self.place = found.end()
        return found

    def next_is(self, character):
        return self.text.startswith(character, self.place)

    def take(self, character):
        """A character that has to be here."""
        if not self.next_is(character):
            raise NotJson
        self.place += len(character)

    def value(self, outer):
        """A value with blanks before it, in so many arrays and objects."""
        self.skip(BLANKS)
        if self.next_is("{"):
            return Object(self.parts("{", "}", outer, self.member))
        if self.next_is("["):
            return self.parts("[", "]", outer, self.value)
        if self.next_is('"'):
            return self.string()
        for word, value in WORDS.items():
            if self.next_is(word):
                self.take(word)
                return value
        return Number(self.skip(NUMBER)[0])

    def parts(self, opening, closing, outer, part):
        """The parts of an array or an object."""
        if outer == DEEPEST:
            raise NotJson
        self.take(opening)
        self.skip(BLANKS)
        found = []
        while not self.next_is(closing):
            if found:
                self.take(",")
            found.append(part(outer + 1))
            self.skip(BLANKS)
        self.take(closing)
        return found

    def member(self, outer):
        """The name and the value of a member."""
        self.skip(BLANKS)
        name = self.string()
        self.skip(BLANKS)
        self.take(":")
        return name, self.value(outer)

    def string(self):
        """The octets of a string in UTF-8."""
        self.take('"')
        found = self.skip(PLAIN)[0]
        while not self.next_is('"'):
            found += self.escape()
            found += self.skip(PLAIN)[0]
        self.take('"')
        return found.encode("utf-8")

    def escape(self):
        """The character that begins with a backslash here."""
        if self.text.startswith("\\u", self.place):
            first = int(self.skip(UNIT)[1], 16)
            if 0xDC00 <= first < 0xE000:
                raise NotJson
            if first & 0xFC00 != 0xD800:
                return chr(first)
            second = int(self.skip(UNIT)[1], 16)
            if second & 0xFC00 != 0xDC00:
                raise NotJson
            return chr(0x10000 + (first - 0xD800) * 0x400 + second - 0xDC00)
        self.take("\\")
        letter = self.text[self.place : self.place + 1]
        if letter not in ESCAPED:
            raise NotJson
        self.take(letter)
        return ESCAPED[letter]
