"""What texts consist of, and what is wrong with one that spells no octets."""

BLANKS = b" \t\r\n"
DIGITS = b"0123456789abcdefABCDEF"


class Misspelled(Exception):
    """What an input is no text of, and the place in it."""

    def __init__(self, word, place):
        super().__init__(word, place)
        self.word = word
        self.place = place


def all_of(text, octets):
    """Whether each octet of a text is one of these."""
    return not text.translate(None, delete=octets)


def first_other(text, octets, start):
    """The place of the first octet, from a place on, that is none of these; or None."""
    others = text[start:].translate(None, delete=octets)
    return text.index(others[:1], start) if others else None
