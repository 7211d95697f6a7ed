"""From what an input of `krbls message` spells to the octets of a message: the octets themselves, hexadecimal, dumps, base64.

The first rule that holds says how an input is read, and none looks at what came of another.
"""

import base64
import re

from .dumps import begins_as_dump, dump_octets
from .spellings import BLANKS, DIGITS, Misspelled, all_of, first_other

TEXT = bytes(range(0x20, 0x7F)) + b"\t\n\r"
MARKS = BLANKS + b",;:-\"'[]()"
BYTE_ORDER_MARK = b"\xef\xbb\xbf"
NTLM = b"NTLMSSP\x00"

# What messages, Tickets, tokens and frames begin with that is text: their other tags are none.
TAGS_OF_TEXT = bytes([0x60, 0x61, *range(0x6A, 0x70), *range(0x74, 0x77), 0x7E])

# What they begin with in base64.
BASE64_FIRSTS = bytes([0x00, *TAGS_OF_TEXT, 0xA0, 0xA1, 0x4E])
BASE64 = b"ABCDEFGHIJKLMNOPQRSTUVWXYZabcdefghijklmnopqrstuvwxyz0123456789+/"

# How many `=` are due after so many characters, by what is left of them by 4; one that is left has no meaning.
DUE = {0: 0, 1: 0, 2: 2, 3: 1}
BITS_LEFT = {0: 0, 2: 0x0F, 3: 0x03}

ESCAPE = re.compile(rb"\\x([0-9a-fA-F]{2})")
BETWEEN_ESCAPES = BLANKS + b"\"',;"
CONTINUED = re.compile(rb"\\(?=\r?\n)")
END_OR_COMMENT = re.compile(rb"\}|/\*")
TOKEN = re.compile(rb"(0[xX])?([0-9a-fA-F]*)")
TOKENS_ALONE = re.compile(rb"(?:[0-9a-fA-F \t\r\n,;:\-\"'\[\]()]|(?<=0)[xX])*")
HEADER = re.compile(
    rb"[ \t\r\n]*(?:[<>][ \t][ \t\r\n]*)?(?:(?:(?:Proxy-)?Authorization|(?:WWW|Proxy)-Authenticate):[ \t\r\n]*)?(?:Negotiate|Kerberos)[ \t]",
    re.IGNORECASE,
)


def spelled(octets):
    """The form of an input, and the octets that it spells."""
    start = text_start(octets)
    other = first_other(octets, TEXT, start)
    if other is None:
        return at(start, text_octets, octets[start:], begins_as_dump(octets[start:]))
    if start == 0 and (octets[0] not in TEXT or octets[0] in TAGS_OF_TEXT or octets.startswith(NTLM)):
        return "octets", octets
    raise Misspelled("hex", other)


def line_spelled(line):
    """The same of a line, which is text, maybe after a byte order mark, and no dump."""
    start = text_start(line)
    other = first_other(line, TEXT, start)
    if other is not None:
        raise Misspelled("hex", other)
    return at(start, text_octets, line[start:], False)


def text_start(octets):
    """Where text begins: after a byte order mark."""
    return len(BYTE_ORDER_MARK) if octets.startswith(BYTE_ORDER_MARK) else 0


def at(start, read, text, *given):
    """What is read of a text that begins at a place."""
    try:
        return read(text, *given)
    except Misspelled as fault:
        raise Misspelled(fault.word, start + fault.place) from None


def text_octets(text, is_dump):
    """The form and the octets of a text."""
    if is_dump:
        return "dump", dump_octets(text)
    if all_of(text, DIGITS + BLANKS):
        return "hex", hexadecimal(text)
    if b"{" in text:
        return "hex", braced(text)
    if b"\\x" in text:
        return "hex", escapes(text)
    header = HEADER.match(text)
    if header is not None:
        return "base64", base64_octets(text, header.end())
    if TOKENS_ALONE.fullmatch(text) is not None:
        return "hex", tokens(text)
    if begins_as_base64(text):
        return "base64", base64_octets(text, 0)
    raise Misspelled("hex", first_no_token(text))


def hexadecimal(text):
    digits = text.translate(None, delete=BLANKS)
    if len(digits) % 2 != 0:
        raise Misspelled("hex", len(text))
    return bytes.fromhex(digits.decode("ascii"))


def first_no_token(text):
    """The first octet that is in no tokens of digits and no marks between them."""
    return TOKENS_ALONE.match(text).end()


def braced(text):
    """The octets between the first `{` and the next `}` that stands in no comment, as C has them; comments are blanks."""
    start = place = text.index(b"{") + 1
    block = bytearray()
    while (found := END_OR_COMMENT.search(text, place)) is not None:
        block += text[place : found.start()]
        if found[0] == b"}":
            return at(start, between_braces, bytes(block))
        end = text.find(b"*/", found.end())
        if end < 0:
            raise Misspelled("hex", found.start())
        place = end + 2
        block += b" " * (place - found.start())
    raise Misspelled("hex", len(text))


def between_braces(text):
    if b"\\x" in text:
        return escapes(text)
    return tokens(text)


def escapes(text):
    """The octets of escapes, as strings of C and of Python have them."""
    found = bytearray()
    place = 0
    while place < len(text):
        escape = ESCAPE.match(text, place)
        if escape is not None:
            found += bytes.fromhex(escape[1].decode("ascii"))
            place = escape.end()
        elif text[place] in BETWEEN_ESCAPES or CONTINUED.match(text, place):
            place += 1
        else:
            raise Misspelled("hex", place)
    return bytes(found)


def tokens(text):
    """The octets of digits with marks between them."""
    found = bytearray()
    place = 0
    while place < len(text):
        if text[place] in MARKS:
            place += 1
            continue
        token = TOKEN.match(text, place)
        prefix, digits = token.groups()
        is_octet = prefix is not None and len(digits) == 1
        if not digits or (len(digits) % 2 != 0 and not is_octet):
            raise Misspelled("hex", place)
        place = token.end()
        if place < len(text) and text[place] not in MARKS:
            raise Misspelled("hex", place)
        found += bytes.fromhex(digits.decode("ascii").zfill(2))
    return bytes(found)


def begins_as_base64(text):
    """Whether the first two characters give an octet that what is listed begins with."""
    text = text.lstrip(BLANKS)
    first, second = text[:1], text[1:].lstrip(BLANKS)[:1]
    if not second or first not in BASE64 or second not in BASE64:
        return False
    return BASE64.index(first) << 2 | BASE64.index(second) >> 4 in BASE64_FIRSTS


def base64_octets(text, start):
    """The octets of base64 from a place on (RFC 4648, 4), with blanks anywhere."""
    characters = bytearray()
    paddings = 0
    last = start
    for place in range(start, len(text)):
        octet = text[place]
        if octet in BLANKS:
            continue
        due = DUE[len(characters) % 4]
        if octet == ord("=") and paddings < due:
            paddings += 1
        elif octet in BASE64 and paddings == 0:
            characters.append(octet)
            last = place
        else:
            raise Misspelled("base64", place)
    left = len(characters) % 4
    if left == 1 or 0 < paddings < DUE[left]:
        raise Misspelled("base64", len(text))
    if characters and BASE64.index(characters[-1]) & BITS_LEFT[left]:
        raise Misspelled("base64", last)
    return base64.b64decode(characters + b"=" * DUE[left])
