"""Dumps: lines of an offset and octets, as xxd, hexdump -C, od -tx1, tcpdump -x, Wireshark and tshark -x write them."""

import re
from typing import NamedTuple

from .spellings import BLANKS, Misspelled

BEGINNING = re.compile(
    rb"[ \t\r\n]*(?:(?:0[xX])?0{4,16}(?::[ \t\r\n]+[0-9a-fA-F]{2}|[ \t\r\n]+[0-9a-fA-F]{2}(?![0-9a-fA-F]))|0{7}[ \t\r\n])"
)
OFFSET = re.compile(rb"(0[xX])?([0-9a-fA-F]{4,16})(?=[: \t\r]|$)")
DIGITS_HERE = re.compile(rb"[0-9a-fA-F]*")
BLANKS_HERE = re.compile(rb"[ \t\r]*")

# How many digits the offsets of od have, which are octal.
OCTAL = 7


class Style(NamedTuple):
    """What follows an offset."""

    # How many digits a group may have: an even number up to this.
    most_digits: int
    # How many blanks there may be between two groups.
    most_blanks: int
    # What ends the octets after blanks.
    ends: bytes


COLON = Style(most_digits=32, most_blanks=1, ends=b"")
BLANK = Style(most_digits=2, most_blanks=2, ends=b"|>")


def begins_as_dump(text):
    return BEGINNING.match(text) is not None


def dump_octets(text):
    """The octets of a dump, whose offsets count them."""
    found = bytearray()
    is_over = False
    place = 0
    for line in text.split(b"\n"):
        line_place = place + len(BLANKS_HERE.match(line)[0])
        place += len(line) + 1
        line = line.lstrip(BLANKS)
        if not line:
            continue
        if is_over:
            raise Misspelled("dump", line_place)
        octets = line_octets(line, line_place, len(found))
        is_over = not octets
        found += octets
    return bytes(found)


def line_octets(line, place, count):
    """The octets of a line at a place, before which there are so many; none of an offset alone."""
    offset = OFFSET.match(line)
    if offset is None or offset_value(line, offset) != count:
        raise Misspelled("dump", place)
    after = line[offset.end() :]
    if not after.strip(BLANKS):
        return b""
    if after.startswith(b":"):
        return groups(after[1:], place + offset.end() + 1, COLON)
    return groups(after, place + offset.end(), BLANK)


def offset_value(line, offset):
    """What an offset says, or None if it is no number: in octal as od has it, else in hexadecimal."""
    prefix, digits = offset.groups()
    is_octal = len(digits) == OCTAL and prefix is None and not line.startswith(b":", offset.end())
    try:
        return int(digits, 8 if is_octal else 16)
    except ValueError:
        return None


def groups(text, start, style):
    """The octets of groups of digits, each after blanks."""
    found = bytearray()
    place = len(BLANKS_HERE.match(text)[0])
    digits = DIGITS_HERE.match(text, place)[0]
    if place == 0 or not digits:
        raise Misspelled("dump", start + place)
    while True:
        if not 2 <= len(digits) <= style.most_digits or len(digits) % 2 != 0:
            raise Misspelled("dump", start + place)
        found += bytes.fromhex(digits.decode("ascii"))
        end = place + len(digits)
        place = end + len(BLANKS_HERE.match(text, end)[0])
        if place == len(text) or place - end > style.most_blanks or (place > end and text[place] in style.ends):
            return bytes(found)
        if place == end:
            raise Misspelled("dump", start + end)
        digits = DIGITS_HERE.match(text, place)[0]
