"""The command that the first octets of a source say, and what is said of a source that is refused at once."""

import re

from .inputs import BYTE_ORDER_MARK, TEXT
from .tokens import TICKET_TAG

# How many octets are looked at.
FIRST = 16

KEYTAB = (b"\x05\x02",)
CCACHE = (b"\x05\x03", b"\x05\x04")
CAPTURE = tuple(map(bytes.fromhex, ("A1B2C3D4", "D4C3B2A1", "A1B23C4D", "4D3CB2A1", "0A0D0D0A")))
MODIFIED_PCAP = tuple(map(bytes.fromhex, ("A1B2CD34", "34CDB2A1")))
SNOOP = (b"snoop\x00\x00\x00",)
VERSION_1 = (b"\x05\x01",)

# Files of other programs that hold a file: how they begin, what they are, and what shows what is in them.
COMPRESSED = (
    (b"\x1f\x8b", "a gzip", "zcat"),
    (b"\xfd7zXZ\x00", "an xz", "xzcat"),
    (b"\x28\xb5\x2f\xfd", "a zstd", "zstdcat"),
    (b"BZh", "a bzip2", "bzcat"),
)

# What HTTP begins with: requests by their methods, and responses.
HTTP = (b"GET ", b"HEAD ", b"POST ", b"PUT ", b"DELETE ", b"CONNECT ", b"OPTIONS ", b"HTTP/")

# A cache of version 2 begins as a keytab, and goes on with the type of a name, which no entry of a keytab is as short as.
VERSION_2 = tuple(bytes([5, 2, 0, 0, 0, name_type]) for name_type in range(13))

# The identifiers of mechanisms in tokens of GSS-API: IAKERB, Kerberos, SPNEGO.
IAKERB, KERBEROS, NEGOTIATION = map(bytes.fromhex, ("06062b0601050205", "06092a864886f712010202", "06062b0601050502"))

# Tokens that have no message in them, by what follows the identifier (RFC 1964, 1.2), and by their first octets (RFC 4121, 4.2.6).
OF_IAKERB = "this is a token of IAKERB, which krbls does not read"
OF_MIC = "this is a MIC token of GSS-API, which has no message of Kerberos in it"
OF_WRAP = "this is a Wrap token of GSS-API, which has no message of Kerberos in it"
TOKEN_IDS = {b"\x01\x01": OF_MIC, b"\x02\x01": OF_WRAP, b"\x05\x01": OF_IAKERB}
UNFRAMED = ((re.compile(rb"\x05\x04[\x00-\x07]\xff"), OF_WRAP), (re.compile(rb"\x04\x04[\x00-\x07]\xff{5}"), OF_MIC))

# A header of HTTP: the name of a field, of which the first letters are enough, a scheme that is none of Kerberos, or one of Kerberos alone.
HEADER = re.compile(
    rb"[ \t\r\n]*(?:[<>][ \t][ \t\r\n]*)?(?:authoriz|www-auth|proxy-auth|(?:ntlm|basic|digest|bearer) |(?:negotiate|kerberos)[ \t\r\n]*\Z)",
    re.IGNORECASE,
)
OF_HEADER = "this is a header of HTTP, of which krbls reads the token after Negotiate or Kerberos"
OF_NEGOTIATION = "this is a token of SPNEGO with no token of Kerberos in it"

# What messages, Tickets and tokens begin with.
TAGS = bytes([0x60, TICKET_TAG, *range(0x6A, 0x70), *range(0x74, 0x77), 0x7E, 0xA0, 0xA1])


def command_for(octets):
    """The command that reads octets which begin so."""
    first = octets[:FIRST]
    for command, beginnings in (("keytab", KEYTAB), ("ccache", CCACHE), ("capture", CAPTURE)):
        if first.startswith(beginnings):
            return command
    is_message = first.startswith(BYTE_ORDER_MARK) or first[:1] in (b"\xa0", b"\xa1") or is_text(first[:1])
    return "message" if is_message else "stream"


def is_text(octets):
    """Whether octets are text alone, and some."""
    return octets != b"" and not octets.translate(None, delete=TEXT)


def hint(octets, used, given, name):
    """What is said of a source that is refused at once, by its first octets; or None.

    A command was used, which is the one that was given unless that is `list`. For `items` it is as for `message`, but that of HTTP
    reads lines, as `items` does not.
    """
    first = octets[:FIRST]
    if used == "items":
        return None if first.startswith(HTTP) else hint(octets, "message", given, name)
    token = said_of_token(first)
    if token is not None:
        return token
    for beginning, what, shows in COMPRESSED:
        if first.startswith(beginning):
            command = "" if given == "list" else f"{given} "
            return f"this is {what} file: {shows} {name} | krbls {command}-"
    decodes = given == "decode"
    said = said_of_other(first, name, "decode" if decodes else "capture")
    if said is not None:
        return said
    if first.startswith(b"tkt") and not set(first) & set(b" \t") and used in ("ccache", "message"):
        return f"this may be the primary file of a collection: krbls {'decode' if decodes else 'ccache'} DIR:DIRECTORY"
    found = None if decodes else other_command(first)
    if found is None or found[1] == used:
        return said_of_message(first) if used == "message" else None
    return f"{found[0]}: krbls {found[1]} {name}"


def said_of_token(first):
    """What is said of a token of GSS-API that has no message in it, or is one of IAKERB."""
    for form, said in UNFRAMED:
        if form.match(first):
            return said
    inside = in_token(first)
    if inside.startswith(IAKERB):
        return OF_IAKERB
    if inside.startswith(KERBEROS):
        return TOKEN_IDS.get(inside[len(KERBEROS) : len(KERBEROS) + 2])
    return None


def in_token(first):
    """What follows the tag and the length of a token of GSS-API."""
    if first[:1] != b"\x60" or len(first) < 2:
        return b""
    return first[2 + max(0, first[1] - 0x80) :]


def said_of_message(first):
    """What is said of what is refused as a message."""
    if HEADER.match(first):
        return OF_HEADER
    inside = in_token(first)
    if lacks_token(first) or inside.startswith(NEGOTIATION) and lacks_token(inside[len(NEGOTIATION) :]):
        return OF_NEGOTIATION
    return None


def lacks_token(octets):
    """Whether the lengths of a token of SPNEGO show that it has none of a mechanism: each of these has one octet, and after a state is only what it names."""
    if len(octets) < 4 or octets[1] >= 0x80 or octets[1] != octets[3] + 2 or octets[2] != 0x30 or octets[0] not in (0xA0, 0xA1):
        return False
    size, fields = octets[3], octets[4:]
    if octets[0] == 0xA1 and fields[:2] == b"\xa0\x03" and size > 5:
        size, fields = size - 5, fields[5:]
        return fields[:1] == b"\xa1" and len(fields) > 1 and size == fields[1] + 2
    tags = b"\xa0" if octets[0] == 0xA0 else b"\xa0\xa1"
    return size == 0 or len(fields) > 1 and fields[0] in tags and size == fields[1] + 2


def said_of_other(first, name, command):
    """What is said of files that no command reads; the command reads what a capture of another form becomes."""
    if first.startswith(VERSION_1):
        return "this is a keytab or credential cache of version 1, which krbls does not read"
    if first.startswith(VERSION_2):
        return "this is a keytab, or a cache of version 2, which krbls does not read"
    for beginnings, what in ((MODIFIED_PCAP, "modified pcap"), (SNOOP, "snoop capture")):
        if first.startswith(beginnings):
            return f"this is a {what}: editcap -F pcap {name} - | krbls {command} -"
    if first.startswith(b"-----BEGIN"):
        return "this is PEM, which holds certificates or keys and no Kerberos"
    if first.startswith(b"SQLite"):
        return "this is an SQLite database, which krbls does not read"
    if first.startswith(HTTP):
        return f"this is HTTP; if a header has a token: grep -ai negotiate {name} | krbls message --lines -"
    return None


def other_command(first):
    """What a source is, and the command that reads it."""
    if first.startswith(KEYTAB):
        return "this is a keytab", "keytab"
    if first.startswith(CCACHE):
        return "this is a credential cache", "ccache"
    if first.startswith(CAPTURE):
        return "this is a capture", "capture"
    if first.startswith(b"\x00") and first[4:5] != b"" and first[4] in TAGS:
        return "this may be a stream", "stream"
    if first[:1] != b"" and first[0] in TAGS and not is_text(first):
        return "this may be a message", "message"
    if is_text(first):
        return "this is text; if it is a message", "message"
    return None
