"""Streams that cost most for each octet, and messages in hexadecimal."""

import struct

from items import OCTET_STRING, SEQUENCE, STRING, TIME, encrypted, integer, item, principal, sequence, ticket

STREAM = ["stream"]
GOING_ON = ["stream", "--keep-going"]
MESSAGE = ["message"]
ITEMS = ["items"]

AS_REQ, AS_REP, TGS_REQ, AP_REQ, AP_REP, KRB_SAFE, KRB_ERROR = 10, 11, 12, 14, 15, 20, 30
PREAUTH_REQUIRED = 25

# Octets of what is long in a frame that lies whole in a piece of 64 KiB, in one that never does, and in the longest.
SIZES = {"whole": 60000, "cut": 70000, "longest": (1 << 24) - 400}


def bit_string(octets):
    return item(0x03, b"\0" + octets)


def typed(kind, octets):
    """A HostAddress or a Checksum."""
    return sequence({0: integer(kind), 1: item(OCTET_STRING, octets)})


NONE = item(SEQUENCE, b"")
TIME_0 = item(TIME, b"19700101000000Z")
NO_NAME = principal(b"", 0)
NAME = principal(item(STRING, b"u"))
NO_CIPHER = encrypted(b"")
SMALLEST_PADATA = sequence({1: integer(0), 2: item(OCTET_STRING, b"")})
SMALLEST_TICKET = ticket(b"", NO_NAME, NO_CIPHER)
ESCAPED = b"\x80"


def repeated(unit, octets):
    """So many octets, or somewhat fewer, of a unit."""
    return unit * (octets // len(unit))


def items_of(unit, octets):
    return item(SEQUENCE, repeated(unit, octets))


def message(kind, parts, version=5, first=0):
    return item(0x60 | kind, sequence({first: integer(version), first + 1: integer(kind)} | parts))


def kdc_req(body, padata=None, kind=AS_REQ):
    least = {0: bit_string(bytes(4)), 2: item(STRING, b"A"), 5: TIME_0, 7: integer(1), 8: NONE}
    return message(kind, {3: padata, 4: sequence(least | body)}, first=1)


def as_rep(parts):
    least = {3: item(STRING, b"A"), 4: NAME, 5: ticket(b"A", NAME, NO_CIPHER), 6: NO_CIPHER}
    return message(AS_REP, least | parts)


def krb_error(parts):
    least = {4: TIME_0, 5: integer(0), 6: integer(PREAUTH_REQUIRED), 9: item(STRING, b""), 10: NO_NAME}
    return message(KRB_ERROR, least | parts)


def krb_safe(address):
    body = sequence({0: item(OCTET_STRING, b""), 4: typed(2, address)})
    return message(KRB_SAFE, {2: body, 3: typed(16, b"")})


def ap_req(options):
    return message(AP_REQ, {2: bit_string(options), 3: SMALLEST_TICKET, 4: NO_CIPHER})


# Messages with so many octets of one kind.
LONG = {
    "PA-DATA": lambda size: as_rep({2: items_of(SMALLEST_PADATA, size)}),
    "strings of a name": lambda size: as_rep({4: principal(repeated(item(STRING, b""), size))}),
    "strings of an octet": lambda size: as_rep({4: principal(repeated(item(STRING, ESCAPED), size))}),
    "cipher": lambda size: as_rep({6: encrypted(bytes(size))}),
    "encryption types": lambda size: kdc_req({8: items_of(integer(99), size)}),
    "encryption types with names": lambda size: kdc_req({8: items_of(integer(20), size)}),
    "addresses": lambda size: kdc_req({9: items_of(typed(0, b""), size)}),
    "tickets": lambda size: kdc_req({11: items_of(SMALLEST_TICKET, size)}, kind=TGS_REQ),
    "a realm": lambda size: kdc_req({1: NAME, 2: item(STRING, b"A" * size), 3: NAME}),
    "an escaped realm": lambda size: kdc_req({1: NAME, 2: item(STRING, ESCAPED * size), 3: NAME}),
    "an escaped string": lambda size: kdc_req({1: principal(item(STRING, ESCAPED * size))}),
    "flags": lambda size: kdc_req({0: bit_string(b"\xff" * size)}),
    "flags of which the last is set": lambda size: kdc_req({0: bit_string(bytes(size - 1) + b"\1")}),
    "an escaped text": lambda size: krb_error({11: item(STRING, ESCAPED * size)}),
    "METHOD-DATA": lambda size: krb_error({12: item(OCTET_STRING, items_of(SMALLEST_PADATA, size))}),
    "data that are no METHOD-DATA": lambda size: krb_error({12: item(OCTET_STRING, item(SEQUENCE, b"0" * size))}),
    "an address": lambda size: krb_safe(b"\xaa" * size),
}

# The smallest messages, and some with much to write.
SMALL = {
    "AP-REPs": message(AP_REP, {2: NO_CIPHER}),
    "AP-REQs": ap_req(b"\xff" * 4),
    "AS-REQs": kdc_req({0: bit_string(b""), 2: item(STRING, b"")}),
    "AS-REQs with notes": kdc_req({1: NO_NAME, 2: item(STRING, ESCAPED), 3: NO_NAME, 7: integer(-1), 9: NONE}, NONE),
    "KRB-SAFEs": krb_safe(b""),
    "KRB-ERRORs": krb_error({}),
}


def refused_at_end(size):
    """Tickets, of which the last has an octet that is wrong at its end."""
    return LONG["tickets"](size)[:-2] + b"\5\0"


def refused_deep_inside(size):
    """A string with a wrong tag at the end of the name of a ticket, to which a path of six fields leads."""
    name = principal(repeated(item(STRING, b""), size) + item(STRING + 1, b""))
    return kdc_req({11: item(SEQUENCE, ticket(b"", name, NO_CIPHER))}, kind=TGS_REQ)


REFUSED = {
    "no octets": b"",
    "an octet": b"\0",
    "an octet after a message": SMALL["AP-REPs"] + b"\0",
    "another version": message(AP_REP, {2: NO_CIPHER}, version=4),
}
LONG_REFUSED = {"the last ticket": refused_at_end, "the last string": refused_deep_inside}


def frames(contents, size):
    """A stream of as many frames as have so many octets, and of one at least."""
    frame = struct.pack(">I", len(contents)) + contents
    return frame * max(1, size // len(frame))


def digits(maker, size):
    """A message in hexadecimal of so many digits, or somewhat fewer."""
    return maker(size // 2 - 400).hex().encode()


def cases(size):
    """Each with a name, a command, and what makes its octets."""
    for name, contents in SMALL.items():
        yield f"stream of {name}", STREAM, lambda: frames(contents, size)
    for name, contents in REFUSED.items():
        yield f"refusals of {name}", GOING_ON, lambda: frames(contents, size)
    for command, title, makers in ((STREAM, "stream with", LONG), (GOING_ON, "refusals of", LONG_REFUSED)):
        for name, maker in makers.items():
            for frame, octets in SIZES.items():
                yield f"{title} {name}, {frame}", command, lambda: frames(maker(octets), size)
    for name, maker in (LONG | LONG_REFUSED).items():
        yield f"message with {name}", MESSAGE, lambda: digits(maker, size)
        yield f"items of a message with {name}", ITEMS, lambda: maker(size - 400)
    yield "message in lines of a digit", MESSAGE, lambda: b"\n".join(map(b"%c".__mod__, digits(LONG["a realm"], size // 2)))
    yield "message of blanks", MESSAGE, lambda: b" " * (size - 1)
