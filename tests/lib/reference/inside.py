"""What is in the clear inside of messages: records of the values of pre-authentication data, of the data of errors, and of tickets.

The types are those of RFC 4120, 5.2.7 and 5.9.1; RFC 6113, 5.4; MS-SFU, 2.2.1; MS-KILE, 2.2.1 to 2.2.3 and 2.2.10. They are
judged leniently, and what is not all of its type has no record.
"""

import struct

from .fields import ap_request, name_in, options, encrypted_ticket, types
from .grammar import (
    BOOLEAN,
    CHECKSUM,
    ENCRYPTED_DATA,
    INT32,
    MESSAGES,
    METHOD_DATA,
    OCTETS,
    PRINCIPAL_NAME,
    TEXT,
    Bits,
    ListOf,
    sequence,
    tagged,
)
from .judging import Refused, whole
from .records import Record, told_records
from .registries import ENCRYPTION_TYPES, ERROR_DATA_TYPES, PA_DATA_TYPES, PAC_OPTIONS
from .values import (
    ABSENT,
    checksum,
    hexadecimal,
    named,
    number,
    numbers,
    optional,
    quoted,
    encrypted,
    status,
    yes_or_no,
)

PA_TGS_REQ = MESSAGES["AP-REQ"]
ETYPE_INFO = ListOf(sequence((0, "etype", INT32), (1, "salt?", OCTETS)))
ETYPE_INFO2 = ListOf(sequence((0, "etype", INT32), (1, "salt?", TEXT), (2, "s2kparams?", OCTETS)))
PA_PAC_REQUEST = sequence((0, "include-pac", BOOLEAN))
PA_FOR_USER = sequence(
    (0, "userName", PRINCIPAL_NAME),
    (1, "userRealm", TEXT),
    (2, "cksum", CHECKSUM),
    (3, "auth-package", TEXT),
)
FAST_ARMOR = sequence((0, "armor-type", INT32), (1, "armor-value", OCTETS))
FAST_REQUEST = tagged(
    0, sequence((0, "armor?", FAST_ARMOR), (1, "req-checksum", CHECKSUM), (2, "enc-fast-req", ENCRYPTED_DATA))
)
FAST_REPLY = tagged(0, sequence((0, "enc-fast-rep", ENCRYPTED_DATA)))
PA_PAC_OPTIONS = sequence((0, "flags", Bits()))

TYPED_DATA = ListOf(sequence((0, "data-type", INT32), (1, "data-value?", OCTETS)))
KERB_ERROR_DATA = sequence((1, "data-type", INT32), (2, "data-value?", OCTETS))

# The type of FAST's armor that is an AP-REQ (RFC 6113, 5.4.1.1), the code of errors whose own fields have the types of
# METHOD-DATA, and the type of a value that is an extended error.
ARMOR_AP_REQUEST = 1
PREAUTH_REQUIRED = 25
EXTENDED = 3


def value_of(item, octets):
    """The value of a type that all the octets are, or None."""
    try:
        return whole(octets, {"": item})[1]
    except Refused:
        return None


def tgs_request(value):
    yield Record("PA-TGS-REQ", ap_request(value))


def timestamp(value):
    yield Record("PA-ENC-TIMESTAMP", {"enc": encrypted(value)})


def challenge(value):
    yield Record("PA-ENCRYPTED-CHALLENGE", {"enc": encrypted(value)})


def etype_and_salt(entry):
    return {"etype": named(entry["etype"], ENCRYPTION_TYPES), "salt": optional(quoted, entry.get("salt"))}


def etype_info(value):
    for entry in value:
        yield Record("PA-ETYPE-INFO", etype_and_salt(entry))


def etype_info2(value):
    for entry in value:
        yield Record("PA-ETYPE-INFO2", {**etype_and_salt(entry), "params": optional(hexadecimal, entry.get("s2kparams"))})


def pac_request(value):
    yield Record("PA-PAC-REQUEST", {"pac": yes_or_no(value["include-pac"])})


def for_user(value):
    shown = {
        "user": name_in(value["userRealm"])(value["userName"]),
        "cksum": checksum(value["cksum"]),
        "package": quoted(value["auth-package"]),
    }
    yield Record("PA-FOR-USER", shown)


def armor(value):
    """The armor of a request, with the ticket in it if there is one."""
    shown = {"armor": ABSENT, "server": ABSENT, "ticket": ABSENT}
    if value is None:
        return shown
    shown["armor"] = number(value["armor-type"])
    if value["armor-type"] == ARMOR_AP_REQUEST:
        request = value_of(PA_TGS_REQ, value["armor-value"])
        if request is not None:
            shown.update(encrypted_ticket(request["ticket"]))
    return shown


def fast_request(value):
    yield Record("PA-FX-FAST", {**armor(value.get("armor")), "enc": encrypted(value["enc-fast-req"])})


def fast_reply(value):
    yield Record("PA-FX-FAST", {**armor(None), "enc": encrypted(value["enc-fast-rep"])})


def pac_options(value):
    yield Record("PA-PAC-OPTIONS", {"options": options(value["flags"], PAC_OPTIONS)})


# For each number the type of the octets, and the records of a value; but a salt is any octets.
OF_ALL = {
    1: (PA_TGS_REQ, tgs_request),
    2: (ENCRYPTED_DATA, timestamp),
    11: (ETYPE_INFO, etype_info),
    19: (ETYPE_INFO2, etype_info2),
    128: (PA_PAC_REQUEST, pac_request),
    129: (PA_FOR_USER, for_user),
    138: (ENCRYPTED_DATA, challenge),
    167: (PA_PAC_OPTIONS, pac_options),
}
OF_REQUESTS = {**OF_ALL, 136: (FAST_REQUEST, fast_request)}
OF_OTHERS = {**OF_ALL, 136: (FAST_REPLY, fast_reply)}
SALT = 3


def extended_error(octets):
    """The three numbers of KERB-EXT-ERROR (MS-KILE, 2.2.1), the lowest octet of each first, if these are twelve octets."""
    return struct.unpack("<3I", octets) if len(octets) == 12 else None


def shown_error(numbers_of_it):
    code, reserved, flag = numbers_of_it
    return Record("KERB-EXT-ERROR", {"status": status(code), "reserved": number(reserved), "flags": number(flag)})


def salt(octets, of_error):
    """A salt, or what Samba's KDC sends in its place with an error: an extended error, octets 4 to 7 of which are 00."""
    if of_error and len(octets) == 12 and octets[4:8] == bytes(4):
        return shown_error(extended_error(octets))
    return Record("PA-PW-SALT", {"salt": quoted(octets)})


def pa_data(item, rows, of_error=False):
    """The records of an item of PA-DATA."""
    kind, octets = item["padata-type"], item["padata-value"]
    if kind == SALT:
        yield salt(octets, of_error)
    elif kind in rows:
        of_type, records = rows[kind]
        value = value_of(of_type, octets)
        if value is not None:
            yield from records(value)


def pa_data_of(items, rows, of_error=False):
    for item in items or ():
        yield from pa_data(item, rows, of_error)


def tickets(values):
    for ticket in values:
        yield Record("Ticket", encrypted_ticket(ticket))


def request(value):
    yield from pa_data_of(value.get("padata"), OF_REQUESTS)
    yield from tickets(value["req-body"].get("additional-tickets", ()))


def reply(value):
    yield from pa_data_of(value.get("padata"), OF_OTHERS)


def credentials(value):
    yield from tickets(value["tickets"])


def extended(item):
    """The extended error of a typed value, if it has one."""
    found = extended_error(item.get("data-value", b"")) if item["data-type"] == EXTENDED else None
    if found is not None:
        yield shown_error(found)


def methods(items, code):
    if code != PREAUTH_REQUIRED:
        yield Record("METHOD-DATA", {"methods": types(items)})
    yield from pa_data_of(items, OF_OTHERS, of_error=True)


def typed(items, code):
    yield Record("TYPED-DATA", {"types": numbers([item["data-type"] for item in items], PA_DATA_TYPES)})
    for item in items:
        yield from extended(item)


def kerb_error_data(value, code):
    yield Record("KERB-ERROR-DATA", {"type": named(value["data-type"], ERROR_DATA_TYPES)})
    yield from extended(value)


# What the data of an error may be; the first that all the octets are decides.
ERROR_DATA = ((METHOD_DATA, methods), (TYPED_DATA, typed), (KERB_ERROR_DATA, kerb_error_data))


def error(value):
    for item, records in ERROR_DATA:
        found = value_of(item, value.get("e-data", b""))
        if found is not None:
            yield from records(found, value["error-code"])
            return


INSIDE = {
    "AS-REQ": request,
    "AS-REP": reply,
    "TGS-REQ": request,
    "TGS-REP": reply,
    "KRB-CRED": credentials,
    "KRB-ERROR": error,
}


def inside(name, value):
    """The field of what is inside of a message, if it is one that has it."""
    return {"inside": told_records(list(INSIDE[name](value)))} if name in INSIDE else {}
