"""Messages in which each octet of a cipher and of a checksum is 00, also inside of pre-authentication data and of the data of errors:
what is shown of them has to stay as it is."""

from reference.der import der
from reference.grammar import CHECKSUM, ENCRYPTED_DATA, MESSAGES, PA_DATA, ListOf, Sequence, Tagged
from reference.inside import (
    ARMOR_AP_REQUEST,
    ERROR_DATA,
    FAST_ARMOR,
    KERB_ERROR_DATA,
    OF_OTHERS,
    OF_REQUESTS,
    PA_TGS_REQ,
    SALT,
    TYPED_DATA,
    extended,
    value_of,
)

REQUESTS = ("AS-REQ", "TGS-REQ")


def zeros(octets):
    return bytes(len(octets))


def masked_octets(item, octets, rows):
    """Octets that are all of a type, masked, or else zeros."""
    value = value_of(item, octets)
    return zeros(octets) if value is None else der(item, masked(item, value, rows))


def masked_pa_data(value, rows):
    number, octets = value["padata-type"], value["padata-value"]
    if number in rows:
        octets = masked_octets(rows[number][0], octets, rows)
    elif number != SALT:
        octets = zeros(octets)
    return {**value, "padata-value": octets}


def masked_armor(value, rows):
    octets = value["armor-value"]
    is_request = value["armor-type"] == ARMOR_AP_REQUEST
    return {**value, "armor-value": masked_octets(PA_TGS_REQ, octets, rows) if is_request else zeros(octets)}


def masked_typed(value):
    """A typed value: zeros, but of an extended error."""
    if "data-value" not in value or next(extended(value), None) is not None:
        return value
    return {**value, "data-value": zeros(value["data-value"])}


def masked(item, value, rows):
    """A value of a type, by the rows of pre-authentication data of requests or of others."""
    if item == ENCRYPTED_DATA:
        return {**value, "cipher": zeros(value["cipher"])}
    if item == CHECKSUM:
        return {**value, "checksum": zeros(value["checksum"])}
    if item == PA_DATA:
        return masked_pa_data(value, rows)
    if item == FAST_ARMOR:
        return masked_armor(value, rows)
    if item in (TYPED_DATA.item, KERB_ERROR_DATA):
        return masked_typed(value)
    match item:
        case Tagged():
            return masked(item.item, value, rows)
        case ListOf():
            return [masked(item.item, part, rows) for part in value]
        case Sequence():
            return {field.name: masked(field.item, value[field.name], rows) for field in item.fields if field.name in value}
        case _:
            return value


def masked_data(octets, rows):
    """The data of an error: the values in it are masked, and what is of no type is zeros."""
    for item, _ in ERROR_DATA:
        if value_of(item, octets) is not None:
            return masked_octets(item, octets, rows)
    return zeros(octets)


def masked_message(kind, value):
    """The octets of a message of a kind, masked."""
    rows = OF_REQUESTS if kind in REQUESTS else OF_OTHERS
    found = masked(MESSAGES[kind], value, rows)
    if kind == "KRB-SAFE":
        found["safe-body"]["user-data"] = zeros(found["safe-body"]["user-data"])
    if "e-data" in value:
        found["e-data"] = masked_data(value["e-data"], rows)
    return der(MESSAGES[kind], found)
