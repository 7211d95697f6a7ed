"""The fields of the records of messages: all but their notes and what is told."""

from .grammar import METHOD_DATA
from .judging import Refused, whole
from .registries import AP_OPTIONS, ENCRYPTION_TYPES, KDC_OPTIONS, PA_DATA_TYPES
from .values import (
    ABSENT,
    address,
    checksum,
    count,
    error_code,
    flags,
    message_time,
    number,
    numbers,
    optional,
    principal,
    quoted,
    encrypted,
    string,
)


def bits_of(value):
    unused, octets = value
    return 8 * len(octets) - unused


def options(value, registry):
    return flags(bits_of(value), value[1], registry)


def name_in(realm):
    """What shows a PrincipalName in a realm."""
    return lambda name: principal(name["name-type"], name["name-string"], realm)


def ticket_server(ticket):
    return name_in(ticket["realm"])(ticket["sname"])


def encrypted_ticket(ticket):
    """The fields of a Ticket."""
    return {"server": ticket_server(ticket), "ticket": encrypted(ticket["enc-part"])}


def types(items):
    """LIST of the types of PA-DATA."""
    return numbers([item["padata-type"] for item in items], PA_DATA_TYPES)


def request(value):
    body = value["req-body"]
    shown_name = name_in(body["realm"])
    return {
        "realm": string(body["realm"]),
        "client": optional(shown_name, body.get("cname")),
        "server": optional(shown_name, body.get("sname")),
        "options": options(body["kdc-options"], KDC_OPTIONS),
        "from": optional(message_time, body.get("from")),
        "till": message_time(body["till"]),
        "rtime": optional(message_time, body.get("rtime")),
        "nonce": number(body["nonce"]),
        "etypes": numbers(body["etype"], ENCRYPTION_TYPES),
        "padata": optional(types, value.get("padata")),
        "addresses": optional(count, body.get("addresses")),
        "authdata": optional(encrypted, body.get("enc-authorization-data")),
        "tickets": optional(count, body.get("additional-tickets")),
    }


def reply(value):
    return {
        "client": name_in(value["crealm"])(value["cname"]),
        "server": ticket_server(value["ticket"]),
        "padata": optional(types, value.get("padata")),
        "ticket": encrypted(value["ticket"]["enc-part"]),
        "enc": encrypted(value["enc-part"]),
    }


def ap_request(value):
    return {
        "server": ticket_server(value["ticket"]),
        "options": options(value["ap-options"], AP_OPTIONS),
        "ticket": encrypted(value["ticket"]["enc-part"]),
        "auth": encrypted(value["authenticator"]),
    }


def ap_reply(value):
    return {"enc": encrypted(value["enc-part"])}


def safe(value):
    body = value["safe-body"]
    return {
        "size": count(body["user-data"]),
        "time": optional(message_time, body.get("timestamp")),
        "usec": optional(number, body.get("usec")),
        "seq": optional(number, body.get("seq-number")),
        "sender": address(body["s-address"]),
        "receiver": optional(address, body.get("r-address")),
        "cksum": checksum(value["cksum"]),
    }


def private(value):
    return {"enc": encrypted(value["enc-part"])}


def credentials(value):
    return {"tickets": count(value["tickets"]), "enc": encrypted(value["enc-part"])}


def method_data(value):
    """The PA-DATA in the e-data of an error, or None if it is no METHOD-DATA."""
    try:
        return whole(value.get("e-data", b""), {"METHOD-DATA": METHOD_DATA})[1]
    except Refused:
        return None


def methods(value):
    """LIST of the types in the METHOD-DATA of an error, if there are any."""
    return optional(types, method_data(value)) if value["error-code"] == 25 else ABSENT


def error(value):
    client = ABSENT
    if "cname" in value and "crealm" in value:
        client = name_in(value["crealm"])(value["cname"])
    return {
        "code": error_code(value["error-code"]),
        "client": client,
        "server": name_in(value["realm"])(value["sname"]),
        "ctime": optional(message_time, value.get("ctime")),
        "cusec": optional(number, value.get("cusec")),
        "stime": message_time(value["stime"]),
        "susec": number(value["susec"]),
        "text": optional(quoted, value.get("e-text")),
        "data": optional(count, value.get("e-data")),
        "methods": methods(value),
    }


FIELDS = {
    "AS-REQ": request,
    "AS-REP": reply,
    "TGS-REQ": request,
    "TGS-REP": reply,
    "AP-REQ": ap_request,
    "AP-REP": ap_reply,
    "KRB-SAFE": safe,
    "KRB-PRIV": private,
    "KRB-CRED": credentials,
    "KRB-ERROR": error,
}
