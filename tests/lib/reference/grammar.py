"""The grammar of RFC 4120, appendix A: its types, and the messages."""

from dataclasses import dataclass, replace


@dataclass(frozen=True)
class Boolean:
    tag: int = 0x01


@dataclass(frozen=True)
class Integer:
    low: int
    high: int
    widest: int
    tag: int = 0x02


@dataclass(frozen=True)
class Bits:
    least: int = 0
    tag: int = 0x03


@dataclass(frozen=True)
class String:
    tag: int
    greatest: int = 0xFF


@dataclass(frozen=True)
class ObjectIdentifier:
    tag: int = 0x06


@dataclass(frozen=True)
class Time:
    tag: int = 0x18


@dataclass(frozen=True)
class ListOf:
    item: object
    empty: bool = True
    tag: int = 0x30


@dataclass(frozen=True)
class Tagged:
    """An explicit tag round one item."""

    tag: int
    item: object


@dataclass(frozen=True)
class Choice:
    """One of some types, by its tag."""

    items: tuple


@dataclass(frozen=True)
class Field:
    name: str
    item: Tagged
    optional: bool


@dataclass(frozen=True)
class Sequence:
    fields: tuple
    tag: int = 0x30


def tagged(number, item):
    return Tagged(0xA0 + number, item)


def sequence(*fields):
    """A SEQUENCE of fields, each given as its number, its name (with `?` if optional) and its type."""
    return Sequence(
        tuple(
            Field(name.rstrip("?"), tagged(number, item), name.endswith("?"))
            for number, name, item in fields
        )
    )


def fixed(number):
    return Integer(number, number, 1)


def application(number, item):
    return Tagged(0x60 + number, item)


INT32 = Integer(-(2**31), 2**31 - 1, 4)
WIDE32 = Integer(-(2**31), 2**32 - 1, 5)
MICROS = Integer(0, 999999, 3)
OCTETS = String(0x04)
TEXT = String(0x1B)
BOOLEAN = Boolean()
OBJECT_IDENTIFIER = ObjectIdentifier()
PRINCIPAL_NAME = sequence((0, "name-type", INT32), (1, "name-string", ListOf(TEXT)))
HOST_ADDRESS = sequence((0, "addr-type", INT32), (1, "address", OCTETS))
PA_DATA = sequence((1, "padata-type", INT32), (2, "padata-value", OCTETS))
ENCRYPTED_DATA = sequence((0, "etype", INT32), (1, "kvno?", WIDE32), (2, "cipher", OCTETS))
CHECKSUM = sequence((0, "cksumtype", INT32), (1, "checksum", OCTETS))
TICKET = application(
    1,
    sequence(
        (0, "tkt-vno", fixed(5)),
        (1, "realm", TEXT),
        (2, "sname", PRINCIPAL_NAME),
        (3, "enc-part", ENCRYPTED_DATA),
    ),
)
METHOD_DATA = ListOf(PA_DATA)
KDC_REQ_BODY = sequence(
    (0, "kdc-options", Bits()),
    (1, "cname?", PRINCIPAL_NAME),
    (2, "realm", TEXT),
    (3, "sname?", PRINCIPAL_NAME),
    (4, "from?", Time()),
    (5, "till", Time()),
    (6, "rtime?", Time()),
    (7, "nonce", WIDE32),
    (8, "etype", ListOf(INT32)),
    (9, "addresses?", ListOf(HOST_ADDRESS)),
    (10, "enc-authorization-data?", ENCRYPTED_DATA),
    (11, "additional-tickets?", ListOf(TICKET)),
)
KRB_SAFE_BODY = sequence(
    (0, "user-data", OCTETS),
    (1, "timestamp?", Time()),
    (2, "usec?", MICROS),
    (3, "seq-number?", WIDE32),
    (4, "s-address", HOST_ADDRESS),
    (5, "r-address?", HOST_ADDRESS),
)


def kdc_req(number):
    return application(
        number,
        sequence(
            (1, "pvno", fixed(5)),
            (2, "msg-type", fixed(number)),
            (3, "padata?", ListOf(PA_DATA)),
            (4, "req-body", KDC_REQ_BODY),
        ),
    )


def kdc_rep(number):
    return application(
        number,
        sequence(
            (0, "pvno", fixed(5)),
            (1, "msg-type", fixed(number)),
            (2, "padata?", ListOf(PA_DATA)),
            (3, "crealm", TEXT),
            (4, "cname", PRINCIPAL_NAME),
            (5, "ticket", TICKET),
            (6, "enc-part", ENCRYPTED_DATA),
        ),
    )


MESSAGES = {
    "AS-REQ": kdc_req(10),
    "AS-REP": kdc_rep(11),
    "TGS-REQ": kdc_req(12),
    "TGS-REP": kdc_rep(13),
    "AP-REQ": application(
        14,
        sequence(
            (0, "pvno", fixed(5)),
            (1, "msg-type", fixed(14)),
            (2, "ap-options", Bits()),
            (3, "ticket", TICKET),
            (4, "authenticator", ENCRYPTED_DATA),
        ),
    ),
    "AP-REP": application(
        15, sequence((0, "pvno", fixed(5)), (1, "msg-type", fixed(15)), (2, "enc-part", ENCRYPTED_DATA))
    ),
    "KRB-SAFE": application(
        20,
        sequence(
            (0, "pvno", fixed(5)),
            (1, "msg-type", fixed(20)),
            (2, "safe-body", KRB_SAFE_BODY),
            (3, "cksum", CHECKSUM),
        ),
    ),
    "KRB-PRIV": application(
        21, sequence((0, "pvno", fixed(5)), (1, "msg-type", fixed(21)), (3, "enc-part", ENCRYPTED_DATA))
    ),
    "KRB-CRED": application(
        22,
        sequence(
            (0, "pvno", fixed(5)),
            (1, "msg-type", fixed(22)),
            (2, "tickets", ListOf(TICKET)),
            (3, "enc-part", ENCRYPTED_DATA),
        ),
    ),
    "KRB-ERROR": application(
        30,
        sequence(
            (0, "pvno", fixed(5)),
            (1, "msg-type", fixed(30)),
            (2, "ctime?", Time()),
            (3, "cusec?", MICROS),
            (4, "stime", Time()),
            (5, "susec", MICROS),
            (6, "error-code", INT32),
            (7, "crealm?", TEXT),
            (8, "cname?", PRINCIPAL_NAME),
            (9, "realm", TEXT),
            (10, "sname", PRINCIPAL_NAME),
            (11, "e-text?", TEXT),
            (12, "e-data?", OCTETS),
        ),
    ),
}


def strict(item, optional=False):
    """A type as the strict profile has it, of a field that is OPTIONAL or not."""
    match item:
        case Integer() if item == WIDE32:
            return replace(item, low=0)
        case Bits():
            return replace(item, least=32)
        case String() if item == TEXT:
            return replace(item, greatest=0x7F)
        case ListOf():
            return replace(item, item=strict(item.item), empty=not optional)
        case Tagged():
            return replace(item, item=strict(item.item, optional))
        case Sequence():
            return replace(
                item, fields=tuple(replace(field, item=strict(field.item, field.optional)) for field in item.fields)
            )
        case _:
            return item


STRICT_MESSAGES = {name: strict(item) for name, item in MESSAGES.items()}
STRICT_TICKET = strict(TICKET)
