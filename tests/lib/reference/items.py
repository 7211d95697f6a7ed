"""Where each item of a message is in its octets: the records of `krbls items`.

A walk judges octets as `judging` does, and keeps each item once it is right: what holds others and what is gone into once its
last length octet is, all else once its last octet is. An item and the explicit tags that it stands in are one.
"""

from dataclasses import dataclass, field

from .grammar import (
    MESSAGES,
    METHOD_DATA,
    OBJECT_IDENTIFIER,
    STRICT_MESSAGES,
    Bits,
    Boolean,
    Choice,
    Integer,
    ListOf,
    ObjectIdentifier,
    Sequence,
    String,
    Tagged,
    Time,
)
from .inputs import NTLM, spelled
from .inside import OF_OTHERS, OF_REQUESTS, SALT, value_of
from .judging import Ended, Judge, Refused
from .records import Record, refused_input
from .registries import ADDRESS_TYPES, AP_OPTIONS, CHECKSUM_TYPES, ENCRYPTION_TYPES, KDC_OPTIONS, NAME_TYPES, PA_DATA_TYPES, PAC_OPTIONS
from .messages import MOST_TEXT, TICKETS, octets_record
from .spellings import Misspelled
from .tokens import BARE_MESSAGES, KERBEROS, NEG_TOKEN_INIT, NEG_TOKEN_RESP, SPNEGO, TOKEN_FIELDS, TOKEN_IDS, Ntlm
from .values import (
    ABSENT,
    error_code,
    flags,
    hexadecimal,
    layers,
    named,
    number,
    optional,
    plain,
    quoted,
    reason,
    string,
    word,
    yes_or_no,
)

# The registries of fields that are numbers, and of those that are flags.
NUMBERS = {
    "etype": ENCRYPTION_TYPES,
    "padata-type": PA_DATA_TYPES,
    "name-type": NAME_TYPES,
    "addr-type": ADDRESS_TYPES,
    "cksumtype": CHECKSUM_TYPES,
}
FLAGS = {"kdc-options": KDC_OPTIONS, "ap-options": AP_OPTIONS, "flags": PAC_OPTIONS, "reqFlags": {}}
SHOWN = ("address", "s2kparams")

# What a padata-value of a type is called, and of which codes of errors the data are METHOD-DATA.
HELD = {
    1: "PA-TGS-REQ",
    2: "PA-ENC-TIMESTAMP",
    11: "PA-ETYPE-INFO",
    19: "PA-ETYPE-INFO2",
    128: "PA-PAC-REQUEST",
    129: "PA-FOR-USER",
    136: "PA-FX-FAST",
    138: "PA-ENCRYPTED-CHALLENGE",
    167: "PA-PAC-OPTIONS",
}
WITH_METHODS = (24, 25)
ARMOR_AP_REQUEST = 1

TYPES = {0x01: "BOOLEAN", 0x02: "INTEGER", 0x03: "BIT-STRING", 0x04: "OCTET-STRING", 0x06: "OBJECT-IDENTIFIER"}
TYPES |= {0x0A: "ENUMERATED", 0x18: "GeneralizedTime", 0x1B: "GeneralString"}

GREATEST = 2147483647
MOST_BEFORE = 16


def words(texts):
    """A list of words: with commas between them in a line, or `-`, and an array in an object."""
    return plain(",".join(texts) or "-", texts)


def type_of(item):
    """What the type of a tag is called."""
    match item:
        case Tagged():
            return f"[APPLICATION-{item.tag - 0x60}]" if item.tag < 0x80 else f"[{item.tag - 0xA0}]"
        case ListOf():
            return "SEQUENCE-OF"
        case Sequence():
            return "SEQUENCE"
    return TYPES[item.tag]


def identifier(octets):
    """The numbers of an OBJECT IDENTIFIER (X.690, 8.19), or its octets if one that is written has more than 64 bits."""
    written, value = [], 0
    for octet in octets:
        value = value * 128 + octet % 128
        if octet < 0x80:
            written.append(value)
            value = 0
    if max(written) >= 2**64:
        return octets.hex()
    first = min(written[0] // 40, 2)
    return ".".join(map(str, (first, written[0] - 40 * first, *written[1:])))


@dataclass
class Begun:
    """An item, as far as its heads are read."""

    at: int
    depth: int
    heads: list = field(default_factory=list)
    types: list = field(default_factory=list)
    # Where the head begins that is not read yet, where what follows the last one does, and the length that it has.
    head: int = None
    next: int = None
    size: int = None


class Walk(Judge):
    """A judge of n octets, of which these are there, which keeps the records of items."""

    def __init__(self, octets, n, place=0, depth=0, via=(), path=""):
        super().__init__(octets)
        self.n = n
        self.place = place
        self.depth = depth
        self.via = list(via)
        self.path = path
        self.records = []
        # The octets that are not shown, as where they begin and end.
        self.hidden = []
        # The last number of the SEQUENCE, and whether the message is a request.
        self.number = None
        self.is_request = False
        # Whether the next item is in an explicit tag.
        self.is_joined = False
        self.opens_tokens = True
        self.begin()

    def begin(self):
        self.begun = Begun(self.place, self.depth)

    def before(self, begun, heads):
        shown = {"via": layers(list(self.via))} if self.via else {}
        return {
            **shown,
            "at": number(begun.at),
            "depth": number(begun.depth),
            "heads": words([head.hex() for head in heads]),
            "contents": ABSENT if begun.size is None else number(begun.next),
            "length": optional(number, begun.size),
        }

    def list(self, value=ABSENT, name=None):
        shown = {"name": word(name or self.path), "type": words(list(self.begun.types)), "value": value}
        self.records.append(Record("item", shown, self.before(self.begun, self.begun.heads)))

    # ---- heads

    def item(self, choices, room, sole):
        is_joined, self.is_joined = self.is_joined, False
        if not is_joined:
            self.begin()
        begun, container = self.begun, self.path
        begun.head = self.place
        tag = self.next()
        begun.size = None
        index = next((index for index, (_, choice) in enumerate(choices) if choice.tag == tag), None)
        if index is None:
            self.refuse("Tag")
        name, choice = choices[index]
        self.path += name
        begun.types.append(type_of(choice))
        self.length(room, sole)
        value = self.contents(choice, begun.size)
        if not is_joined:
            self.path, self.depth = container, begun.depth
            self.begin()
        return index, value

    def length(self, room, sole):
        begun = self.begun
        if room == 1:
            self.refuse("Overrun")
        first = self.next()
        size, count = first, 0
        if first > 0x80:
            count = first - 0x80
        if first == 0x80:
            self.refuse("Indefinite")
        if count > 4:
            self.refuse("LengthWide")
        if count and room < 2 + count:
            self.refuse("Overrun")
        for k in range(count):
            octet = self.next()
            if k == 0 and (octet == 0 or (count == 1 and octet < 0x80)):
                self.refuse("LengthNotMinimal")
            size = octet if k == 0 else size * 256 + octet
        begun.size, begun.next = size, self.place
        if 2 + count + size > room:
            self.refuse("Overrun")
        if sole and 2 + count + size < room:
            self.refuse("Loose")
        begun.heads.append(self.octets[begun.head : self.place])
        begun.head = None

    # ---- contents

    def contents(self, item, size):
        match item:
            case Tagged():
                self.is_joined = size > 0
                return super().contents(item, size)
            case ListOf() | Sequence():
                if isinstance(item, ListOf) and size == 0 and not item.empty:
                    self.refuse("Size")
                self.list()
                return self.nested(item, size)
        return self.leaf(item, size)

    def nested(self, item, size):
        outer, self.number = self.number, None
        self.depth = self.begun.depth + 1
        self.begin()
        value = super().contents(item, size)
        self.number = outer
        return value

    def last_name(self):
        return self.path.split(".")[-1].split("[")[0]

    def leaf(self, item, size):
        start, name = self.place, self.last_name()
        counted = item.tag == 0x04 and name not in (*SHOWN, "salt") and not (name == "padata-value" and self.number == SALT)
        if counted and name in TOKEN_FIELDS.values() and self.opens_tokens and self.is_gone_into(start, size):
            self.list(number(size))
            return self.token(start, size)
        if counted:
            self.hidden.append((start, start + size))
        value = super().contents(item, size)
        if name == "oid" and value not in self.mechanisms:
            self.refuse("Range")
        self.list(self.value(item, name, value, counted))
        if isinstance(item, Integer):
            self.number = value
        if counted:
            self.open(name, start, value)
        return value

    def value(self, item, name, value, counted):
        match item:
            case Boolean():
                return yes_or_no(value)
            case Integer():
                if name == "error-code":
                    return error_code(value)
                return named(value, NUMBERS[name]) if name in NUMBERS else number(value)
            case Bits():
                return flags(8 * len(value[1]) - value[0], value[1], FLAGS[name])
            case Time():
                return string(value)
            case ObjectIdentifier():
                return word(identifier(value))
        if counted:
            return number(len(value))
        return hexadecimal(value) if name in SHOWN else quoted(value)

    def open(self, name, start, octets):
        """Lists what an OCTET STRING is all of, if it is what it should be."""
        held = None
        if name == "padata-value" and self.number in HELD:
            held = HELD[self.number], (OF_REQUESTS if self.is_request else OF_OTHERS)[self.number][0]
        elif name == "e-data" and self.number in WITH_METHODS:
            held = "METHOD-DATA", METHOD_DATA
        elif name == "armor-value" and self.number == ARMOR_AP_REQUEST:
            held = "AP-REQ", MESSAGES["AP-REQ"]
        if held is None or value_of(held[1], octets) is None:
            return
        self.hidden.pop()
        inner = Walk(self.octets[: start + len(octets)], self.n, start, self.begun.depth + 1, self.via, self.path)
        inner.is_request = self.is_request
        inner.item([(f".{held[0]}", held[1])], len(octets), True)
        self.records += inner.records
        self.hidden += inner.hidden

    # ---- layers

    def room(self):
        return self.end_place - self.place

    def all(self, messages, ticket):
        """Lists what the octets are."""
        self.end_place = self.n
        first = self.octets[0] if self.octets else None
        if first == 0x00:
            return self.frame(messages)
        if first == 0x60:
            return self.gss(messages)
        if first in TOKEN_FIELDS:
            return self.spnego((NEG_TOKEN_INIT, NEG_TOKEN_RESP), messages)
        return self.message({"Ticket": ticket} if first == 0x61 else messages)

    def message(self, kinds):
        """A message, in the room that is left."""
        outer, self.path = self.path, ""
        if self.place < len(self.octets):
            self.is_request = self.octets[self.place] in (MESSAGES["AS-REQ"].tag, MESSAGES["TGS-REQ"].tag)
            self.outside = ""
        else:
            self.path = outer
        self.item(list(kinds.items()), self.room(), True)
        self.path = outer

    def frame(self, messages):
        self.via = ["frame"]
        self.begun.head = 0
        self.begun.types.append("frame")
        if len(self.octets) < 4:
            self.place = len(self.octets)
            raise Refused(self.place, "Truncated")
        self.place, announced = 4, int.from_bytes(self.octets[:4], "big")
        self.begun.next, self.begun.size = 4, announced
        for why, holds in (("Empty", announced == 0), ("Overrun", announced > self.n - 4), ("Loose", announced < self.n - 4)):
            if holds:
                raise Refused(3, why)
        self.begun.head, self.begun.heads = None, [self.octets[:4]]
        self.list(name="frame")
        self.depth = 1
        self.begin()
        self.message(messages)

    def gss(self, messages, is_in_spnego=False):
        """A token of GSS-API, in the room that is left."""
        self.via = [*self.via, "GSS"]
        self.messages = messages
        self.mechanisms = KERBEROS if is_in_spnego else {**KERBEROS, SPNEGO: None}
        self.path = ""
        self.begin()
        begun = self.begun
        begun.head, room = self.place, self.room()
        self.next()
        self.path = "GSS"
        begun.types.append("[APPLICATION-0]")
        self.length(room, True)
        self.list()
        self.depth += 1
        self.begin()
        if self.room() == 0:
            self.missing("GSS.oid")
        _, oid = self.item([(".oid", OBJECT_IDENTIFIER)], self.room(), False)
        if oid == SPNEGO and not is_in_spnego:
            return self.spnego_in_gss(messages)
        return self.kerberos(messages)

    def kerberos(self, messages):
        begun = self.begun
        first = self.token_id(TOKEN_IDS)
        self.token_id((0x00,))
        begun.next, begun.size = begun.at, 2
        begun.types = ["octets"]
        self.path = "GSS.token-id"
        self.list(hexadecimal(bytes([first, 0])))
        self.path = "GSS"
        self.begin()
        if self.room() == 0:
            self.missing("GSS.message")
        kind = TOKEN_IDS[first]
        self.message({kind: messages[kind]})

    def token_id(self, allowed):
        if self.room() == 0:
            self.missing("GSS.token-id")
        if self.place == len(self.octets) and self.begun.at == self.place:
            self.end()
        self.path = "GSS.token-id"
        octet = self.next()
        if octet not in allowed:
            self.refuse("Range")
        return octet

    def missing(self, path):
        self.path = path
        self.refuse("Missing")

    def spnego_in_gss(self, messages):
        if self.room() == 0:
            self.missing("SPNEGO")
        if self.place < len(self.octets):
            self.path = ""
            self.via = [*self.via, "SPNEGO"]
            return self.spnego((NEG_TOKEN_INIT,), messages, is_in_gss=True)
        self.end()

    def spnego(self, tokens, messages, is_in_gss=False):
        """One of some tokens of SPNEGO, in the room that is left."""
        if not is_in_gss:
            self.via = ["SPNEGO"]
        self.messages = messages
        end = self.end_place
        path = f"SPNEGO.{TOKEN_FIELDS.get(self.octets[self.place], '')}"
        _, value = self.item([("SPNEGO", token) for token in tokens], self.room(), True)
        self.depth += 1
        self.begin()
        if path.split(".")[1] not in value and self.place == end:
            self.missing(path)

    def is_gone_into(self, start, size):
        """Whether a token is looked into: where octets were cut, if it is no message of NTLM and cannot be one yet."""
        here = self.octets[start : start + size]
        may_be_ntlm = here.startswith(NTLM) or (len(here) < size and NTLM.startswith(here))
        return not (len(self.octets) < self.n and may_be_ntlm)

    def token(self, start, size):
        """What is in the token of a token of SPNEGO."""
        outer = self.via, self.path, self.depth, self.end_place, self.begun
        path = self.path
        self.depth = self.begun.depth + 1
        self.end_place = start + size
        self.begin()
        if size == 0:
            self.refuse("Missing")
        if self.place == len(self.octets):
            self.end()
        first = self.octets[self.place]
        if self.octets[start : start + size].startswith(NTLM):
            raise Ntlm(start)
        if first == 0x60:
            self.gss(self.messages, is_in_spnego=True)
        elif first in BARE_MESSAGES:
            self.message(self.messages)
        else:
            self.begun.head = self.place
            self.next()
            self.refuse("Tag")
        self.via, self.path, self.depth, self.end_place, self.begun = outer
        return self.octets[start : start + size]

    # ---- what is at fault

    def fault(self, place, why):
        """The record of the item at fault."""
        begun = self.begun
        heads = list(begun.heads)
        if begun.head is not None and self.place > begun.head:
            heads.append(self.octets[begun.head : self.place])
        octet = self.octets[place : place + 1]
        hidden = [(start, end) for start, end in self.hidden if start < end]
        if any(start <= place < end for start, end in hidden):
            octet = b""
        from_place = max([0, place - MOST_BEFORE, *(min(end, place) for start, end in hidden if start < place)])
        shown = {
            "name": optional(word, self.path or None),
            "type": words(list(begun.types)),
            "place": number(place),
            "why": reason(why),
            "octet": hexadecimal(octet) if octet else ABSENT,
            "before": hexadecimal(self.octets[from_place:place]) if from_place < place else ABSENT,
        }
        return Record("fault", shown, self.before(begun, heads))


def walked(octets, n, messages, opens_tokens=True):
    """A walk over n octets, of which these are there, and whether and where it was refused."""
    walk = Walk(octets, n)
    walk.opens_tokens = opens_tokens
    try:
        walk.all(messages, TICKETS[messages is STRICT_MESSAGES])
    except Refused as refusal:
        return walk, refusal
    except Ended:
        return walk, Refused(len(octets), "Truncated")
    except Ntlm:
        return walk, None
    return walk, None


def walked_into(octets, n, messages):
    """The same, into the token of a token of SPNEGO, unless that is refused around it."""
    walk, refusal = walked(octets, n, messages, False)
    if refusal is not None and refusal.why != "Truncated" and walk.via[-1:] == ["SPNEGO"] and not walk.path.endswith("Token"):
        return walk, refusal
    return walked(octets, n, messages)


def first_length(octets):
    """How many octets the first head has, and how many there are by its length, if that is right."""
    if octets[0] == 0x00:
        return 4, 4 + int.from_bytes(octets[:4], "big")
    walk = Walk(octets, 2**40)
    walk.begun.head = 0
    walk.next()
    try:
        walk.length(2**40, False)
    except (Refused, Ended):
        return None
    return walk.begun.next, walk.begun.next + walk.begun.size


def believed(octets, place, why):
    """The number of octets by the first length, if it is what is at fault."""
    if why not in ("Overrun", "Loose"):
        return None
    found = first_length(octets)
    if found is None or found[0] != place + 1 or found[1] > GREATEST:
        return None
    return found[1]


def octets_items(octets, form, messages):
    """The records of the items of octets, and the status of the program."""
    last = octets_record(octets, form, 0, messages)
    if last.kind != "refused":
        walk, _ = walked(octets, len(octets), messages)
        return [*walk.records, Record("end", {"items": number(len(walk.records))})], 0
    if "input" in last.fields:
        walk, _ = walked(octets, len(octets), messages)
        return [*walk.records, last], 1
    place, why = last.fields["place"].member, last.fields["why"].second_member[1]
    walk, _ = walked_into(octets, len(octets), messages)
    found = [*walk.records, walk.fault(place, why)]
    size = believed(octets, place, why)
    if size is not None:
        found.append(Record("believed", {"length": number(size), "octets": number(len(octets))}))
        walk, refusal = walked_into(octets[:size], size, messages)
        found += walk.records
        if refusal is not None:
            found.append(walk.fault(refusal.place, refusal.why))
    return [*found, last], 1


def items(text, messages=MESSAGES):
    """The records of the items of an input, and the status of the program."""
    if len(text) > MOST_TEXT:
        return [refused_input("length", None, 0)], 1
    try:
        form, octets = spelled(text)
    except Misspelled as fault:
        return [refused_input(fault.word, fault.place, 0)], 1
    return octets_items(octets, form, messages)
