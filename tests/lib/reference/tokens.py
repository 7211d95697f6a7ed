"""What octets hold: a message, a Ticket, a frame, a token of GSS-API (RFC 2743, 3.1) or of SPNEGO (RFC 4178, 4.2).

Each layer is judged whole before what is in it, and all places count from the first of the octets.
"""

from typing import NamedTuple

from .grammar import OBJECT_IDENTIFIER, OCTETS, TEXT, Bits, Choice, Integer, ListOf, sequence, tagged
from .inputs import NTLM
from .judging import Judge, Refused

KERBEROS = {
    bytes.fromhex("2A864886F712010202"): "1.2.840.113554.1.2.2",
    bytes.fromhex("2A864882F712010202"): "1.2.840.48018.1.2.2",
    bytes.fromhex("2A864886F71201020203"): "1.2.840.113554.1.2.2.3",
}
SPNEGO = bytes.fromhex("2B0601050502")

# The message that is in a token of GSS-API, by the first octet of the token's identifier; the second is 00.
TOKEN_IDS = {0x01: "AP-REQ", 0x02: "AP-REP", 0x03: "KRB-ERROR"}

NEG_HINTS = sequence((0, "hintName?", TEXT), (1, "hintAddress?", OCTETS))
NEG_TOKEN_INIT = tagged(
    0,
    sequence(
        (0, "mechTypes?", ListOf(OBJECT_IDENTIFIER)),
        (1, "reqFlags?", Bits()),
        (2, "mechToken?", OCTETS),
        (3, "mechListMIC?", Choice((OCTETS, NEG_HINTS))),
        (4, "mechListMIC?", OCTETS),
    ),
)
NEG_TOKEN_RESP = tagged(
    1,
    sequence(
        (0, "negState?", Integer(0, 3, 1, tag=0x0A)),
        (1, "supportedMech?", OBJECT_IDENTIFIER),
        (2, "responseToken?", OCTETS),
        (3, "mechListMIC?", OCTETS),
    ),
)
TOKEN_FIELDS = {NEG_TOKEN_INIT.tag: "mechToken", NEG_TOKEN_RESP.tag: "responseToken"}

# What SPNEGO may have in place of a token of GSS-API: the tags of AP-REQ, AP-REP and KRB-ERROR.
BARE_MESSAGES = (0x6E, 0x6F, 0x7E)

TICKET_TAG = 0x61


class Ntlm(Exception):
    """A message of NTLM at a place."""

    def __init__(self, place):
        super().__init__(place)
        self.place = place


class Inside(NamedTuple):
    """What is to be judged: where it begins, and what it has to be: a message, `Ticket`, or a message of one kind."""

    place: int
    octets: bytes
    kind: str = "message"


class Places(Judge):
    """A judge of octets up to an end, which keeps where the contents of each string begin."""

    def __init__(self, octets, place, end):
        super().__init__(octets[:end])
        self.place = place
        self.end_place = end
        self.begins = {}

    def string(self, item, size):
        self.begins[self.path] = self.place
        return super().string(item, size)

    def room(self):
        return self.end_place - self.place

    def has_ended(self):
        return self.place == self.end_place

    def missing(self, path):
        """Refuses the last octet, after which something is missing."""
        self.path = path
        self.refuse("Missing")


class Token:
    """Octets whose layers are opened one after another."""

    def __init__(self, octets):
        self.octets = octets
        # The layers that were opened.
        self.via = []

    def open(self):
        """What is inside of all layers."""
        first = self.octets[0] if self.octets else None
        if first == 0x00:
            return self.frame()
        if first == 0x60:
            return self.gss(0, len(self.octets))
        if first in TOKEN_FIELDS:
            return self.spnego(0, len(self.octets), (NEG_TOKEN_INIT, NEG_TOKEN_RESP))
        if first == TICKET_TAG:
            return Inside(0, self.octets, "Ticket")
        if self.octets.startswith(NTLM):
            raise Ntlm(0)
        return Inside(0, self.octets)

    def frame(self):
        """A message after four octets of its length, and nothing after it."""
        self.via.append("frame")
        if len(self.octets) < 4:
            raise Refused(len(self.octets), "Truncated")
        length, here = int.from_bytes(self.octets[:4], "big"), len(self.octets) - 4
        for why, holds in (("Empty", length == 0), ("Overrun", length > here), ("Loose", length < here)):
            if holds:
                raise Refused(3, why)
        return Inside(4, self.octets[4:])

    def gss(self, place, end, is_in_spnego=False):
        """A token of GSS-API, of which the tag was looked at."""
        self.via.append("GSS")
        judge = Places(self.octets, place, end)
        judge.next()
        judge.path = "GSS"
        judge.length(end - place, True)
        if judge.has_ended():
            judge.missing("GSS.oid")
        _, oid = judge.item([(".oid", OBJECT_IDENTIFIER)], judge.room(), False)
        if oid == SPNEGO and not is_in_spnego:
            if judge.has_ended():
                judge.missing("SPNEGO")
            return self.spnego(judge.place, end, (NEG_TOKEN_INIT,))
        if oid not in KERBEROS:
            judge.path = "GSS.oid"
            judge.refuse("Range")
        return self.message(judge)

    def message(self, judge):
        """The message of a token of Kerberos after the object identifier."""
        first = self.token_id(judge, TOKEN_IDS)
        self.token_id(judge, (0x00,))
        if judge.has_ended():
            judge.missing("GSS.message")
        return Inside(judge.place, judge.octets[judge.place :], TOKEN_IDS[first])

    def token_id(self, judge, allowed):
        """An octet of the token's identifier."""
        judge.path = "GSS.token-id"
        if judge.has_ended():
            judge.refuse("Missing")
        octet = judge.next()
        if octet not in allowed:
            judge.refuse("Range")
        return octet

    def spnego(self, place, end, tokens):
        """One of some tokens of SPNEGO."""
        self.via.append("SPNEGO")
        judge = Places(self.octets, place, end)
        token = next((token for token in tokens if token.tag == self.octets[place]), tokens[0])
        _, value = judge.item([("SPNEGO", token)], end - place, True)
        name = TOKEN_FIELDS[token.tag]
        path = f"SPNEGO.{name}"
        if name not in value:
            judge.missing(path)
        begin, inner = judge.begins[path], value[name]
        if not inner:
            raise Refused(begin - 1, "Missing", path)
        if inner[0] == 0x60:
            return self.gss(begin, begin + len(inner), True)
        if inner[0] in BARE_MESSAGES:
            return Inside(begin, inner)
        if inner.startswith(NTLM):
            raise Ntlm(begin)
        raise Refused(begin, "Tag", path)
