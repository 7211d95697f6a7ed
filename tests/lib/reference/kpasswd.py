"""Messages that change passwords (RFC 3244, 2)."""

from .files import Fields
from .grammar import MESSAGES
from .judging import Ended, Refused
from .messages import record_or_refusal
from .records import Record
from .values import number

# How many octets are before the AP-REQ or AP-REP: three numbers.
HEADER = 6


def change_password(octets, n, messages=MESSAGES):
    """What is found in a message of n octets, of which these are there: it is looked at once it is whole.

    That is the header, then an AP-REQ or AP-REP, and then a KRB-PRIV; before a KRB-ERROR there is neither of these.
    """
    if n == 0:
        return [Refused(0, "Empty")]
    if len(octets) < n:
        raise Ended("KPASSWD")
    try:
        version, ap_size = header(Fields(octets, n), n)
    except Refused as refusal:
        return [refusal]
    rest = HEADER + ap_size
    shown = {"version": number(version), "ap": number(ap_size), "rest": number(n - rest)}
    ap = octets[HEADER:rest]
    return [
        Record("KPASSWD", shown, octets=octets, ap=ap),
        *part(ap, HEADER, messages),
        *part(octets[rest:], rest, messages),
    ]


def header(fields, n):
    """The version, and how many octets the AP-REQ or AP-REP has."""
    length, version, ap_size = (fields.number(f"KPASSWD.{name}", 2) for name in ("length", "version", "ap-length"))
    if length != n:
        raise Refused(0, "Loose" if length < n else "Overrun", "KPASSWD.length")
    if HEADER + ap_size > n:
        raise Refused(4, "Overrun", "KPASSWD.ap-length")
    return version, ap_size


def part(octets, place, messages):
    """What is found in the part of the message at a place, if there is one."""
    if not octets:
        return []
    found = record_or_refusal(octets, len(octets), messages)
    return [found.moved(place).in_part() if isinstance(found, Refused) else found._replace(is_part=True)]
