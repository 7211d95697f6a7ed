"""The values of a record's fields: each with its text in a line, the same with names, and its members in an object."""

import time
from typing import NamedTuple

from .judging import REASONS
from .registries import (
    ADDRESS_TYPES,
    CHECKSUM_TYPES,
    ENCRYPTION_TYPES,
    ERROR_CODES,
    NAME_TYPES,
    STATUSES,
    TICKET_FLAGS,
)

# The codes that have their names in every line.
NAMED_CODES = (6, 7, 14, 24, 25, 37, 52, 60, 61)

# The ticket flags of RFC 4120, which have their names in every line.
OLDER_TICKET_FLAGS = {bit: name for bit, name in TICKET_FLAGS.items() if bit <= 13}


class Value(NamedTuple):
    # None if only a line with names and an object have the value.
    text: str
    # None if only an object has it.
    text_with_names: str
    member: object
    # What the name of a second member has at its end, and that member: the names of numbers.
    second_member: tuple = None


def plain(text, member):
    """A value without numbers that have names."""
    return Value(text, text, member)


ABSENT = plain("-", None)
NO_REASON = ABSENT._replace(second_member=("_name", None))


def optional(show, value):
    return ABSENT if value is None else show(value)


def number(value):
    return plain(str(value), value)


def count(items):
    return number(len(items))


def word(text):
    return plain(text, text)


def yes_or_no(holds):
    return plain("yes" if holds else "no", holds)


def escaped(octets, escapes="/@\\"):
    """X: an octet is itself, or `\\x` and two digits."""
    return "".join(
        chr(octet) if 0x21 <= octet <= 0x7E and chr(octet) not in escapes else f"\\x{octet:02x}" for octet in octets
    )


def in_object(octets):
    """Y: the same in an object, in which a blank, `/` and `@` are themselves."""
    return " ".join(escaped(part, "\\") for part in octets.split(b" "))


def string(octets):
    return plain(escaped(octets), in_object(octets))


def quoted(octets):
    return plain(f'"{escaped(octets)}"', in_object(octets))


def file_name(octets):
    return plain(escaped(octets, "\\"), in_object(octets))


def hexadecimal(octets):
    """HEX"""
    return word(octets.hex())


def message_time(octets):
    return word(octets.decode("ascii"))


def told(value):
    """A value that is told with names and in objects alone."""
    return value._replace(text=None)


def path(text):
    """The path of a field at fault."""
    return told(optional(word, text))


def file_time(seconds):
    """T"""
    return word(time.strftime("%Y-%m-%dT%H:%M:%SZ", time.gmtime(seconds))) if seconds else ABSENT


def instant(nanoseconds):
    """When a packet was captured, in nanoseconds since 1970-01-01, if the file says so."""
    seconds, fraction = divmod(nanoseconds or 0, 10**9)
    if not 0 < seconds < 2**32:
        return ABSENT
    return word(f"{time.strftime('%Y-%m-%dT%H:%M:%S', time.gmtime(seconds))}.{fraction:09}Z")


def whole_microseconds(nanoseconds):
    """The same instant as a whole number of microseconds, or None."""
    return None if instant(nanoseconds) == ABSENT else nanoseconds // 1000


def microseconds(nanoseconds):
    """The same, which objects alone have."""
    return Value(None, None, whole_microseconds(nanoseconds))


def ip_address(octets):
    """An IPv4 address in decimal, or an IPv6 address as RFC 5952 has it."""
    if len(octets) == 4:
        return ".".join(map(str, octets))
    if octets[:12] == bytes(10) + b"\xff\xff":
        return f"::ffff:{ip_address(octets[12:])}"
    groups = [f"{int.from_bytes(octets[place : place + 2], 'big'):x}" for place in range(0, 16, 2)]
    runs = [(begin, end) for end in range(9) for begin in range(end - 1) if groups[begin:end] == ["0"] * (end - begin)]
    if not runs:
        return ":".join(groups)
    begin, end = max(runs, key=lambda run: (run[1] - run[0], -run[0]))
    return f"{':'.join(groups[:begin])}::{':'.join(groups[end:])}"


def flow(value):
    """The ends of a connection or of a datagram, each with its address and port."""
    ends = []
    members = {"over": value.over}
    for name, (address_octets, port) in (("source", value.source), ("target", value.target)):
        text = ip_address(address_octets)
        ends.append(f"[{text}]:{port}" if ":" in text else f"{text}:{port}")
        members[name] = {"address": text, "port": port}
    return plain(f"{value.over}/{'>'.join(ends)}", members)


def with_name(value, registry):
    """A number, and its name or `-`."""
    return f"{value}:{registry.get(value, '-')}"


def named(value, registry):
    """A number that has a name if its registry has one."""
    return Value(str(value), with_name(value, registry), value, ("_name", registry.get(value)))


def called(value, name):
    """A number that has a name of its own, if it has one."""
    return Value(str(value), f"{value}:{name or '-'}", value, ("_name", name))


def error_code(value):
    """C"""
    code = named(value, ERROR_CODES)
    return code._replace(text=code.text_with_names) if value in NAMED_CODES else code


def status(value):
    """A status of Windows in hexadecimal, with names its name or `-`."""
    digits, name = f"{value:08x}", STATUSES.get(value)
    return Value(digits, f"{digits}:{name or '-'}", digits, ("_name", name))


def reason(why, reasons=REASONS):
    value = reasons.index(why) + 1
    text = f"{value} {why}"
    return Value(text, text, value, ("_name", why))


def in_brackets(texts):
    return f"[{','.join(texts)}]"


def numbers(values, registry):
    """LIST"""
    return Value(
        in_brackets(map(str, values)),
        in_brackets(with_name(value, registry) for value in values),
        values,
        ("_names", [registry.get(value) for value in values]),
    )


def set_bits(octets):
    """The numbers of the bits that are set; 0 is the highest of the first octet."""
    return [8 * place + bit for place, octet in enumerate(octets) for bit in range(8) if octet & 0x80 >> bit]


def bit_names(octets, registry):
    """The names of the bits that are set and have one."""
    return [registry[bit] for bit in set_bits(octets) if bit in registry]


def by_name(octets, registry):
    """G: the names, or `-`, and the octets of the other bits, if some of these are set."""
    others = bytearray(len(octets))
    for bit in set_bits(octets):
        if bit not in registry:
            others[bit // 8] |= 0x80 >> bit % 8
    names = ",".join(bit_names(octets, registry)) or "-"
    return f"{names}+{others.hex()}" if any(others) else names


def flags_member(bits, octets, registry):
    return {"bits": bits, "hex": octets.hex(), "names": bit_names(octets, registry)}


def flags(bits, octets, registry):
    """F, and with names G after it."""
    text = f"{bits}:{octets.hex()}"
    return Value(text, f"{text}:{by_name(octets, registry)}", flags_member(bits, octets, registry))


def ticket_flags(value):
    """G"""
    octets = value.to_bytes(4, "big")
    texts = (by_name(octets, registry) for registry in (OLDER_TICKET_FLAGS, TICKET_FLAGS))
    return Value(*texts, flags_member(32, octets, TICKET_FLAGS))


def type_members(value, registry, name="type"):
    return {name: value, f"{name}_name": registry.get(value)}


def encrypted(value):
    """E: what is printed of an EncryptedData."""
    etype, kvno, size = value["etype"], value.get("kvno"), len(value["cipher"])
    after = f":{'-' if kvno is None else kvno}:{size}"
    members = {**type_members(etype, ENCRYPTION_TYPES, "etype"), "kvno": kvno, "size": size}
    return Value(f"{etype}{after}", f"{with_name(etype, ENCRYPTION_TYPES)}{after}", members)


def principal(name_type, components, realm):
    """P"""
    names = "/".join(map(escaped, components)) if components else "\\-"
    text = f"{names}@{escaped(realm)}"
    members = {
        "text": text,
        **type_members(name_type, NAME_TYPES),
        "components": [in_object(component) for component in components],
        "realm": in_object(realm),
    }
    return plain(text, members)


def address(value):
    """H"""
    addr_type, octets = value["addr-type"], value["address"].hex()
    members = {**type_members(addr_type, ADDRESS_TYPES), "hex": octets}
    return Value(f"{addr_type}:{octets}", f"{with_name(addr_type, ADDRESS_TYPES)}:{octets}", members)


def checksum(value):
    cksumtype, size = value["cksumtype"], len(value["checksum"])
    members = {**type_members(cksumtype, CHECKSUM_TYPES), "size": size}
    return Value(f"{cksumtype}:{size}", f"{with_name(cksumtype, CHECKSUM_TYPES)}:{size}", members)


def offset(seconds, microseconds):
    return plain(f"{seconds}:{microseconds}", {"seconds": seconds, "microseconds": microseconds})


def span(microseconds):
    """A time that passed: seconds with six digits, and in an object the microseconds."""
    seconds, fraction = divmod(abs(microseconds), 10**6)
    return plain(f"{'-' * (microseconds < 0)}{seconds}.{fraction:06}", microseconds)


def layers(names):
    """What was opened, from the outside to the inside."""
    return plain(",".join(names), names)


NO_TICKET = plain("absent", None)


def refused_ticket(refusal):
    """K of octets that are no Ticket."""
    place, why = refusal.place, REASONS.index(refusal.why) + 1
    text = f"refused:{place}:{why}"
    members = {"refused": {"place": place, "why": why, "why_name": refusal.why}}
    return Value(text, f"{text}:{refusal.why}", members)
