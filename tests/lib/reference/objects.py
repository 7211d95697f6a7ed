"""Messages as JSON objects, and back, by the types of the grammar: the values are those of `judging`."""

import json
import re

from .documents import Number, Object
from .grammar import ENCRYPTED_DATA, OCTETS, Bits, Integer, ListOf, Sequence, String, Tagged, Time
from .values import in_object

PAIRS = re.compile(rb"(?:[0-9a-fA-F]{2})*")
TIME = re.compile(rb"[0-9]{14}Z")
ESCAPE = re.compile(rb"\\(?:x([0-9a-fA-F]{2}))?")
FRACTION = re.compile(r"[.eE]")


class Wrong(Exception):
    """What is wrong with the value of this path."""

    def __init__(self, path, text):
        super().__init__(path, text)
        self.path = path
        self.text = text


def member_of(item, value):
    """The JSON value of a value of a type, as Python's `json` has it."""
    match item:
        case Integer():
            return value
        case String() if item.tag == OCTETS.tag:
            return value.hex()
        case String():
            return in_object(value)
        case Time():
            return value.decode("ascii")
        case Bits():
            unused, octets = value
            return {"value": octets.hex(), "length": 8 * len(octets) - unused}
        case Tagged():
            return member_of(item.item, value)
        case ListOf():
            return [member_of(item.item, part) for part in value]
        case Sequence():
            return {field.name: member_of(field.item, value[field.name]) for field in item.fields if field.name in value}


def text_of(name, item, value):
    """The text of the object of a message."""
    return json.dumps({name: member_of(item, value)}, separators=(",", ":"))


def names_of(item):
    return [field.name for field in item.fields]


def unencrypted(item, value, path):
    """The paths of the EncryptedData of encryption type 0, in the order of the grammar."""
    match item:
        case Tagged():
            yield from unencrypted(item.item, value, path)
        case ListOf():
            for index, part in enumerate(value):
                yield from unencrypted(item.item, part, f"{path}[{index}]")
        case Sequence():
            if names_of(item) == names_of(ENCRYPTED_DATA) and value["etype"] == 0:
                yield path
            for field in item.fields:
                if field.name in value:
                    yield from unencrypted(field.item, value[field.name], f"{path}.{field.name}")


def spelled(item, value, path):
    """The value of a type that a JSON value spells."""
    match item:
        case Integer():
            return integer(value, item.low, item.high, path)
        case String() if item.tag == OCTETS.tag:
            return octets(value, path)
        case String():
            return kerberos_string(value, item.greatest, path)
        case Time():
            return time(value, path)
        case Bits():
            return bits(value, item.least, path)
        case Tagged():
            return spelled(item.item, value, path)
        case ListOf():
            return items(item, value, path)
        case Sequence():
            return fields(item, value, path)


def members_of(value, names, path):
    """The members of an object, each of one of some names, and none of them twice."""
    if not isinstance(value, Object):
        raise Wrong(path, "not an object")
    found = {}
    for octets, member in value.members:
        here = f"{path}.{in_object(octets)}"
        name = octets.decode("utf-8")
        if name not in names:
            raise Wrong(here, "no such field")
        if name in found:
            raise Wrong(here, "twice")
        found[name] = member
    return found


def present(members, name, path):
    """The member of a name, which has to be there, and its path."""
    here = f"{path}.{name}"
    if name not in members:
        raise Wrong(here, "missing")
    return members[name], here


def fields(item, value, path):
    members = members_of(value, names_of(item), path)
    found = {}
    for field in item.fields:
        if field.name in members or not field.optional:
            found[field.name] = spelled(field.item, *present(members, field.name, path))
    return found


def items(item, value, path):
    if not isinstance(value, list):
        raise Wrong(path, "not an array")
    if not value and not item.empty:
        raise Wrong(path, "empty")
    return [spelled(item.item, part, f"{path}[{index}]") for index, part in enumerate(value)]


def integer(value, low, high, path):
    if not isinstance(value, Number):
        raise Wrong(path, "not a number")
    if FRACTION.search(value.text):
        raise Wrong(path, "not an integer")
    # Python's limit of digits is above all that is not outside.
    number = int(value.text) if len(value.text) < 100 else high + 1
    if not low <= number <= high:
        raise Wrong(path, f"not {low}" if low == high else f"not {low} to {high}")
    return number


def string(value, path):
    if not isinstance(value, bytes):
        raise Wrong(path, "not a string")
    return value


def octets(value, path):
    digits = string(value, path)
    if not PAIRS.fullmatch(digits):
        raise Wrong(path, "not hexadecimal")
    return bytes.fromhex(digits.decode("ascii"))


def time(value, path):
    found = string(value, path)
    if not TIME.fullmatch(found):
        raise Wrong(path, "not a time")
    return found


def kerberos_string(value, greatest, path):
    text = string(value, path)
    if any(found[1] is None for found in ESCAPE.finditer(text)):
        raise Wrong(path, "\\ without x and two hexadecimal digits")
    found = ESCAPE.sub(lambda escape: bytes.fromhex(escape[1].decode("ascii")), text)
    if any(octet > greatest for octet in found):
        raise Wrong(path, f"an octet above {greatest:x}")
    return found


def bits(value, least, path):
    members = members_of(value, ["value", "length"], path)
    found = octets(*present(members, "value", path))
    size = 8 * len(found)
    member, here = present(members, "length", path)
    length = integer(member, max(size - 7, 0), size, here)
    unused = size - length
    if found and found[-1] % 2**unused != 0:
        raise Wrong(f"{path}.value", "a bit past the length is set")
    if length < least:
        raise Wrong(path, f"fewer than {least} bits")
    return unused, found


def message_of(document, messages):
    """The name and the value of the message that a JSON value spells."""
    if isinstance(document, Object) and len(document.members) == 1:
        [(octets_of_name, value)] = document.members
        name = octets_of_name.decode("utf-8")
        if name in messages:
            return name, spelled(messages[name], value, name)
    raise Wrong(None, "not an object whose one member is a message")
