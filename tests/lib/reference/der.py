"""The DER octets of the values that `judging` has (X.690)."""

from .grammar import Bits, Boolean, Integer, ListOf, Sequence, Tagged


def length_octets(size):
    if size < 0x80:
        return bytes([size])
    octets = size.to_bytes((size.bit_length() + 7) // 8, "big")
    return bytes([0x80 + len(octets)]) + octets


def integer_octets(number):
    return number.to_bytes((number + (number < 0)).bit_length() // 8 + 1, "big", signed=True)


def der(item, value):
    """A value of a type as an item."""
    octets = contents(item, value)
    return bytes([item.tag]) + length_octets(len(octets)) + octets


def contents(item, value):
    match item:
        case Boolean():
            return b"\xff" if value else b"\x00"
        case Integer():
            return integer_octets(value)
        case Bits():
            unused, octets = value
            return bytes([unused]) + octets
        case Tagged():
            return der(item.item, value)
        case ListOf():
            return b"".join(der(item.item, part) for part in value)
        case Sequence():
            present = (field for field in item.fields if field.name in value)
            return b"".join(der(field.item, value[field.name]) for field in present)
        case _:
            return value
