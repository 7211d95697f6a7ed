"""DER, and parts of messages that benchmarks make."""

OCTET_STRING, TIME, STRING, SEQUENCE, TICKET, FIELD = 0x04, 0x18, 0x1B, 0x30, 0x61, 0xA0


def item(tag, contents):
    size = len(contents)
    length = b"" if size < 0x80 else size.to_bytes((size.bit_length() + 7) // 8, "big")
    return bytes([tag, 0x80 | len(length) if length else size]) + length + contents


def integer(value):
    return item(0x02, value.to_bytes((value if value >= 0 else ~value).bit_length() // 8 + 1, "big", signed=True))


def sequence(parts):
    """A SEQUENCE of fields by their numbers, but of those that are None."""
    return item(SEQUENCE, b"".join(item(FIELD | number, part) for number, part in sorted(parts.items()) if part is not None))


def principal(strings, kind=1):
    """A name, of the octets of its strings."""
    return sequence({0: integer(kind), 1: item(SEQUENCE, strings)})


def encrypted(cipher, version=None):
    return sequence({0: integer(18), 1: version, 2: item(OCTET_STRING, cipher)})


def ticket(realm, server, enclosed):
    return item(TICKET, sequence({0: integer(5), 1: item(STRING, realm), 2: server, 3: enclosed}))
