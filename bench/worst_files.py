"""Keytabs and caches that cost most for each octet."""

import struct

from ccache import data, number, principal
from items import STRING, encrypted, integer, item, ticket
from items import principal as name_of
from keytab import counted
from worst_streams import ESCAPED, SMALLEST_TICKET, repeated

KEYTAB = ["keytab"]
CCACHE = ["ccache"]
KEYTAB_FIRST = b"\x05\x02"
NO_NAME = principal(b"")
CCACHE_FIRST = b"\x05\x04\0\0" + NO_NAME
# The most of what is counted by 16 bits, and many of what is counted by 32.
MOST, MANY = 65535, 100000
LATEST = 0xFFFFFFFF


def record(octets):
    return struct.pack(">i", len(octets)) + octets


def entry(components=(), realm=b"", kind=1, time=0, key=b"", rest=b""):
    names = struct.pack(">H", len(components)) + counted(realm) + b"".join(map(counted, components))
    return record(names + struct.pack(">iIBH", kind, time, 0, 18) + counted(key) + rest)


def credential(client=NO_NAME, server=NO_NAME, times=4 * (0,), flags=0, addresses=0, enclosed=b""):
    key = struct.pack(">H", 18) + data(b"")
    validity = struct.pack(">4IBI", *times, 0, flags)
    lists = number(addresses) + addresses * (struct.pack(">H", 2) + data(b"")) + number(0)
    return client + server + key + validity + lists + data(enclosed) + data(b"")


def keytabs(size):
    """What each has again and again."""
    yield "holes", struct.pack(">i", -1) + b"\0"
    yield "a hole", struct.pack(">i", 6 - size) + bytes(size - 6)
    yield "the smallest entries", entry()
    yield "entries with times", entry(kind=-(1 << 31), time=LATEST, rest=b"\xff" * 4)
    yield "components without octets", entry(MOST * [b""])
    yield "components of an octet", entry(MOST * [ESCAPED], ESCAPED)
    yield "long components", entry([MOST * ESCAPED], MOST * ESCAPED)
    yield "long keys", entry(key=bytes(MOST))
    yield "an entry with more octets after its key", entry(rest=bytes(min(size, 1 << 24) - 40))


def ccaches(size):
    """What each has again and again."""
    strings = name_of(repeated(item(STRING, b""), 1 << 20))
    long_ticket = ticket(b"", strings, encrypted(b"", integer(1)))
    yield "the smallest credentials", credential()
    yield "credentials with times and flags", credential(times=4 * (LATEST,), flags=LATEST)
    yield "components without octets", credential(server=principal(b"", *MANY * [b""]))
    yield "long components", credential(principal(MOST * ESCAPED, MOST * ESCAPED))
    yield "addresses without octets", credential(addresses=MANY)
    yield "a credential of addresses alone", credential(addresses=(size - 200) // 6)
    yield "small tickets", credential(enclosed=SMALLEST_TICKET)
    yield "long tickets", credential(enclosed=long_ticket)
    yield "octets that are no ticket at their end", credential(enclosed=long_ticket + b"\0")
    yield "settings", credential(server=principal(b"X-CACHECONF:", b"krb5_ccache_conf_data"))


def cases(size):
    """Each with a name, a command, and what makes its octets."""
    for command, title, first, kinds in (
        (KEYTAB, "keytab", KEYTAB_FIRST, keytabs),
        (CCACHE, "cache", CCACHE_FIRST, ccaches),
    ):
        for name, unit in kinds(size):
            yield f"{title} of {name}", command, lambda: first + unit * max(1, size // len(unit))
