"""Times bin/krbls on credential caches that are made here, beside cat and, if it is installed, beside
MIT's klist -c; and says how much memory each used. The runs of one alternate with those of the others.
First a cache of a tenth of the credentials, so that the growth is seen."""

import shutil
import struct
import sys
import tempfile

import items
from items import STRING, encrypted, integer, item, ticket
from timing import print_costs

KRBLS = ["bin/krbls", "ccache"]
CIPHER_OCTETS = 200


def number(value):
    return struct.pack(">I", value)


def data(octets):
    return number(len(octets)) + octets


def principal(realm, *components):
    return number(1) + number(len(components)) + data(realm) + b"".join(map(data, components))


def ticket_of(realm, *components):
    """The ticket for a service, which is encrypted."""
    strings = b"".join(item(STRING, component) for component in components)
    return ticket(realm, items.principal(strings), encrypted(bytes(range(CIPHER_OCTETS)), integer(1)))


def credential(each):
    """The ticket of user@EXAMPLE.ORG for host/serverEACH.example.org@EXAMPLE.ORG."""
    realm, host = b"EXAMPLE.ORG", b"server%06d.example.org" % each
    start = 1700000000 + each
    return (
        principal(realm, b"user")
        + principal(realm, b"host", host)
        + struct.pack(">H", 18)
        + data(bytes((each + place) % 256 for place in range(32)))
        + struct.pack(">IIIIBI", 1700000000, start, start + 36000, start + 604800, 0, 0x50E10000)
        + number(0)
        + number(0)
        + data(ticket_of(realm, b"host", host))
        + data(b"")
    )


def ccache(credentials):
    """A file of this many credentials, and its size."""
    file = tempfile.NamedTemporaryFile(suffix=".ccache")
    header = b"\x05\x04" + struct.pack(">HHHII", 12, 1, 8, 0, 0)
    size = file.write(header + principal(b"EXAMPLE.ORG", b"user"))
    size += sum(file.write(credential(each)) for each in range(credentials))
    file.flush()
    return file, size


def main():
    most = int(sys.argv[1])
    for credentials in (most // 10, most):
        file, size = ccache(credentials)
        with file:
            commands = {"list": KRBLS, "cat": ["cat"]}
            if shutil.which("klist"):
                commands["MIT's klist -c"] = ["klist", "-c", f"FILE:{file.name}"]
            print(f"cache of {credentials} credentials, {size} octets:")
            print_costs(commands, file.name, size)


if __name__ == "__main__":
    main()
