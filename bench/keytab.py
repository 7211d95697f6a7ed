"""Times bin/krbls on keytabs of entries that are made here, beside cat and, if it is installed, beside
MIT's klist -k; and says how much memory each used. The runs of one alternate with those of the others.
First a keytab of a tenth of the entries, so that the growth is seen. And how many writes a small one takes."""

import shutil
import struct
import sys
import tempfile

from timing import print_costs, writes_of

KRBLS = ["bin/krbls", "keytab"]
FEW = 500


def counted(octets):
    return struct.pack(">H", len(octets)) + octets


def entry(number):
    """The record of a key of host/serverNUMBER.example.org@EXAMPLE.ORG."""
    name = counted(b"host") + counted(b"server%06d.example.org" % number)
    key = bytes((number + place) % 256 for place in range(32))
    version = number % 1000 + 1
    fields = (
        struct.pack(">H", 2)
        + counted(b"EXAMPLE.ORG")
        + name
        + struct.pack(">IIBH", 1, 1700000000 + number, version % 256, 18)
        + counted(key)
        + struct.pack(">I", version)
    )
    return struct.pack(">i", len(fields)) + fields


def keytab(entries):
    """A file of this many entries, and its size."""
    file = tempfile.NamedTemporaryFile(suffix=".keytab")
    octets = b"\x05\x02" + b"".join(entry(number) for number in range(entries))
    file.write(octets)
    file.flush()
    return file, len(octets)


def main():
    most = int(sys.argv[1])
    file, _ = keytab(FEW)
    with file:
        print(f"keytab of {FEW} entries: {writes_of(KRBLS, file.name)} writes")
    for entries in (most // 10, most):
        file, size = keytab(entries)
        with file:
            commands = {"list": KRBLS, "cat": ["cat"]}
            if shutil.which("klist"):
                commands["MIT's klist -k"] = ["klist", "-k", f"FILE:{file.name}"]
            print(f"keytab of {entries} entries, {size} octets:")
            print_costs(commands, file.name, size)


if __name__ == "__main__":
    main()
