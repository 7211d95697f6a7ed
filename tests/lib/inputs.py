"""Makes input for tests/run/compare, and what has to be printed of it, in a folder.

  large    a frame of nearly 16 MiB, whose message is an AP-REP with a cipher of 16777000 octets
  names    a stream of KRB-ERRORs with names and texts of all octets, and of those that would break a line,
           end one, or command a terminal
  lines    the listing of names, and the status
"""

import pathlib
import sys

NAMES = [
    bytes(range(256)),
    b"\n",
    b"\r\nend messages=9\n",
    b"\0",
    b"\x1b[2J\x1b]0;title\x07",
    b"\x9b31m",
    "caf\u00e9 \u202e".encode(),
    b" a b ",
    b'"',
    b"\\x0a",
    b"a/b@c",
    b"",
]
THEMSELVES = (
    b"!\"#$%&'()*+,-.0123456789:;<=>?ABCDEFGHIJKLMNOPQRSTUVWXYZ[]^_`abcdefghijklmnopqrstuvwxyz{|}~"
)


def item(tag, contents):
    n = len(contents)
    digits = n.to_bytes((n.bit_length() + 7) // 8, "big")
    return bytes([tag]) + (bytes([n]) if n < 128 else bytes([128 + len(digits)]) + digits) + contents


def field(number, contents):
    return item(0xA0 + number, contents)


def number(z):
    return item(0x02, bytes([z]))


def text(octets):
    return item(0x1B, octets)


def name(*components):
    strings = item(0x30, b"".join(map(text, components)))
    return item(0x30, field(0, number(1)) + field(1, strings))


def frame(message):
    return len(message).to_bytes(4, "big") + message


def encrypted(cipher):
    return item(0x30, field(0, number(18)) + field(2, item(0x04, cipher)))


def ap_rep(cipher):
    return item(0x6F, item(0x30, field(0, number(5)) + field(1, number(15)) + field(2, encrypted(cipher))))


def as_rep(count):
    """A reply with this many empty PA-DATA."""
    padata = item(0x30, field(1, number(0)) + field(2, item(0x04, b"")))
    ticket = field(0, number(5)) + field(1, text(b"R")) + field(2, name(b"s")) + field(3, encrypted(b""))
    fields = field(0, number(5)) + field(1, number(11)) + field(2, item(0x30, count * padata))
    fields += field(3, text(b"R")) + field(4, name(b"c"))
    fields += field(5, item(0x61, item(0x30, ticket))) + field(6, encrypted(b""))
    return item(0x6B, item(0x30, fields))


def krb_error(realm, component, said):
    fields = field(0, number(5)) + field(1, number(30))
    fields += field(4, item(0x18, b"20000101000000Z")) + field(5, number(0)) + field(6, number(0))
    fields += field(9, text(realm)) + field(10, name(b"host", component)) + field(11, text(said))
    return item(0x7E, item(0x30, fields))


# The realm, the last component and the text of each error in `names`.
ERRORS = [(octets, octets[::-1], octets) for octets in NAMES]


def names():
    return b"".join(frame(krb_error(*each)) for each in ERRORS)


def escaped(octets):
    return "".join(chr(octet) if octet in THEMSELVES else f"\\x{octet:02x}" for octet in octets)


def error_line(realm, component, said):
    note = "1" if any(octet > 0x7F for octet in realm + component + said) else ""
    return (
        f"KRB-ERROR code=0 client=- server=host/{escaped(component)}@{escaped(realm)} ctime=- cusec=- "
        f'stime=20000101000000Z susec=0 text="{escaped(said)}" data=- methods=- notes=[{note}]\n'
    )


def main(folder):
    (folder / "large").write_bytes(frame(ap_rep(bytes(16777000))))
    (folder / "names").write_bytes(names())
    lines = "".join(error_line(*each) for each in ERRORS)
    (folder / "lines").write_text(f"{lines}end messages={len(ERRORS)}\nstatus 0\n")


if __name__ == "__main__":
    main(pathlib.Path(sys.argv[1]))
