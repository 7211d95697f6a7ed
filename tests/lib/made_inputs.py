"""Inputs of `krbls message`, made up from dice: messages, Tickets, frames and tokens, right or nearly so, spelled in each form,
with texts that are damaged in digits, marks, offsets and lines.
"""

import base64

from made_up import FAULTS, Maker, changed
from reference.grammar import TICKET
from reference.inputs import NTLM
from reference.judging import Refused, whole
from reference.tokens import BARE_MESSAGES, KERBEROS, NEG_TOKEN_INIT, NEG_TOKEN_RESP, SPNEGO, TOKEN_FIELDS, TOKEN_IDS

TAGS = {"AP-REQ": 0x6E, "AP-REP": 0x6F, "KRB-ERROR": 0x7E}
BARE = tuple(map(bytes, zip(BARE_MESSAGES)))

# What texts that are damaged have in place of what they had.
POOL = b"0123456789abcdefABCDEFgGxX \t\r\n,;:-\"'[](){}\\/*=+|><.NK_" + b"0x\\x\n  ::"


class TokenMaker(Maker):
    """Makes tokens, in which a part is wrong with some probability."""

    def __init__(self, dice, faults, messages):
        super().__init__(dice, faults)
        # Real messages, by which a few of the tokens are made.
        self.messages = messages

    def any_message(self):
        if self.dice.random() < 0.4:
            return self.message()
        return self.dice.choice(self.messages)

    def message_of(self, tags):
        """A message of one of some kinds, if there is one among a few."""
        found = [self.dice.choice(self.messages) for _ in range(40)]
        return next((message for message in found if message[:1] in tags), self.any_message())

    def ticket(self):
        found = self.item(TICKET)
        message = self.message_of((b"\x6e",))
        start = message.find(b"\x61\x82")
        if start > 0 and self.dice.random() < 0.6:
            end = start + 4 + int.from_bytes(message[start + 2 : start + 4], "big")
            found = message[start:end]
        return found

    def frame(self):
        message = self.any_message()
        size = len(message)
        if self.is_wrong(10):
            size = self.dice.choice([0, size + 1, max(size - 1, 0), 2**24 - 1])
        return size.to_bytes(4, "big") + message

    def gss(self, is_in_spnego=False):
        """A token of GSS-API."""
        if not is_in_spnego and self.dice.random() < 0.5:
            return self.wrapped(0x60, self.wrapped(0x06, SPNEGO) + self.negotiation())
        first, kind = self.dice.choice(list(TOKEN_IDS.items()))
        message = self.message_of((bytes([TAGS[kind]]),))
        identifier = bytes([first, 0])
        if self.is_wrong(10):
            identifier = self.dice.choice([b"", b"\x01", b"\x04\x00", b"\x05\x01", b"\x02\x00", b"\x01\x01", self.octets(2)])
        if self.is_wrong(5):
            message = self.dice.choice([b"", self.any_message(), self.ticket(), message + b"\0"])
        oid = self.dice.choice(list(KERBEROS)) if not self.is_wrong(10) else self.identifier()
        return self.wrapped(0x60, self.wrapped(0x06, oid) + identifier + message)

    def negotiation(self):
        """A token of SPNEGO."""
        token = self.dice.choice([NEG_TOKEN_INIT, NEG_TOKEN_RESP, NEG_TOKEN_INIT])
        return self.item(token)

    def field(self, field):
        if field.name in TOKEN_FIELDS.values():
            return self.wrapped(field.item.tag, self.wrapped(0x04, self.inner()))
        return super().field(field)

    def inner(self):
        """What a token of SPNEGO holds."""
        bare = self.message_of(BARE)
        choices = [self.gss(True)] * 6 + [bare] * 3 + [b"", NTLM + b"\x01", NTLM[:-1], self.any_message(), self.octets(3)]
        return self.dice.choice(choices)

    def sequence(self, item):
        """A SEQUENCE; those of SPNEGO mostly have their token."""
        found = super().sequence(item)
        is_token = any(field.name in TOKEN_FIELDS.values() for field in item.fields)
        if is_token and self.dice.random() < 0.7:
            field = next(field for field in item.fields if field.name in TOKEN_FIELDS.values())
            if bytes([field.item.tag]) + b"\x82" not in found and self.dice.random() < 0.8:
                found = self.field(field)
        return found


def octets(dice, real):
    """What is spelled: a message or another thing, right or nearly so."""
    maker = TokenMaker(dice, dice.choice(FAULTS), real)
    made = dice.choice([maker.any_message, maker.ticket, maker.frame, maker.gss, maker.gss, maker.negotiation, maker.negotiation])()
    if dice.random() < 0.03:
        made = dice.choice([NTLM + dice.randbytes(4), b"", b"\0\0", b"\x60", b"\xa0", b"\xa1\0", b"\x61\0"])
    for _ in range(dice.choice([0, 0, 0, 1])):
        made = changed(dice, made)
    return made


def damaged_octets(dice, real):
    """The octets of a message, a Ticket, a frame or a token, mostly with something wrong, or in hexadecimal."""
    maker = TokenMaker(dice, dice.choice(FAULTS), real)
    made = dice.choice([maker.any_message, maker.any_message, maker.any_message, maker.ticket, maker.frame, maker.gss, maker.negotiation])()
    for _ in range(dice.choice([0, 1, 1, 1, 2])):
        made = changed(dice, made)
    return made if dice.random() < 0.8 else made.hex().encode()


def real_messages(streams):
    """The messages of streams, and their Tickets, each of which is one."""
    found = []
    for stream in streams:
        size = int.from_bytes(stream[:4], "big")
        message = stream[4 : 4 + size]
        try:
            whole(message)
        except Refused:
            continue
        if len(message) < 3000:
            found.append(message)
    return found


def grouped(octets, size):
    return [octets[place : place + size] for place in range(0, len(octets), size)]


def pairs(octets, mark):
    return mark.join(f"{octet:02x}" for octet in octets)


def plain(octet):
    return chr(octet) if 0x20 <= octet <= 0x7E else "."


def column(octets):
    return "".join(map(plain, octets))


def xxd(dice, octets):
    """xxd, with groups and lines of any size, in digits of either case, with or without its column."""
    group, size = dice.choice([(2, 16), (1, 16), (4, 16), (2, 32), (16, 16), (1, 8), (2, 2)])
    lines = []
    for number, line in enumerate(grouped(octets, size)):
        words = " ".join(part.hex() for part in grouped(line, group))
        lines.append(f"{number * size:08x}: {words:<{2 * size + size // group - 1}}  {column(line)}".rstrip())
    return "\n".join(lines)


def hexdump(dice, octets):
    lines = []
    for number, line in enumerate(grouped(octets, 16)):
        words = "  ".join(pairs(half, " ") for half in grouped(line, 8))
        lines.append(f"{16 * number:08x}  {words:<48}  |{column(line)}|")
    return "\n".join([*lines, f"{len(octets):08x}"])


def od(dice, octets):
    """od -tx1, also with hexadecimal offsets, with its column, or without offsets."""
    base, tail = dice.choice([("07o", ""), ("06x", ">"), (None, ""), ("07o", "")])
    lines = []
    for number, line in enumerate(grouped(octets, 16)):
        offset = "" if base is None else format(16 * number, base)
        column_text = f"  >{column(line)}<" if tail else ""
        lines.append(f"{offset} {pairs(line, ' ')}{column_text}")
    return "\n".join([*lines, *([] if base is None else [format(len(octets), base)])])


def wireshark(dice, octets):
    has_column, has_middle = dice.choice([(True, False), (True, True), (False, False)])
    lines = []
    for number, line in enumerate(grouped(octets, 16)):
        words = "  ".join(pairs(half, " ") for half in grouped(line, 8)) if has_middle else pairs(line, " ")
        lines.append(f"{16 * number:04x}   {words}" + (f"   {column(line)}" if has_column else ""))
    return "\n".join(lines)


def tcpdump(dice, octets):
    has_column = dice.random() < 0.5
    lines = []
    for number, line in enumerate(grouped(octets, 16)):
        words = " ".join(part.hex() for part in grouped(line, 2))
        lines.append(f"\t0x{16 * number:04x}:  {words}" + (f"  {column(line)}" if has_column else ""))
    return "\n".join(lines)


def hexadecimal(dice, octets):
    digits = octets.hex()
    blanks = dice.choice([0, 0, 0.2])
    return "".join(dice.choice([" ", "\t", "\n", "\r\n"]) * (dice.random() < blanks) + digit for digit in digits)


def marked(dice, octets):
    """Digits with marks between them, as a list of Python's has them, or with `0x` before each octet."""
    before = dice.choice(["", "", "0x", "0X"])
    mark = dice.choice([":", "-", " ", ", ", ",", "; ", "', '", "\n", " - ", "]["])
    size = dice.choice([1, 1, 2, 4])
    words = [before + part.hex() for part in grouped(octets, size)]
    if before and size == 1 and dice.random() < 0.5:
        words = [f"{before}{octet:x}" for octet in octets]
    opening, closing = dice.choice([("", ""), ("['", "']"), ("(", ")"), ("", ","), ('"', '"')])
    return opening + mark.join(words) + closing


def word(dice, octets):
    return dice.choice(["0x", "0X", ""]) + octets.hex()


def c_array(dice, octets):
    """An array of C, as xxd -i and Wireshark write it, with comments."""
    lines = [", ".join(f"0x{octet:02x}" for octet in line) for line in grouped(octets, 8)]
    if dice.random() < 0.4:
        beside = [column(line).replace("/", " ") for line in grouped(octets, 8)]
        lines = [f"{line}, /* {shown} */" for line, shown in zip(lines, beside)]
        return "static const unsigned char packet[] = {\n" + "\n".join(lines) + "\n};"
    if dice.random() < 0.3:
        return 'char s[] = { "' + "".join(f"\\x{octet:02x}" for octet in octets) + '" };'
    return "unsigned char a[] = {\n  " + ",\n  ".join(lines) + "\n};\nunsigned int a_len = 7;"


def escaped(dice, octets):
    size = dice.choice([16, 10000])
    lines = ["".join(f"\\x{octet:02x}" for octet in line) for line in grouped(octets, size)]
    return '"' + dice.choice(['"\n"', '" \\\n"', "\\\n", "', '"]).join(lines) + '"'


def base64_text(dice, octets):
    text = base64.b64encode(octets).decode("ascii")
    if dice.random() < 0.3:
        text = text.rstrip("=")
    if dice.random() < 0.3:
        text = "\n".join(grouped(text, dice.choice([64, 76])))
    return text


def header(dice, octets):
    """The header of HTTP, as a browser or curl -v shows it."""
    name = dice.choice(["", "", "Authorization:", "Proxy-Authorization:", "WWW-Authenticate:", "Proxy-Authenticate:", "X-Auth:"])
    before = dice.choice(["", "", "", "> ", "< ", "* ", "  ", "\t", "<  ", " >\t "])
    between = dice.choice(["", " ", " ", "\t", "  "])
    scheme = dice.choice(["Negotiate", "Negotiate", "Kerberos", "Basic"])
    blank = dice.choice([" ", " ", "\t", "", "\n"])
    text = before + name + between + scheme + blank
    text = dice.choice([text, text, text.lower(), text.upper()])
    return text + base64_text(dice, octets)


FORMS = [xxd, xxd, hexdump, od, wireshark, tcpdump, hexadecimal, marked, marked, word, c_array, escaped, base64_text, header]


def damaged(dice, text):
    """A text with one change: of a character, of blanks, of an offset, or of lines."""
    place = dice.randint(0, dice.choice([len(text)] * 3 + [min(len(text), 12)]))
    before, after = text[:place], text[place:]
    some = bytes(dice.choices(POOL, k=dice.choice([1, 1, 2])))
    lines = text.split(b"\n")
    first = dice.randrange(len(lines))
    second = dice.randrange(len(lines))
    exchanged = list(lines)
    exchanged[first], exchanged[second] = exchanged[second], exchanged[first]
    blank = dice.choice([b" ", b"  ", b"   ", b"\t", b"\n", b"\r\n"])
    return dice.choice(
        [
            before + some + after[1:],
            before + some + after,
            before + after[1:],
            before + after[2:],
            before,
            before + blank + after,
            before.replace(b" ", blank, 1) + after,
            before + dice.choice([b"\0", b"\x80", b"\xff", b"\x0b", b"\x7f"]) + after,
            b"\n".join(lines[:first] + lines[first + 1 :]),
            b"\n".join(lines[: first + 1] + lines[first:]),
            b"\n".join(exchanged),
            b"\n".join(lines[:first] + [b"*"] + lines[first:]),
            text.replace(b"\n", b"\r\n"),
            text + b"\n" + text,
            blank + text,
            text + blank,
            text + some,
        ]
    )


def few_marks(dice):
    """A few characters of what texts consist of, in any order."""
    words = [b"0000", b"0000000", b"00000000", b"0x0000", b"6f", b"6f1d", b"0x", b"0x6", b"\\x6f", b"{", b"}", b"/*", b"*/"]
    words += [b" ", b"  ", b"   ", b"\t", b"\n", b":", b": ", b",", b"=", b"bx0w", b"Negotiate ", b"0000002", b"00000010", b"|", b">"]
    return b"".join(dice.choices(words, k=dice.randint(1, 9)))


def text(dice, octets):
    """Octets as an input, and maybe with damage."""
    if dice.random() < 0.05:
        return octets
    if dice.random() < 0.08:
        return few_marks(dice)
    found = dice.choice(FORMS)(dice, octets)
    if dice.random() < 0.15:
        found = found.upper() if "x" not in found else found
    found = found.encode("ascii") + dice.choice([b"", b"\n", b"\n", b"\r\n"])
    if dice.random() < 0.08:
        found = b"\xef\xbb\xbf" + found
    for _ in range(dice.choice([0, 0, 0, 1, 1, 2])):
        found = damaged(dice, found)
    return found


def message(dice, real):
    """An input."""
    return text(dice, octets(dice, real))


def lines(dice, real):
    """Inputs a line."""
    found = []
    for _ in range(dice.choice([0, 1, 2, 3, 5])):
        line = message(dice, real)
        if dice.random() < 0.8:
            line = line.replace(b"\n", b" ")
        found.append(line)
        if dice.random() < 0.2:
            found.append(dice.choice([b"", b" \t\r", b"\xef\xbb\xbf", b"\0"]))
    return dice.choice([b"\n", b"\n", b"\r\n"]).join(found) + dice.choice([b"", b"\n", b"\n\n"])
