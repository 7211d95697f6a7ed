"""Input that is made up or damaged: streams, messages in hexadecimal, keytabs and credential caches.

What is made follows the rules or nearly does, and all of it follows from the dice.
"""

from reference.der import integer_octets, length_octets
from reference.frames import LIMIT
from reference.grammar import (
    MESSAGES,
    METHOD_DATA,
    TICKET,
    Bits,
    Boolean,
    Choice,
    Integer,
    ListOf,
    ObjectIdentifier,
    Sequence,
    String,
    Tagged,
    Time,
)
from reference.messages import MOST_TEXT
from reference.registries import (
    ADDRESS_TYPES,
    CHECKSUM_TYPES,
    ENCRYPTION_TYPES,
    ERROR_CODES,
    NAME_TYPES,
    PA_DATA_TYPES,
)
from reference.tokens import KERBEROS, SPNEGO
from reference.values import NAMED_CODES

# The numbers that have a name in some registry.
NAMED = sorted(
    {*ADDRESS_TYPES, *CHECKSUM_TYPES, *ENCRYPTION_TYPES, *ERROR_CODES, *NAME_TYPES, *PA_DATA_TYPES}
)

# How much more often than the tag or the length of an item other parts are wrong: else faults in them
# would be few.
OFTEN = 10


class Maker:
    """Makes messages of the grammar, in which each part of an item is wrong with some probability."""

    def __init__(self, dice, faults):
        self.dice = dice
        self.faults = faults

    def is_wrong(self, weight=1):
        return self.dice.random() < self.faults * weight

    def octets(self, size):
        return self.dice.randbytes(size)

    def item(self, item):
        if isinstance(item, Choice):
            item = self.dice.choice(item.items)
        return self.wrapped(item.tag, self.contents(item))

    def wrapped(self, tag, contents):
        """A tag, a length and contents."""
        tag = bytes([tag])
        size = len(contents)
        length = length_octets(size)
        if self.is_wrong():
            tag = self.octets(1)
        if self.is_wrong():
            wide = size.to_bytes(self.dice.randint((size.bit_length() + 7) // 8 or 1, 4), "big")
            length = self.dice.choice(
                [
                    b"\x80",
                    bytes([self.dice.randint(0x85, 0xFF)]) + bytes(4),
                    bytes([0x80 + len(wide)]) + wide,
                    b"\x81\x7f",
                    bytes([self.dice.randint(0x81, 0x85)]),
                    length_octets(size + 1),
                    length_octets(max(size - 1, 0)),
                    length_octets(2**32 - 1),
                    self.octets(1),
                ]
            )
        return tag + length + contents

    def contents(self, item):
        match item:
            case Boolean():
                return self.boolean()
            case Integer():
                return self.integer(item)
            case Bits():
                return self.bits()
            case Time():
                return self.time()
            case ObjectIdentifier():
                return self.identifier()
            case String():
                return self.string()
            case Tagged():
                inner = self.item(item.item)
                if self.is_wrong():
                    inner = self.dice.choice([b"", inner + self.octets(1), inner + inner])
                return inner
            case ListOf():
                items = [self.item(item.item) for _ in range(self.dice.choice([0, 1, 1, 2, 3]))]
                return b"".join(items) + (bytes([item.item.tag]) if self.is_wrong() else b"")
            case Sequence():
                return self.sequence(item)

    def string(self):
        size = self.dice.choice([0, 1, 2, 7, 7, 7, 126, 127, 128, 129, 255, 256, 700])
        if self.dice.random() < 0.5:
            return self.octets(size)
        return bytes(self.dice.choices(range(0x80), k=size))

    def boolean(self):
        return self.dice.choice([b"", b"\x01", b"\xff\xff"] if self.is_wrong(OFTEN) else [b"\x00", b"\xff"])

    def integer(self, item):
        near = [item.low, item.high, 0, -1, 127, 128, -128, -129, 32767, -(2**31), 2**31]
        number = self.dice.choice([*near, *self.dice.choices(NAMED, k=9), self.dice.randint(item.low, item.high)])
        octets = integer_octets(min(max(number, item.low), item.high))
        if self.is_wrong(OFTEN):
            octets = self.dice.choice(
                [
                    integer_octets(item.low - 1),
                    integer_octets(item.high + 1),
                    b"\x00" + octets,
                    b"\xff" + octets,
                    b"",
                    self.octets(self.dice.randint(1, 6)),
                ]
            )
        return octets

    def identifier(self):
        """An object identifier: one that tokens have, or other numbers."""
        octets = self.dice.choice([*KERBEROS, SPNEGO, bytes.fromhex("2B06010401823702020A"), b"\x2a", b"\x81\x00\x7f"])
        if self.is_wrong(OFTEN):
            place = self.dice.randrange(len(octets))
            octets = self.dice.choice([b"", octets[:place] + b"\x80" + octets[place:], octets + b"\x81", self.octets(3)])
        return octets

    def bits(self):
        octets = bytearray(self.octets(self.dice.choice([0, 1, 4, 4, 5])))
        unused = self.dice.choice([0, 0, self.dice.randint(0, 7)]) if octets else 0
        if octets:
            octets[-1] &= 0xFF << unused & 0xFF
        if self.is_wrong(OFTEN):
            return self.dice.choice(
                [b"", b"\x01", b"\x08" + octets, bytes([unused]) + octets + b"\x01", self.octets(3)]
            )
        return bytes([unused]) + octets

    def time(self):
        octets = "".join(self.dice.choices("0123456789", k=14)).encode() + b"Z"
        if self.is_wrong(OFTEN):
            place = self.dice.choice([14, self.dice.randrange(14)])
            wrong = octets[:place] + self.dice.choice([b"/", b":", b"z", b"Z", b"0"]) + octets[place + 1 :]
            octets = self.dice.choice([wrong, wrong, wrong, octets[:-1], octets + b"Z", b""])
        return octets

    def field(self, field):
        """A field: as its type says, but that most errors have a code with a name, and METHOD-DATA."""
        if field.name == "error-code" and self.dice.random() < 0.8:
            code = self.dice.choice([*NAMED_CODES, 24, 24, 25, 25, 25, 25, 25])
            return self.item(Tagged(field.item.tag, Integer(code, code, 4)))
        if field.name == "e-data" and self.dice.random() < 0.8:
            return self.wrapped(field.item.tag, self.wrapped(0x04, self.item(METHOD_DATA)))
        return self.item(field.item)

    def has(self, field):
        """Whether a field that may be left out is there."""
        return self.dice.random() < 0.5

    def sequence(self, item):
        fields = [field for field in item.fields if not field.optional or self.has(field)]
        if fields and self.is_wrong(OFTEN):
            field = fields.pop(self.dice.randrange(len(fields)))
            for _ in range(self.dice.randint(0, 2)):
                fields.insert(self.dice.randint(0, len(fields)), field)
        octets = b"".join(self.field(field) for field in fields)
        return octets + (bytes([self.dice.choice(item.fields).item.tag]) if self.is_wrong() else b"")

    def message(self):
        return self.item(self.dice.choice(list(MESSAGES.values())))

    def frame(self):
        message = self.message()
        size = len(message)
        if self.is_wrong(OFTEN):
            size = self.dice.choice(
                [0, size + 1, size - 1, LIMIT, LIMIT + 1, 2**31 - 1, 2**31, 2**32 - 1]
            )
        return size.to_bytes(4, "big") + message


def changed(dice, whole):
    """Octets with one change: some put in, taken out, exchanged, moved, or cut off."""
    place = dice.randint(0, dice.choice([len(whole)] * 7 + [min(len(whole), 8)]))
    end = min(place + dice.choice([1, 1, 1, 2, 5, 50]), len(whole))
    octets = whole[place:end]
    before, after = whole[:place], whole[end:]
    return dice.choice(
        [
            before + dice.randbytes(len(octets)) + after,
            before + bytes(octet ^ 1 << dice.randrange(8) for octet in octets) + after,
            before + bytes((octet + dice.choice([1, 255])) % 256 for octet in octets) + after,
            before + dice.randbytes(1) + octets + after,
            before + octets + octets + after,
            before + after,
            before,
        ]
    )


FAULTS = [0, 0.002, 0.005, 0.01]


def stream(dice, real):
    """A stream: frames of made messages or real ones, right or nearly so."""
    maker = Maker(dice, dice.choice(FAULTS))
    frames = [
        maker.frame() if dice.random() < 0.5 else dice.choice(real)
        for _ in range(dice.choice([1, 1, 1, 2, 3, 8]))
    ]
    stream = b"".join(frames)
    for _ in range(dice.choice([0, 0, 1, 2])):
        stream = changed(dice, stream)
    return stream


def message_text(dice, real):
    """A message in hexadecimal, right or nearly so, in digits of either case, with blanks between them."""
    if dice.random() < 0.5:
        octets = Maker(dice, dice.choice(FAULTS)).message()
    else:
        octets = dice.choice(real)[4:]
    for _ in range(dice.choice([0, 0, 0, 1])):
        octets = changed(dice, octets)
    digits = octets.hex()
    case = dice.choice([str.lower, str.upper, lambda digit: dice.choice([digit.lower(), digit.upper()])])
    blanks = dice.choice([0, 0, 0.1, 0.5])
    text = b"".join(
        dice.choice([b"", *[b" ", b"\t", b"\r", b"\n", b"\r\n", b"    "] * (dice.random() < blanks)])
        + case(digit).encode()
        for digit in digits
    )
    text += dice.choice([b"", b"\n", b"\r\n", b" "])
    place = dice.randint(0, len(text))
    other = bytes([dice.choice([*b"gGxX:.,-/@`\x00\x0b\x0c\x1f\x7f\x85\xa0\xff", dice.randrange(256)])])
    before, after = text[:place], text[place:]
    return dice.choice([text] * 7 + [before + after[1:], before + other + after, before + b"0" + after])


def long_texts(dice, real):
    """Texts of the most octets, and of one more: only the first of them is read."""
    frame = dice.choice([frame for frame in real if len(frame) < 1000])
    digits = frame[4:].hex().encode()
    most = digits.ljust(MOST_TEXT)
    return [most, most + b"\n", b"?" * (MOST_TEXT + 1), b"00" * (MOST_TEXT // 2)]


class FileMaker:
    """Makes keytabs and caches, in which each length or number of items is wrong with some probability."""

    def __init__(self, dice, faults):
        self.dice = dice
        self.faults = faults
        self.messages = Maker(dice, faults)

    def number(self, size):
        """Any number of n octets, often one near a bound, or one that has a name."""
        bound = 256**size
        near = [0, 1, 2, bound // 2 - 1, bound // 2, bound - 1]
        named = [number % bound for number in self.dice.choices(NAMED, k=6)]
        return self.dice.choice([*near, *named, *[self.dice.randrange(bound)] * 6]).to_bytes(size, "big")

    def count(self, items, size):
        """How many items there are, or another number."""
        if self.dice.random() >= self.faults:
            return items.to_bytes(size, "big")
        near = [(items + 1) % 256**size, max(items - 1, 0), int.from_bytes(self.number(size), "big")]
        return self.dice.choice(near).to_bytes(size, "big")

    def data(self, octets, size):
        return self.count(len(octets), size) + octets

    def name(self):
        size = self.dice.choice([0, 1, 3, 8, 300])
        plain = [b"host", b"krbtgt", b"EXAMPLE.ORG", b"/", b"@", b"\\", b"a b", bytes(range(256))]
        return self.dice.choice([*plain, self.dice.randbytes(size)])

    def names(self):
        return [self.name() for _ in range(self.dice.choice([0, 1, 1, 2, 2, 2, 5]))]

    def octets(self):
        return self.dice.randbytes(self.dice.choice([0, 1, 2, 16, 32, 300]))

    def changed(self, octets):
        for _ in range(self.dice.choice([0, 0, 0, 1])):
            octets = changed(self.dice, octets)
        return octets

    def keytab(self):
        records = [self.record() for _ in range(self.dice.choice([0, 1, 1, 2, 5]))]
        end = self.dice.choice([b"", b"", b"", bytes(4), bytes(4) + self.octets(), bytes(3)])
        return self.changed(b"\x05\x02" + b"".join(records) + end)

    def record(self):
        if self.dice.random() < 0.2:
            size = self.dice.choice([1, 2, 40, 300])
            octets = self.dice.choice([bytes(size), bytes(size), self.dice.randbytes(size)])
            return (256**4 - size).to_bytes(4, "big") + octets
        names = self.names()
        version = self.dice.choice([bytes(4), b"\x00\x00\x01", self.number(4)])
        rest = self.dice.choice([b"", version, version + self.octets()])
        entry = (
            self.count(len(names), 2)
            + self.data(self.name(), 2)
            + b"".join(self.data(name, 2) for name in names)
            + self.number(4)
            + self.number(4)
            + self.number(1)
            + self.number(2)
            + self.data(self.octets(), 2)
            + rest
        )
        return self.data(entry, 4)

    def ccache(self):
        fields = [
            self.dice.choice([b"\x00\x01", b"\x00\x01", self.number(2)])
            + self.data(self.dice.choice([self.number(4) + self.number(4), self.octets()]), 2)
            for _ in range(self.dice.choice([0, 1, 1, 3]))
        ]
        version = self.dice.choice([3, 4])
        credentials = [self.credential(version) for _ in range(self.dice.choice([0, 1, 1, 2, 4]))]
        header = self.data(b"".join(fields), 2) if version == 4 else b""
        return self.changed(bytes([5, version]) + header + self.principal() + b"".join(credentials))

    def principal(self, realm=None, names=None):
        names = self.names() if names is None else names
        realm = self.name() if realm is None else realm
        parts = b"".join(self.data(name, 4) for name in names)
        return self.number(4) + self.count(len(names), 4) + self.data(realm, 4) + parts

    def credential(self, version):
        server = self.dice.choice(
            [
                self.principal(),
                self.principal(),
                self.principal(b"X-CACHECONF:", [b"krb5_ccache_conf_data", *self.names()]),
                self.principal(b"X-CACHECONF:", [*self.names(), b"krb5_ccache_conf_data"]),
                self.principal(b"X-CACHECONF", [b"krb5_ccache_conf_data"]),
            ]
        )
        ticket = self.messages.item(TICKET)
        ticket = self.dice.choice([ticket, ticket, self.changed(ticket), b"", self.octets()])
        enctype = self.number(2)
        if version == 3:
            enctype += self.dice.choice([enctype, enctype, self.number(2)])
        return (
            self.principal()
            + server
            + enctype
            + self.data(self.octets(), 4)
            + b"".join(self.number(4) for _ in range(4))
            + self.number(1)
            + self.number(4)
            + self.typed_items()
            + self.typed_items()
            + self.data(ticket, 4)
            + self.data(self.octets(), 4)
        )

    def typed_items(self):
        items = [self.number(2) + self.data(self.octets(), 4) for _ in range(self.dice.choice([0, 0, 1, 3]))]
        return self.count(len(items), 4) + b"".join(items)


def file(dice, command, real):
    """A keytab or a cache: made up, or a real one with changes."""
    if dice.random() < 0.5:
        maker = FileMaker(dice, dice.choice([0, 0, 0.01, 0.03]))
        return maker.keytab() if command == "keytab" else maker.ccache()
    octets = dice.choice(real)
    for _ in range(dice.choice([1, 1, 2])):
        octets = changed(dice, octets)
    return octets


def time_near(dice, octets):
    """A time to compare with: none, a bound, any number, or one next to four octets of the file."""
    place = dice.randint(0, max(len(octets) - 4, 0))
    there = int.from_bytes(octets[place : place + 4], "big") + dice.choice([-1, 0, 1])
    return dice.choice([None, 0, 2**32 - 1, dice.randrange(2**32), min(max(there, 0), 2**32 - 1)])
