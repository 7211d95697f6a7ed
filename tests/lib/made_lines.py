"""Sources of `krbls encode` and `krbls decode` that are made up: messages as lines of JSON, right or nearly so, and frames.

What is made follows from the dice alone.
"""

import json

import made_inputs
from made_up import FAULTS, NAMED, OFTEN, Maker, changed, stream
from reference.documents import DEEPEST
from reference.frames import LIMIT
from reference.grammar import MESSAGES, OCTETS, STRICT_MESSAGES, Bits, Integer, ListOf, Sequence, String, Tagged, Time

# Texts of values of each type, which another type does not have.
OTHERS = ["null", "true", "false", "0", "-1", "1e2", '""', '"a"', "[]", "[0]", "{}", '{"value":"","length":0}']

# Numbers that are in no range or that are no integer, and what is no number at all.
NUMBERS = ["1.0", "5.9", "5.0", "1e0", "5E0", "0.5e1", "-0", "-0.0", "9" * 30, "-" + "9" * 400, "2147483648", "-2147483649"]
NO_NUMBERS = ["05", "+5", "0x5", "5.", ".5", "1e", "--1", "-", "Infinity", "NaN", "5 5", "'5'"]

# What a string of JSON may not have in it, and what is no UTF-8.
NO_STRINGS = ['"\t"', '"\x01"', '"\\x41"', '"\\u12"', '"\\ud800"', '"\\udc00"', '"\\ud800\\u0041"', '"a', "'a'", '"\\"']
NO_UTF8 = [b"\xff", b"\xc3", b"\xc0\xaf", b"\xed\xa0\x80", b"\xf5\x80\x80\x80", b"\xe2\x82"]

# What is before and after a text so that it is not one value, or another one.
ROUND = [("[", "]"), ("", "x"), ("x", ""), ("", ","), ('"', ""), ("\ufeff", ""), ("", "}"), ("{", ""), ("", "\x0c"), ("\xa0", ""), ("", "{}")]

BLANKS = ["", "", "", "", " ", "\t", "\r", "  ", " \t\r"]


class LineMaker:
    """Makes JSON of the values of the grammar, in which each part is wrong with some probability."""

    def __init__(self, dice, faults, messages=MESSAGES):
        self.dice = dice
        self.faults = faults
        self.messages = messages
        # How often a character has an escape, and a place a blank.
        self.escapes = dice.choice([0, 0, 0.02, 0.3])
        self.blanks = dice.choice([0, 0, 0.05, 0.5])
        self.shuffles = dice.random() < 0.5

    def is_wrong(self, weight=1):
        return self.dice.random() < self.faults * weight

    def choice(self, *choices):
        return self.dice.choice(choices)

    def blank(self):
        return self.dice.choice(BLANKS) if self.dice.random() < self.blanks else ""

    def parts(self, opening, parts, closing):
        text = ",".join(f"{self.blank()}{part}{self.blank()}" for part in parts)
        if self.is_wrong():
            text += ","
        return f"{opening}{text}{self.blank()}{closing}"

    def character(self, character):
        """A character of a string of JSON, as itself or by an escape."""
        if self.dice.random() < self.escapes:
            units = character.encode("utf-16-be").hex()
            units = self.choice(str.lower, str.upper)(units)
            return "".join(f"\\u{units[place : place + 4]}" for place in range(0, len(units), 4))
        if character == "/" and self.dice.random() < 0.3:
            return "\\/"
        return json.dumps(character, ensure_ascii=False)[1:-1]

    def string(self, text):
        return f'"{"".join(map(self.character, text))}"'

    def value(self, item):
        """A value of a type, or what is none."""
        if self.is_wrong(5):
            return self.choice(*OTHERS)
        if self.is_wrong(0.5):
            return self.choice(*NO_NUMBERS, *NO_STRINGS, self.deep())
        match item:
            case Integer():
                return self.integer(item.low, item.high)
            case Bits():
                return self.bits(item.least)
            case Time():
                return self.string(self.time())
            case String() if item.tag == OCTETS.tag:
                return self.string(self.hexadecimal(self.octets()))
            case String():
                return self.string(self.text(item.greatest))
            case Tagged():
                return self.value(item.item)
            case ListOf():
                least = 0 if item.empty or self.is_wrong(5 * OFTEN) else 1
                size = max(least, self.choice(0, 1, 1, 2, 3))
                return self.parts("[", [self.value(item.item) for _ in range(size)], "]")
            case Sequence():
                return self.sequence(item)

    def deep(self):
        """An array in so many others, at the most that may be or next to it, but for the few round it."""
        depth = DEEPEST - self.dice.randint(-1, 8)
        return "[" * depth + "]" * depth

    def integer(self, low, high):
        near = [low, high, 0, -1, 127, 128, 255, 256, 32767, 32768, 2**31 - 1, -(2**31)]
        number = self.choice(*near, *self.dice.choices(NAMED, k=6), self.dice.randint(low, high))
        if self.is_wrong(OFTEN):
            return self.choice(str(low - 1), str(high + 1), self.choice(f"{number}.0", f"{number}e0", *NUMBERS))
        number = min(max(number, low), high)
        return "-0" if number == 0 and self.dice.random() < 0.2 else str(number)

    def octets(self):
        return self.dice.randbytes(self.choice(0, 1, 2, 4, 20, 126, 127, 128, 129, 255, 256, 700))

    def hexadecimal(self, octets):
        digits = self.choice(str.lower, str.lower, str.upper)(octets.hex())
        if self.is_wrong(OFTEN):
            place = self.dice.randint(0, len(digits))
            digits = digits[:place] + self.choice("", "0", " ", "g", "x", ":", "\u0660", "\\x41") + digits[place + 1 :]
        return digits

    def time(self):
        time = "".join(self.dice.choices("0123456789", k=14)) + "Z"
        if self.is_wrong(OFTEN):
            place = self.dice.randrange(15)
            time = self.choice(time[:-1], f"{time}Z", time.lower(), "", "2030-01-01T00:00:00Z", time[:place] + "/" + time[place + 1 :])
        return time

    def text(self, greatest):
        """A KerberosString: characters as themselves, and octets by escapes."""
        pieces = []
        for _ in range(self.choice(0, 1, 2, 5, 5, 12, 130)):
            octet = self.dice.randint(0, greatest)
            pieces.append(
                self.choice(
                    f"\\x{octet:02x}",
                    f"\\x{octet:02X}",
                    chr(self.dice.randint(0x20, 0x7E)).replace("\\", "/"),
                    self.choice("A", "z", "/", "@", '"', "\x00", "\n", "\x7f", *["\u00e9", "\u20ac", "\U0001f600"] * (greatest > 0x7F)),
                )
            )
        if self.is_wrong(OFTEN):
            pieces.insert(
                self.dice.randint(0, len(pieces)),
                self.choice("\\", "\\\\", "\\x", "\\x4", "\\xg0", "\\X41", "\\u0041", "\\n", "\u00e9", "\\x80", "\\xff"),
            )
        return "".join(pieces)

    def bits(self, least):
        size = self.choice(0, 1, 4, 4, 4, 5) if least == 0 or self.is_wrong(5 * OFTEN) else self.choice(4, 4, 4, 5)
        octets = bytearray(self.dice.randbytes(size))
        length = 8 * size - (self.choice(0, 0, self.dice.randint(0, 7)) if 8 * size > least else 0)
        if octets and not self.is_wrong(3 * OFTEN):
            octets[-1] &= 0xFF << (8 * size - length) & 0xFF
        if self.is_wrong(3 * OFTEN):
            length += self.choice(-8, -1, 1, 8)
        members = [("value", self.string(self.hexadecimal(bytes(octets)))), ("length", str(length))]
        return self.members(members)

    def members(self, members):
        """An object of these members in some order, of which one may be another, not there or there twice."""
        if self.shuffles:
            self.dice.shuffle(members)
        if self.is_wrong(OFTEN):
            place = self.dice.randrange(len(members))
            name, value = members[place]
            members[place : place + 1] = self.choice(
                [],
                [],
                [(name, value), (name, value)],
                [(name, value), (name, "null")],
                [(name, "null")],
                [(f"{name}-", value)],
                [(name.upper(), value)],
                [(name, value), (self.choice("", "note", "a\\b", 'q"', "\u00e9", "\n", "realm", "kvno", "value"), "0")],
            )
        pairs = [f"{self.string(name)}{self.blank()}:{self.blank()}{value}" for name, value in members]
        return self.parts("{", pairs, "}")

    def sequence(self, item):
        fields = [field for field in item.fields if not field.optional or self.dice.random() < 0.5]
        return self.members([(field.name, self.value(field.item)) for field in fields])

    def message(self):
        name, item = self.dice.choice(list(self.messages.items()))
        if self.is_wrong(OFTEN):
            name = self.choice(name.lower(), f"{name} ", "", "kind", *MESSAGES)
        member = f"{self.string(name)}:{self.value(item)}"
        if self.is_wrong():
            return self.choice("{}", f"[{member}]", f"{{{member},{member}}}", f'{{{member},"kind":0}}', self.deep(), *OTHERS)
        return self.parts("{", [member], "}")

    def line(self):
        """The octets of a line without its line feed."""
        if self.dice.random() < 0.05:
            return b"".join(self.dice.choices([b" ", b"\t", b"\r"], k=self.choice(0, 1, 3)))
        text = f"{self.blank()}{self.message()}{self.blank()}"
        if self.is_wrong():
            before, after = self.dice.choice(ROUND)
            text = f"{before}{text}{after}"
        octets = text.encode("utf-8")
        if self.is_wrong():
            place = self.dice.randint(0, len(octets))
            octets = octets[:place] + self.dice.choice(NO_UTF8) + octets[place:]
        return octets


def lines(dice, messages=MESSAGES):
    """Lines, right or nearly so, with some line ends, or none after the last."""
    maker = LineMaker(dice, dice.choice(FAULTS), messages)
    end = dice.choice([b"\n", b"\n", b"\r\n"])
    text = end.join(maker.line() for _ in range(dice.choice([0, 1, 1, 1, 2, 3, 8])))
    text += dice.choice([b"", end, end, b"\n\n"])
    for _ in range(dice.choice([0] * 9 + [1])):
        text = changed(dice, text)
    return text


def options(dice):
    """Options of decode and encode."""
    limit = f" --limit {dice.choice([31, 100, 200, 500, LIMIT])}" if dice.random() < 0.2 else ""
    return f"{dice.choice(['', '', ' --strict'])}{dice.choice(['', '', ' --unframed'])}{limit}"


def source(dice, command, real, messages):
    """What a command of some options reads, made up by real streams and real messages."""
    if command.startswith("encode"):
        return lines(dice, STRICT_MESSAGES if "--strict" in command else MESSAGES)
    if "--unframed" in command:
        return message(dice, real)
    return made_inputs.message(dice, messages) if dice.random() < 0.4 else stream(dice, real)


def message(dice, real):
    """The octets of a message without a frame, right or nearly so, or of a few."""
    octets = Maker(dice, dice.choice(FAULTS)).message() if dice.random() < 0.5 else dice.choice(real)[4:]
    for _ in range(dice.choice([0, 0, 0, 1])):
        octets = changed(dice, octets)
    return dice.choice([octets] * 9 + [b"", octets + octets])
