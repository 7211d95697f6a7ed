"""The order of judging: octets to the values of the grammar, or the first octet at fault.

The value of a SEQUENCE is a dict of the fields that are there, that of a SEQUENCE OF a list, of an INTEGER
a number, of a BOOLEAN whether it is true, of flags the number of unused bits and the octets, and of all else the octets.
"""

from .grammar import MESSAGES, Bits, Boolean, Choice, Integer, ListOf, ObjectIdentifier, Sequence, String, Tagged, Time

REASONS = (
    "HighBit TooLong Empty Tag Overrun Indefinite LengthWide LengthNotMinimal Loose Size "
    "IntegerNotMinimal Range Time Bits Missing Truncated Charset"
).split()


class Refused(Exception):
    """An octet at fault, why, and the path of the field that it is in, if one is known.

    It is in what begins at a place of the source, `at`, and has a length, if one is told; and maybe in a part of a message
    that is itself none that is judged.
    """

    def __init__(self, place, why, path=None, at=0, length=None, is_part=False):
        super().__init__(place, why, path, at, length, is_part)
        self.place = place
        self.why = why
        self.path = path
        self.at = at
        self.length = length
        self.is_part = is_part

    def moved(self, octets):
        """The same refusal with this number of octets before it."""
        return Refused(self.place + octets, self.why, self.path, self.at, self.length, self.is_part)

    def within(self, at, length):
        """The same refusal, in what begins at a place and has a length."""
        return Refused(self.place, self.why, self.path, at, length, self.is_part)

    def in_part(self):
        """The same refusal, of a part."""
        return Refused(self.place, self.why, self.path, self.at, self.length, True)


class Ended(Exception):
    """The octets ended before anything was refused, within what has this path."""

    def __init__(self, path=None):
        super().__init__(path)
        self.path = path


class Judge:
    """Walks the octets that are present of a message, and refuses at the first that shows a fault."""

    def __init__(self, octets):
        self.octets = octets
        self.place = 0
        # The path of the innermost item that is open, by the rules of `paths`.
        self.path = ""

    def next(self):
        if self.place >= len(self.octets):
            self.end()
        self.place += 1
        return self.octets[self.place - 1]

    def end(self):
        raise Ended(self.path or None)

    def refuse(self, why):
        """Refuses the octet that was looked at last."""
        raise Refused(self.place - 1, why, self.path or None)

    def take(self, count):
        """Octets that are not looked at."""
        if self.place + count > len(self.octets):
            self.end()
        self.place += count
        return self.octets[self.place - count : self.place]

    def item(self, choices, room, sole):
        """One item of one of some types, in a room: which of these it is of, and its value.

        Each type comes after what the item adds to the path of its container, once its tag is known.
        """
        tag = self.next()
        index = next((index for index, (_, choice) in enumerate(choices) if choice.tag == tag), None)
        if index is None:
            self.refuse("Tag")
        name, choice = choices[index]
        container = self.path
        self.path += name
        value = self.contents(choice, self.length(room, sole))
        self.path = container
        return index, value

    def length(self, room, sole):
        """The length of an item in a room, of which the tag octet was looked at."""
        if room == 1:
            self.refuse("Overrun")
        first = self.next()
        header, size = 2, first
        if first == 0x80:
            self.refuse("Indefinite")
        if first >= 0x85:
            self.refuse("LengthWide")
        if first > 0x80:
            count = first - 0x80
            header += count
            if room < header:
                self.refuse("Overrun")
            size = 0
            for k in range(count):
                octet = self.next()
                if k == 0 and (octet == 0 or (count == 1 and octet < 0x80)):
                    self.refuse("LengthNotMinimal")
                size = size * 256 + octet
        if header + size > room:
            self.refuse("Overrun")
        if sole and header + size < room:
            self.refuse("Loose")
        return size

    def contents(self, item, size):
        match item:
            case Boolean():
                return self.boolean(size)
            case Integer():
                return self.integer(item, size)
            case Bits():
                return self.bits(item, size)
            case Time():
                return self.time(size)
            case ObjectIdentifier():
                return self.identifier(size)
            case String():
                return self.string(item, size)
            case Tagged():
                return self.tagged(item, size)
            case ListOf():
                if size == 0 and not item.empty:
                    self.refuse("Size")
                end = self.place + size
                values = []
                while self.place < end:
                    values.append(self.item([(f"[{len(values)}]", item.item)], end - self.place, False)[1])
                return values
            case Sequence():
                return self.sequence(item, size)

    def boolean(self, size):
        if size != 1:
            self.refuse("Size")
        octet = self.next()
        if octet not in (0x00, 0xFF):
            self.refuse("Range")
        return octet == 0xFF

    def integer(self, item, size):
        if size == 0 or size > item.widest:
            self.refuse("Size")
        octets = b""
        for k in range(size):
            octets += bytes([self.next()])
            if k == 1 and (octets[0], octets[1] >= 0x80) in ((0x00, False), (0xFF, True)):
                self.refuse("IntegerNotMinimal")
        number = int.from_bytes(octets, "big", signed=True)
        if not item.low <= number <= item.high:
            self.refuse("Range")
        return number

    def string(self, item, size):
        if item.greatest == 0xFF:
            return self.take(size)
        octets = b""
        for _ in range(size):
            octets += bytes([self.next()])
            if octets[-1] > item.greatest:
                self.refuse("Charset")
        return octets

    def identifier(self, size):
        """Numbers of seven bits an octet, each in the fewest octets, the last of which is below 80."""
        if size == 0:
            self.refuse("Size")
        octets = b""
        for _ in range(size):
            begins = not octets or octets[-1] < 0x80
            octets += bytes([self.next()])
            if begins and octets[-1] == 0x80:
                self.refuse("IntegerNotMinimal")
        if octets[-1] >= 0x80:
            self.refuse("Range")
        return octets

    def bits(self, item, size):
        if size == 0 or 8 * (size - 1) < item.least:
            self.refuse("Size")
        unused = self.next()
        if unused > 7 or 8 * (size - 1) - unused < item.least:
            self.refuse("Bits")
        if size == 1:
            return unused, b""
        octets = self.take(size - 2) + bytes([self.next()])
        if octets[-1] % 2**unused != 0:
            self.refuse("Bits")
        return unused, octets

    def time(self, size):
        if size != 15:
            self.refuse("Size")
        octets = b""
        for k in range(15):
            octets += bytes([self.next()])
            if octets[k] not in (b"0123456789" if k < 14 else b"Z"):
                self.refuse("Time")
        return octets

    def tagged(self, item, size):
        if size == 0:
            self.refuse("Missing")
        return self.item([("", self.chosen(item.item))], size, True)[1]

    def chosen(self, item):
        """The type of a choice that the next octet is the tag of, or else the first."""
        if not isinstance(item, Choice):
            return item
        tag = self.octets[self.place] if self.place < len(self.octets) else None
        return next((one for one in item.items if one.tag == tag), item.items[0])

    def sequence(self, item, size):
        end = self.place + size
        fields = list(item.fields)
        values = {}
        while self.place < end:
            # The optional fields next in order, and the first required one after them.
            may_stand = []
            for field in fields:
                may_stand.append(field)
                if not field.optional:
                    break
            choices = [(f".{field.name}", field.item) for field in may_stand]
            index, value = self.item(choices, end - self.place, False)
            values[fields[index].name] = value
            fields = fields[index + 1 :]
        missing = next((field.name for field in fields if not field.optional), None)
        if missing is not None:
            self.path += f".{missing}"
            self.refuse("Missing")
        return values


def judge(octets, n, choices=MESSAGES):
    """The name of the choice that n octets are, of which these are present, and their value."""
    index, value = Judge(octets[:n]).item(list(choices.items()), n, True)
    return list(choices)[index], value


def whole(octets, choices=MESSAGES):
    """The same for octets that are all present, of which there may be none."""
    if not octets:
        raise Refused(0, "Empty")
    return judge(octets, len(octets), choices)
