"""Streams of messages whose pre-authentication data and data of errors are made up, of other types, or damaged.

What is made follows the rules or nearly does, and all of it follows from the dice.
"""

import struct

from made_up import FAULTS, Maker, changed
from reference.der import contents, der, length_octets
from reference.grammar import INT32, MESSAGES, METHOD_DATA, OCTETS, PA_DATA
from reference.inside import (
    ARMOR_AP_REQUEST,
    ERROR_DATA,
    EXTENDED,
    INSIDE,
    OF_OTHERS,
    OF_REQUESTS,
    PA_TGS_REQ,
    PREAUTH_REQUIRED,
    SALT,
    value_of,
)
from reference.judging import whole
from reference.registries import STATUSES

# The types of the values of PA-DATA, with their numbers; that of FAST is another one in requests than in others.
VALUES = [(number, item) for rows in (OF_REQUESTS, OF_OTHERS) for number, (item, _) in rows.items()]
NUMBERS = [*OF_REQUESTS, SALT, 133, 149]

# The tags that are put round a value.
TAGS = (0x30, 0xA0, 0xA1, 0x04, 0x6E, 0x61)


class PaDataMaker(Maker):
    """Makes messages whose PA-DATA mostly have values that are in the clear."""

    def message(self):
        return self.item(MESSAGES[self.dice.choice(list(INSIDE))])

    def sequence(self, item):
        return self.pa_data() if item == PA_DATA else super().sequence(item)

    def pa_data(self):
        """The contents of an item of PA-DATA."""
        number, value_type = self.dice.choice(VALUES)
        value = self.item(value_type)
        if self.dice.random() < 0.15:
            number = self.dice.choice(NUMBERS)
        if self.dice.random() < 0.1:
            number, value = SALT, self.dice.choice([self.string, self.extended_error])()
        for _ in range(self.dice.choice([0, 0, 0, 0, 0, 1])):
            value = changed(self.dice, value)
        return contents(PA_DATA, {"padata-type": number, "padata-value": value})

    def extended_error(self):
        """The octets of an extended error, or nearly."""
        status = self.dice.choice([*STATUSES, self.dice.randint(0, 2**32 - 1)])
        reserved = self.dice.choice([0, 0, 0, 1, 2**24])
        octets = struct.pack("<3I", status, reserved, self.dice.choice([0, 1, 3]))
        return octets[: self.dice.choice([12, 12, 12, 12, 11])]

    def has(self, field):
        return self.dice.random() < (0.9 if field.name in ("padata", "e-data", "data-value") else 0.5)

    def field(self, field):
        if field.name == "error-code" and self.dice.random() < 0.5:
            return self.wrapped(field.item.tag, der(INT32, PREAUTH_REQUIRED))
        if field.name == "e-data" and self.dice.random() < 0.9:
            return self.wrapped(field.item.tag, self.wrapped(OCTETS.tag, self.item(self.dice.choice(ERROR_DATA)[0])))
        if field.name == "data-type" and self.dice.random() < 0.6:
            return self.wrapped(field.item.tag, der(INT32, EXTENDED))
        if field.name == "data-value" and self.dice.random() < 0.8:
            return self.wrapped(field.item.tag, self.wrapped(OCTETS.tag, self.extended_error()))
        if field.name == "padata" and self.dice.random() < 0.7:
            return self.wrapped(field.item.tag, self.item(METHOD_DATA))
        if field.name == "armor-type" and self.dice.random() < 0.8:
            return self.wrapped(field.item.tag, der(INT32, ARMOR_AP_REQUEST))
        if field.name == "armor-value" and self.dice.random() < 0.8:
            return self.wrapped(field.item.tag, self.wrapped(OCTETS.tag, self.item(PA_TGS_REQ)))
        return super().field(field)


def altered_value(dice, value, others):
    """The value of an item that is changed, cut, that of another one, or in one more item."""
    return dice.choice(
        [
            changed(dice, value),
            changed(dice, value),
            value[: dice.randint(0, len(value))],
            dice.choice(others)["padata-value"],
            bytes([dice.choice(TAGS)]) + length_octets(len(value)) + value,
            value + value,
            b"",
        ]
    )


def altered(dice, items):
    """PA-DATA of which some have another type or value, are there twice, or are not."""
    items = [dict(item) for item in items]
    for _ in range(dice.choice([1, 1, 2, 3])):
        place = dice.randint(0, len(items) - 1)
        choice = dice.random()
        if choice < 0.6:
            items[place]["padata-value"] = altered_value(dice, items[place]["padata-value"], items)
        elif choice < 0.85:
            items[place]["padata-type"] = dice.choice(NUMBERS)
        else:
            items.insert(dice.randint(0, len(items)), dict(items[place]))
    return items


def with_items(messages):
    """The kinds, the values and the items of messages that have PA-DATA or METHOD-DATA."""
    for kind, value in map(whole, messages):
        items = value.get("padata") or value_of(METHOD_DATA, value.get("e-data", b""))
        if items:
            yield kind, value, items


def altered_message(dice, real):
    """A real message with altered PA-DATA."""
    kind, value, items = dice.choice(real)
    items = altered(dice, items)
    if "padata" in value:
        return der(MESSAGES[kind], {**value, "padata": items})
    return der(MESSAGES[kind], {**value, "e-data": der(METHOD_DATA, items)})


def stream(dice, real):
    """A stream of such messages, the real ones as `with_items` has them."""
    maker = PaDataMaker(dice, dice.choice(FAULTS))
    messages = [maker.message() if dice.random() < 0.6 else altered_message(dice, real) for _ in range(dice.choice([1, 1, 2, 3]))]
    return b"".join(len(message).to_bytes(4, "big") + message for message in messages)
