"""The records of messages and of Tickets, with their notes and what is in the clear inside, and those of inputs."""

from .fields import FIELDS, bits_of, encrypted_ticket
from .grammar import MESSAGES, STRICT_MESSAGES, STRICT_TICKET, TICKET, Bits, ListOf, Sequence, String, Tagged
from .inputs import line_spelled, spelled
from .inside import inside
from .judging import Refused, judge, whole
from .records import Record, refused, refused_input
from .registries import NOTES
from .spellings import BLANKS, Misspelled, all_of
from .tokens import Ntlm, Token
from .values import layers, number, numbers

# How many octets of an input are read.
MOST_TEXT = 16777216

# A Ticket by itself, as the lenient and as the strict profile has it.
TICKETS = (TICKET, STRICT_TICKET)


def notes(item, value, field=""):
    """The numbers of the notes on a value, which is in some field, and on all its parts."""
    found = set()
    match item:
        case String(tag=0x1B):
            if any(octet > 0x7F for octet in value):
                found.add(1)
        case Bits():
            if bits_of(value) < 32:
                found.add(2)
        case Tagged():
            found = notes(item.item, value, field)
        case ListOf():
            if not value and field in ("padata", "addresses", "additional-tickets"):
                found.add(4)
            for part in value:
                found |= notes(item.item, part)
        case Sequence():
            for part in item.fields:
                if part.name in value:
                    found |= notes(part.item, value[part.name], part.name)
    if field in ("kvno", "nonce", "seq-number") and value < 0:
        found.add(3)
    return found


def message_record(name, value):
    noted = sorted(notes(MESSAGES[name], value))
    return Record(name, {**FIELDS[name](value), "notes": numbers(noted, NOTES), **inside(name, value)})


def record_or_refusal(octets, n, messages=MESSAGES):
    """The record of n octets, of which these are there, or their refusal."""
    if n == 0:
        return Refused(0, "Empty")
    try:
        return message_record(*judge(octets, n, messages))._replace(octets=octets)
    except Refused as refusal:
        return refusal


def ticket_record(value):
    return Record("Ticket", {**encrypted_ticket(value), "notes": numbers(sorted(notes(TICKET, value)), NOTES)})


def inside_record(inside, messages):
    """The record of what is inside of all layers."""
    if inside.kind == "Ticket":
        return ticket_record(whole(inside.octets, {"Ticket": TICKETS[messages is STRICT_MESSAGES]})[1])
    kinds = messages if inside.kind == "message" else {inside.kind: messages[inside.kind]}
    return message_record(*whole(inside.octets, kinds))


def octets_record(octets, form, at, messages):
    """The record of octets that an input spells, or of their refusal, with the layers that were opened."""
    token = Token(octets)
    inside = None
    try:
        inside = token.open()
        found = inside_record(inside, messages)
    except Ntlm as ntlm:
        found = refused_input("ntlm", ntlm.place, at, len(octets), form)
    except Refused as refusal:
        place = 0 if inside is None else inside.place
        found = refused(refusal.moved(place).within(at, len(octets)), form=form)
    return found._replace(before={"via": layers(token.via)} if token.via else {})


def input_record(text, read, at, messages):
    """The record of an input that begins at a place of its source."""
    if len(text) > MOST_TEXT:
        return refused_input("length", None, at)
    try:
        form, octets = read(text)
    except Misspelled as fault:
        return refused_input(fault.word, fault.place, at)
    return octets_record(octets, form, at, messages)


def message(text, messages=MESSAGES):
    """The record of an input, and the status of the program."""
    record = input_record(text, spelled, 0, messages)
    return [record], int(record.kind == "refused")


def lines(text, messages=MESSAGES):
    """The records of an input a line, and the status of the program."""
    records = []
    place = 0
    for line_number, line in enumerate(text.split(b"\n"), 1):
        if len(line) > MOST_TEXT or not all_of(line, BLANKS):
            record = input_record(line, line_spelled, place, messages)
            records.append(record._replace(before={"line": number(line_number), **record.before}))
        place += len(line) + 1
    refusals = sum(record.kind == "refused" for record in records)
    shown = {"messages": number(len(records) - refusals), "refused": number(refusals)}
    return [*records, Record("end", shown)], min(refusals, 1)
