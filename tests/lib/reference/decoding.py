"""What `krbls decode` writes of a capture, and of a stream that goes on after refusals, and what it says of the rest of their records.

Of each record there are parts, in order: a line, or what is said of it.
"""

from typing import NamedTuple

from .capture_files import packets
from .captures import PORT, Capture, capture, last_record
from .choosing import last_line
from .frames import LIMIT, stream_going_on
from .grammar import MESSAGES
from .judging import Refused, judge
from .objects import text_of, unencrypted
from .records import line_of, named_line

NOT_ENCRYPTED = "not encrypted, and so not printed"

# Records of octets that no message has; all other records that are no messages leave nothing out.
LEFT_OUT = ("refused", "lost", "unread")


class Part(NamedTuple):
    line: bytes = b""
    said: str = ""
    # The octets that the line has.
    octets: bytes = b""


def part_of(record, before, messages):
    """The part of a message: what is said of one that is not sealed is the first path of what is not encrypted."""
    name, value = judge(record.octets, len(record.octets), messages)
    for path in unencrypted(messages[name], value, name):
        return Part(said=f"{before}{path}: {NOT_ENCRYPTED}")
    return Part(line=text_of(name, messages[name], value).encode("ascii") + b"\n", octets=record.octets)


def end_parts(last, status):
    """That of the record that ends a listing, unless it says that nothing is left out."""
    return [Part(said=last_line(last))] if status else []


def decoded_going_on(octets, limit, messages):
    """The parts of a stream of which each frame is read, and whether the first one is refused."""
    records, status = stream_going_on(octets, limit, messages)
    number, parts = 0, []
    for record in records[:-1]:
        if record.kind == "refused":
            parts.append(Part(said=named_line(record)))
        else:
            number += 1
            parts.append(part_of(record, f"message {number}: ", messages))
    return parts + end_parts(records[-1], status), records[0].kind == "refused"


def origin(record):
    """Where a record of a capture is from, as it is said before what is left out of it."""
    return line_of(record._replace(kind="", fields={}, told={}), lambda value: value.text_with_names)


def of_records(records, messages):
    """The parts of the records of a capture but the last."""
    for record in records:
        if record.octets and record.kind != "KPASSWD":
            yield part_of(record, origin(record), messages)
        elif record.kind in LEFT_OUT:
            yield Part(said=named_line(record._replace(told={})))


def decoded_capture(octets, limit=LIMIT, port=PORT, messages=MESSAGES):
    """The parts of a capture, and whether its first record is a refusal."""
    records, status = capture(octets, limit, port, messages)
    return [*of_records(records[:-1], messages), *end_parts(records[-1], status)], records[0].kind == "refused"


def records_up_to(octets, number, followed):
    """The records of the packets of a capture up to a number, and of its end, unless one more is there; and how the file ends: if it is refused, why."""
    records = []
    try:
        for packet in packets(octets):
            if packet.number > number:
                return records, None
            records.extend(followed.take(packet))
    except Refused as refusal:
        return [*records, *followed.end()], refusal
    return [*records, *followed.end()], None


def decoded_packet(octets, number, limit=LIMIT, port=PORT, messages=MESSAGES):
    """The parts of a packet of a capture, and whether the file is refused before any of its records."""
    followed = Capture(limit, port, messages)
    records, refusal = records_up_to(octets, number, followed)
    parts = list(of_records((record for record in records if record.before["packet"].text == str(number)), messages))
    there = followed.counts["packets"]
    if refusal is not None:
        parts += end_parts(last_record(followed, refusal), 1)
    elif there < number:
        parts.append(Part(said=f"packet {number}: the capture has {there}"))
    elif not parts:
        parts.append(Part(said=f"packet {number}: no message ends in it"))
    return parts, refusal is not None and not records
