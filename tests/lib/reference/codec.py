"""What `krbls decode` and `krbls encode` write of a source, and what they say of one that is refused or at fault."""

from .captures import PORT
from .decoding import NOT_ENCRYPTED, Part, decoded_capture, decoded_going_on, decoded_packet
from .der import der
from .documents import NotJson, document
from .files import FILE_REASONS, Fields, cache_start, credentials_of
from .frames import LIMIT, found_in_by
from .grammar import MESSAGES, STRICT_MESSAGES, TICKET
from .hints import command_for, hint
from .inputs import spelled
from .judging import Refused, judge, whole
from .messages import TICKETS, message
from .objects import Wrong, message_of, text_of, unencrypted
from .records import named_line, refused, without_extent
from .tokens import Token
from .values import count

BLANKS = b" \t\r"

class Ends(Exception):
    """What ends a source, in words."""


class RefusedAtOnce(Ends):
    """The same of a refusal with no message before it."""


def line_of(name, item, value, before=""):
    """The line of a message, unless some of it is not encrypted."""
    for path in unencrypted(item, value, name):
        raise Ends(f"{before}{path}: {NOT_ENCRYPTED}")
    return text_of(name, item, value).encode("ascii") + b"\n"


def message_or_refusal(octets, n, messages):
    """The name and the value of the message that n octets are, of which these are there, or their refusal."""
    try:
        return judge(octets, n, messages)
    except Refused as refusal:
        return refusal


def unframed_message(octets, limit, messages):
    if len(octets) > limit:
        raise Refused(0, "TooLong")
    return whole(octets, messages)


def lines_of(octets, limit, messages, unframed):
    """The lines of the messages of a source, up to what ends it."""
    if unframed:
        try:
            name, value = unframed_message(octets, limit, messages)
        except Refused as refusal:
            raise Ends(named_line(without_extent(refused(refusal)))) from None
        yield line_of(name, messages[name], value)
        return
    lines = []
    for found in found_in_by(lambda octets, n: [message_or_refusal(octets, n, messages)], octets, limit):
        if isinstance(found, Refused):
            raise (Ends if lines else RefusedAtOnce)(named_line(without_extent(refused(found, {"messages": count(lines)}))))
        name, value = found
        lines.append(name)
        yield line_of(name, messages[name], value, f"message {len(lines)}: ")


def ticket_line(value):
    """The line of a Ticket by itself."""
    return text_of("Ticket", TICKETS[0], value).encode("ascii") + b"\n"


def tickets_of(name, value):
    """The paths and the values of the Tickets of a KRB-CRED whose EncryptedData is not encrypted; None of any other message."""
    if name != "KRB-CRED" or value["enc-part"]["etype"] != 0:
        return None
    return [(f"KRB-CRED.tickets[{index}].enc-part", ticket) for index, ticket in enumerate(value["tickets"])]


def parts_of(octets, messages):
    """What is decoded of octets that spell a message or a Ticket: lines, and what is said of what has none."""
    token = Token(octets)
    inside = token.open()
    origin = f"via={','.join(token.via)} " if token.via else ""
    if inside.kind == "Ticket":
        found = [("Ticket.enc-part", whole(inside.octets, {"Ticket": TICKETS[messages is STRICT_MESSAGES]})[1])]
        last = None
    else:
        kinds = messages if inside.kind == "message" else {inside.kind: messages[inside.kind]}
        name, value = whole(inside.octets, kinds)
        found, last = tickets_of(name, value), "KRB-CRED.enc-part"
        if found is None:
            paths = list(unencrypted(messages[name], value, name))
            if paths:
                return [], [f"{origin}{paths[0]}: {NOT_ENCRYPTED}"]
            return [line_of(name, messages[name], value)], []
    lines = [ticket_line(ticket) for _, ticket in found if ticket["enc-part"]["etype"] != 0]
    left_out = [path for path, ticket in found if ticket["enc-part"]["etype"] == 0] + ([last] if last else [])
    return lines, [f"{origin}{path}: {NOT_ENCRYPTED}" for path in left_out]


def decoded_input(octets, messages):
    """The lines of an input that spells a message, a Ticket or a token, and what is said of it, or None."""
    [record], status = message(octets, messages)
    if status:
        help_of = hint(octets, "message", "decode", "-")
        return b"", "\n".join(filter(None, (named_line(record), help_of)))
    lines, said = parts_of(spelled(octets)[1], messages)
    return b"".join(lines), "\n".join(said) or None


def ticket_or_said(octets):
    """The line of the Ticket that a field of a credential has, and what is said if it has none."""
    if not octets:
        return b"", "absent"
    try:
        value = whole(octets, {"Ticket": TICKET})[1]
    except Refused as refusal:
        # What it has to be is known before its tag.
        refusal.path = refusal.path or "Ticket"
        return b"", named_line(without_extent(refused(refusal)))
    if value["enc-part"]["etype"] == 0:
        return b"", f"Ticket.enc-part: {NOT_ENCRYPTED}"
    return ticket_line(value), None


def decoded_cache(octets):
    """The lines of the tickets of a credential cache, and what is said of what has none, or None."""
    lines, said = [], []
    fields = Fields(octets)
    try:
        version, _, _ = cache_start(fields)
        for index, read in enumerate(credentials_of(fields, version)):
            if not read.is_config:
                line, text = ticket_or_said(read.ticket)
                lines.append(line)
                said += [] if text is None else [f"credential[{index}].ticket: {text}"]
    except Refused as refusal:
        said.append(named_line(refused(refusal, reasons=FILE_REASONS)))
    return b"".join(lines), "\n".join(said) or None


def frame(octets, unframed):
    return octets if unframed else len(octets).to_bytes(4, "big") + octets


def lines_in(text):
    """The lines of a text, without their line feeds."""
    *lines, rest = text.split(b"\n")
    return [*lines, rest] if rest else lines


def most_of_line(limit):
    """The greatest number of octets of a line."""
    return 8 * limit + 65536


def message_of_line(line, limit, messages, unframed):
    """The octets of the message that a line spells, or, without its length, of the Ticket."""
    terms = {**messages, "Ticket": TICKETS[messages is STRICT_MESSAGES]} if unframed else messages
    try:
        name, value = message_of(document(line), terms)
    except NotJson:
        raise Wrong(None, "not JSON; each line is a whole object") from None
    octets = der(terms[name], value)
    if len(octets) > limit:
        raise Wrong(name, f"longer than {limit} octets")
    return octets


def frames_of(text, limit, messages, unframed):
    """The frames of the messages that the lines of a source spell, up to what ends it."""
    is_first = True
    for number, line in enumerate(lines_in(text), 1):
        if len(line) > most_of_line(limit):
            raise Ends(f"line {number}: longer than {most_of_line(limit)} octets")
        if not line.strip(BLANKS):
            continue
        if unframed and not is_first:
            raise Ends(f"line {number}: a second message")
        is_first = False
        try:
            yield frame(message_of_line(line, limit, messages, unframed), unframed)
        except Wrong as wrong:
            path = "" if wrong.path is None else f"{wrong.path}: "
            raise Ends(f"line {number}: {path}{wrong.text}") from None
    if unframed and is_first:
        raise Ends("no message")


WRITTEN = {"decode": lines_of, "encode": frames_of}


def decoded_parts(octets, limit=LIMIT, messages=MESSAGES, keep_going=False, port=PORT, packet=None):
    """The parts of a capture, or of a stream that goes on after refusals, with a hint if the first record is a refusal; None of all else."""
    kind = command_for(octets)
    if kind == "capture":
        of_packet = packet is not None
        parts, is_refused = decoded_packet(octets, packet, limit, port, messages) if of_packet else decoded_capture(octets, limit, port, messages)
    elif kind == "stream" and keep_going:
        parts, is_refused = decoded_going_on(octets, limit, messages)
    else:
        return None
    help_of = hint(octets, kind, "decode", "-") if is_refused else None
    return parts + ([Part(said=help_of)] if help_of else [])


def written(command, octets, limit=LIMIT, messages=MESSAGES, unframed=False, keep_going=False, port=PORT, packet=None):
    """What a command writes of the octets of a source, and what it says of what it left out, in lines, or None."""
    chooses = command == "decode" and not unframed
    kind = command_for(octets) if chooses else None
    if kind == "message":
        return decoded_input(octets, messages)
    if kind == "ccache":
        return decoded_cache(octets)
    if kind == "keytab":
        return b"", "this is a keytab, which has no messages: krbls keytab -"
    parts = decoded_parts(octets, limit, messages, keep_going, port, packet) if chooses else None
    if parts is not None:
        return b"".join(part.line for part in parts), "\n".join(part.said for part in parts if part.said) or None
    found = []
    try:
        for part in WRITTEN[command](octets, limit, messages, unframed):
            found.append(part)
    except Ends as end:
        help_of = hint(octets, "stream", "decode", "-") if chooses and isinstance(end, RefusedAtOnce) else None
        return b"".join(found), "\n".join(filter(None, (str(end), help_of)))
    return b"".join(found), None
