"""The members of each kind of object, as the tables of docs/LISTING.md have them.

A table is one of the kinds that the heading before it names, or has the kind of a record in its first column.
Each of its rows has fields and their values, and a kind may have several tables: the end of a stream and that of
a keytab have other fields. The table of the heading Origin has the fields that come before those of its kind in a
record of a capture, and that of the heading What a message is in those of an input of `message`, if they are there.
The table of what is Last has the members that come after all else in an object of a capture, and that of what is Told those after
these, by the kind.
The kinds of the headings What is inside and What is inside of errors are those of records inside of others, and of these alone.
"""

import pathlib
import re

INSIDE = ("What is inside", "What is inside of errors")
LISTING = pathlib.Path(__file__).resolve().parents[2] / "docs/LISTING.md"
QUOTED = re.compile(r"`([^`]+)`")
LINK = re.compile(r"\[([^]]*)\]\([^)]*\)")
OPTIONAL = " or `-`"


def is_number(value):
    return type(value) is int


def is_text(value):
    return type(value) is str


def is_truth(value):
    return type(value) is bool


def with_parts(shape, parts):
    """A shape of objects that have these members; `parts` has them for who names members of members."""
    shape.parts = parts
    return shape


def or_null(shape):
    return with_parts(lambda value: value is None or shape(value), getattr(shape, "parts", {}))


def spelled(pattern):
    return lambda value: is_text(value) and re.fullmatch(pattern, value)


def list_of(shape):
    return lambda value: type(value) is list and all(map(shape, value))


def members(**shapes):
    """An object of these members in this order, of these types."""
    return with_parts(
        lambda value: (
            type(value) is dict
            and list(value) == list(shapes)
            and all(shape(value[name]) for name, shape in shapes.items())
        ),
        shapes,
    )


is_name = or_null(is_text)
is_hex = spelled("([0-9a-f]{2})*")
is_flags = members(bits=is_number, hex=is_hex, names=list_of(is_text))
is_encrypted = members(etype=is_number, etype_name=is_name, kvno=or_null(is_number), size=is_number)
is_refused_ticket = members(refused=members(place=is_number, why=is_number, why_name=is_text))

is_ticket = with_parts(lambda value: is_encrypted(value) or is_refused_ticket(value), is_encrypted.parts | is_refused_ticket.parts)
is_endpoint = members(address=is_text, port=is_number)

# The type of the member that a value has.
SHAPES = {
    "number": is_number,
    "count": is_number,
    "named number": is_number,
    "code": is_number,
    "status": spelled("[0-9a-f]{8}"),
    "reason": is_number,
    "list": list_of(is_number),
    "string": is_text,
    "text": is_text,
    "word": is_text,
    "layers": list_of(is_text),
    "file name": is_text,
    "time": spelled("[0-9]{14}Z"),
    "date": or_null(spelled("[0-9]{4}(-[0-9]{2}){2}T[0-9]{2}(:[0-9]{2}){2}Z")),
    "span": is_number,
    "instant": spelled("[0-9]{4}(-[0-9]{2}){2}T[0-9]{2}(:[0-9]{2}){2}[.][0-9]{9}Z"),
    "flow": members(over=spelled("udp|tcp"), source=is_endpoint, target=is_endpoint),
    "yes or no": is_truth,
    "flags": is_flags,
    "ticket flags": is_flags,
    "encrypted": is_encrypted,
    "ticket": or_null(is_ticket),
    "principal": members(
        text=is_text, type=is_number, type_name=is_name, components=list_of(is_text), realm=is_text
    ),
    "address": members(type=is_number, type_name=is_name, hex=is_hex),
    "checksum": members(type=is_number, type_name=is_name, size=is_number),
    "offset": members(seconds=is_number, microseconds=is_number),
    "path": is_text,
    "hexadecimal": is_hex,
    "records": list_of(lambda value: has_members_of(PARTS, value)),
}

# What the name of a second member has at its end, and its type, by the value.
SECOND_MEMBERS = {
    "named number": ("_name", is_name),
    "code": ("_name", is_name),
    "status": ("_name", is_name),
    "reason": ("_name", is_name),
    "list": ("_names", list_of(is_name)),
}

# The member of a ticket that is an object and no name by itself.
NO_NAME = "refused"


def endings_below(parts):
    """What follows the name of a member in the names of the members in it."""
    for name, shape in parts.items():
        inner = getattr(shape, "parts", {})
        if name != NO_NAME:
            yield f".{name}"
        yield from (f".{name}{ending}" for ending in endings_below(inner))


def endings_of(value):
    """What follows the name of a field in the names of its members, by its value; the first is the member of that name."""
    value = value.removesuffix(OPTIONAL)
    second = [SECOND_MEMBERS[value][0]] if value in SECOND_MEMBERS else []
    return ["", *second, *endings_below(getattr(SHAPES[value], "parts", {}))]


def cells(line):
    return [LINK.sub(r"\1", cell).strip() for cell in line.strip("|").split("|")]


def fields_of(names, values):
    """The fields of a row: each with its name and its value; one value is that of all."""
    names, values = QUOTED.findall(names), values.split(", ")
    return list(zip(names, values * len(names) if len(values) == 1 else values, strict=True))


def tables():
    """The heading, the kinds and the fields of each row that begins a kind, and of those below it."""
    heading, header, previous = "", None, ""
    for line in LISTING.read_text().splitlines():
        if line.startswith("#"):
            heading = line.lstrip("# ")
        if not line.startswith("|"):
            header = None
        elif header is None:
            header = cells(line)
        elif header[:2] == ["Field", "Value"] and not line.startswith("|---"):
            names, values = cells(line)[:2]
            yield heading, heading.split(", ") if previous.startswith("|---") else [], fields_of(names, values)
        elif header[:2] == ["Last", "Value"] and not line.startswith("|---"):
            names, values = cells(line)[:2]
            yield heading, ["Last"], fields_of(names, values)
        elif header[:3] == ["Kind", "Told", "Value"] and not line.startswith("|---"):
            kinds, names, values = cells(line)[:3]
            yield "Told", QUOTED.findall(kinds), fields_of(names, values)
        elif header[:3] == ["Line", "Field", "Value"] and not line.startswith("|---"):
            kinds, names, values = cells(line)[:3]
            yield heading, QUOTED.findall(kinds), fields_of(names, values)
        previous = line


RECORDS_OF, PARTS_OF, TOLD_OF = "records", "parts", "told"


def kinds_of_records(which):
    """The kinds of records, of those inside of others, or of what is told, each with the lists of fields that these may have."""
    found, now = {}, []
    for heading, kinds, fields in tables():
        if (heading in INSIDE) != (which is PARTS_OF) or (heading == "Told") != (which is TOLD_OF):
            continue
        if kinds:
            now = []
            for kind in kinds:
                found.setdefault(kind, []).append(now)
        now.extend(fields)
    return found


KINDS = kinds_of_records(RECORDS_OF)
PARTS = kinds_of_records(PARTS_OF)
TOLD = kinds_of_records(TOLD_OF)
[ORIGIN] = KINDS.pop("Origin")
[LAYERS] = KINDS.pop("What a message is in")
[LAST] = KINDS.pop("Last")


def members_after_kind(fields, record):
    """The members that an object with these fields has after its kind, each with its type."""
    for name, value in fields:
        is_optional, value = value.endswith(OPTIONAL), value.removesuffix(OPTIONAL)
        shape = or_null(SHAPES[value]) if is_optional else SHAPES[value]
        yield name, shape
        if value in SECOND_MEMBERS and (value == "reason" or record.get(name) is not None):
            ending, second = SECOND_MEMBERS[value]
            yield f"{name}{ending}", second


def has_members_of(kinds, record, before=(), after=()):
    """Whether an object has the members of its kind, with some before and after these, in their order and of their types."""
    return any(
        members(kind=is_text, **dict(members_after_kind([*before, *fields, *after], record)))(record)
        for fields in kinds.get(record["kind"], [])
    )


def is_as_listed(record):
    """Whether an object of a listing has the members that the tables say."""
    in_capture = "packet" in record
    before = ORIGIN if in_capture else [field for field in LAYERS if field[0] in record]
    [told] = TOLD.get(record["kind"], [[]])
    after = [*(LAST + told if in_capture else []), *([("file", "file name")] if "file" in record else [])]
    return has_members_of(KINDS, record, before, after)
