"""Writes krbls.schema.json, of all records, from the tables of docs/LISTING.md as tests/lib/members.py reads them.

    tools/make_schema.py            writes src/krbls/krbls.schema.json
    tools/make_schema.py --print    writes it to the standard output

A value that LISTING has and SHAPES lacks is an error, so a new one cannot be passed over.
"""

import json
import pathlib
import sys

sys.dont_write_bytecode = True
sys.path.insert(0, str(pathlib.Path(__file__).resolve().parents[3] / "tests/lib"))
import members  # noqa: E402

SCHEMA = pathlib.Path(__file__).resolve().parents[1] / "src/krbls/krbls.schema.json"

NUMBER, TEXT, TRUTH = {"type": "integer"}, {"type": "string"}, {"type": "boolean"}
COUNT = {"type": "integer", "minimum": 0}
HEX = {"type": "string", "pattern": "^([0-9a-f]{2})*$"}
NAME = {"type": ["string", "null"]}


def named(name):
    return {"$ref": f"#/$defs/{name}"}


def listed(items):
    return {"type": "array", "items": items}


def an_object(**properties):
    return {"type": "object", "properties": properties, "required": list(properties)}


# What a value is made of, by name, where it is an object.
PARTS_OF_VALUES = {
    "endpoint": an_object(address=TEXT, port=NUMBER),
    "flow": an_object(over={"enum": ["udp", "tcp"]}, source=named("endpoint"), target=named("endpoint")),
    "flags": an_object(bits=COUNT, hex=HEX, names=listed(TEXT)),
    "encrypted": an_object(etype=NUMBER, etype_name=NAME, kvno={"type": ["integer", "null"]}, size=COUNT),
    "refusal": an_object(place=COUNT, why=NUMBER, why_name=TEXT),
    "refused-ticket": an_object(refused=named("refusal")),
    "principal": an_object(text=TEXT, type=NUMBER, type_name=NAME, components=listed(TEXT), realm=TEXT),
    "address": an_object(type=NUMBER, type_name=NAME, hex=HEX),
    "checksum": an_object(type=NUMBER, type_name=NAME, size=COUNT),
    "offset": an_object(seconds=NUMBER, microseconds=NUMBER),
}

DATE = "[0-9]{4}(-[0-9]{2}){2}T[0-9]{2}(:[0-9]{2}){2}"
# The schema of the member that a value has; the keys are those of members.SHAPES.
SHAPES = {
    "number": NUMBER,
    "count": COUNT,
    "named number": NUMBER,
    "code": NUMBER,
    "status": {"type": "string", "pattern": "^[0-9a-f]{8}$"},
    "reason": NUMBER,
    "list": listed(NUMBER),
    "string": TEXT,
    "text": TEXT,
    "word": TEXT,
    "layers": listed(TEXT),
    "file name": TEXT,
    "time": {"type": "string", "pattern": "^[0-9]{14}Z$"},
    "date": {"type": ["string", "null"], "pattern": f"^{DATE}Z$"},
    "span": NUMBER,
    "instant": {"type": "string", "pattern": f"^{DATE}[.][0-9]{{9}}Z$"},
    "flow": named("flow"),
    "yes or no": TRUTH,
    "flags": named("flags"),
    "ticket flags": named("flags"),
    "encrypted": named("encrypted"),
    "ticket": {"anyOf": [named("encrypted"), named("refused-ticket"), {"type": "null"}]},
    "principal": named("principal"),
    "address": named("address"),
    "checksum": named("checksum"),
    "offset": named("offset"),
    "path": TEXT,
    "hexadecimal": HEX,
    "records": listed(named("inside")),
}
SECOND = {
    "named number": ("_name", NAME),
    "code": ("_name", NAME),
    "status": ("_name", NAME),
    "reason": ("_name", TEXT),
    "list": ("_names", listed(NAME)),
}

# The names of the shapes of kinds that have several, by the first of these members that a shape has.
SEVERAL = {
    "end": {"packets": "capture", "records": "keytab", "credentials": "ccache", "refused": "frames", "messages": "stream"},
    "refused": {"packets": "capture", "messages": "stream", "input": "input", "form": "message"},
}
# Kinds that have no origin, in no shape.
IN_NONE = {"end", "file", "entry", "hole", "cache", "cred", "config"}
# How long a line of the schema may be.
MOST_COLUMNS = 140


def kinds_of_captures():
    """The kinds that captures alone have: those that no other heading of LISTING has."""
    headings = {}
    for heading, kinds, _ in members.tables():
        for kind in kinds:
            headings.setdefault(kind, set()).add(heading)
    return {kind for kind, found in headings.items() if found == {"Origin"}} - {"Origin", "Last"}


def or_null(shape):
    if "type" in shape:
        types = shape["type"] if isinstance(shape["type"], list) else [shape["type"]]
        return {**shape, "type": types if "null" in types else [*types, "null"]}
    return {"anyOf": [shape, {"type": "null"}]}


def record(kind, fields):
    """The schema of a record of a kind with these fields."""
    properties, required, conditions = {"kind": {"const": kind}}, ["kind"], []
    for name, value in fields:
        is_optional, value = value.endswith(members.OPTIONAL), value.removesuffix(members.OPTIONAL)
        properties[name] = or_null(SHAPES[value]) if is_optional else SHAPES[value]
        required.append(name)
        if value not in SECOND:
            continue
        ending, second = SECOND[value]
        properties[name + ending] = or_null(second) if value == "reason" and is_optional else second
        if is_optional and value != "reason":
            conditions.append(only_beside(name, name + ending))
        else:
            required.append(name + ending)
    made = {"type": "object", "properties": properties, "required": required}
    return {**made, "allOf": conditions} if conditions else made


def only_beside(name, second):
    """That a second member is there if the first one is not null, and else not."""
    is_null = {"properties": {name: {"type": "null"}}}
    return {"if": is_null, "then": {"properties": {second: False}}, "else": {"required": [second]}}


def name_of(kind, fields):
    names = [name for name, _ in fields]
    return next((f"{kind}-{ending}" for member, ending in SEVERAL.get(kind, {}).items() if member in names), kind)


def tell_apart(shapes):
    """Rules out, of each shape of a kind, a member of each other shape that has all of its members and more."""
    for one in shapes:
        for other in shapes:
            if set(one["required"]) < set(other["required"]):
                more = next(name for name in other["required"] if name not in one["required"])
                one["properties"].setdefault(more, False)


def records():
    """The schema of each shape of each kind, by its name, but for where a record is from."""
    found = {}
    for kind, several in members.KINDS.items():
        by_name = {}
        for fields in several:
            name, made = name_of(kind, fields), record(kind, fields)
            assert by_name.setdefault(name, made) == made, f"two shapes are named {name}"
        tell_apart(list(by_name.values()))
        for fields in members.TOLD.get(kind, []):
            add_told(by_name[kind], fields)
        found.update(by_name)
    return found


def add_told(made, fields):
    """Adds what the origin of a record tells, if that is a packet."""
    told = {name: or_null(SHAPES[value.removesuffix(members.OPTIONAL)]) for name, value in fields}
    made["properties"] |= told
    made["dependentRequired"] = {"packet": list(told), **{name: ["packet"] for name in told}}


def add_where(name, made, in_captures):
    """Adds where a record is from, and that the end of a listing is from no packet."""
    kind = made["properties"]["kind"]["const"]
    if kind in IN_NONE or name in ("refused-capture", "refused-stream"):
        made["properties"].setdefault("file", TEXT)
        if name == "refused-stream":
            made["properties"]["packet"] = False
        return
    made.setdefault("allOf", []).insert(0, named("where"))
    if kind in in_captures:
        made["required"].append("packet")


def where():
    """Where records are from."""
    properties = {
        name: or_null(SHAPES["instant"]) if name == "t" else SHAPES[value.removesuffix(members.OPTIONAL)]
        for name, value in [*members.ORIGIN, *members.LAYERS, ("file", "file name")]
    }
    properties |= {name: or_null(SHAPES[value.removesuffix(members.OPTIONAL)]) for name, value in members.LAST}
    origin = [name for name, _ in [*members.ORIGIN, *members.LAST]]
    return {
        "description": "Where a record is from: the packet that completes it, its time, in microseconds too, and its flow (captures), "
        "the line and the layers (messages), the file (-H).",
        "properties": properties,
        "dependentRequired": {name: [other for other in origin if other != name] for name in origin},
    }


def schema():
    """The whole of it."""
    missing = set(members.SHAPES) ^ set(SHAPES)
    assert not missing, f"values without a shape, or shapes without a value: {missing}"
    found, in_captures = records(), kinds_of_captures()
    for name, made in found.items():
        add_where(name, made, in_captures)
    inside = {f"{kind}-inside" if kind in found else kind: record(kind, fields) for kind, (fields,) in members.PARTS.items()}
    return {
        "$schema": "https://json-schema.org/draft/2020-12/schema",
        "$id": "urn:krbls:records",
        "title": "Records of krbls --json",
        "description": "An object of a line of `krbls COMMAND --json`, as docs/LISTING.md has it. A later version may have more "
        "kinds and more members; what reads objects passes over what it does not know.",
        "oneOf": [named(name) for name in found],
        "$defs": {
            **found,
            "where": where(),
            "inside": {"description": "What is in the clear inside of a message.", "oneOf": [named(name) for name in inside]},
            **inside,
            **PARTS_OF_VALUES,
        },
    }


def shown(value, depth=0):
    """JSON in which what fits is one line."""
    text, inner = json.dumps(value), "\n" + " " * (depth + 1)
    if len(text) + depth <= MOST_COLUMNS or not isinstance(value, (dict, list)):
        return text
    if isinstance(value, list):
        return "[" + inner + f",{inner}".join(shown(one, depth + 1) for one in value) + inner[:-1] + "]"
    members_of = (f"{json.dumps(name)}: {shown(one, depth + 1)}" for name, one in value.items())
    return "{" + inner + f",{inner}".join(members_of) + inner[:-1] + "}"


def main():
    text = f"{shown(schema())}\n"
    if sys.argv[1:] == ["--print"]:
        sys.stdout.write(text)
    else:
        SCHEMA.write_text(text)


if __name__ == "__main__":
    main()
