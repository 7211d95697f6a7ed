"""Writes krbls/records.py, the types of records, from krbls.schema.json.

    tools/make_records.py            writes src/krbls/records.py
    tools/make_records.py --print    writes it to the standard output
"""

import json
import keyword
import pathlib
import sys

SOURCES = pathlib.Path(__file__).resolve().parents[1] / "src/krbls"
SCHEMA = json.loads((SOURCES / "krbls.schema.json").read_text())
DEFS = SCHEMA["$defs"]
RECORDS = [one["$ref"].rsplit("/", 1)[1] for one in SCHEMA["oneOf"]]
INSIDE = [one["$ref"].rsplit("/", 1)[1] for one in DEFS["inside"]["oneOf"]]

HEAD = '''"""The types of records: each object of `krbls --json`, as docs/LISTING.md of krbls says.

`packet`, `t`, `flow` and `t_us` are in the records of a capture, `line` and `via` in those of `message`, `file` in those of
several files. tools/make_records.py makes this of krbls.schema.json; not to be edited."""

from typing import List, Literal, Optional, TypedDict, Union
'''
MESSAGES = "AS-REQ TGS-REQ AS-REP TGS-REP AP-REQ AP-REP KRB-PRIV KRB-SAFE KRB-CRED KRB-ERROR".split()
ENDS = [name for name in RECORDS if name.startswith("end-")] + ["refused-stream", "refused-capture"]
REFUSED_INPUTS = ["refused-message", "refused-input"]
IN_CAPTURES = [name for name in RECORDS if "packet" in DEFS[name]["required"]]
# The records that a listing gives, by the name of their union: definitions, and unions before it.
UNIONS = {
    "InsideRecord": INSIDE,
    "MessageRecord": MESSAGES,
    "StreamRecord": ["MessageRecord", "refused-stream"],
    "InputRecord": ["MessageRecord", "Ticket", *REFUSED_INPUTS],
    "KeytabRecord": ["entry", "hole"],
    "CcacheRecord": ["cache", "cred", "config", "file"],
    "CaptureRecord": ["MessageRecord", "refused", *IN_CAPTURES],
    "EndRecord": [*ENDS, "refused", *REFUSED_INPUTS],
    "Record": ["MessageRecord", *(name for name in RECORDS if name not in MESSAGES)],
}
TYPES = {"integer": "int", "string": "str", "boolean": "bool"}
MOST_COLUMNS = 120


def class_of(name):
    """The name of the class of a definition: `KrbError` of KRB-ERROR."""
    words = name.replace("-", " ").split()
    made = "".join(word[:1].upper() + (word[1:].lower() if word.isupper() else word[1:]) for word in words)
    return {"Where": "_Where", "Inside": "InsideRecord"}.get(made, made)


def type_of(shape):
    """The type of a member."""
    if "$ref" in shape:
        name = class_of(shape["$ref"].rsplit("/", 1)[1])
        return f'"{name}"' if name == "InsideRecord" else name
    if "const" in shape or "enum" in shape:
        return f"Literal[{', '.join(map(json.dumps, shape.get('enum', [shape.get('const')])))}]"
    if "anyOf" in shape:
        several = [one for one in shape["anyOf"] if one != {"type": "null"}]
        made = ", ".join(map(type_of, several))
        made = f"Union[{made}]" if len(several) > 1 else made
        return f"Optional[{made}]" if len(several) < len(shape["anyOf"]) else made
    if isinstance(shape["type"], list):
        return f"Optional[{type_of({**shape, 'type': shape['type'][0]})}]"
    return f"List[{type_of(shape['items'])}]" if shape["type"] == "array" else TYPES[shape["type"]]


def members(shape):
    """The members that are always there, and those that may be, each with its type."""
    there, maybe = {}, {}
    for name, value in shape["properties"].items():
        if value is not False:
            (there if name in shape.get("required", []) else maybe)[name] = type_of(value)
    return there, maybe


def a_class(name, bases, fields):
    """The text of a class; one with a member whose name is a word of Python is written as a call."""
    if any(map(keyword.iskeyword, fields)):
        lines = "".join(f'        "{field}": {kind},\n' for field, kind in fields.items())
        return f'{name} = TypedDict(\n    "{name}",\n    {{\n{lines}    }},\n)'
    lines = "\n".join(f"    {field}: {kind}" for field, kind in fields.items()) or "    pass"
    return f"class {name}({', '.join(bases)}):\n{lines}"


def classes(name, shape):
    """The class of a definition, after the one of the members that are always there."""
    there, maybe = members(shape)
    made = class_of(name)
    base = ["_Where"] if {"$ref": "#/$defs/where"} in shape.get("allOf", []) else []
    if base:
        maybe = {field: kind for field, kind in maybe.items() if field not in members(DEFS["where"])[1]}
    if not maybe and not base:
        return [a_class(made, ["TypedDict"], there)]
    return [a_class(f"_{made}", ["TypedDict"], there), a_class(made, [f"_{made}", *base, "total=False"], maybe)]


def in_order():
    """The definitions, each after those that it names."""
    order = []

    def add(name):
        for used in used_by(DEFS[name]):
            if used != "inside" and used not in order:
                add(used)
        if name not in order:
            order.append(name)

    for name in ["where", *INSIDE, *RECORDS]:
        add(name)
    return order


def used_by(shape):
    """The names of the definitions that a schema names."""
    if isinstance(shape, dict):
        if "$ref" in shape:
            yield shape["$ref"].rsplit("/", 1)[1]
        for value in shape.values():
            yield from used_by(value)
    elif isinstance(shape, list):
        for value in shape:
            yield from used_by(value)


def listed(names):
    """Names in quotes, as many in a line as fit."""
    lines = [""]
    for name in names:
        more = f'"{name}",'
        if len(lines[-1]) + len(more) + 5 > MOST_COLUMNS:
            lines.append("")
        lines[-1] += f" {more}" if lines[-1] else more
    return "".join(f"    {line}\n" for line in lines)


def text():
    """The whole module."""
    order = in_order()
    names = sorted({class_of(name) for name in order if name != "where"} | set(UNIONS))
    parts = [f"{HEAD}\n__all__ = [  # fmt: skip\n{listed(names)}]"]
    for name in order:
        if name == "where":
            parts.append(a_class("_Where", ["TypedDict", "total=False"], members(DEFS[name])[1]))
        else:
            parts += classes(name, DEFS[name])
    unions = (f"{union} = Union[\n" + "".join(f"    {class_of(kind)},\n" for kind in kinds) + "]\n" for union, kinds in UNIONS.items())
    return "\n\n\n".join(parts) + "\n\n\n" + "".join(unions)


def main():
    if sys.argv[1:] == ["--print"]:
        sys.stdout.write(text())
    else:
        (SOURCES / "records.py").write_text(text())


if __name__ == "__main__":
    main()
