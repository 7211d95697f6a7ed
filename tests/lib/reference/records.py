"""Records, and the three forms of each: a line, a line with the names of its numbers, and a JSON object."""

import json
from typing import NamedTuple

from .judging import REASONS
from .values import NO_REASON, file_name, number, optional, path, plain, reason, told, word


class Record(NamedTuple):
    kind: str
    # The values by their names, in order.
    fields: dict
    # Those before the kind in a line, and between the kind and the others in an object.
    before: dict = {}
    # What is told of it in its origin: after those before the kind in a line with names, and after all else in an object.
    told: dict = {}
    # The octets of a message; those of the AP-REQ or AP-REP of one that changes a password; whether it is a part of such a one.
    octets: bytes = b""
    ap: bytes = b""
    is_part: bool = False
    # Whether lines without names have none of it.
    is_told: bool = False

    def named_at_end(self, name):
        """The record with the name of its source after all else in an object."""
        return self._replace(told={**self.told, "file": file_name(name)})


def file(name):
    """The record before the listing of each of several sources."""
    return Record("file", {"name": file_name(name)})


def extent(at, length):
    """Where what is refused begins, and its length, if one is told."""
    return {"at": told(number(at)), "length": told(optional(number, length))}


def refused(refusal, before=None, reasons=REASONS, form=None):
    """A refusal, after the fields of what came before it, and with the form of an input if it was one."""
    shown = {
        **(before or {}),
        "place": number(refusal.place),
        "why": reason(refusal.why, reasons),
        "in": path(refusal.path),
        **extent(refusal.at, refusal.length),
        **({} if form is None else {"form": told(word(form))}),
    }
    return Record("refused", shown)


def refused_input(why, place, at, length=None, form=None):
    """A refusal of an input as a whole: all but the word is told."""
    shown = {
        "input": word(why),
        "place": told(optional(number, place)),
        "why": told(NO_REASON),
        "in": path(None),
        **extent(at, length),
        "form": told(optional(word, form)),
    }
    return Record("refused", shown)


def without_extent(record):
    """A refusal as it is said on the standard error."""
    return record._replace(fields={name: value for name, value in record.fields.items() if name not in ("at", "length")})


def field_text(name, text):
    """`name=text`, or the text alone of what is said of input as a whole."""
    return text if name == "input" else f"{name}={text}"


def line_of(record, text_of):
    """The fields before the kind, the kind, and the others, each with its text, if it has one."""

    def texts(fields):
        return [field_text(name, text_of(value)) for name, value in fields.items() if text_of(value) is not None]

    return " ".join([*texts(record.before), *texts(record.told), record.kind, *texts(record.fields)])


def line(record):
    return line_of(record, lambda value: value.text)


def named_line(record):
    return line_of(record, lambda value: value.text_with_names)


def members(record):
    """The members of a record's object, in order."""
    found = {"kind": record.kind}
    for name, value in {**record.before, **record.fields, **record.told}.items():
        found[name] = value.member
        if value.second_member is not None:
            ending, names = value.second_member
            found[f"{name}{ending}"] = names
    return found


def told_records(records):
    """Records inside of another one: how many there are, and then each."""
    text = " ".join([str(len(records)), *map(named_line, records)])
    return told(plain(text, list(map(members, records))))


def json_line(record):
    return json.dumps(members(record), separators=(",", ":"))
