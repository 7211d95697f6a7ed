"""Choices that are made up, and what they have to give by the objects of the same listing."""

import json
import re

from reference import choosing

# What the end of a capture tells after its counts.
TOLD_COUNTS = re.compile(r" answered=\d+ unanswered=.*")


def names_of(command, kind):
    """All names of a kind of a command: of a record, in one of its shapes, or of what is inside."""
    for shape in choosing.inside_of(command):
        if shape.kind == kind:
            return [f"{kind}.{name}" for name in ["kind", *choosing.members_of(shape.fields)]]
    names = {"kind": None, "file": None}
    for shape in choosing.shapes_of(command):
        if shape.kind == kind:
            names |= dict.fromkeys(choosing.members_of(shape.fields))
    return [*names, *choosing.members_of(choosing.ORIGINS.get(command, []))]


def some(dice, found, most):
    return dice.choices(found, k=dice.randint(1, most))


def kinds_in(objects):
    """The kinds of records, and of what is inside of them."""
    return list(dict.fromkeys(part["kind"] for it in objects for part in [it, *it.get("inside", [])]))


def options(dice, command, listed):
    """The words of a choice: all names of a kind, mostly one that is listed, with --only and without; some names of some kinds; or kinds alone."""
    kinds = choosing.kinds_of(command)
    kind = dice.choice(dice.choice([listed, listed, kinds]))
    match dice.choice([0, 0, 1, 2, 3]):
        case 0:
            words = ["--only", kind, "--fields", ",".join(names_of(command, kind))]
        case 1:
            shape = dice.choice(choosing.shapes_of(command))
            words = ["--fields", ",".join(["kind", *choosing.members_of(shape.fields)])]
        case 2:
            words = ["--only", ",".join(some(dice, kinds, 3)), "--fields", ",".join(some(dice, choosing.names_of(command), 8))]
        case _:
            return ["--only", ",".join(some(dice, kinds, 3)), dice.choice(["--names", "--json"])]
    return [*words, *dice.choice([["-H"], ["--header"], [], []])]


def objects_in(written):
    return [json.loads(line) for line in written if line.startswith("{")]


def wanted(command, words, named, written):
    """What a choice has to write and say of a listing, which was written with names and as objects."""
    only, fields = (words[words.index(word) + 1] if word in words else None for word in ("--only", "--fields"))
    choice = choosing.choice_of(command, only, fields, [word for word in words if word.startswith("-")])
    objects = objects_in(written)
    lines = choice.header[:]
    forms = written if choice.form == "--json" else named
    for number, (it, line) in enumerate(zip(objects, forms), 1):
        if not choice.keeps_object(it, number == len(objects)):
            continue
        lines += [f"{row}\n" for row in choosing.rows(it, choice.names, b"-")] if choice.names else [f"{line}\n"]
    return [line.removesuffix("\n") for line in lines], choice.keeps_object(objects[-1], True)


def last_said(line):
    """What is said of the last record, by its line with names."""
    return f"krbls: standard input: {TOLD_COUNTS.sub('', line)}"
