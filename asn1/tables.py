"""Tables: the rows of the grammar with their terms, and the names of fields."""

from kinds import messages_of
from model import item_row, term_of
from module import BASICS, Message, Sequence
from text import fill, filled

# The names of rows of lists of one type, by whether they may be left out, where they are not those of the types.
LISTS = {("Ticket", False): "CredTickets", ("PaData", True): "MethodData"}


def list_row(field):
    name = item_row(field.part)
    return LISTS.get((name, field.optional), name + ("es" if name.endswith("s") else "s"))


def parts(it):
    """A type and those in it."""
    yield it
    for field in it.kept:
        if isinstance(field.part, Sequence):
            yield from parts(field.part)


def reached(module):
    """The types that are part of a message."""
    return [it for it in module.types if any(it is part for message in module.messages for part in parts(message.type))]


def lists_of(module):
    """A field of each list of one type: those that have to be there, and then those that may be left out."""
    found = {}
    for it in reached(module):
        for field in it.kept:
            if field.is_list:
                found.setdefault(list_row(field), field)
    return sorted(found.values(), key=lambda field: field.optional)


def judged(module):
    """What has rows of its own, with its type: types, and messages in place of what two are."""
    for it in reached(module):
        yield from ((message, it) for message in it.messages) if it.is_parametric else [(it, it)]


def row_of(field, name):
    """The row of the term of a field of the type or message of that name."""
    if field.is_fixed:
        return "Version" if field.type.values == (5,) else f"{name}Type"
    return list_row(field) if field.is_list else item_row(field.type)


def basic_rows(module):
    """Rows of basic types and of lists of one type, each with what it is."""
    forms = ["Integer, -2147483648, 2147483647, 4", "Unsigned", "Integer, 0, 999999, 3", "Text", "Octets", "Time", "Bits"]
    yield from zip([basic.row for basic in BASICS.values()], forms)
    yield "Version", "Integer, 5, 5, 1"
    for message in module.messages:
        yield f"{message.rust}Type", f"Integer, {message.number}, {message.number}, 1"
    for field in lists_of(module):
        yield list_row(field), f"{'OptionalItems' if field.optional else 'Items'}, {item_row(field.part)}"


def tagged_row(field, name):
    """The row of a field of the type or message of that name: its type in its tag."""
    return f"{row_of(field, name)}At{field.index}"


def number_of(it):
    """The application number of a type or message, if it has one."""
    return it.number if isinstance(it, Message) else it.application


def own_rows(name, it):
    """The rows of a type, or of a message of it, each with what it is."""
    number = number_of(name)
    slots = ", ".join(f"{'Optional' if field.optional else 'Required'} {tagged_row(field, name.rust)}" for field in it.fields)
    inside = name.rust
    if number is not None:
        inside = f"{name.rust}Fields"
        yield name.rust, f"Application, {number}, {inside}"
    yield inside, f"Sequence, {slots}"


def tagged(module, are_left):
    """The fields that have a row, each once by its row, with the name of its type: lists that may be left out, or all others."""
    found = {}
    for name, it in judged(module):
        for field in it.fields:
            if (field.is_list and field.optional) == are_left:
                found.setdefault(tagged_row(field, name.rust), (field, name))
    return found


def tagged_rows(module):
    """Rows of the types of fields in their tags, each with what it is."""
    for row, (field, name) in (tagged(module, False) | tagged(module, True)).items():
        yield row, f"Tagged, {field.index}, {row_of(field, name.rust)}"


def groups(module):
    """All rows of a profile, under the names of what they belong to."""
    yield "basic types, and lists of one type", list(basic_rows(module))
    for name, it in judged(module):
        yield name.name, list(own_rows(name, it))
    yield "types in the tags of fields", list(tagged_rows(module))


def table_file(module):
    """krb_msg/src/grammar/table.rt"""
    names = "".join(f"    // {title}\n" + "".join(f"    {name},\n" for name, _ in rows) for title, rows in groups(module))
    rows = "".join(f"    // {title}\n" + "".join(f"    ({form}),\n" for _, form in rows) for title, rows in groups(module))
    count = count_of_rows(module)
    return fill("table.rt", messages_of(module), names=names, rows=rows, count=count, both=2 * count, choices=len(module.messages))


def tagged_terms(module, are_left):
    """The terms of fields in their tags, in the order of their rows."""
    for field, name in tagged(module, are_left).values():
        yield f"Tagged {field.index} {fixed_term(field, name) if field.is_fixed else term_of(field.type)}"


def fixed_term(field, name):
    return "version" if field.type.values == (5,) else f"(exactly {number_of(name)})"


def terms_file(module):
    """krb_msg/specs/Rows"""
    names = [name.term for name, _ in judged(module)]
    lists = [(field.optional, term_of(field.type)[1:-1]) for field in lists_of(module)]
    basics = [basic.term for basic in BASICS.values()]
    numbers = [f"exactly {message.number}" for message in module.messages]
    return fill(
        "Rows.antt",
        names=", ".join(["exactly", "version", "sequence_of"] + basics + names),
        basic=filled(basics + ["version"] + numbers + [term for optional, term in lists if not optional]),
        left=" ∷ ".join(term for optional, term in lists if optional),
        sequences=filled(names),
        tagged=filled(list(tagged_terms(module, False))),
        tagged_lists=" ∷ ".join(tagged_terms(module, True)),
    )


def count_of_rows(module):
    return sum(len(rows) for _, rows in groups(module))


def inside_of(field):
    """The type by which the fields in a field have their names."""
    return "Basic" if field.is_fixed or not isinstance(field.part, Sequence) else field.part.rust


def names_of(it):
    """The table of the names of a type's fields."""
    rows = ", ".join(f'"{field.name}" {inside_of(field)}' for field in it.fields)
    head = f"static {it.term.upper()}: [Field; {len(it.fields)}] ="
    if len(f"{head} fields![{rows}];") <= 100:
        return f"{head} fields![{rows}];\n"
    if len(f"    fields![{rows}];") <= 100:
        return f"{head}\n    fields![{rows}];\n"
    return f"{head} fields![\n    " + rows.replace(", ", ",\n    ") + ",\n];\n"


def names_file(module):
    """krb_judge/src/locating/names.rt"""
    types = reached(module)
    kinds = "".join(f"            {' | '.join(f'Kind::{m.rust}' for m in it.messages)} => Names::{it.rust},\n" for it in types if it.messages)
    fields = "".join(f"            Names::{it.rust} => &{it.term.upper()},\n" for it in types)
    variants = "".join(f"    {it.rust},\n" for it in types)
    return fill("names.rt", variants=variants, tables="\n".join(map(names_of, types)), kinds=kinds, fields=fields)


def field_names(module):
    """krb_judge/specs/FieldTables"""
    lines = ""
    for it in reached(module):
        rows = [f'basic "{field.name}"' if inside_of(field) == "Basic" else f'field "{field.name}" {inside_of(field)}' for field in it.fields]
        line = f"fields_of {it.rust} = {' ∷ '.join(rows)} ∷ []"
        lines += (line if len(line) <= 140 else f"fields_of {it.rust} =\n{filled(rows)}") + "\n"
    return fill("FieldTables.antt", messages_of(module), Types=", ".join(it.rust for it in reached(module)), lines=lines)


def all_kinds(module):
    """krb_json/specs/AllKinds"""
    return fill("AllKinds.antt", list=filled([f"kind.{message.rust}" for message in module.messages]))


def kind_texts(module):
    """krb_json/proofs/KindTexts"""
    return fill("KindTexts.antt", messages_of(module))
