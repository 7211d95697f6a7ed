"""What is in items by type, and what is shown of each field: the tables of krb_items, from both modules."""

from dataclasses import dataclass

from kinds import messages_of
from limits import refuse_first
from module import Basic, Sequence
from tables import reached
from text import fill

# The registries of numbers and of flags, by the names of their fields.
NUMBERS = {
    "etype": "EncryptionTypes",
    "padata-type": "PreAuthenticationData",
    "name-type": "NameTypes",
    "addr-type": "AddressTypes",
    "cksumtype": "ChecksumTypes",
}
FLAGS = {"kdc-options": "KdcOptions", "ap-options": "ApOptions", "flags": "PacOptions"}

# The OCTET STRINGs that are shown, and those in the clear, of which the number before them says what they hold. All others are
# counted.
SHOWN = {"address": "Octets", "s2kparams": "Octets", "salt": "Text"}
HOLDERS = {"padata-value": "Padata", "e-data": "ErrorData", "armor-value": "Armor"}

# What pre-authentication data in the clear are, of padata.asn1. A PA-PAC-REQUEST has a BOOLEAN, and is in the templates.
HELD = ("ETYPE-INFO", "ETYPE-INFO2", "PA-FX-FAST-REQUEST", "PA-FX-FAST-REPLY", "PA-FOR-USER", "PA-PAC-OPTIONS")

# The types of which those of a request are others, since they hold something else, and the types of requests.
REQUEST = "Request"
OTHERS = ("PaData",)
REQUESTS = ("KdcReq",)

# Lists of basic types, by the names of their fields.
LISTS = {"name-string": "Strings", "etype": "EncryptionTypes"}

# How long a line of definitions is at most.
MOST = 160


@dataclass(frozen=True)
class Shape:
    """The macro or the function that writes a type, and its argument: a variant of an enum, maybe with that of another one."""

    word: str
    variants: tuple = ()

    def code(self):
        names = [f"{enum}::{variant}" for enum, variant in self.variants]
        return " ".join([self.word, *(["(".join(names) + ")" * (len(names) - 1)] if names else [])])

    def definition(self):
        homes = {"Leaf": "leaves", "Registry": "registries", "Holder": "holders", "Sequence": "sequences", "List": "lists"}
        names = [f"{homes[enum]}.{variant}" for enum, variant in self.variants]
        word = {"sequence": "sequence_type", "list": "list_type"}.get(self.word, self.word)
        argument = f"({' '.join(names)})" if len(names) > 1 else "".join(names)
        return f"({word} {argument})" if argument else word


def within(type):
    """The types that are in a type, and itself if it has fields."""
    if isinstance(type, Sequence):
        yield type
        for field in type.fields:
            yield from within(field.part)
    elif hasattr(type, "item"):
        yield from within(type.item)


def types_of(messages, padata):
    """The types of messages and of pre-authentication data, each with what is before its name: those of requests twice."""
    held = [type for name in HELD for type in within(padata.named[name])]
    for it in [*reached(messages), *(type for type in padata.types if type in held)]:
        if it.rust in OTHERS:
            yield it, REQUEST
        yield it, ""


def plural(name):
    return name + ("es" if name.endswith("s") else "s")


def list_name(field):
    return plural(field.part.rust) if isinstance(field.part, Sequence) else LISTS[field.name]


def number(name):
    if name == "error-code":
        return Shape("number", (("Leaf", "ErrorCode"),))
    if name in NUMBERS:
        return Shape("number", (("Leaf", "Numbered"), ("Registry", NUMBERS[name])))
    return Shape("number", (("Leaf", "Number"),))


def octets(name, before):
    if name in HOLDERS:
        return Shape("holder", (("Holder", before + HOLDERS[name]),))
    return Shape("octets", (("Leaf", SHOWN.get(name, "Hidden")),))


def basic(form, name, before=""):
    """The shape of a field of a basic type, by the form of its views."""
    match form:
        case "number" | "micros":
            return number(name)
        case "octets":
            return octets(name, before)
        case "flags":
            return Shape("flags", (("Registry", FLAGS[name]),))
    return Shape(form)


def sequence(type, before=""):
    return Shape("ticket") if type.application is not None else Shape("sequence", (("Sequence", before + type.rust),))


def shape(field, it, before):
    """The shape of a field of a type."""
    if field.is_list:
        is_other = it.rust in REQUESTS and field.part.rust in OTHERS
        return Shape("list", (("List", REQUEST * is_other + list_name(field)),))
    if field.is_fixed:
        return number(field.name)
    return sequence(field.type) if isinstance(field.type, Sequence) else basic(field.type.form, field.name, before)


def lists_of(messages, padata):
    """The shape of the items of each list, by the name of the list."""
    found = {}
    for it in reached(messages):
        for field in filter(lambda field: field.is_list, it.fields):
            name, part = list_name(field), field.part
            if not isinstance(part, Sequence):
                found[name] = basic(part.form, field.name)
                continue
            if part.rust in OTHERS:
                found[REQUEST + name] = sequence(part, REQUEST)
            found[name] = sequence(part)
    return found | {made.rust: sequence(made.item) for made in padata.lists if made.name in HELD}


# ---- what is not known


def fault_of(it):
    """What is not known of a field of a type, if anything is not."""
    for field in it.kept:
        if isinstance(field.part, Basic) and field.is_list and field.name not in LISTS:
            return f"has a list, {field.name}, that has no name in asn1/items.py"
        if isinstance(field.part, Basic) and field.part.form == "flags" and field.name not in FLAGS:
            return f"has flags, {field.name}, of which asn1/items.py has no registry"
    return None


def written(messages, padata):
    """Each file that is written from both modules."""
    for module in (messages, padata):
        refuse_first(module, {it.name: fault for it in module.types if (fault := fault_of(it))})
    return {name: write(messages, padata) for name, write in FILES.items()}


# ---- the code


def static(it, before):
    return f"{before.upper()}_{it.term.upper()}" if before else it.term.upper()


def table(it, before):
    """The table of a type's fields."""
    rows = "".join(f'    ({str(not field.optional).lower()} {field.index} "{field.name}" {shape(field, it, before).code()}),\n' for field in it.fields)
    return f"static {static(it, before)}: [Field; {len(it.fields)}] = fields![\n{rows}];\n"


def item_code(name, made):
    """The type of the items of a list."""
    if made.word == "sequence":
        return f"            List::{name} => of_sequence({made.code().split()[1]}),\n"
    if made.word == "ticket":
        return f"            List::{name} => ticket_type(),\n"
    tag, leaf = {"number": ("Integer", made.code().removeprefix("number ")), "text": ("GeneralString", "Leaf::Text")}[made.word]
    return f"            List::{name} => ItemType {{\n                tags: &[Tag::{tag}],\n                shape: Shape::Leaf({leaf}),\n            }},\n"


def code_file(messages, padata):
    """krb_items/src/shape.rt"""
    types, lists = list(types_of(messages, padata)), lists_of(messages, padata)
    return fill(
        "shape.rt",
        [words | {"Type": message.type.rust} for words, message in zip(messages_of(messages), messages.messages)],
        sequences="".join(f"    {before}{it.rust},\n" for it, before in types),
        lists="".join(f"    {name},\n" for name in lists),
        tables="\n".join(table(it, before) for it, before in types),
        fields="".join(f"            Sequence::{before}{it.rust} => &{static(it, before)},\n" for it, before in types),
        items="".join(item_code(name, made) for name, made in lists.items()),
    )


# ---- the definitions


def line(it, before):
    """The fields of a type: on its line, or each on its own."""
    rows = [f'{"optional" if field.optional else "field"} {field.index} "{field.name}" {shape(field, it, before).definition()}' for field in it.fields]
    head = f"fields_of sequences.{before}{it.rust} ="
    whole = f"{head} {' ∷ '.join(rows)} ∷ []\n"
    return whole if len(whole) <= MOST else f"{head}\n    " + "\n    ∷ ".join(rows) + "\n    ∷ []\n"


def lines(types):
    """The fields of all types, those of each document after a line that names it."""
    made, last = "", ""
    for it, before in types:
        if it.source != last:
            made += f"-- {it.source}\n"
            last = it.source
        made += line(it, before)
    return made


def definitions_file(messages, padata):
    """krb_items/specs/Shapes"""
    return fill(
        "Shapes.antt",
        [words | {"Type": message.type.rust} for words, message in zip(messages_of(messages), messages.messages)],
        fields=lines(types_of(messages, padata)),
        items="".join(f"item_of lists.{name} = {made.definition().removeprefix('(').removesuffix(')')}\n" for name, made in lists_of(messages, padata).items()),
    )


FILES = {"krb_items/src/shape.rt": code_file, "krb_items/specs/Shapes.antt": definitions_file}
